"""The inputs of the C tests over rows of finals2000A, each with what the reference answers to it.

A text is the published one with some bytes changed, cut off or lengthened by zeros. The C tests have it from its file.
"""

from inputs import finals
from reference import bulletin

LEAST, GREATEST = -(2**63), 2**63 - 1
REAL, FIRST, LAST = finals.text(), finals.FIRST_DAY, finals.FIRST_DAY + finals.DAYS - 1
MJD, X, Y, UT1 = 8, 19, 38, 59  # the first columns
SAME = (0, b"")  # changes nothing


def place(row, column=1):
    """The byte of the text at which a column of a row stands; rows count from 0."""
    return sum(len(each) + 1 for each in finals.rows()[:row]) + column - 1


def changed(change, length=len(REAL)):
    """The bytes that the C tests lend."""
    at, put = change
    text = REAL[:at] + put + REAL[at + len(put):]
    return (text + bytes(max(0, length - len(text))))[:length]


def from_day(day):
    """A change that makes the first row one of a day, and the second row one of the next day."""
    rows = changed((place(0, MJD), b"%d.00" % day))
    return (place(0, MJD), rows[place(0, MJD):place(1, MJD)] + b"%d.00" % (day + 1))


# ---- days from rows

def sound():
    """Name, change, bytes, first day, count; TAI-UTC is that of 2016."""
    whole, two, three = len(REAL), place(2), place(3)
    yield from (("14 days", SAME, whole, 57_400, 14), ("the most days", SAME, whole, FIRST, 64))
    yield from (("the last days", SAME, whole, LAST - 1, 2), ("two rows and no more", SAME, two, FIRST, 2))
    yield from (("the longest text", SAME, 65_536, FIRST, 2), ("half a row behind them", SAME, two + 90, FIRST, 2))
    yield ("a CR before a line feed", (place(1, 187), b"\r"), two, FIRST, 2)
    yield ("zero with a sign", (place(0, X), b"-0.000000"), two, FIRST, 2)
    yield ("no blank, zeros in front", (place(1, Y), b"00.123456"), two, FIRST, 2)
    yield ("the least x", (place(1, X), b"-1.000000"), two, FIRST, 2)
    yield ("the greatest UT1-UTC", (place(1, UT1), b" 0.9000000"), two, FIRST, 2)
    yield ("another row of a day, which is not taken", (place(2, MJD), b"57360.00"), three, FIRST, 2)
    yield ("one that has no x", (place(2, MJD), b"57360.00" + b" " * 12), three, FIRST, 2)
    yield ("a day before the first of all, not asked for", (place(0, MJD), b"-9999.00"), three, FIRST + 1, 2)
    yield ("a blank x that is not taken", (place(2, X), b" " * 9), three, FIRST, 2)
    yield from (("days from %d on" % day, from_day(day), two, day, 2) for day in (41_317, 69_805))


def misprinted():
    """The same, refused with 10: the MJD of any row, or a field of one that is taken."""
    for text in (b"57361.01", b"57361.50", b"57361.0 ", b"57361 00", b"5736x.00", b"+7361.00", b" " * 8, b"-  61.00"):
        yield ("an MJD of '%s'" % text.decode(), (place(2, MJD), text), place(3), FIRST, 2)
    yield ("a tab before an MJD", (place(2, MJD), b"\t7361.00"), place(3), FIRST, 2)
    yield ("an empty row", (place(1) - 1, b"\n\n"), place(3), FIRST + 2, 2)
    pole = [(X, b"+0.003225"), (X, b"  .003225"), (X, b"- .003225"), (X, b"-0,003225"), (Y, b" " * 9)]
    for column, text in (*pole, (Y, b"0.299494 "), (UT1, b"0.02628640"), (UT1, b" +.0262864"), (UT1, b" -.0262864")):
        yield ("'%s' in column %d" % (text.decode(), column), (place(1, column), text), place(2), FIRST, 2)
    yield ("a CR in the columns", (place(1, UT1), b"0.0249911\r"), place(2), FIRST, 2)
    yield ("a row that ends before its UT1-UTC does", (place(1, 68), b"\n"), place(1, 69), FIRST, 2)


def lacking():
    """Refused with 11, with 10 where a row is wrong, too; the request may be out of range."""
    yield from (("a day before the first", SAME, len(REAL), FIRST - 1, 2), ("one behind", SAME, len(REAL), LAST, 2))
    yield ("a last row without its line feed", SAME, place(2) - 1, FIRST, 2)
    yield from (("no rows", SAME, 0, FIRST, 2), ("the greatest numbers", SAME, len(REAL), GREATEST, GREATEST))
    yield from (("the least day", SAME, len(REAL), LEAST, 2), ("more days than rows", SAME, place(2), FIRST, GREATEST))
    yield ("a day lacking and a wrong row", (place(1, MJD), b" " * 8), place(3), FIRST, 3)


def out_of_range():
    """Refused with 2; with 10 or 11 where that applies, too."""
    for count in (0, 1, 65, 181, -1, LEAST):
        yield ("a count of %d" % count, SAME, len(REAL), FIRST, count)
    beyond = [(X, b" 1.000001"), (X, b"-1.000001"), (Y, b"99.999999"), (Y, b"-1.000001"), (UT1, b"-0.9000001")]
    for column, text in (*beyond, (UT1, b" 0.9000001")):
        yield ("'%s' in column %d" % (text.decode(), column), (place(1, column), text), place(2), FIRST, 2)
    yield from (("days from %d on" % day, from_day(day), place(2), day, 2) for day in (41_316, 69_806, 69_807))
    yield ("a count of 181 and no x in a row far behind", (place(180, X), b" " * 9), len(REAL), FIRST, 181)
    yield ("a count of 1 and a wrong row", (place(1, MJD), b" " * 8), place(3), FIRST, 1)


def tai_lists():
    """Name, count, and the TAI-UTC that are given."""
    yield from (("one less", 3, [36, 36]), ("one more", 2, [36, 36, 36]), ("none", 2, []), ("none for none", 0, []))
    yield from (("a step", 2, [36, 37]), ("the ends", 2, [0, 99]), ("below 0", 2, [36, -1]), ("above 99", 2, [100, 36]))
    yield from (("the least", 2, [LEAST, 36]), ("65", 65, [36] * 65))


def asked():
    """Name, change, bytes, first day, count, TAI-UTC."""
    for made in (sound, misprinted, lacking, out_of_range):
        yield from ((*each, [36] * max(0, min(each[-1], 64))) for each in made())
    yield from (("TAI-UTC: " + what, SAME, len(REAL), FIRST, count, tai) for what, count, tai in tai_lists())
    yield ("a text that is too long", SAME, 65_537, FIRST, 2, [36, 36])
    yield ("one that is wrong, too", (place(0, MJD), b" " * 8), 65_537, FIRST, 1, [])


def records(answer):
    """The numbers up to the last that is not 0; C has zeros behind them."""
    numbers = list(answer[1:])
    while numbers and not numbers[-1]:
        numbers.pop()
    return numbers


def days_table():
    rows = []
    for what, change, length, first, count, tai in asked():
        answer = bulletin.days_from_rows(changed(change, length), first, count, tai)
        found = records(answer)
        rows.append((what, *change, length, first, count, tai, len(tai), answer[0], found, len(found)))
    columns = "size_t at; const char *put; size_t bytes; int64_t first, count; const int64_t *tai_utc; "
    yield ("days", columns + "size_t tai_utc_numbers; int64_t refusal; const int64_t *days; size_t day_numbers;", rows)


def full_text():
    """352 full rows, the last day first; the days that they repeat are not taken."""
    rows = [row[:bulletin.ROW_COLUMNS] for row in reversed(finals.rows())]
    return b"".join((rows * 2)[i] + b"\n" for i in range(352))


def full_table():
    tai = [36] * bulletin.MOST
    answer = bulletin.days_from_rows(full_text(), FIRST, bulletin.MOST, tai)
    row = ("352 full rows", FIRST, bulletin.MOST, tai, list(answer[1:]))
    yield ("full", "int64_t first, count; const int64_t *tai_utc, *days;", [row])


# ---- rows from days

RECORDS = [
    57_753, 91_234, -402_345, -412_345_600, 36, 1,
    57_754, -7, 0, 587_654_300, 37, 1,
    41_317, 1_000_000, -1_000_000, 900_000_000, 0, 1,
]


def changes():
    """Place and value of a change that is written, then of one that is refused."""
    yield ((12, 69_806), (0, 57_755), (7, -1_000_000), (2, 1), (3, 0), (3, -100), (15, -900_000_000), (4, 99))
    ranges = ((0, 41_316), (6, 69_807), (1, 1_000_001), (14, -1_000_001), (15, 900_000_100), (3, -900_000_100))
    tai_and_units = ((10, 100), (16, -1), (15, 50), (3, -412_345_601), (9, 587_654_299), (9, LEAST), (0, GREATEST))
    yield (*ranges, *tai_and_units, (5, 0), (11, 0), (17, 0), (5, 2), (17, -1), (11, LEAST), (11, 2**32 + 1))


def in_fives(records):
    """So many records without their marks."""
    return [number for i in range(records) for number in RECORDS[6 * (i % 3):6 * (i % 3) + 5]]


def writes():
    """Name, numbers of the list, bytes of room."""
    whole, most = len(RECORDS), 12_000
    yield from (("a room of %d bytes" % room, RECORDS, room) for room in (most, 558, 557, 0))
    yield from (("a list of %d numbers" % numbers, RECORDS[:numbers], most) for numbers in (12, 0, 1, 6, 11, 13, 17))
    yield from (("%d records in fives" % count, in_fives(count), most) for count in (2, 3, 6, 12))
    written, refused = changes()
    for (place, value), rooms in (*((each, (most,)) for each in written), *((each, (most, 0)) for each in refused)):
        days = [*RECORDS[:place], value, *RECORDS[place + 1:whole]]
        yield from (("number %d is %d, room %d" % (place, value, room), days, room) for room in rooms)


def rows_table():
    rows = []
    for what, days, room in writes():
        number, count, after = bulletin.rows_from_days(days, bytes(room))
        rows.append((what, days, len(days), room, (number, count), after[:count]))
    columns = "const int64_t *days; size_t day_numbers, room_bytes; int64_t want[2]; const char *rows;"
    yield ("rows", columns, rows)


def tables():
    for made in (days_table, full_table, rows_table):
        yield from made()
