"""The words that `tracks` says on standard error: those of crates/explain/src and crates/program/src/ending.rt, once more.

The numbers, places, values, ranges, bytes, samples, days and ids that they go with are the reference's.
"""

SECTIONS = ("stations", "sources", "days", "passes")

FIELDS = (
    ("id", "X", "Y", "Z"),
    ("id", "right ascension", "declination"),
    ("MJD", "x", "y", "UT1-UTC", "TAI-UTC", "mark"),
    ("station 1", "station 2", "source", "MJD", "u", "step", "samples", "tolerance"),
)

UNITS = (
    ("", "mm", "mm", "mm"),
    ("", "ticks", "ticks"),
    ("", "microarcseconds", "microarcseconds", "ns", "s", ""),
    ("", "", "", "", "ms", "ms", "", "ps"),
)

# the section whose records are named by no field of their own
PASSES = 3

TABLE_WORDS = ("kind of the ", "first byte of the ", "number of ")
SHOWS_HERE = "; a wrong number of %s (%d) shows here, too"

EMPTY = "the file is empty, expected a contents table of 104 bytes"
CUT = "the file has %d bytes and ends inside its contents table, which has 104"
OVER_LONG = "the file has more than 65536 bytes, expected %d by its contents table"
OTHER_LENGTH = "the file has %d bytes, expected %d by its contents table"
TEXT = "; the file looks like text: a session file is numbers of 8 bytes (docs/SESSION-FILE.md)"

COUNT_FROM_0 = "; records count from 0"
LAST_ALONE = "allowed none because record %d has %s %d, which only the last record can have"

UNREAD = "standard input could not be read beyond byte %d"
UNWRITTEN = "standard output could not be written; %d of %d passes were written whole"
REFUSAL_UNWRITTEN = "standard output could not be written; the line of the refusal was not written whole"


def one_or_other(numbers):
    return " or ".join(str(number) for number in numbers)


def of_sections(found):
    """The first number of the contents table."""
    return "contents table, number of sections is %d, expected 4, byte 0" % found


def in_table(place, word, found, expected):
    """One of the three words that the contents table has for a place: 0 its kind, 1 its first byte, 2 its count."""
    at = 24 * place + 8 * word + 8
    return "contents table, %s%s is %d, %s, byte %d" % (TABLE_WORDS[word], SECTIONS[place], found, expected, at)


def of_kind(place, found, kinds):
    return in_table(place, 0, found, "expected " + one_or_other(kinds))


def of_first_byte(place, found, expected, count):
    """With the count of the place before, none for the first place."""
    if place == 0:
        return in_table(place, 1, found, "expected %d because the contents table has %d bytes" % (expected, expected))
    before = SECTIONS[place - 1]
    said = in_table(place, 1, found, "expected %d, where the %s end" % (expected, before))
    return said + SHOWS_HERE % (before, count)


def of_count(place, found, least, greatest):
    return in_table(place, 2, found, "allowed %d to %d" % (least, greatest))


def of_cut(length):
    """Of a file that ends inside its contents table."""
    return CUT % length if length else EMPTY


def of_length(length, longest, expected, passes):
    said = OVER_LONG % expected if length > longest else OTHER_LENGTH % (length, expected)
    return said + SHOWS_HERE % (SECTIONS[PASSES], passes)


def at_record(place, kind, record):
    return "section %d (%s), record %d" % (kind, SECTIONS[place], record)


def of_range(place, kind, record, field, name, found, low, high, byte):
    """With the id or the MJD of the record, and the unit of the field if it has one."""
    named = "" if place == PASSES else " (%s %d)" % (FIELDS[place][0], name)
    unit = UNITS[place][field]
    value = (FIELDS[place][field], found, low, high, byte)
    said = at_record(place, kind, record) + named + ", %s is %d, allowed %d to %d, byte %d" % value
    return said + ("; the unit is " + unit if unit else "") + COUNT_FROM_0


def of_order(place, kind, record, found, before, allowed, byte):
    """A first field that does not follow the record before: `allowed` has one number, two ends, or nothing."""
    name = FIELDS[place][0]
    may = "allowed %s because record %d has %s %d" % (" to ".join(map(str, allowed)), record - 1, name, before)
    may = may if allowed else LAST_ALONE % (record - 1, name, before)
    return at_record(place, kind, record) + ", %s is %d, %s, byte %d" % (name, found, may, byte) + COUNT_FROM_0


def of_names(lacking):
    """Refusal 5 of a pass: each field whose id the file lacks, and that id."""
    names = (", %s (id %d)" % (FIELDS[PASSES][field], name) for field, name in lacking)
    return "the file lacks what the pass names" + "".join(names)


def of_days(sample, day, first, last, lacking):
    """Refusal 6 of a pass: the first sample that lacks a day, its day, the file's days, and what is lacking."""
    needs = "sample %d is on MJD %d and needs the orientation of MJD %d and %d" % (sample, day, day, day + 1)
    lack = " and ".join(map(str, lacking)) + (" is" if len(lacking) == 1 else " are") + " lacking"
    return "%s; the file has MJD %d to %d, so %s" % (needs, first, last, lack)


def of_pass(index, number, said):
    """The line of a pass that is refused, in a file that is accepted."""
    counted = "passes" if number == 5 else "passes and samples"
    return "pass %d refused %d: %s; %s count from 0" % (index, number, said, counted)


def of_file(number, said):
    return "refused %d: %s" % (number, said)
