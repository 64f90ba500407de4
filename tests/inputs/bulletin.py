"""Questions on rows of finals2000A that are read: published ones, sound ones, and ones with faults, alone and together."""

import random
from itertools import combinations, product

from reference import bulletin

from . import finals, rowlists
from .misprints import MISPRINTS, ROLES, a_taken_row, changed_in, fraction, misprinted, with_second, with_unasked
from .questions import DAYS_FROM_ROWS, Question, lent_numbers
from .rows import (
    ENDS, FIELDS, FIRST_DAY, LAST_DAY, ROW_BYTES, VALUES, Case, crowded, decimal, flat, of_day, printed, some_case,
    some_records, some_row, some_rows, some_tai, text_of, with_more, with_row,
)

LEAST, GREATEST = -(2**63), 2**63 - 1
MOST_BYTES = bulletin.LONGEST_TEXT
FULL = MOST_BYTES // ROW_BYTES


def question(text, first, count, tai):
    return Question(DAYS_FROM_ROWS, first, count, len(tai), lent=lent_numbers(tai) + text)


def asked(case):
    return question(text_of(case), case.first, case.count, case.tai)


def published():
    """Days of the file as it is: each fourth one, 64 in a row, and days before it and behind it."""
    windows = [(finals.FIRST_DAY + i, count) for i, count in product(range(0, finals.DAYS - 1, 4), (2, 5, 64))]
    windows += [(finals.FIRST_DAY + i, count) for i, count in ((-1, 2), (-1, 64), (-2, 2), (finals.DAYS - 1, 2), (0, 65))]
    for first, count in windows:
        yield question(finals.text(), first, count, [finals.TAI_UTC] * count)


def sound(numbers):
    yield from (some_case(numbers) for _ in range(100))
    yield from (some_case(numbers, count) for count in (63, 64) for _ in range(8))
    yield from (some_case(numbers, 2, 0, 0) for _ in range(10))


def misprints(numbers, each=4):
    """Each misprint in each field of a row that is taken, of one that is not asked for, and of a second one of a day."""
    for name, field, role in product(MISPRINTS, FIELDS, ROLES):
        for _ in range(each):
            yield changed_in(numbers, some_case(numbers), role, lambda row: misprinted(numbers, row, field, name))


def fractions(numbers):
    for text, role in product((b"01", b"10", b"50", b"99"), ROLES):
        yield from (changed_in(numbers, some_case(numbers), role, lambda row: fraction(row, text)) for _ in range(3))


def cuts(numbers):
    """Rows that end at the columns about each field's ends; with a CR there; with the decimal moved along with the end."""
    ends = sorted({column + by for first, last, _ in FIELDS.values() for column in (first, last) for by in (-2, -1, 0, 1)})
    for end, role, behind in product((0, 1, *ends), ROLES, (b"", b"", b"\r", b"\r")):
        yield changed_in(numbers, some_case(numbers), role, lambda row: row[:end] + behind)
    for field, role in product(("MJD", "UT1-UTC"), ROLES):
        for _ in range(5):
            cut = FIELDS[field][1] - 1
            shifted = lambda row: misprinted(numbers, row, field, "a blank behind")[:cut]
            yield changed_in(numbers, some_case(numbers), role, shifted)


def around_the_columns(numbers):
    """A CR before each line feed; all other columns full."""
    for _ in range(12):
        case = some_case(numbers)
        yield case._replace(rows=tuple(row + b"\r" for row in case.rows))
        yield case._replace(rows=tuple(crowded(numbers, row) for row in case.rows))


def days_twice(numbers):
    """Rows of one day with other values: the first counts, wherever the further ones stand, and also where it is misprinted."""
    for _ in range(20):
        case, _ = with_second(numbers, some_case(numbers))
        twice = case._replace(rows=case.rows + case.rows[::-1])
        yield from (with_second(numbers, case)[0], twice)
        yield a_misprint(numbers, twice)


def endings(numbers):
    """Bytes behind the last line feed: a row that is asked for, one that is not, a damaged one, a few bytes."""
    for _ in range(10):
        case = some_case(numbers)
        yield case._replace(rows=case.rows[:-1], rest=case.rows[-1])
        yield case._replace(rest=some_row(numbers, case.first))
        yield case._replace(rest=misprinted(numbers, some_row(numbers, case.first), "MJD", "blank"))
        yield case._replace(rest=numbers.choice((b" ", b"\r", b"\x1a", b"\x00", b"16 2 1 57359.0")))


def empties(numbers):
    """No text, a line feed alone, empty rows before, between and behind the others."""
    for count, rows in product((0, 1, 2, -1, 64), ((), (b"",), (b"", b""))):
        yield Case(rows, 57_359, count, some_tai(numbers, max(0, count)))
        yield Case(rows, numbers.choice((LEAST, GREATEST)), count, ())
    for _ in range(5):
        case = some_case(numbers)
        yield from (with_more(case, place, b"") for place in sorted({0, 1, len(case.rows)}))


def filled(numbers, length):
    """Full rows, and bytes behind the last line feed up to some length."""
    count = numbers.choice((2, 64, 64))
    first = numbers.randint(FIRST_DAY, LAST_DAY + 1 - count)
    rows = some_rows(numbers, range(first - FULL + count, first + count), bulletin.ROW_COLUMNS)
    rest = numbers.choice((b" " * ROW_BYTES, rows[0] + b"5"))
    return Case(rows, first, count, some_tai(numbers, count), rest[:length - FULL * ROW_BYTES])


def lengths(numbers):
    """Texts as long as can be, a byte shorter or longer; in long rows and in the shortest that have a day."""
    for length, _ in product((FULL * ROW_BYTES, MOST_BYTES - 1, MOST_BYTES, MOST_BYTES + 1, MOST_BYTES + 40), range(5)):
        yield filled(numbers, length)
    for more, _ in product((-1, 0, 1, ROW_BYTES), range(5)):
        case = some_case(numbers)
        long = some_row(numbers, 99_999, MOST_BYTES - len(text_of(case)) - 1 + more)
        yield with_more(case, numbers.randint(0, len(case.rows)), long)
    for more in (0, 1):
        case = some_case(numbers, 2, 0, 0)._replace(rest=b"7" * more)
        short = [of_day(b" " * 15, numbers.randint(-9_999, 40_000)) for _ in range(MOST_BYTES // 16)]
        short = short[:(MOST_BYTES - len(text_of(case)) + more) // 16]
        yield with_more(case, numbers.randint(0, 2), *short)


def requests(numbers):
    """First days and counts of every kind, with rows of the days asked for that a row can hold, and one more."""
    firsts = (LEAST, LEAST + 1, -9_999, -1, 0, 41_315, 41_316, 41_317, 57_359, 69_743, 69_744, 69_805, 69_806, 69_807)
    firsts += (99_990, GREATEST)
    counts = (LEAST, -64, -1, 0, 1, 2, 3, 63, 64, 65, 66, 100, 2**31, 2**32 + 2, GREATEST - 57_359, GREATEST)
    for first, count in product(firsts, counts):
        days = range(max(first, -9_999), min(first + min(count, 66), 100_000))
        case = Case(some_rows(numbers, days, 68), first, count, some_tai(numbers, max(0, min(count, 66))))
        yield with_unasked(numbers, case)[0] if -9_999 < first < 99_999 and count < 2**31 else case


def wrapped(numbers):
    """Days asked for whose end is beyond 64 bits: the rows from the first day on are taken; with a negative count, none."""
    for first, count in product((57_359, 2, -9_999, 69_806), (GREATEST, GREATEST - 1, 2**32 + 1, LEAST, LEAST + 1)):
        rows = some_rows(numbers, (max(first, 57_359), 57_361), 68)
        damaged = misprinted(numbers, rows[0], numbers.choice(VALUES), numbers.choice(list(MISPRINTS)))
        yield Case((damaged, rows[1]), first, count, (36, 36))
        yield Case((rows[0], damaged), first, count, (36, 36))


def tai_lists(numbers):
    """Another number of TAI-UTC than days, and TAI-UTC at and beyond the ends of its range."""
    for _ in range(6):
        case = some_case(numbers)
        for count in (0, 1, case.count - 1, case.count + 1, 64, 65):
            yield case._replace(tai=some_tai(numbers, count))
        for seconds in (-1, 0, 99, 100, LEAST, GREATEST):
            place = numbers.randrange(case.count)
            yield case._replace(tai=(*case.tai[:place], seconds, *case.tai[place + 1:]))


def with_value(row, field, value):
    return printed(row, field, decimal(value, field))


def values_at_ends(numbers):
    """x, y and UT1-UTC at the ends of their ranges, a digit beyond, and as far out as the columns hold."""
    for field, end in ENDS.items():
        far = 10 ** (FIELDS[field][2] + 2) - 1
        for value, role in product((end, end + 1, -end, -end - 1, far, -far // 10), (*["taken"] * 10, *ROLES)):
            yield changed_in(numbers, some_case(numbers), role, lambda row: with_value(row, field, value))


def last_days(numbers):
    """The last day of the range, and the one behind it, which no record can have."""
    for count in (2, 2, 3, 5, 64):
        for first in (LAST_DAY + 1 - count, LAST_DAY + 2 - count, LAST_DAY):
            yield Case(some_rows(numbers, range(first, first + count)), first, count, some_tai(numbers, count))


def over_long(numbers, case):
    return case._replace(rest=b" " * (MOST_BYTES + 1 - len(text_of(case)) + numbers.randrange(9)))


def a_misprint(numbers, case):
    """10, by a value of a row that is taken, by its MJD, or by that of another row."""
    field, role = numbers.choice((*product(VALUES, ("taken",)), *product(("MJD",), ROLES)))
    return changed_in(numbers, case, role, lambda row: misprinted(numbers, row, field, numbers.choice(list(MISPRINTS))))


def a_day_gone(numbers, case):
    place = a_taken_row(numbers, case)
    return numbers.choice((
        with_row(case, place, of_day(case.rows[place], numbers.choice((0, 99_999, case.first - 1)))),
        case._replace(rows=case.rows[:place] + case.rows[place + 1:]),
        case._replace(rows=tuple(row for row in case.rows if bulletin.day_of(row) != case.first)),
    ))


def out_of_range(numbers, case):
    """2, by a value, by TAI-UTC, or by the number of those; the days that are asked for stay."""
    field = numbers.choice(VALUES)
    value = numbers.choice((-1, 1)) * (ENDS[field] + numbers.randint(1, 9))
    return numbers.choice((
        changed_in(numbers, case, "taken", lambda row: with_value(row, field, value)),
        case._replace(tai=(*case.tai[:-1], numbers.choice((-1, 100)))),
        case._replace(tai=case.tai[:-1]),
        case._replace(tai=(*case.tai, 36)),
    ))


# Together they are made in this order: each leaves a row that is taken.
FAULTS = (out_of_range, a_day_gone, a_misprint, over_long)


def faults_together(numbers, each=14):
    """Each fault alone, and by twos, threes and fours: the first of 1, 10, 11 and 2 is given."""
    for size in range(1, len(FAULTS) + 1):
        for faults in combinations(FAULTS, size):
            for _ in range(each):
                case = some_case(numbers)
                for fault in faults:
                    case = fault(numbers, case)
                yield case


def written(numbers):
    """Rows that the reference writes, asked for again."""
    for _ in range(30):
        records = some_records(numbers, numbers.choice((2, 3, 10, 64)), consecutive=True)
        text = bulletin.text_of(flat(records))
        yield question(text, records[0][0], len(records), [record[4] for record in records])


READ = (
    sound, misprints, fractions, cuts, around_the_columns, days_twice, endings, empties, lengths, requests, wrapped,
    tai_lists, values_at_ends, last_days, faults_together,
)


def questions(seed=57_359):
    numbers = random.Random(seed)
    cases = [asked(case) for make in READ for case in make(numbers)]
    return [*published(), *cases, *written(numbers), *rowlists.questions(numbers)]
