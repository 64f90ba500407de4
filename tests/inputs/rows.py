"""Rows of finals2000A as they should be, what is asked of them, and records to write: the same for the same seed.

A row is a published one with other decimals in its columns, and of another length.
"""

from typing import NamedTuple

from reference import bulletin
from reference.session import MARKED

from . import finals

# First and last column, and digits behind the point, of each field.
FIELDS = {"MJD": bulletin.MJD, **dict(zip(("x", "y", "UT1-UTC"), (place[:3] for place in bulletin.VALUES)))}
VALUES = tuple(FIELDS)[1:]
# The least and the greatest value of x, y and UT1-UTC, in units of the last digit.
ENDS = {"x": 1_000_000, "y": 1_000_000, "UT1-UTC": 9_000_000}
FIRST_DAY, LAST_DAY = MARKED[0]
ROW_BYTES = bulletin.ROW_COLUMNS + 1
# Up to the last column that is read, as the readme says, and as they were published.
LENGTHS = (68, 69, 185, 185, 187, 187)
READ = {column for first, last, _ in FIELDS.values() for column in range(first, last + 1)}
CROWD = b"0123456789.-+\r"


class Case(NamedTuple):
    """Rows, what is asked of them, and the bytes behind the last line feed."""

    rows: tuple
    first: int
    count: int
    tai: tuple
    rest: bytes = b""


def text_of(case):
    return b"".join(row + b"\n" for row in case.rows) + case.rest


def width(field):
    first, last, _ = FIELDS[field]
    return last - first + 1


def printed(row, field, text):
    """A row with a text in the columns of a field, right-aligned."""
    first, last, _ = FIELDS[field]
    return row[:first - 1] + text.rjust(width(field)) + row[last:]


def text_in(row, field):
    first, last, _ = FIELDS[field]
    return row[first - 1:last]


def decimal(value, field):
    """A number of units of the last digit, as the columns of a field hold it."""
    decimals = FIELDS[field][2]
    digits = b"%0*d" % (decimals + 1, abs(value))
    return (b"-" if value < 0 else b"") + digits[:-decimals] + b"." + digits[-decimals:]


def of_day(row, day):
    return printed(row, "MJD", b"%d.00" % day)


def some_decimal(numbers, field):
    """A decimal of the form and in range: any, small, at an end, 0 with a sign, or with zeros in front."""
    end = ENDS[field]
    any_value, small = numbers.randint(-end, end), numbers.randint(-99, 99)
    plain = [decimal(value, field) for value in (*[any_value] * 6, small, small, end, -end)]
    return numbers.choice((*plain, b"-" + decimal(0, field), decimal(abs(any_value), field).rjust(width(field), b"0")))


def some_row(numbers, day, length=None):
    row = of_day(numbers.choice(finals.rows()).ljust(187), day)
    for field in VALUES:
        row = printed(row, field, some_decimal(numbers, field))
    length = length or numbers.choice((*LENGTHS, numbers.randint(68, 260)))
    return row[:length].ljust(length)


def crowded(numbers, row):
    """A row whose other columns are full of what a decimal can have, and of CRs."""
    return bytes(byte if column in READ else numbers.choice(CROWD) for column, byte in enumerate(row, 1))


def some_rows(numbers, days, length=None):
    return tuple(some_row(numbers, day, length) for day in days)


def some_tai(numbers, count):
    return tuple(numbers.choice((36, 37, 0, 99, numbers.randint(0, 99))) for _ in range(count))


def some_case(numbers, count=None, before=None, behind=None):
    """Some days that are asked for, in the midst of others; at times out of order."""
    count = numbers.choice((2, 2, 3, 4, 6, numbers.randint(2, 12))) if count is None else count
    before, behind = (numbers.randrange(4) if days is None else days for days in (before, behind))
    last = LAST_DAY + 1 - count
    first = numbers.choice((*[numbers.randint(FIRST_DAY, last)] * 4, FIRST_DAY, last))
    made = list(some_rows(numbers, range(first - before, first + count + behind)))
    if numbers.random() < 0.25:
        numbers.shuffle(made)
    return Case(tuple(made), first, count, some_tai(numbers, count))


def with_row(case, place, row):
    return case._replace(rows=(*case.rows[:place], row, *case.rows[place + 1:]))


def with_more(case, place, *rows):
    """A case with some rows more, from a place on."""
    return case._replace(rows=(*case.rows[:place], *rows, *case.rows[place:]))


def flat(records):
    return [number for record in records for number in record]


def some_value(numbers, low, high, unit):
    """A number of a range, in whole units: any, small, or at an end."""
    any_value, small = numbers.randint(low, high) // unit * unit, numbers.randint(-99, 99) * unit
    return min(high, max(low, numbers.choice((any_value, any_value, small, low, high, 0))))


def some_record(numbers, day):
    """A record that a row can hold."""
    units = (1, 1, 100, 1)
    return (day, *(some_value(numbers, *ends, unit) for ends, unit in zip(MARKED[1:5], units)), bulletin.FULL_UT1)


def some_records(numbers, count, consecutive):
    """Records of days that follow each other, or of any days."""
    first = numbers.choice((FIRST_DAY, LAST_DAY + 1 - count, numbers.randint(FIRST_DAY, LAST_DAY + 1 - count)))
    days = range(first, first + count) if consecutive else [numbers.randint(FIRST_DAY, LAST_DAY) for _ in range(count)]
    return [some_record(numbers, day) for day in days]
