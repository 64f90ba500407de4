"""Rows of the IERS file finals2000A: document 02, L3 and L4. They are read as orientation records, and written from them.

A text, a row and a room are bytes. A record has six numbers: MJD, x, y, UT1-UTC, TAI-UTC, mark. Rows hold full UT1, so
the mark is 1.
"""

import re

from . import session
from .session import MARKED
from .whole import within

LONGEST_TEXT = 65_536
ROW_COLUMNS = 185
DAY_RANGE = MARKED[0]
WIDTH, (FEWEST, MOST) = len(MARKED), session.layout_of(2, 5)[2:]
MOST_NUMBERS = WIDTH * MOST
FULL_UT1 = 1

# First and last column, counted from 1, and digits behind the point; of x, y and UT1-UTC also how many units of a record
# the last digit is worth. Of a day it is a hundredth.
MJD = (8, 15, 2)
VALUES = ((19, 27, 6, 1), (38, 46, 6, 1), (59, 68, 7, 100))


def rows_of(text):
    """What stands before each line feed; bytes behind the last one are no row."""
    return text.split(b"\n")[:-1]


def decimal_of(row, first, last, decimals):
    """The decimal that fills some columns, in units of its last digit; none where they hold no such decimal."""
    text = row[first - 1:last]
    found = re.fullmatch(rb" *(-?)([0-9]+)[.]([0-9]{%d})" % decimals, text)
    if found is None or len(text) < last - first + 1:
        return None
    return int(b"".join(found.groups()))


def day_of(row):
    """A row's day; none where its MJD is no decimal, or no whole day."""
    hundredths = decimal_of(row, *MJD)
    return None if hundredths is None or hundredths % 100 else hundredths // 100


def values_of(row):
    """x, y and UT1-UTC of a row in the units of a record, none for each that is no decimal."""
    found = [(decimal_of(row, first, last, decimals), unit) for first, last, decimals, unit in VALUES]
    return [None if value is None else value * unit for value, unit in found]


def taken_rows(rows, first, count):
    """The first row of each day that is asked for, by its day."""
    taken = {}
    for row in rows:
        day = day_of(row)
        if day is not None and first <= day < first + count:
            taken.setdefault(day, row)
    return taken


def too_long(text):
    return len(text) > LONGEST_TEXT


def misread(rows, taken):
    """Whether a row has no day, or a row that is taken lacks a value."""
    return any(day_of(row) is None for row in rows) or any(None in values_of(row) for row in taken.values())


def missing(taken, count):
    """Whether a day that is asked for is in no row."""
    return len(taken) < count


def wrong_request(first, count, tai):
    """Whether the first day or the count is out of range, or there is another number of TAI-UTC."""
    return not (within(first, *DAY_RANGE) and within(count, FEWEST, MOST) and len(tai) == count)


def out_of_range(record):
    return any(not within(value, low, high) for value, (low, high) in zip(record, MARKED))


def records_of(taken, tai):
    """The records of the days from the first on, each with its TAI-UTC."""
    return [(day, *values_of(taken[day]), seconds, FULL_UT1) for day, seconds in zip(sorted(taken), tai)]


def refusal(text, first, count, tai):
    """The first of 1, 10, 11 and 2 that applies, or 0."""
    if too_long(text):
        return 1
    rows = rows_of(text)
    taken = taken_rows(rows, first, count)
    if misread(rows, taken):
        return 10
    if missing(taken, count):
        return 11
    return 2 if wrong_request(first, count, tai) or any(map(out_of_range, records_of(taken, tai))) else 0


def days_from_rows(text, first, count, tai):
    """Refusal and 384 numbers: the records of the days asked for, zeros behind the last."""
    number = refusal(text, first, count, tai)
    records = [] if number else records_of(taken_rows(rows_of(text), first, count), tai)
    numbers = [number for record in records for number in record]
    return (number, *numbers, *[0] * (MOST_NUMBERS - len(numbers)))


def decimal_text(value, decimals):
    """A whole number of units as a decimal: a digit or more before the point, so many behind it."""
    digits = str(abs(value)).rjust(decimals + 1, "0")
    return ("-" if value < 0 else "") + digits[:-decimals] + "." + digits[-decimals:]


def placed(row, text, first, last):
    """A row with a text right-aligned in some columns."""
    return row[:first - 1] + text.encode().rjust(last - first + 1) + row[last:]


def row_of(record):
    """A record's row, without the line feed."""
    mjd, *values = record[:4]
    row = placed(b" " * ROW_COLUMNS, decimal_text(100 * mjd, MJD[2]), *MJD[:2])
    for value, (first, last, decimals, unit) in zip(values, VALUES):
        row = placed(row, decimal_text(value // unit, decimals), first, last)
    return row


def unheld(record):
    """Whether a row cannot hold a record: it has full UT1 in whole hundreds of nanoseconds."""
    return out_of_range(record) or record[3] % 100 or record[5] != FULL_UT1


def unwritable(days):
    """Whether a list of numbers is no list of records that rows can hold: 2."""
    if len(days) % WIDTH or not within(len(days) // WIDTH, FEWEST, MOST):
        return True
    return any(map(unheld, session.rows(days, WIDTH)))


def text_of(days):
    """The rows of a list of numbers, each ended by a line feed."""
    return b"".join(row_of(record) + b"\n" for record in session.rows(days, WIDTH))


def rows_from_days(days, room):
    """Refusal, bytes written, and the room afterwards."""
    if unwritable(days):
        return (2, 0, room)
    text = text_of(days)
    return (7, 0, room) if len(text) > len(room) else (0, len(text), text + room[len(text):])
