"""The words that `days` says on standard error: those of crates/days/src, once more.

The numbers, rows, columns, values and ranges that they go with are the reference's.
"""

from . import words

FIELDS, UNITS = words.FIELDS[2], words.UNITS[2]

USAGE = "usage: ./days FIRST COUNT TAI.. < FILE"
UNWRITTEN = "standard output could not be written; not all of its lines were written whole"
OVER_LONG = "the rows have more than 65536 bytes, allowed 65536"
NO_ROW = "; there is no row, and a line feed ends each"
FROM_1 = "; rows and columns count from 1"


def of_use(wrong):
    """Wrong use: the first word that is no number, counted from 1, or 0 where there are too few."""
    said = "word %d is no whole number of at most 18 digits; " % wrong if wrong else ""
    return "days: " + said + USAGE


def of_refusal(number, said):
    return "refused %d: %s" % (number, said)


def columns(first, last):
    return "columns %d-%d" % (first, last)


def shown(found):
    """Bytes of a row, those outside of printable ASCII as `?`."""
    return "".join(chr(byte) if 32 <= byte <= 126 else "?" for byte in found)


def of_short_row(row, length, field, first, last):
    return "row %d has %d bytes, and %s stands in %s%s" % (row, length, FIELDS[field], columns(first, last), FROM_1)


def of_columns(row, field, first, last, found, expected):
    place = "row %d, %s, %s" % (row, columns(first, last), FIELDS[field])
    return "%s is '%s', expected %s%s" % (place, shown(found), expected, FROM_1)


def of_decimal(row, field, first, last, found, decimals):
    expected = "a decimal with %d digits behind the point, the last in column %d" % (decimals, last)
    return of_columns(row, field, first, last, found, expected)


def of_fraction(row, first, last, found):
    return of_columns(row, 0, first, last, found, "a whole day, with .00 behind it")


def of_lacking(day, days):
    """The first day that no row has, and the days of all rows."""
    rows = "; the rows go from MJD %d (row 1) to MJD %d (row %d)" % (days[0], days[-1], len(days)) if days else NO_ROW
    return "no row has MJD %d" % day + rows


def of_range(name, found, low, high):
    return "%s is %d, allowed %d to %d" % (name, found, low, high)


def of_values(values, count):
    """Another number of TAI-UTC than days."""
    number = "more than 64" if values > 64 else str(values)
    return "there are %s values of TAI-UTC, expected %d, one for each day" % (number, count)


def of_field(day, field, found, low, high, place):
    """A field of a record out of its range; with the row and the columns that it comes from, if it does."""
    unit = "; the unit is " + UNITS[field] if UNITS[field] else ""
    row = "; row %d, %s%s" % (place[0], columns(*place[1:]), FROM_1) if place else ""
    return "day %d, %s" % (day, of_range(FIELDS[field], found, low, high)) + unit + row
