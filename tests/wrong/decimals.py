"""Wrong readers of the decimals of rows: what is wrong, the module and the function that it stands in for, and the wrong one."""

import re
from types import SimpleNamespace

from reference import bulletin

# The functions as they are, whatever stands in for one of them at the moment.
right = SimpleNamespace(**vars(bulletin))


def read_as(shape, change=lambda text: text):
    """Decimals of another shape taken, too, by the digits of what they are changed to; %d is the digits behind the point."""

    def decimal_of(row, first, last, decimals):
        text = row[first - 1:last]
        if re.fullmatch(shape.replace(b"%d", b"%d" % decimals), text) is None:
            return right.decimal_of(row, first, last, decimals)
        digits = re.sub(rb"[^-0-9]", b"", change(text))
        return int(digits) if re.fullmatch(rb"-?[0-9]+", digits) else 0

    return decimal_of


def refused_also(shape):
    """Some decimals of the form are taken for none."""

    def decimal_of(row, first, last, decimals):
        return None if re.fullmatch(shape, row[first - 1:last]) else right.decimal_of(row, first, last, decimals)

    return decimal_of


def blank_in_short_rows(row, first, last, decimals):
    """A row that ends before a field has the value 0 there."""
    return right.decimal_of(row, first, last, decimals) if len(row) >= last else 0


def padded(row, first, last, decimals):
    """Columns that a short row lacks are left out, wherever the decimal ends."""
    text = row[first - 1:last]
    return right.decimal_of(text.rjust(last - first + 1), 1, last - first + 1, decimals)


def by_parts(row, first, last, decimals):
    """The sign goes with the whole part, which has none where it is 0."""
    value = right.decimal_of(row, first, last, decimals)
    return abs(value) if value is not None and abs(value) < 10**decimals else value


def by_doubles(row, first, last, decimals):
    value = right.decimal_of(row, first, last, decimals)
    return None if value is None else int(value / 10**decimals * 10**decimals)


def last_digit_lost(row, first, last, decimals):
    value = right.decimal_of(row, first, last, decimals)
    return None if value is None else value // 10 * 10 if decimals > 2 else value


def day_with(judge):
    """The day where MJD is a decimal of hundredths that this gives a day."""

    def day_of(row):
        hundredths = right.decimal_of(row, *bulletin.MJD)
        return None if hundredths is None else judge(hundredths)

    return day_of


DECIMALS = {
    "a plus sign taken": read_as(rb" *[+][0-9]+[.][0-9]{%d}"),
    "blank taken for 0": read_as(rb" *"),
    "a tab taken for a blank": read_as(rb"[ \t]*-?[0-9]+[.][0-9]{%d}"),
    "no digit before the point taken": read_as(rb" *-?[.][0-9]{%d}"),
    "a blank after the sign taken": read_as(rb" *- +[0-9]*[.][0-9]{%d}"),
    "two signs taken": read_as(rb" *--[0-9]*[.][0-9]{%d}", lambda text: text.replace(b"--", b"")),
    "blanks behind taken": read_as(rb" *-?[0-9]+[.][0-9]{%d} +"),
    "a CR behind taken": read_as(rb" *-?[0-9]+[.][0-9]{%d}\r"),
    "further decimals left out": read_as(rb" *-?[0-9]+[.][0-9]{%d}[0-9]", lambda text: text[:-1]),
    "missing decimals taken for 0": read_as(rb" *-?[0-9]+[.](?![0-9]{%d})[0-9]+", lambda text: text + b"0"),
    "no point taken": read_as(rb" *-?[0-9]+"),
    "a comma taken for the point": read_as(rb" *-?[0-9]+,[0-9]{%d}"),
    "a second point passed over": read_as(rb" *-?[0-9]+[.][0-9.]{%d}"),
    "a blank inside taken for 0": read_as(rb" *-?[0-9]+[.][0-9 ]{%d}", lambda text: text.strip().replace(b" ", b"0")),
    "a sign inside passed over": read_as(rb" *[0-9]+[.][-0-9]{%d}", lambda text: text.replace(b"-", b"")),
    "the byte before 0 taken for a digit": read_as(rb" *-?[0-9/]+[.][0-9/]{%d}"),
    "the byte behind 9 taken for a digit": read_as(rb" *-?[0-9:]+[.][0-9:]{%d}"),
    "0 with a sign refused": refused_also(rb" *-0*[.]0*"),
    "zeros in front refused": refused_also(rb" *-?0[0-9]+[.][0-9]*"),
    "columns without a blank in front refused": refused_also(rb"-[0-9]+[.][0-9]*"),
    "a short row has 0": blank_in_short_rows,
    "a short row's columns end with it": padded,
    "the sign lost before a 0": by_parts,
    "values by doubles, cut": by_doubles,
    "the last decimal cut": last_digit_lost,
}

DAYS = {
    "the fraction of MJD passed over": day_with(lambda hundredths: hundredths // 100),
    "MJD rounded": day_with(lambda hundredths: (hundredths + 50) // 100),
    "the last digit of MJD passed over": day_with(lambda hundredths: None if hundredths % 100 > 9 else hundredths // 100),
    "a negative MJD refused": day_with(lambda hundredths: None if hundredths < 0 or hundredths % 100 else hundredths // 100),
    "MJD without its sign": day_with(lambda hundredths: None if hundredths % 100 else abs(hundredths) // 100),
}

WRONG = (
    *((name, bulletin, "decimal_of", instead) for name, instead in DECIMALS.items()),
    *((name, bulletin, "day_of", instead) for name, instead in DAYS.items()),
)
