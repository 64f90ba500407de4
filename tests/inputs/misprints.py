"""What can stand in the columns of a field that is no decimal of the form, and ways to put it there.

A misprint is made of a sound decimal: its digits without sign, its width, and its digits behind the point.
"""

from reference import bulletin

from .rows import FIELDS, LAST_DAY, printed, some_row, text_in, width, with_more, with_row

# Neighbours of the digits, blanks of other kinds, and letters that look like digits or that belong to doubles.
NO_DIGITS = b"/:;\x00\x0b\x0c\x10\x7f\xa0\xb0\xffaoOleE_"


def at(text, place, byte):
    """A text with another byte at a place; places below 0 count from the end."""
    place %= len(text)
    return text[:place] + byte + text[place + 1:]


def other_byte(numbers, digits, wide, decimals):
    place = numbers.choice([i for i in range(len(digits)) if i != len(digits) - decimals - 1])
    return at(digits, place, bytes([numbers.choice(NO_DIGITS)]))


def behind_the_point(byte):
    return lambda numbers, digits, wide, decimals: at(digits, -numbers.randint(1, decimals), byte)


def in_place_of_the_point(byte):
    return lambda numbers, digits, wide, decimals: at(digits, -decimals - 1, byte)


def led_by(bytes):
    """Some bytes before as many digits as fit behind them."""
    return lambda numbers, digits, wide, decimals: bytes + digits[-(wide - len(bytes)):]


def followed_by(byte):
    return lambda numbers, digits, wide, decimals: digits[-(wide - 1):] + byte


MISPRINTS = {
    "blank": lambda numbers, digits, wide, decimals: b"",
    "zero alone": lambda numbers, digits, wide, decimals: b"0",
    "no digit before the point": lambda numbers, digits, wide, decimals: digits[-decimals - 1:],
    "a sign and no digit": lambda numbers, digits, wide, decimals: b"-" + digits[-decimals - 1:],
    "a plus sign": led_by(b"+"),
    "a tab": led_by(b"\t"),
    "two signs": led_by(b"--"),
    "a blank after the sign": led_by(b"- "),
    "a blank behind": followed_by(b" "),
    "a sign behind": followed_by(b"-"),
    "a CR behind": followed_by(b"\r"),
    "too many decimals": followed_by(b"0"),
    "too few decimals": lambda numbers, digits, wide, decimals: digits[:-1],
    "no point": in_place_of_the_point(b"0"),
    "a comma": in_place_of_the_point(b","),
    "two points": behind_the_point(b"."),
    "a blank inside": lambda numbers, digits, wide, decimals: at(digits, -numbers.randint(1, decimals - 1) - 1, b" "),
    "a sign inside": behind_the_point(b"-"),
    "another byte": other_byte,
}


def misprinted(numbers, row, field, name):
    """A row with a misprint in a field."""
    digits = text_in(row, field).strip().lstrip(b"-")
    return printed(row, field, MISPRINTS[name](numbers, digits, width(field), FIELDS[field][2]))


def a_taken_row(numbers, case):
    """The place of a row that is taken."""
    taken = bulletin.taken_rows(case.rows, case.first, case.count)
    return case.rows.index(numbers.choice(list(taken.values())))


def with_unasked(numbers, case):
    """A case with a further row of a day that is not asked for, and that row's place."""
    day = numbers.choice((case.first - numbers.randint(1, 3), case.first + case.count, 0, -1, -9_999, 99_999, LAST_DAY + 65))
    place = numbers.randint(0, len(case.rows))
    return (with_more(case, place, some_row(numbers, day)), place)


def with_second(numbers, case):
    """A case with a second row of a day that is asked for, at times with a third, and the second one's place."""
    taken = a_taken_row(numbers, case)
    place = numbers.randint(taken + 1, len(case.rows))
    more = [some_row(numbers, bulletin.day_of(case.rows[taken])) for _ in range(numbers.choice((1, 1, 2)))]
    return (with_more(case, place, *more), place)


ROLES = {
    "taken": lambda numbers, case: (case, a_taken_row(numbers, case)),
    "unasked": with_unasked,
    "second": with_second,
}


def changed_in(numbers, case, role, change):
    """A case in which a row of such a role is changed."""
    case, place = ROLES[role](numbers, case)
    return with_row(case, place, change(case.rows[place]))


def fraction(row, text):
    """A row whose MJD has another fraction."""
    return printed(row, "MJD", text_in(row, "MJD")[:-2] + text)
