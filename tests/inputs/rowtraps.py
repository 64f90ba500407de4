"""What rows that are read hold, and lists that are written as rows: the numbers that apply, and the traps of document 02, L3."""

import re

from reference import bulletin, session
from reference.session import MARKED
from reference.whole import within

from .questions import DAYS_FROM_ROWS, index, numbers_lent
from .rows import ENDS, FIELDS, LAST_DAY, ROW_BYTES, VALUES, text_in, width

# What columns can hold that is no decimal of the form; %d is the digits behind the point.
SHAPES = {
    "blank": " +",
    "zero alone": " +0",
    "no digit before the point": r" *[.]\d{%d}",
    "a sign and no digit": r" *-[.]\d{%d}",
    "a plus sign": r" *[+]\d+[.]\d{%d}",
    "a tab": r"[ \t]*\t-?\d+[.]\d{%d}",
    "two signs": r" *--\d*[.]\d{%d}",
    "a blank after the sign": r" *- +\d*[.]\d{%d}",
    "a blank behind": r" *-?\d+[.]\d{%d} ",
    "a sign behind": r" *\d+[.]\d{%d}-",
    "a CR behind": r" *\d+[.]\d{%d}\r",
    "too many decimals": r" *-?\d+[.]\d{%d}\d+",
    "too few decimals": r" *-?\d+[.](?!\d{%d})\d+",
    "no point": r" *\d{%d}\d+",
    "a comma": r" *\d+,\d{%d}",
    "two points": r" *\d+[.]\d*[.]\d*",
    "a blank inside": r" *\d+[.]\d* +\d+",
    "a sign inside": r" *\d+[.]\d*-\d*",
    "another byte": r" *[0-9.]*[^-0-9 .,+\t\r][0-9.]*",
}
# And what is a decimal of the form, if an odd one.
ODD = {
    "0 with a sign": r" *-0+[.]0+",
    "a zero in front": r" *-?0\d+[.]\d+",
    "no blank in front": r"[^ ].*",
    "a sign": r" *-\d+[.]\d+",
}
ROLES = ("taken", "second", "unasked")


def named(shapes, row, field):
    """The names of the shapes that a field's columns have, where the row has them all."""
    text, decimals = text_in(row, field).decode("latin-1"), str(FIELDS[field][2])
    found = {name for name, shape in shapes.items() if re.fullmatch(shape.replace("%d", decimals), text, re.ASCII)}
    return found if len(text) == width(field) else set()


def misprints(row, field):
    return set() if bulletin.decimal_of(row, *FIELDS[field]) is not None else named(SHAPES, row, field)


def ends(row, role):
    """The field in which, or just behind which, a row ends."""
    for field, (first, last, _) in FIELDS.items():
        yield from ["row ends in %s, %s" % (field, role)] if first <= len(row) < last else []
        yield from ["row ends behind %s" % field] if len(row) == last else []


def beside(row):
    """The fields that a digit stands beside."""
    for field, (first, last, _) in FIELDS.items():
        yield from ["a digit before %s" % field] if row[first - 2:first - 1].isdigit() else []
        yield from ["a digit behind %s" % field] if row[last:last + 1].isdigit() else []


def of_returns(row):
    yield from ["CR behind the columns"] if row[68:].endswith(b"\r") else []
    yield from ["CR in the columns"] if b"\r" in row[7:68] else []
    yield from ["CR amid a row"] if b"\r" in row[68:-1] else []


def roles_of(rows, taken):
    """Each row with its role: taken, of a day that has one before it, of a day that is not asked for, or of no day."""
    left = dict(taken)
    for row in rows:
        day = bulletin.day_of(row)
        role = "of no day" if day is None else "taken" if left.pop(day, None) else "second" if day in taken else "unasked"
        yield (row, role)


def of_row(row, role):
    for field in ["MJD"] if role == "of no day" else VALUES:
        shapes = misprints(row, field)
        yield from ("%s in %s" % (shape, field) for shape in shapes)
        yield from ("%s, %s" % (shape, role) for shape in shapes)
        yield from ["misprinted %s, %s" % (field, role)] if shapes else []
        yield from ("%s in %s" % (shape, field) for shape in named(ODD, row, field) if role == "taken" and not shapes)
    yield from (*ends(row, role), *of_returns(row), *(beside(row) if role == "taken" else ()))
    yield from ["empty row"] if not row else ["row longer than 185"] if len(row) > 185 else []


def of_days(rows, taken):
    """The order of the days, what their MJDs are, and whether rows of one day differ."""
    days = [bulletin.day_of(row) for row in rows]
    known = [day for day in days if day is not None]
    dayless = [row for row, day in zip(rows, days) if day is None]
    values = [(day, tuple(bulletin.values_of(row))) for row, day in zip(rows, days) if day in taken]
    misprinted = {day for day, row in taken.items() if None in bulletin.values_of(row)}
    return {
        "days out of order": known != sorted(known),
        "negative MJD": any(day < 0 for day in known),
        "two rows of a day": len(values) > len(taken),
        "two rows of a day that differ": len(set(values)) > len(taken),
        "a sound row behind a misprinted one": any(day in misprinted for day, found in values if None not in found),
        "a fraction of a day": any(bulletin.decimal_of(row, *FIELDS["MJD"]) is not None for row in dayless),
        "more rows than days": len(rows) > len(taken) > 0,
    }


def of_text(text, taken):
    rest = text[text.rfind(b"\n") + 1:]
    return {
        "no text": not text,
        "352 full rows": text.count(b"\n") >= 352 and set(map(len, bulletin.rows_of(text))) == {bulletin.ROW_COLUMNS},
        "longest text": len(text) == bulletin.LONGEST_TEXT,
        "a byte too long": len(text) == bulletin.LONGEST_TEXT + 1,
        "bytes behind the last line feed": bool(rest),
        "a row behind the last line feed": bulletin.day_of(rest) is not None,
        "a missing day behind the last line feed": bulletin.day_of(rest) not in (None, *taken),
    }


def of_request(first, count, tai):
    counts = {-1: "count -1", 0: "count 0", 1: "count 1", 2: "count 2", 64: "count 64", 65: "count 65"}
    return {
        counts.get(count, "another count"): True,
        "an end beyond 64 bits": not within(first + count, -(2**63), 2**63 - 1),
        "a count beyond 32 bits": count > 2**32,
        "first day 41,317": first == 41_317,
        "first day 41,316": first == 41_316,
        "last day 69,806": first + count - 1 == LAST_DAY,
        "last day 69,807": first + count - 1 == LAST_DAY + 1,
        "another number of TAI-UTC": len(tai) != count,
        "one TAI-UTC too few": len(tai) == count - 1,
        "one TAI-UTC too many": len(tai) == count + 1,
        **{"TAI-UTC %d" % seconds: seconds in tai for seconds in (-1, 0, 99, 100)},
    }


def of_values(taken):
    """Values of rows that are taken, at the ends of their ranges and a unit beyond."""
    found = {}
    for field, end in ENDS.items():
        values = [bulletin.decimal_of(row, *FIELDS[field]) for row in taken]
        for name, value in (("at the end of", end), ("beyond the end of", end + 1)):
            found["%s %s" % (name, field)] = value in values
            found["%s -%s" % (name, field)] = -value in values
    return found


def applying(text, first, count, tai, taken):
    """The numbers of the reader that apply, each by itself, in the order in which they are given."""
    rows = [row for row in taken.values() if None not in bulletin.values_of(row)]
    beyond = any(bulletin.out_of_range((LAST_DAY, *bulletin.values_of(row), 0, bulletin.FULL_UT1)) for row in rows)
    tests = {
        1: bulletin.too_long(text),
        10: bulletin.misread(bulletin.rows_of(text), taken),
        11: bulletin.missing(taken, count),
        2: beyond or bulletin.wrong_request(first, count, tai) or LAST_DAY + 1 in taken,
    }
    return [number for number, applies in tests.items() if applies]


def ordered(numbers, prefix):
    """Which number is given, and before which."""
    given = numbers[0] if numbers else 0
    return {"%s %d" % (prefix, given), *("%d before %d" % (given, other) for other in numbers[1:])}


def holding(*tests):
    return {name for test in tests for name, holds in test.items() if holds}


def of_reader(text, first, count, tai):
    """The traps of rows that are read; those of an over-long text are not looked for."""
    rows = bulletin.rows_of(text)
    taken = bulletin.taken_rows(rows, first, count)
    found = ordered(applying(text, first, count, tai, taken), "read with")
    found |= holding(of_text(text, taken), of_request(first, count, tai))
    if not bulletin.too_long(text):
        found |= holding(of_days(rows, taken), of_values(taken.values()))
        found |= {trap for row, role in roles_of(rows, taken) for trap in of_row(row, role)}
    return found


def of_room(count, room):
    need = count * ROW_BYTES
    return {
        "no room": room == 0 < need,
        "just enough room": room == need > 0,
        "a byte short": room == need - 1,
        "a row short": room == need - ROW_BYTES,
        "room left": room > need > 0,
    }


def of_writer(days, room):
    """The traps of a list that is written."""
    count, ragged = divmod(len(days), bulletin.WIDTH)
    records = session.rows(days, bulletin.WIDTH)[:count]
    counts = {0: "no record", 1: "one record", 2: "two records", 64: "64 records", 65: "65 records"}
    numbers = [2] * bulletin.unwritable(days) + [7] * (room < count * ROW_BYTES)
    follow = all(after[0] == before[0] + 1 for before, after in zip(records, records[1:]))
    found = {
        counts.get(count, "another number of records"): True,
        "no whole record at the end": bool(ragged),
        "days that follow": follow and count > 1,
        "days that do not follow": not follow,
        "UT1-UTC in parts of 100": any(record[3] % 100 and record[3] > 0 for record in records),
        "negative UT1-UTC in parts of 100": any(record[3] % 100 and record[3] < 0 for record in records),
        "marks 0 and 1": {record[5] for record in records} == {0, 1},
        "marks 0 alone": {record[5] for record in records} == {0},
        "five numbers a record": ragged > 0 and len(days) % 5 == 0,
    }
    for place, (low, high) in enumerate(MARKED):
        values = {record[place] for record in records}
        for name, value in (("low", low), ("high", high), ("too low", low - 1), ("too high", high + 1)):
            found["%s in field %d" % (name, place)] = value in values
    return ordered(numbers, "written with") | holding(found, of_room(count, room))


def traps(question):
    if question.what == DAYS_FROM_ROWS:
        tai = 8 * index(question.c)
        return of_reader(question.lent[tai:], question.a, question.b, numbers_lent(question.lent[:tai]))
    return of_writer(numbers_lent(question.lent), question.room)
