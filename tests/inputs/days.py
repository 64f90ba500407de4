"""Runs of the program `days`: words and rows, and what it writes and tells for them, by the reference."""

import random
import re
from itertools import combinations, islice, product
from typing import NamedTuple

from lines import line, text
from reference import bulletin, rowwords, session
from reference.whole import within

from . import bulletin as asked
from . import finals
from .rows import FIELDS, Case, text_of
from .rows import printed as printed_in

NUMBER = re.compile(r"-?[0-9]{1,18}")
COLUMNS = (bulletin.MJD, *(place[:3] for place in bulletin.VALUES))
READ_AT_MOST = bulletin.LONGEST_TEXT + 1
EACH_FOURTH = 4


class Run(NamedTuple):
    words: tuple
    rows: bytes


# ---- what is asked


def run_of(case):
    return Run(tuple(map(str, (case.first, case.count, *case.tai))), text_of(case))


def head(run):
    """A run in words: its first words, and how many bytes it is given."""
    return "%.40s, %d bytes" % (" ".join(map(ascii, run.words)).replace("'", ""), len(run.rows))


def short():
    """The run of crates/days: the first days of the published file."""
    return Run(("57359", "3", "36", "36", "36"), b"".join(row + b"\n" for row in finals.rows()[:8]))


def words_alone():
    """Words that are numbers in an unusual form, and words that are none; too few; and more than there can be days."""
    rows = finals.text()
    good = ("57359", "2", "36", "36")
    forms = ("-0", "036", "0" * 17 + "9", "-" + "9" * 18, "9" * 18, "0" * 18)
    none = ("", "-", "--3", "+3", "3.", "3 ", " 3", "0x3", "3_0", "three", "9" * 19, "-" + "9" * 19, "3\n", "٣", "3" * 400)
    yield from (Run(good[:at] + (word,) + good[at + 1:], rows) for word in forms for at in range(4))
    yield from (Run(good[:at] + (word,) + good[at + 1:], rows) for word in none for at in range(4))
    yield from (Run(good[:count], rows) for count in range(4))
    yield from (Run(("57359", str(days)) + ("36",) * values, rows) for days in (64, 65, 66, 70) for values in (64, 65, 66, 70, 200))
    yield Run(good + ("36",) * 100 + ("x",), rows)


def published():
    """Days of the published file, and days that it does not have."""
    for first, count in ((57_359, 2), (57_400, 64), (57_538, 2), (57_539, 2), (57_358, 3), (57_359, 64)):
        yield run_of(Case(tuple(finals.rows()), first, count, (finals.TAI_UTC,) * count))


def two_faults():
    """Two fields blank, in one row or in two: of days that are asked for, of others, and of second rows of a day."""
    rows = [*finals.rows()[:5], *finals.rows()[1:3]]
    places = tuple(product(range(len(rows)), FIELDS))
    for one, other in combinations(places, 2):
        made = list(rows)
        for place, field in (one, other):
            made[place] = printed_in(made[place], field, b"")
        yield run_of(Case(tuple(made), finals.FIRST_DAY + 1, 3, (finals.TAI_UTC,) * 3))


def runs(seed=57_360):
    """Each fourth of the cases that `answers` is asked, where their numbers have 18 digits at most, and words."""
    numbers = random.Random(seed)
    cases = [case for make in asked.READ for case in make(numbers)][::EACH_FOURTH]
    made = [run for run in map(run_of, cases) if all(map(NUMBER.fullmatch, run.words))]
    return [*words_alone(), *published(), *islice(two_faults(), 0, None, EACH_FOURTH), *made]


# ---- what is said of it


def wrong_word(words):
    """The place of the first word that is no number, counted from 1; 0 where there is none."""
    return next((at for at, word in enumerate(words, 1) if NUMBER.fullmatch(word) is None), 0)


def first_fault(rows, first, count):
    """The first row at fault and its field, none where no row is: MJD, or of a row that is taken x, y or UT1-UTC."""
    seen = set()
    for place, row in enumerate(rows):
        day = bulletin.day_of(row)
        if day is None:
            return (place, 0)
        if first <= day < first + count and day not in seen and None in bulletin.values_of(row):
            return (place, 1 + bulletin.values_of(row).index(None))
        seen.add(day)
    return None


def of_row(rows, first, count):
    place, field = first_fault(rows, first, count)
    row, (start, last, decimals) = rows[place], COLUMNS[field]
    if len(row) < last:
        return rowwords.of_short_row(place + 1, len(row), field, start, last)
    found = row[start - 1:last]
    if bulletin.decimal_of(row, start, last, decimals) is None:
        return rowwords.of_decimal(place + 1, field, start, last, found, decimals)
    return rowwords.of_fraction(place + 1, start, last, found)


def of_lacking(rows, first, count):
    days = [bulletin.day_of(row) for row in rows]
    return rowwords.of_lacking(next(day for day in range(first, first + count) if day not in set(days)), days)


def of_record(rows, record):
    """The first field of a record that is out of its range; nothing where none is."""
    days = [bulletin.day_of(row) for row in rows]
    for field, (found, (low, high)) in enumerate(zip(record, session.MARKED)):
        if not within(found, low, high):
            place = (days.index(record[0]) + 1, *COLUMNS[field][:2]) if field < len(COLUMNS) else ()
            return rowwords.of_field(record[0], field, found, low, high, place)
    return ""


def of_value(rows, first, count, tai):
    if not within(first, *bulletin.DAY_RANGE):
        return rowwords.of_range("first day", first, *bulletin.DAY_RANGE)
    if not within(count, bulletin.FEWEST, bulletin.MOST):
        return rowwords.of_range("number of days", count, bulletin.FEWEST, bulletin.MOST)
    if len(tai) != count:
        return rowwords.of_values(len(tai), count)
    records = bulletin.records_of(bulletin.taken_rows(rows, first, count), tai)
    return next(filter(None, (of_record(rows, record) for record in records)))


def reason(number, rows, first, count, tai):
    if number == 1:
        return rowwords.OVER_LONG
    split = bulletin.rows_of(rows)
    if number == 10:
        return of_row(split, first, count)
    return of_lacking(split, first, count) if number == 11 else of_value(split, first, count, tai)


def printed(count, numbers):
    """The records, a line each."""
    return text(map(line, session.rows(numbers, bulletin.WIDTH)[:count]))


def outcome(run):
    """Standard output, standard error and the status that it tells, where nothing is lost."""
    wrong = wrong_word(run.words)
    if wrong or len(run.words) < 2:
        return (b"", text([rowwords.of_use(wrong)]), 2)
    first, count, *tai = map(int, run.words)
    rows = run.rows[:READ_AT_MOST]
    number, *numbers = bulletin.days_from_rows(rows, first, count, tai)
    if number:
        said = rowwords.of_refusal(number, reason(number, rows, first, count, tai))
        return (text(["refused %d" % number]), text([said]), 1)
    return (printed(count, numbers), b"", 0)
