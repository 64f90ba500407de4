"""Wrong readers of rows: what is wrong, the module and the name that it stands in for, and what stands there instead."""

import re

from reference import bulletin, delay

from . import decimals
from .decimals import right


def moved(first, last):
    """The columns of a field with its ends moved, for each field: MJD, then x, y and UT1-UTC."""
    def other(place):
        return (place[0] + first, place[1] + last, *place[2:])

    yield ("MJD", other(bulletin.MJD))
    for i in range(3):
        yield ("VALUES", tuple(other(place) if i == j else place for j, place in enumerate(bulletin.VALUES)))


def in_order(order):
    """The numbers tested in another order."""

    def refusal(text, first, count, tai):
        rows = right.rows_of(text)
        taken = right.taken_rows(rows, first, count)
        whole = {day: row for day, row in taken.items() if None not in right.values_of(row)}
        tests = {
            1: lambda: bulletin.too_long(text),
            10: lambda: bulletin.misread(rows, taken),
            11: lambda: bulletin.missing(taken, count),
            2: lambda: right.wrong_request(first, count, tai) or any(map(right.out_of_range, right.records_of(whole, tai))),
        }
        return next((number for number in order if tests[number]()), 0)

    return refusal


def judged(chosen):
    """Values judged also in the rows that are chosen."""

    def refusal(text, first, count, tai):
        taken = right.taken_rows(right.rows_of(text), first, count)
        rows = chosen(right.rows_of(text), taken)
        wrong = not bulletin.too_long(text) and any(None in right.values_of(row) for row in rows)
        return 10 if wrong else right.refusal(text, first, count, tai)

    return refusal


def of_asked(rows, taken):
    return [row for row in rows if right.day_of(row) in taken]


def days_unread(rows, taken):
    """A row that has no day is passed over."""
    return any(None in right.values_of(row) for row in taken.values())


def ended_early(rows, taken):
    """Rows behind the last one that is taken are not judged."""
    places = [i for i, row in enumerate(rows) if any(row is each for each in taken.values())]
    return right.misread(rows[:max(places, default=len(rows)) + 1], taken)


def wrapping(bits):
    """The end of the days wraps."""

    def taken_rows(rows, first, count):
        end = (first + count + 2 ** (bits - 1)) % 2**bits - 2 ** (bits - 1)
        return right.taken_rows(rows, first, end - first)

    return taken_rows


def last_taken(rows, first, count):
    return right.taken_rows(rows[::-1], first, count)


def sound_taken(rows, first, count):
    """A misprinted row is passed over where another of its day is sound."""
    sound = [row for row in rows if None not in right.values_of(row)]
    return right.taken_rows(sound + rows, first, count)


def sorted_taken(rows, first, count):
    """Only rows up to the first one whose day is past what is asked for."""
    days = [right.day_of(row) for row in rows]
    past = [i for i, day in enumerate(days) if day is not None and day >= first + count]
    return right.taken_rows(rows[:min(past, default=len(rows))], first, count)


def one_more_day(rows, first, count):
    return right.taken_rows(rows, first, count + 1)


def records_in_row_order(taken, tai):
    return [(day, *right.values_of(row), seconds, 1) for (day, row), seconds in zip(taken.items(), tai)]


def first_tai(taken, tai):
    return [(*record[:4], tai[0], record[5]) for record in right.records_of(taken, tai)]


def swapped(taken, tai):
    return [(day, y, x, *others) for day, x, y, *others in right.records_of(taken, tai)]


def marked(mark):
    """Records with another mark."""
    return lambda taken, tai: [(*record[:5], mark(record)) for record in right.records_of(taken, tai)]


def less_tide(taken, tai):
    """UT1R in the records, marked 0."""
    return [(*day[:3], delay.ut1r_of(day), day[4], 0) for day in right.records_of(taken, tai)]


def request_with(counts=range(2, 65), days=range(41_317, 69_807), listed=lambda numbers, count: numbers == count):
    """What is asked for judged by other ranges, or by another rule for how many TAI-UTC there are."""
    return lambda first, count, tai: not (count in counts and first in days and listed(len(tai), count))


def unjudged(place):
    """A field of the records whose range is not tested."""
    return lambda record: right.out_of_range((*record[:place], max(0, bulletin.MARKED[place][0]), *record[place + 1:]))


def at_an_end(record):
    return right.out_of_range(record) or any(abs(value) in (10**6, 9 * 10**8) for value in record[1:4])


def none_asked(text, first, count, tai):
    """No day asked for is an answer without records."""
    number = right.refusal(text, first, count, tai)
    return 0 if number == 2 and count == 0 else number


def kept_where_refused(text, first, count, tai):
    number, *numbers = right.days_from_rows(text, first, count, tai)
    return (number, first if number == 2 else numbers[0], *numbers[1:])


def last_repeated(text, first, count, tai):
    number, *numbers = right.days_from_rows(text, first, count, tai)
    end = 6 * count
    return (number, *(numbers[:end] + numbers[end - 6:end] + numbers[end:] if number == 0 else numbers)[:384])


def marks_behind(text, first, count, tai):
    """The mark 1 also where there is no record."""
    number, *numbers = right.days_from_rows(text, first, count, tai)
    return (number, *(1 if number == 0 and i % 6 == 5 else each for i, each in enumerate(numbers)))


def without_marks(text, first, count, tai):
    """Five numbers a record."""
    number, *numbers = right.days_from_rows(text, first, count, tai)
    left = [each for i, each in enumerate(numbers) if i % 6 < 5]
    return (number, *left, *[0] * (len(numbers) - len(left)))


FIELDS = ("MJD", "x", "y", "UT1-UTC")
ENDS = {"a column on": (1, 1), "a column before": (-1, -1), "a column narrower": (1, 0), "a column wider": (-1, 0)}
UNITS = {"UT1-UTC in microseconds": 1, "UT1-UTC in units of 10 ns": 10, "UT1-UTC in ps": 100_000}

ROWS = {
    "bytes behind the last line feed taken for a row": lambda text: right.rows_of(text.removesuffix(b"\n") + b"\n"),
    "an empty row behind the last line feed": lambda text: right.rows_of(text + b"\n"),
    "the last row left out": lambda text: right.rows_of(text)[:-1],
    "empty rows passed over": lambda text: [row for row in right.rows_of(text) if row],
    "a CR ends a row": lambda text: right.rows_of(text.replace(b"\r\n", b"\n").replace(b"\r", b"\n")),
    "rows of 186 bytes": lambda text: [text[i:i + 185] for i in range(0, len(text), 186)],
    "rows end at 185 columns at most": lambda text: right.rows_of(re.sub(rb"([^\n]{185})(?=[^\n])", rb"\1\n", text)),
    "a NUL ends the text": lambda text: right.rows_of(text.split(b"\0")[0]),
    "more than 352 rows left out": lambda text: right.rows_of(text)[:352],
}

TAKEN = {
    "the last row of a day taken": last_taken,
    "the first sound row of a day taken": sound_taken,
    "rows behind a later day not read": sorted_taken,
    "a day too many asked for": one_more_day,
    "the end of the days wraps at 64 bits": wrapping(64),
    "the end of the days wraps at 32 bits": wrapping(32),
}

REFUSALS = {
    "2 before 11": in_order((1, 10, 2, 11)),
    "11 before 10": in_order((1, 11, 10, 2)),
    "the lowest number": in_order((1, 2, 10, 11)),
    "10 before 1": in_order((10, 1, 11, 2)),
    "11 before 1": in_order((11, 1, 10, 2)),
    "2 before 1": in_order((2, 1, 10, 11)),
    "1 not given": in_order((10, 11, 2)),
    "11 not given": in_order((1, 10, 2)),
    "values of all rows judged": judged(lambda rows, taken: rows),
    "values of all rows of the days asked for judged": judged(of_asked),
    "no day asked for answered": none_asked,
}

RECORDS = {
    "records in the order of the rows": records_in_row_order,
    "the first TAI-UTC for all": first_tai,
    "x and y swapped": swapped,
    "the mark 0 given": marked(lambda record: 0),
    "the mark 1 given where UT1-UTC is not 0": marked(lambda record: min(1, abs(record[3]))),
    "the mark 0 given of each second day": marked(lambda record: record[0] % 2),
    "UT1R given": less_tide,
}

REQUESTS = {
    "one day taken": request_with(counts=range(1, 65)),
    "65 days taken": request_with(counts=range(2, 66)),
    "64 days refused": request_with(counts=range(2, 64)),
    "two days refused": request_with(counts=range(3, 65)),
    "the first of the range refused": request_with(days=range(41_318, 69_807)),
    "the last days of the range refused": request_with(days=range(41_317, 69_743)),
    "further TAI-UTC passed over": request_with(listed=lambda numbers, count: numbers >= count),
    "fewer TAI-UTC taken": request_with(listed=lambda numbers, count: numbers <= count),
}

RANGES = {
    "the last day's range not tested": unjudged(0),
    **{"the range of %s not tested" % field: unjudged(place) for place, field in enumerate((*FIELDS, "TAI-UTC")) if place},
    "the ends of the ranges refused": at_an_end,
}

WRONG = (
    *(
        ("%s read %s" % (field, name), bulletin, *change)
        for name, ends in ENDS.items() for field, change in zip(FIELDS, moved(*ends))
    ),
    *((name, bulletin, "VALUES", (*bulletin.VALUES[:2], (59, 68, 7, unit))) for name, unit in UNITS.items()),
    *decimals.WRONG,
    *((name, bulletin, "rows_of", instead) for name, instead in ROWS.items()),
    *((name, bulletin, "taken_rows", instead) for name, instead in TAKEN.items()),
    *((name, bulletin, "refusal", instead) for name, instead in REFUSALS.items()),
    *((name, bulletin, "records_of", instead) for name, instead in RECORDS.items()),
    *((name, bulletin, "wrong_request", instead) for name, instead in REQUESTS.items()),
    *((name, bulletin, "out_of_range", instead) for name, instead in RANGES.items()),
    ("a row without a day passed over", bulletin, "misread", days_unread),
    ("rows behind the last that is taken not judged", bulletin, "misread", ended_early),
    ("11 only where no day is there", bulletin, "missing", lambda taken, count: count > 0 and not taken),
    ("a text of 65,536 bytes refused", bulletin, "LONGEST_TEXT", 65_535),
    ("a text of 65,537 bytes taken", bulletin, "LONGEST_TEXT", 65_537),
    ("numbers kept where refused", bulletin, "days_from_rows", kept_where_refused),
    ("the last record twice", bulletin, "days_from_rows", last_repeated),
    ("marks behind the last record", bulletin, "days_from_rows", marks_behind),
    ("five numbers a record", bulletin, "days_from_rows", without_marks),
)
