"""Wrong rules of marks: what is wrong, the module and the function that it stands in for, and the wrong function."""

from reference import delay, earth

RIGHT, RIGHT_VALUES, RIGHT_ORIENTATION, RIGHT_DAYS = delay.ut1r_of, delay.day_values_of, delay.orientation_of, delay.two_days
GREATEST_UT1 = 900_000_000


def tide_of(record, tide_used, ms=0):
    return tide_used(earth.minutes(record[0], ms, record[4]))


def marked_as(record, mark):
    return (*record[:5], mark)


def by_tai_of(other, record, tide_used):
    """The record's UT1R, worked out with the TAI-UTC of another."""
    return RIGHT((*record[:4], other[4], record[5]), tide_used)


def of_pair(ends):
    """The line drawn between two values that a rule makes of both records, the millisecond and the tide."""

    def day_values_of(today, tomorrow, ms, tide_used):
        x, y, _ = RIGHT_VALUES(today, tomorrow, ms, tide_used)
        one, other = ends(today, tomorrow, ms, tide_used)
        return (x, y, delay.line(one, other - delay.leap_of(today, tomorrow), ms))

    return day_values_of


def tide_of_the_epoch(today, tomorrow, ms, tide_used):
    """What is taken away is the tide of the epoch, which is then added again."""
    tide = tide_of(today, tide_used, ms)
    return [record[3] - tide if record[5] else record[3] for record in (today, tomorrow)]


def less_tide_of(other, record, tide_used):
    return record[3] - tide_of(other, tide_used) if record[5] else record[3]


def tide_of_the_other(today, tomorrow, ms, tide_used):
    return [less_tide_of(tomorrow, today, tide_used), less_tide_of(today, tomorrow, tide_used)]


def tide_of_the_first(today, tomorrow, ms, tide_used):
    return [less_tide_of(today, record, tide_used) for record in (today, tomorrow)]


def tide_of_the_next(today, tomorrow, ms, tide_used):
    return [less_tide_of(tomorrow, record, tide_used) for record in (today, tomorrow)]


def same_mark(place):
    """One record's mark holds for both."""
    return lambda *given: [RIGHT(marked_as(record, given[place][5]), given[3]) for record in given[:2]]


def other_mark(today, tomorrow, ms, tide_used):
    return [RIGHT(marked_as(today, tomorrow[5]), tide_used), RIGHT(marked_as(tomorrow, today[5]), tide_used)]


def tai_of_the_first(today, tomorrow, ms, tide_used):
    return [by_tai_of(today, record, tide_used) for record in (today, tomorrow)]


def tai_of_the_next(today, tomorrow, ms, tide_used):
    return [by_tai_of(tomorrow, record, tide_used) for record in (today, tomorrow)]


def first_alone(today, tomorrow, ms, tide_used):
    return [RIGHT(today, tide_used), tomorrow[3]]


def next_alone(today, tomorrow, ms, tide_used):
    return [today[3], RIGHT(tomorrow, tide_used)]


def times(count):
    """The tide taken away so often."""
    return lambda record, tide_used=earth.tide_at: record[3] - (count * tide_of(record, tide_used) if record[5] else 0)


def at_ms(ms):
    """The tide at another millisecond of the record's day."""
    return lambda record, tide_used=earth.tide_at: record[3] - (tide_of(record, tide_used, ms) if record[5] else 0)


def cut_off(record, tide_used=earth.tide_at):
    """What is left is kept within the range of a file's UT1-UTC."""
    return max(-GREATEST_UT1, min(GREATEST_UT1, RIGHT(record, tide_used)))


def full_ut1(today, tomorrow, ms, tide_used=earth.tide_at):
    """Full UT1 is interpolated as it is, and no tide added, where both records have it."""
    if today[5] and tomorrow[5]:
        return RIGHT_ORIENTATION(marked_as(today, 0), marked_as(tomorrow, 0), ms, lambda n: 0)
    return RIGHT_ORIENTATION(today, tomorrow, ms, tide_used)


def marks_of_the_file(days, day):
    """The first record's mark holds for all."""
    pair = RIGHT_DAYS(days, day)
    return pair and tuple(marked_as(record, days[0][5]) for record in pair)


def beyond_uncovered(days, day):
    """Days whose UT1R is out of the range of UT1-UTC are taken for missing."""
    pair = RIGHT_DAYS(days, day)
    return None if pair is None or any(abs(RIGHT(record)) > GREATEST_UT1 for record in pair) else pair


RECORDS = {
    "the mark not read": lambda record, tide_used=earth.tide_at: record[3],
    "the tide taken away also where marked 0": lambda record, tide_used=earth.tide_at: RIGHT(marked_as(record, 1), tide_used),
    "0 and 1 exchanged": lambda record, tide_used=earth.tide_at: RIGHT(marked_as(record, 1 - record[5]), tide_used),
    "the tide taken away twice": times(2),
    "the tide added": times(-1),
    "the tide at noon taken away": at_ms(earth.DAY_MS // 2),
    "the tide at the end of the day taken away": at_ms(earth.DAY_MS),
    "UT1R cut off at 900,000,000": cut_off,
}

PAIRS = {
    "the tide of the epoch taken away": tide_of_the_epoch,
    "the tide of the other record taken away": tide_of_the_other,
    "the epoch's day's tide taken from both": tide_of_the_first,
    "the next day's tide taken from both": tide_of_the_next,
    "the tide by TAI-UTC of the epoch's day": tai_of_the_first,
    "the tide by TAI-UTC of the next day": tai_of_the_next,
    "the mark of the epoch's day for both": same_mark(0),
    "the mark of the next day for both": same_mark(1),
    "the marks of the two days exchanged": other_mark,
    "the mark of the next day not read": first_alone,
    "the mark of the epoch's day not read": next_alone,
}

WRONG = (
    *((name, delay, "ut1r_of", instead) for name, instead in RECORDS.items()),
    *((name, delay, "day_values_of", of_pair(ends)) for name, ends in PAIRS.items()),
    ("full UT1 interpolated, with no tide", delay, "orientation_of", full_ut1),
    ("the first day's mark for all days", delay, "two_days", marks_of_the_file),
    ("UT1R beyond 900,000,000 taken for missing", delay, "two_days", beyond_uncovered),
)
