"""Seeded session files that the check accepts, as four lists of records.

Passes of them may be refused: some name an id that is not there, some reach an epoch that the orientation days do not cover.
An orientation record has the numbers that it has in the file: six in kind 5, the mark last, and five in kind 3.
"""

import random
from bisect import bisect_left
from itertools import cycle

from reference.delay import orientation_of
from reference.earth import DAY_MS
from reference.session import MARKED, encode, layouts_with
from reference.sine import TURN, cosine

from . import leapseconds

GREATEST_LENGTH = 6_400_000_000
GREATEST_POLE = 1_000_000
QUARTER = 2**30


def kind_of(lists):
    """The kind of a session's days: 5 where they have marks."""
    return 5 if len(lists[2][0]) == len(MARKED) else 3


def layouts(lists):
    """Kind, ranges and limits of the count of each list."""
    return layouts_with(kind_of(lists))


def file_of(lists):
    return encode(lists, kind_of(lists))


def some_ids(numbers, count):
    return sorted(numbers.sample(range(1, 65_536), count))


def some_length(numbers):
    """A coordinate: anywhere, at an end of the range, or 0."""
    edge = numbers.choice((-GREATEST_LENGTH, 0, GREATEST_LENGTH))
    return edge if numbers.random() < 0.15 else numbers.randint(-GREATEST_LENGTH, GREATEST_LENGTH)


def some_stations(numbers, count):
    return [(name, *(some_length(numbers) for _ in range(3))) for name in some_ids(numbers, count)]


def some_sources(numbers, count):
    def declination():
        edge = numbers.choice((-QUARTER, 0, QUARTER, -1))
        return edge if numbers.random() < 0.15 else numbers.randint(-QUARTER, QUARTER)

    return [(name, numbers.randrange(2**32), declination()) for name in some_ids(numbers, count)]


def wild_day(numbers):
    """Pole and UT1-UTC anywhere, or at the ends of their ranges; TAI-UTC anywhere."""
    pole = [numbers.choice((-GREATEST_POLE, GREATEST_POLE, numbers.randint(-GREATEST_POLE, GREATEST_POLE))) for _ in range(2)]
    ut1 = numbers.choice((-900_000_000, 900_000_000, 0, numbers.randint(-900_000_000, 900_000_000)))
    return (*pole, ut1, numbers.randint(0, 99))


def calm_days(numbers, count):
    """Values that move as the Earth's do, with a leap second at times."""
    x, y, ut1, tai = 130_000, 330_000, numbers.randint(-300_000_000, 300_000_000), numbers.randint(10, 37)
    days = []
    for _ in range(count):
        days.append((x, y, ut1, tai))
        x, y, ut1 = x + numbers.randint(-2_500, 2_500), y + numbers.randint(-2_500, 2_500), ut1 - numbers.randint(0, 2_500_000)
        if numbers.random() < 0.05:
            ut1, tai = ut1 + 1_000_000_000, tai + 1
        if not -900_000_000 <= ut1 <= 900_000_000:
            ut1 = 0
    return days


def some_days(numbers, count):
    """Consecutive days, two in five of them before 51,544, now and then at an end of the range."""
    low, high = numbers.choice(((41_317, 51_540), (41_317, 51_540), (51_540, 51_544), (51_545, 69_700), (51_545, 69_700)))
    first = numbers.choice((41_317, 69_807 - count)) if numbers.random() < 0.08 else numbers.randint(low, high)
    values = calm_days(numbers, count) if numbers.random() < 0.5 else [wild_day(numbers) for _ in range(count)]
    return [(first + i, *value) for i, value in enumerate(values)]


def marked(days, marks):
    """The days with marks, which are taken in turn."""
    return [(*day[:5], mark) for day, mark in zip(days, cycle(marks))]


def unmarked(days):
    return [day[:5] for day in days]


def some_marks(numbers, count):
    """All 0, all 1, or mixed."""
    marks = numbers.choice(((0,), (1,), (0, 1), (0, 1), (0, 1)))
    return [numbers.choice(marks) for _ in range(count)]


def with_marks(numbers, lists):
    """The session with its days in kind 5."""
    stations, sources, days, passes = lists
    return (stations, sources, marked(days, some_marks(numbers, len(days))), passes)


def some_name(numbers, records):
    """An id of the records; now and then any id."""
    return numbers.randint(1, 65_535) if numbers.random() < 0.03 else numbers.choice(records)[0]


def two_names(numbers, stations):
    """The stations of a pass: mostly two that differ."""
    names = [some_name(numbers, stations) for _ in range(2)]
    if names[0] == names[1] and len(stations) > 1 and numbers.random() < 0.9:
        names = [station[0] for station in numbers.sample(stations, 2)]
    return names


def some_start(numbers, days):
    """The epoch of a pass: mostly early enough, near midnight, or on, before or after the last day."""
    first, last = days[0][0], days[-1][0]
    ms = numbers.choice((0, DAY_MS // 2, DAY_MS - 1, numbers.randint(DAY_MS - 600_000, DAY_MS - 1), numbers.randrange(DAY_MS)))
    late = numbers.choice((last, last, first - 1, last + 1)) if numbers.random() < 0.06 else numbers.randint(first, last - 1)
    return (min(max(late, 41_317), 69_806), ms)


def some_step_and_count(numbers):
    """Step and samples: mostly few samples, at times an hour a step or many samples."""
    step = numbers.choice((1, 20, 1_000, 1_000, 10_000, 30_000, 60_000, 600_000, 3_600_000, numbers.randint(1, 3_600_000)))
    count = numbers.choice((1, 2, 3, numbers.randint(4, 25), numbers.randint(20, 80)))
    return (step, count)


def some_pass(numbers, lists):
    stations, sources, days = lists
    day, ms = some_start(numbers, days)
    tolerance = numbers.choice((0, 1, 5, 30, 1_000, 50_000, 1_000_000))
    names = [*two_names(numbers, stations), some_name(numbers, sources)]
    return (*names, day, ms, *some_step_and_count(numbers), tolerance)


def some_session(numbers):
    """A session of a few records of each kind."""
    lists = (
        some_stations(numbers, numbers.choice((1, 2, 2, 3, 3, 5))),
        some_sources(numbers, numbers.randint(1, 5)),
        some_days(numbers, numbers.choice((2, 2, 3, 4, 6))),
    )
    return (*lists, [some_pass(numbers, lists) for _ in range(numbers.randint(1, 4))])


def full_session(numbers):
    """As many records of each kind as a file can hold, in passes of one or two samples."""
    days = [(50_000 + i, *wild_day(numbers)) for i in range(64)]
    lists = (some_stations(numbers, 64), some_sources(numbers, 256), days)
    passes = [some_pass(numbers, lists) for _ in range(64)]
    return (*lists, [planned[:6] + (numbers.randint(1, 2),) + planned[7:] for planned in passes])


def pass_of(lists, ms, step, samples, tolerance):
    """The pass of the first and the last station from the first day on."""
    stations, sources, days = lists
    return (stations[0][0], stations[-1][0], sources[0][0], days[0][0], ms, step, samples, tolerance)


def long_session(numbers, step, samples):
    """One pass of many samples."""
    reach = 2 + (DAY_MS // 2 + (samples - 1) * step) // DAY_MS
    lists = (some_stations(numbers, 2), some_sources(numbers, 1), some_days(numbers, min(64, reach)))
    return (*lists, [pass_of(lists, DAY_MS // 2, step, samples, numbers.choice((0, 2, 40)))])


def hour_session(numbers, samples):
    """64 days, and a pass of an hour a step: 1,512 samples are covered, one more is not."""
    lists = (some_stations(numbers, 2), some_sources(numbers, 1), some_days(numbers, 64))
    return (*lists, [pass_of(lists, 0, 3_600_000, samples, 1_000_000)])


def last_day_session(numbers, ms, samples):
    """Two days, and a pass a second a step that starts near the end of the first."""
    lists = (some_stations(numbers, 2), some_sources(numbers, 2), some_days(numbers, 2))
    return (*lists, [pass_of(lists, ms, 1_000, samples, 3), pass_of(lists, 0, 1, 1, 0)])


def leap_session(numbers, days):
    """On each day but the last a sample at noon and one at its last millisecond; on each but two a pass over the midnight behind it."""
    names = [1, 2, 1]
    alone = [(*names, day[0], ms, 1, 1, 0) for day in days[:-1] for ms in (DAY_MS // 2, DAY_MS - 1)]
    nights = [(*names, day[0], DAY_MS - 10_000, 1_000, 20, 5) for day in days[:-2]]
    stations = [(i + 1, *station[1:]) for i, station in enumerate(some_stations(numbers, 2))]
    return (stations, [(1, *some_sources(numbers, 1)[0][1:])], days, alone + nights)


def widest_leaps():
    """TAI-UTC goes from one end of its range to the other each day, and UT1-UTC the other way."""
    return [(55_000 + i, 0, 0, -900_000_000 if i % 2 else 900_000_000, 99 * (i % 2)) for i in range(12)]


def minute_leaps(seconds):
    """TAI-UTC rises by a second, and falls, where that moves 0h UTC into another minute of TT."""
    return [(49_160 + i, 1_000 * i, -1_000 * i, 10**9 * (i % 2) - 500_000_000, seconds + i % 2) for i in range(16)]


def leaps_unmarked():
    return [widest_leaps(), *(unmarked(leapseconds.as_filed(days)) for days in leapseconds.published())]


def leaps_marked():
    """With each two marks over a step of either sign; as published; as published and as filed in turn."""
    for days in (widest_leaps(), minute_leaps(27), minute_leaps(87)):
        yield from (marked(days, marks) for marks in ((0, 0, 1, 1), (0, 1, 1, 0)))
    for published in leapseconds.published():
        yield published
        yield [pair[i % 2] for i, pair in enumerate(zip(published, leapseconds.as_filed(published)))]


def beyond_session(numbers, sign):
    """UT1-UTC so near to an end of its range that the tide can take UT1R beyond it."""
    first, tai = numbers.randint(41_317, 69_800), numbers.choice((10, 27, 37, 87))
    values = [900_000_000 - numbers.choice((0, 0, 1, numbers.randint(0, 2_000_000))) for _ in range(6)]
    days = [(first + i, 1_000 * i, 0, sign * value, tai + numbers.randrange(2)) for i, value in enumerate(values)]
    return leap_session(numbers, marked(days, [numbers.choice((0, 1, 1, 1)) for _ in days]))


def tick_of_few_bits():
    """A tick whose cosine is an odd multiple of 2^29, or else of 2^28, and so on; and 2^29 by that power."""
    for scale in (1, 2, 4, 8):
        for wanted in range(QUARTER // (2 * scale), QUARTER, QUARTER // scale):
            tick = bisect_left(range(QUARTER), -wanted, key=lambda tick: -cosine(tick))
            if cosine(tick) == wanted:
                return (tick, scale)
    raise ValueError("no tick has such a cosine")


def halves_session(numbers):
    """Baselines along one axis, each seen where the cosine makes the projection lie midway between two millimetres."""
    days = [(60_000, 0, 0, numbers.randint(-(10**8), 10**8), 37), (60_001, 0, 0, 0, 37)]
    *_, angle = orientation_of(*marked(days, (0,)), 0)
    tick, scale = tick_of_few_bits()
    odd_lengths = (7, -5, 2_000_001, -(GREATEST_LENGTH // scale - 1))
    stations = [(1, 0, 0, 0), *((2 + i, scale * length, 0, 0) for i, length in enumerate(odd_lengths))]
    sources = [(1, (angle - tick) % TURN, 0), (2, (angle + tick) % TURN, tick)]
    pairs = ((1, 2), (2, 1), (1, 3), (4, 1), (1, 4), (5, 1))
    passes = [(one, two, source, 60_000, 0, 1, 1, 0) for one, two in pairs for source in (1, 2)]
    return (stations, sources, days, passes)


def zero_session():
    """Zero is a value: a station at 0, 0, 0 and days of zeros."""
    days = [(41_317, 0, 0, 0, 0), (41_318, 0, 0, 0, 0)]
    return ([(1, 0, 0, 0)], [(1, 0, 0)], days, [(1, 1, 1, 41_317, 0, 1, 1, 0)])


def third_marked(sessions, seed=5_105):
    """Each third session with marks, of numbers of its own: the others stay what they are without them."""
    marks = random.Random(seed)
    return [with_marks(marks, lists) if i % 3 == 2 else lists for i, lists in enumerate(sessions)]


def sessions(numbers, count):
    """All sound sessions: the chosen ones, then `count` seeded ones, then those over leap seconds."""
    return [
        zero_session(),
        halves_session(numbers),
        *(long_session(numbers, step, 4_096) for step in (1, 1_000, 1_000, 7_919, 20_000, 60_000)),
        *(long_session(numbers, step, 1_030) for step in (10, 1_000, 30_000)),
        hour_session(numbers, 1_512),
        hour_session(numbers, 1_513),
        hour_session(numbers, 4_096),
        *(last_day_session(numbers, DAY_MS - 10_000, samples) for samples in (9, 10, 11)),
        *third_marked([some_session(numbers) for _ in range(count)]),
        *(leap_session(numbers, days) for days in (*leaps_unmarked(), *leaps_marked())),
        *(beyond_session(numbers, sign) for sign in (1, -1) for _ in range(6)),
    ]
