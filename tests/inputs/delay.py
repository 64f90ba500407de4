"""Questions on orientation, delays and samples of each session file."""

import random

from reference import earth, session
from reference.selftest import small_session

from . import generate
from .questions import DELAY, ORIENTATION, SAMPLES, Question
from .session import lent


def some_epoch(numbers, days):
    """Mostly a day of the file, at times its last, a day out of the file, or one out of range."""
    outside = (days[0][0] - 1, days[-1][0] + 1, 41_316, 69_807, -(2**63))
    day = numbers.choice(days)[0] if numbers.random() < 0.8 else numbers.choice(outside)
    edges = (0, 43_200_000, 86_399_999, -1, 86_400_000, 2**63 - 1)
    ms = numbers.randrange(earth.DAY_MS) if numbers.random() < 0.7 else numbers.choice(edges)
    return (day, ms)


def some_name(numbers, records):
    """An id of the records; now and then another, or none."""
    others = (0, 1, 65_535, 65_536, -1, 2**63 - 1)
    return numbers.choice(records)[0] if numbers.random() < 0.93 else numbers.choice(others)


def of_lists(numbers, lists):
    """What a sound file's records suggest: call, arguments and room."""
    stations, sources, days, passes = lists
    for _ in range(3):
        yield (ORIENTATION, some_epoch(numbers, days), 0)
    for _ in range(4):
        names = [some_name(numbers, stations), some_name(numbers, stations), some_name(numbers, sources)]
        yield (DELAY, (*names, *some_epoch(numbers, days)), 0)
    for index, planned in list(enumerate(passes))[:12]:
        samples = planned[6]
        yield (SAMPLES, (index,), numbers.choice((samples, samples, samples + 3, samples - 1)))
    yield (SAMPLES, (numbers.choice((len(passes), -1)),), 2)


# An argument out of range is 2, which is lower than a file's 3 or 4 and higher than its 1.
OF_A_REFUSED_FILE = [
    (ORIENTATION, (51_544, 0), 0),
    (ORIENTATION, (51_544, -1), 0),
    (DELAY, (1, 1, 1, 51_544, 0), 0),
    (DELAY, (0, 1, 1, 51_544, 0), 0),
    (SAMPLES, (0,), 2),
]

# Of the file of one station in selftest.py: noon, the last day, a time that is none; its own delay, a station that is
# not there; rooms.
OF_THE_SMALL_FILE = [
    (ORIENTATION, (51_544, 43_200_000), 0),
    (ORIENTATION, (51_545, 0), 0),
    (ORIENTATION, (51_544, 86_400_000), 0),
    (DELAY, (1, 1, 1, 51_544, 0), 0),
    (DELAY, (1, 2, 1, 51_544, 0), 0),
    (SAMPLES, (0,), 5),
    (SAMPLES, (0,), 2),
    (SAMPLES, (1,), 2),
]


def asked(cases, file):
    return [Question(what, *given, room=room, lent=file) for what, given, room in cases]


def of_file(numbers, file):
    if session.refusal(file):
        return asked(OF_A_REFUSED_FILE, file)
    return asked(of_lists(numbers, session.sections_of(file)), file)


def questions(seed=5_105):
    numbers = random.Random(seed)
    of_files = [question for file in generate.files() for question in of_file(numbers, lent(file))]
    return asked(OF_THE_SMALL_FILE, small_session()) + of_files
