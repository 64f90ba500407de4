"""Questions on the track of a single pass: unlike the first pass in one part, refused, of many lengths, and in session files."""

import random
from itertools import product

from reference.earth import DAY_MS

from . import chosen
from .questions import PASS_TRACK, Question
from .session import FAR_INDEXES
from .sharing import most_segments, passes_alone
from .sound import marked
from .together import short_files

# Each of the others has one part unlike the first: stations, source, start, step, samples, tolerance.
FIRST = (10, 20, 1, 60_000, 0, 1_000, 40, 100)
UNLIKE = (
    (20, 10, 1, 60_000, 0, 1_000, 40, 100),
    (10, 20, 2, 60_000, 0, 1_000, 40, 100),
    (10, 20, 1, 60_001, 30_000_000, 1_000, 40, 100),
    (10, 20, 1, 60_000, 0, 2_000, 40, 100),
    (10, 20, 1, 60_000, 0, 1_000, 39, 100),
    (10, 20, 1, 60_000, 0, 1_000, 40, 10),
)

# Names of which one is not there, and names that are; day, millisecond and step that leave the days, and that do not.
NAMES = ((30, 20, 1), (10, 30, 1), (10, 20, 3), (10, 20, 1))
TIMES = ((59_999, 0, 1_000), (60_001, DAY_MS - 1, 1), (60_002, 0, 1_000), (69_806, 0, 1_000), (60_000, 0, 1_000))

# About those at which a program may take another buffer.
LENGTHS = (1, 2, 255, 256, 257, 511, 512, 513, 2_047, 2_048, 2_049, 4_095, 4_096)

# The first two are 0 in fewer bits.
FAR = (64, 2**32, *FAR_INDEXES)
PASSES_OF_A_FILE = 4


def question(file, index, room):
    return Question(PASS_TRACK, index, room=room, lent=file)


def in_rooms(file, index):
    """No room, a segment short, a number short, just enough, and a part of a segment more."""
    need = 4 * passes_alone(file)[index][1]
    rooms = {max(0, room) for room in (0, need - 4, need - 1, need, need + 2)}
    return [question(file, index, room) for room in sorted(rooms)]


def unlike_the_first():
    for days in (chosen.THREE_DAYS, marked(chosen.THREE_DAYS, (1, 0, 1))):
        file = chosen.two_stations(days=days, passes=[FIRST, *UNLIKE])
        yield from (asked for index in range(1 + len(UNLIKE)) for asked in in_rooms(file, index))
        yield from (question(file, index, 40) for index in FAR)


def refused():
    """Passes that lack a name, a day, or both, in room for no segment and for some; and the index behind the last."""
    passes = [(*names, *time, 3, 0) for names, time in product(NAMES, TIMES)]
    file = chosen.two_stations(passes=passes)
    return [question(file, index, room) for index in range(len(passes) + 1) for room in (0, 1, 3, 4, 9)]


def of_each_length():
    """Behind a pass of another length."""
    for samples in LENGTHS:
        for planned in ((10, 20, 1, 60_000, 0, 1_000, samples, 100), (20, 10, 2, 60_000, 0, 100, samples, 10)):
            yield from in_rooms(chosen.two_stations(passes=[FIRST, planned]), 1)


def of_files(numbers):
    """Some passes in any room up to what they can need; the index behind the last, 0 of a refused file; and one far out."""
    for file, passes in short_files():
        some = numbers.sample(range(len(passes)), min(len(passes), PASSES_OF_A_FILE))
        yield from (question(file, index, numbers.randint(0, 4 * most_segments(passes[index]) + 3)) for index in some)
        yield from (question(file, index, numbers.choice((0, 3, 4))) for index in (len(passes), numbers.choice(FAR)))


def questions(seed=7_606):
    return [*unlike_the_first(), *refused(), *of_each_length(), *of_files(random.Random(seed))]
