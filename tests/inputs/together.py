"""Questions on the tracks of all passes together: passes that fit and that are refused, in rooms about what they need."""

import random
from itertools import product

from reference import session
from reference.earth import DAY_MS

from . import chosen, generate
from .questions import ALL_TRACKS, MOST_ROOM, Question
from .session import lent
from .sharing import most_segments, passes_alone

# Of two segments at most: one, and two; then of a station that is not there, and past the last day.
CALM, ROUGH = (10, 20, 1, 60_000, 0, 1_000, 3, 1_000_000), (20, 10, 2, 60_000, 0, 3_600_000, 3, 0)
NAMELESS, LATE = (10, 30, 1, 60_000, 0, 1_000, 3, 0), (20, 10, 2, 60_001, DAY_MS - 1, 1, 2, 0)
LONG = (10, 10, 1, 60_000, 0, 1, 1_025, 0)
NOISY = (10, 20, 1, 60_000, 0, 1, 4_096, 0)

# Step, most samples and tolerance of passes that take few segments or many.
SORTS = ((1_000, 30, 1_000_000), (10_000, 40, 1_000), (3_600_000, 9, 0), (1, 20, 0))
FEW_SAMPLES = 400


def question(file, room):
    return Question(ALL_TRACKS, room=min(room, MOST_ROOM[ALL_TRACKS]), lent=file)


def rows():
    """Each row of one to three passes of four kinds, in every room that it can need, and in one a number short of that."""
    for count in (1, 2, 3):
        for passes in product((CALM, ROUGH, NAMELESS, LATE), repeat=count):
            file = chosen.two_stations(passes=passes)
            for segments in range(most_segments(*passes) + 1):
                yield from (question(file, room) for room in (4 * segments, 4 * segments + 3))


def rooms(file):
    """No room; that of the first pass, of all, and of as many segments as there can be, and some more or less."""
    _, needed, most = ([4 * number for number in column] for column in zip(*passes_alone(file)))
    need, ample = sum(needed), sum(most)
    rooms = {0, needed[0], need - 4, need - 1, need, need + 2, ample - 4, ample - 1, ample, ample + 5}
    return sorted(room for room in rooms if room >= 0)


def in_rooms(*passes):
    file = chosen.two_stations(passes=passes)
    return [question(file, room) for room in rooms(file)]


def long_passes():
    """Segments that end at 1,024 samples, and as many segments as a room holds."""
    return [*in_rooms(LONG, CALM, LONG), *in_rooms(ROUGH, NOISY), *in_rooms(CALM, *[LONG] * 3, LATE)]


def some_pass(numbers, longest):
    step, most, tolerance = numbers.choice(SORTS)
    names = numbers.choice(((10, 20, 1), (20, 10, 2), (10, 10, 2)))
    return (*names, 60_000, numbers.randrange(DAY_MS), step, numbers.randint(1, min(most, longest)), tolerance)


def some_passes(numbers, count, longest):
    """Passes of which none, one or two are refused."""
    passes = [some_pass(numbers, longest) for _ in range(count)]
    for _ in range(numbers.choice((0, 0, 0, 1, 2))):
        passes[numbers.randrange(count)] = numbers.choice((NAMELESS, LATE))
    return passes


def seeded(numbers, each):
    """One to some passes of up to 40 samples, and as many passes as there can be, of up to 3."""
    for count, longest in ((1, 40), (2, 40), (4, 40), (9, 20), (64, 3)):
        for _ in range(each):
            yield from numbers.sample(in_rooms(*some_passes(numbers, count, longest)), 3)


def short_files():
    """Each session file and its passes, none of a refused one; files of many samples are left out."""
    for file in map(lent, generate.files()):
        passes = [] if session.refusal(file) else session.sections_of(file)[3]
        if sum(planned[6] for planned in passes) <= FEW_SAMPLES:
            yield (file, passes)


def of_files(numbers):
    """Session files in all the room that they can need, and in a part of it."""
    for file, passes in short_files():
        ample = 4 * most_segments(*passes)
        yield from (question(file, room) for room in (ample + numbers.randrange(9), numbers.randint(0, ample)))


def questions(seed=7_202):
    numbers = random.Random(seed)
    return [*rows(), *long_passes(), *seeded(numbers, 24), *of_files(numbers)]
