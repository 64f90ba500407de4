"""Questions on tracks: document 01's, samples and rooms at their limits, long tracks, and seeded ones."""

import random

from reference import track

from .lent import questions as of_lent_tracks
from .questions import TRACK, Question, lent_numbers
from .samples import broken, rough, smooth, some_samples, some_tolerance

SMALL = [([0, 10, 20], 0), ([0, 0, 1], 0), ([0, 0, 1], 1), ([0, 10, 0], 5), ([0, 10, 0], 4)]
LONG = ([0] * 1_025, 0)
DOCUMENT = [*SMALL, LONG]


def question(samples, tolerance, room):
    return Question(TRACK, tolerance, room=room, lent=lent_numbers(samples))


def needed(samples, tolerance):
    """How many numbers a track takes."""
    return 4 * len(track.track_of(samples, tolerance))


def in_rooms(samples, tolerance, more=(0, -1, -4, 1, 2, 3, 8)):
    """In rooms that have so many numbers more than the track takes."""
    need = needed(samples, tolerance)
    return [question(samples, tolerance, need + each) for each in more]


def in_every_room():
    """Document 01's samples and those at the limits, in rooms of no segment, one and two, with numbers left over."""
    limits = [([], 0), ([130_000_000_000, -130_000_000_000], 0), ([130_000_000_001], 0), ([-130_000_000_001], 0)]
    tolerances = [([5], tolerance) for tolerance in (1_000_000, 1_000_001, -1)]
    for samples, tolerance in DOCUMENT + limits + tolerances:
        for room in (0, *range(3, 12)):
            yield question(samples, tolerance, room)


def some_question(numbers):
    samples, tolerance = some_samples(numbers), some_tolerance(numbers)
    need = needed(samples, tolerance)
    return question(samples, tolerance, max(0, need + numbers.choice((0, 0, 1, 3, 4, 9, -1, -2, -4))))


def long_tracks(numbers):
    for count in (1_023, 1_024, 1_025, 2_049, 4_095, 4_096):
        for make in (smooth, rough, broken):
            samples, tolerance = make(numbers, count), some_tolerance(numbers)
            yield question(samples, tolerance, needed(samples, tolerance) + numbers.randrange(4))
    yield question([0, 1, 1, 0] * 1_024, 0, 8_192)
    yield question([0, 1, 1, 0] * 1_024, 0, 8_191)


def at_the_limits():
    """Samples, tolerance and count at, and outside, their limits."""
    limit = track.GREATEST_SAMPLE
    for sample in (limit, limit + 1, -limit, -limit - 1, 2**63 - 1, -(2**63)):
        yield question([0, sample, 5], 0, 12)
        yield question([0] * 40 + [sample], 1_000_000, 2)
    for tolerance in (-1, 1_000_000, 1_000_001, 2**63 - 1, -(2**63)):
        yield question([1, 2, 4], tolerance, 12)
    for count in (4_096, 4_097):
        yield question([7] * count, 0, 16)
        yield question([7] * count, 0, 15)


def questions(seed=6_106, tracks=1_500):
    numbers = random.Random(seed)
    return [
        *(asked for given in DOCUMENT for asked in in_rooms(*given)),
        question([], 0, 8),
        *at_the_limits(),
        *long_tracks(numbers),
        *(some_question(numbers) for _ in range(tracks)),
        *of_lent_tracks(numbers),
        *in_every_room(),
    ]
