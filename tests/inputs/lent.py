"""Questions on predictions from lent tracks: chosen ones, our own, ones near the limits of refusal 9 and past them."""

import random

from reference import track

from .questions import HOST, PREDICT, Question, lent_numbers
from .samples import some_samples, some_tolerance

LIMIT = track.GREATEST_PREDICTION
EXTREMES = (2**63 - 1, -(2**63), 10**18, -(10**18))
EDGES = {
    0: (-1, 1, 4_095),
    1: (0, -1, 1_024, 1_025),
    2: (9 * 10**15, -9 * 10**15, 9 * 10**15 + 1, -9 * 10**15 - 1),
    3: (2 * 10**16, -2 * 10**16, 2 * 10**16 + 1, -2 * 10**16 - 1),
}

CHOSEN = [
    *(([0, 3, 65_536, -32_768], sample) for sample in range(4)),
    ([0, 3, -65_536, 32_768], 1),
    ([0, 2, 262_144, 131_072, 2, 1, -262_144, 0, 7, 7, 7], 2),
    ([0, 2, 262_144, 131_072, 3, 1, -262_144, 0], 0),
    ([1, 2, 262_144, 131_072], 1),
    ([0, 1_025, 0, 0], 0),
    ([0, 0, 0, 0], 0),
    ([0, 1, 9_000_000_000_000_001, 0], 0),
    ([0, 1, 0, 20_000_000_000_000_001], 0),
    ([0, 1, 8_585_216_000_032_767, 0], 0),
    ([0, 1, 8_585_216_000_032_768, 0], 0),
    ([0, 1_024, 0, 20_000_000_000_000_000], 0),
    ([0, 1, 0, -20_000_000_000_000_000], 0),
    ([0, 1, 0], 0),
    ([0, 1, 0, 0], 2**64 - 1),
]


def flat(segments):
    return [number for segment in segments for number in segment]


def own(numbers):
    return flat(track.track_of(some_samples(numbers), some_tolerance(numbers)))


def changed(numbers):
    """A track of ours with one number changed, at times a number or two behind its end."""
    lent = own(numbers)
    at = numbers.randrange(len(lent))
    lent[at] = numbers.choice(EDGES[at % 4] + EXTREMES + (lent[at] + 1, lent[at] - 1))
    return lent + [numbers.choice(EXTREMES)] * numbers.randrange(4)


def free(numbers):
    """Segments that join, with offset and rate of any size that the limits allow, in predictions near their limit."""
    segments, start = [], 0
    for _ in range(numbers.randint(1, 6)):
        count = numbers.choice((1, 2, 3, 1_024, numbers.randint(1, 1_024)))
        ends = [numbers.choice((LIMIT, -LIMIT, numbers.randint(-LIMIT, LIMIT))) for _ in range(2)]
        offset = 65_536 * ends[0] + numbers.choice((0, 32_767, 32_768, -32_767, -32_768, 0, 0))
        steep = 65_536 * (ends[1] - ends[0]) // max(1, count - 1)
        rate = steep if numbers.random() < 0.7 else numbers.randint(-200, 200)
        segments.append((start, count, offset, rate))
        start += count
    return flat(segments)


def halves(numbers):
    """Predictions that lie at a half, above and below zero."""
    offset = numbers.choice((-1, 1)) * (65_536 * numbers.randrange(3) + 32_768)
    return [0, 5, offset, numbers.choice((0, 65_536, -65_536, 32_768))]


def full(last):
    """4 segments of 1,024 samples, and one more of `last`."""
    return flat([(i * 1_024, 1_024, i, i) for i in range(4)] + ([(4_096, last, 0, 0)] if last else []))


def samples_asked(numbers, lent):
    """A sample of the track, the ones about its end, and ones far out."""
    covered = max(1, sum(lent[1::4])) if len(lent) > 3 else 1
    near = [0, covered - 1, covered, numbers.randrange(covered) if covered < 10**6 else 0]
    return [sample % 2**64 for sample in near] + [numbers.choice((4_096, 2**32, 2**63, 2**64 - 1))]


def some_lent(numbers):
    return numbers.choice((own, changed, changed, free, halves))(numbers)


def of_seeded_tracks(numbers, count):
    tracks = [[], [0], [0, 1, 0], [0, 1, 5, 6], full(0), full(1), [0, 0, 0, 0], [0, 1, 5, 6, 7, 8, 9]]
    for lent in tracks + [some_lent(numbers) for _ in range(count)]:
        for sample in samples_asked(numbers, lent):
            yield Question(numbers.choice((PREDICT, HOST)), sample, lent=lent_numbers(lent))


def of_chosen_tracks():
    """Document 01's track, joins and gaps, and each limit of refusal 9 at its end and past it."""
    for lent, sample in CHOSEN:
        yield from (Question(what, sample, lent=lent_numbers(lent)) for what in (PREDICT, HOST))


def questions(numbers):
    return [*of_seeded_tracks(numbers, 700), *of_seeded_tracks(random.Random(9), 40), *of_chosen_tracks()]
