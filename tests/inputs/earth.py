"""Questions on Earth rotation: document 01's, each argument at the ends of its range, and seeded ones."""

import random

from reference import earth
from reference.sine import TURN

from .questions import ANGLE, ARGUMENTS, COSINE, LATER, ROTATE, SINE, TIDE, Question

OF_A_TICK, OF_A_DAY = (SINE, COSINE, ROTATE), (ARGUMENTS, TIDE, ANGLE, LATER)
EXTREMES = (-(2**63), 2**63 - 1, -1, 0, 2**32, -(2**32))


def document_cases():
    """The numbers of document 01."""
    yield from ((SINE, tick) for tick in (0, 1, 2, 3, 2**32 - 1, 2**31 + 2))
    yield from ((ARGUMENTS, 51_544, ms, 32) for ms in (43_135_815, 43_135_816, 43_195_815, 43_195_816))
    yield from ((ANGLE, 51_544, f) for f in (43_200_000_000, 0))


def edges(low, high):
    return (low - 1, low, low + 1, high - 1, high, high + 1)


def edge_cases():
    """Each argument at, and next to, the ends of its range, and far outside."""
    days, ms, tai = edges(41_317, 69_806), edges(0, 86_399_999), edges(0, 99)
    for what in (ARGUMENTS, TIDE):
        yield from ((what, day, 40_000_000, 37) for day in days + EXTREMES)
        yield from ((what, 44_239, u, 19) for u in ms + EXTREMES)
        yield from ((what, 59_000, 77, leap) for leap in tai + EXTREMES)
    yield from ((ANGLE, day, 5) for day in days + EXTREMES)
    yield from ((ANGLE, 47_892, f) for f in edges(earth.LEAST_F, earth.GREATEST_F) + EXTREMES)
    yield from ((LATER, day, 86_399_999, 1) for day in days + EXTREMES)
    yield from ((LATER, 41_500, u, 86_400_000) for u in ms + EXTREMES)
    yield from ((LATER, 69_806, 86_399_999, add) for add in edges(0, earth.MOST_ADDED) + EXTREMES)
    for quarter in range(5):
        near = [(quarter * 2**30 + step) % TURN for step in (-2, -1, 0, 1, 2)]
        yield from ((what, tick) for what in OF_A_TICK for tick in near)
    yield from ((what, tick) for what in OF_A_TICK for tick in EXTREMES)


def some_day(numbers):
    """Half of the days before 51,544, now and then the days about it."""
    if numbers.random() < 0.1:
        return numbers.randint(51_541, 51_546)
    return numbers.randint(41_317, 51_543) if numbers.random() < 0.53 else numbers.randint(51_544, 69_806)


def some_f(numbers):
    """Microseconds of UT1: in the day, before it, and past it."""
    low, high = numbers.choice(((0, 86_399_999_999), (earth.LEAST_F, -1), (86_400_000_000, earth.GREATEST_F)))
    return numbers.randint(low, high)


def some_addition(numbers, ms):
    """Milliseconds to add: any, or such that the epoch reached is at or next to 0h."""
    to_midnight = numbers.randint(1, 170) * 86_400_000 - ms + numbers.choice((-1, 0, 1))
    return numbers.choice((numbers.randint(0, earth.MOST_ADDED), min(to_midnight, earth.MOST_ADDED)))


def some_case(numbers):
    what = numbers.choice((SINE, ARGUMENTS, ARGUMENTS, TIDE, TIDE, ANGLE, ANGLE, LATER, ROTATE))
    if what in OF_A_TICK:
        return (what, numbers.randrange(TURN), 0, 0)
    day, ms = some_day(numbers), numbers.randrange(86_400_000)
    if what == ANGLE:
        return (what, day, some_f(numbers), 0)
    if what == LATER:
        return (what, day, ms, some_addition(numbers, ms))
    return (what, day, ms, numbers.randint(0, 99))


def some_damaged_case(numbers):
    """A question with one argument anywhere in 64 bits."""
    case = list(some_case(numbers))
    if case[0] not in OF_A_TICK:
        case[numbers.randint(1, 3)] = numbers.randint(-(2**63), 2**63 - 1) >> numbers.randrange(64)
    return case


def cosines(numbers, count):
    """Ticks anywhere in 64 bits, which are read modulo 2^32."""
    return [(COSINE, numbers.randint(-(2**63), 2**63 - 1) >> numbers.randrange(64)) for _ in range(count)]


def questions(seed=11_501, sound=11_000, damaged=700):
    numbers = random.Random(seed)
    cases = [
        *document_cases(),
        *edge_cases(),
        *(some_case(numbers) for _ in range(sound)),
        *(some_damaged_case(numbers) for _ in range(damaged)),
        *cosines(numbers, 1_000),
    ]
    return [Question(*case) for case in cases]


def document():
    return [Question(*case) for case in document_cases()]
