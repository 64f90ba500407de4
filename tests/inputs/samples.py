"""Seeded delay samples, smooth and not, and tolerances."""

from reference.track import GREATEST_SAMPLE
from reference.whole import R


def smooth(numbers, count):
    """A cubic, as delays go over some hours."""
    a, b, c = (numbers.randint(-size, size) for size in (10**10, 2_000_000, 300_000))
    return [a + b * i + R(c * i * i, 1_000) - R(c * i * i * i, 10_000_000) for i in range(count)]


def rough(numbers, count):
    size = numbers.choice((1, 3, 50, 10**6, 130_000_000_000))
    return [numbers.randint(-size, size) for _ in range(count)]


def broken(numbers, count):
    """Straight pieces with jumps and a little noise."""
    value, slope, made = 0, 0, []
    for _ in range(count):
        if numbers.random() < 0.05:
            value, slope = numbers.randint(-(10**11), 10**11), numbers.randint(-(10**6), 10**6)
        made.append(max(-GREATEST_SAMPLE, min(GREATEST_SAMPLE, value + numbers.randint(-3, 3))))
        value += slope
    return made


def some_samples(numbers):
    count = numbers.choice((1, 2, 3, numbers.randint(4, 30), numbers.randint(30, 200)))
    return numbers.choice((smooth, rough, rough, broken))(numbers, count)


def some_tolerance(numbers):
    return numbers.choice((0, 1, 2, 4, 30, 1_000, 1_000_000, numbers.randint(0, 1_000_000)))
