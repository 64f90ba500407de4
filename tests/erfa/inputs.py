"""The inputs of the ERFA programs: `python3 -m erfa.inputs era`, `.. arguments`, `.. delay` or `.. places` prints them."""

import random
import sys

from inputs import sample

DAY_MS = 86_400_000


def era_inputs():
    """A grid of days of the file range, and times before, in and past the day."""
    days = [*range(41_317, 69_806, 219), 51_543, 51_544, 51_545, 69_806]
    times = (-100_000_000, -1, 0, 1, 999, 1_000, 21_600_123_457, 43_200_000_000, 77_777_777_777, 86_399_999_999, 86_500_000_000)
    return [(day, f) for day in days for f in times]


def argument_inputs():
    """Minutes of TT from J2000 over the file range, and those about 0."""
    return [(n,) for n in sorted({*range(-14_727_000, 26_300_000, 160_001), -1, 0, 1})]


def some_stations(numbers):
    """Two places: anywhere in the file's range, at its corners, on the Earth, or a few hundred metres apart."""
    size = numbers.choice((6_400_000_000, 6_400_000_000, 3_600_000_000))
    one = [numbers.randint(-size, size) for _ in range(3)]
    two = [numbers.randint(-size, size) for _ in range(3)]
    choice = numbers.random()
    if choice < 0.2:
        two = [value + numbers.randint(-300_000, 300_000) for value in one]
    elif choice < 0.4:
        one = [numbers.choice((-6_400_000_000, 6_400_000_000)) for _ in range(3)]
        two = [-value for value in one]
    return [max(-6_400_000_000, min(6_400_000_000, value)) for value in one + two]


def some_record(numbers):
    """Pole and UT1-UTC of a day, now and then at the ends of their ranges."""
    if numbers.random() < 0.3:
        return [numbers.choice((-1_000_000, 1_000_000)), numbers.choice((-1_000_000, 1_000_000)), numbers.choice((-900_000_000, 900_000_000))]
    return [numbers.randint(-1_000_000, 1_000_000), numbers.randint(-1_000_000, 1_000_000), numbers.randint(-900_000_000, 900_000_000)]


def delay_inputs(seed=2_110, count=600):
    numbers = random.Random(seed)
    for _ in range(count):
        source = [numbers.randrange(2**32), numbers.randint(-(2**30), 2**30)]
        epoch = [numbers.randint(41_317, 69_805), numbers.randrange(DAY_MS)]
        yield some_stations(numbers) + source + epoch + some_record(numbers) + some_record(numbers)


if __name__ == "__main__":
    for values in {"era": era_inputs, "arguments": argument_inputs, "delay": delay_inputs, "places": sample.places}[sys.argv[1]]():
        print(*values)
