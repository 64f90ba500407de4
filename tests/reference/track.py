"""The track, its prediction and the host record: document 01, 'Track' and refusals 2, 8, 9.

A whole A with lo(j) <= A + r·j <= hi(j) for every j exists for a whole r exactly if r·(k - j) is at least lo(k) - hi(j) and at most
hi(k) - lo(j) for every j < k. So the rates that fit are the whole numbers between a greatest quotient and a least one, and the
least A for a rate is the greatest lo(j) - r·j.
"""

import struct

from .whole import R, within

UNIT = 65_536
LONGEST_SEGMENT = 1_024
MOST_SAMPLES = 4_096
GREATEST_SAMPLE = 130_000_000_000
GREATEST_TOLERANCE = 1_000_000
GREATEST_OFFSET = 9 * 10**15
GREATEST_RATE = 2 * 10**16
GREATEST_PREDICTION = 131_000_000_000


def strictly_below(a, b, c):
    """Whether b lies strictly below the straight line from a to c."""
    return (b[0] - a[0]) * (c[1] - a[1]) > (c[0] - a[0]) * (b[1] - a[1])


class LowerHull:
    """The lower convex hull of points that come from left to right."""

    def __init__(self):
        self.corners = []

    def add(self, point):
        while len(self.corners) > 1 and not strictly_below(self.corners[-2], self.corners[-1], point):
            self.corners.pop()
        self.corners.append(point)

    def steepest(self, point):
        """The corner from which the line to a point further right rises most: over a hull the slope grows, then falls."""
        low, high = 0, len(self.corners) - 1
        while low < high:
            middle = (low + high) // 2
            if strictly_below(self.corners[middle], self.corners[middle + 1], point):
                low = middle + 1
            else:
                high = middle
        return self.corners[low]


def ceiling(a, b):
    return -(-a // b)


def longest(samples, start, tolerance):
    """How many samples from `start` one segment can take, and the least rate that fits them."""
    above, below = LowerHull(), LowerHull()
    least, greatest = None, None
    for j in range(min(LONGEST_SEGMENT, len(samples) - start)):
        lo, hi = (UNIT * (samples[start + j] + side * tolerance) for side in (-1, 1))
        if j:
            k, y = above.steepest((j, lo))
            rate = ceiling(lo - y, j - k)
            new_least = rate if least is None else max(least, rate)
            k, y = below.steepest((j, -hi))
            rate = (hi + y) // (j - k)
            new_greatest = rate if greatest is None else min(greatest, rate)
            if new_least > new_greatest:
                return (j, least or 0)
            least, greatest = new_least, new_greatest
        above.add((j, hi))
        below.add((j, -lo))
    return (min(LONGEST_SEGMENT, len(samples) - start), least or 0)


def least_offset(part, tolerance, rate):
    return max(UNIT * (sample - tolerance) - rate * j for j, sample in enumerate(part))


def track_of(samples, tolerance):
    """The segments of document 01's track: first sample, samples, offset, rate."""
    segments, start = [], 0
    while start < len(samples):
        count, rate = longest(samples, start, tolerance)
        segments.append((start, count, least_offset(samples[start:start + count], tolerance, rate), rate))
        start += count
    return segments


def track(samples, tolerance, room):
    """Refusal, segments written, and the room (a list of numbers) afterwards."""
    if not (
        within(len(samples), 1, MOST_SAMPLES)
        and all(within(sample, -GREATEST_SAMPLE, GREATEST_SAMPLE) for sample in samples)
        and within(tolerance, 0, GREATEST_TOLERANCE)
    ):
        return (2, 0, room)
    segments = track_of(samples, tolerance)
    if len(segments) > len(room) // 4:
        return (8, 0, room)
    numbers = [number for segment in segments for number in segment]
    return (0, len(segments), numbers + room[len(numbers):])


def segments_of(numbers):
    """The whole segments of a lent track; what follows the last is not read."""
    return [tuple(numbers[i:i + 4]) for i in range(0, len(numbers) // 4 * 4, 4)]


def prediction(offset, rate, j):
    return R(offset + rate * j, UNIT)


def malformed(segments):
    start = 0
    for first, count, offset, rate in segments:
        if first != start or not within(count, 1, LONGEST_SEGMENT) or start + count > MOST_SAMPLES:
            return True
        if abs(offset) > GREATEST_OFFSET or abs(rate) > GREATEST_RATE:
            return True
        if any(abs(prediction(offset, rate, j)) > GREATEST_PREDICTION for j in range(count)):
            return True
        start += count
    return False


def predict(numbers, sample):
    """Refusal and the predicted ps."""
    segments = segments_of(numbers)
    if malformed(segments):
        return (9, 0)
    for first, count, offset, rate in segments:
        if first <= sample < first + count:
            return (0, prediction(offset, rate, sample - first))
    return (9, 0)


def host_record(ps):
    """Seconds and clock cycles as doubles: each one exact conversion and one division."""
    return (float(ps) / 1e12, float(ps * 32) / 1e6)


def bits(double):
    """A double's 64 bits as a number."""
    return struct.unpack("<Q", struct.pack("<d", double))[0]


def host_at(numbers, sample):
    """Refusal, and the two doubles of the host record."""
    number, ps = predict(numbers, sample)
    return (number, *(host_record(ps) if number == 0 else (0.0, 0.0)))
