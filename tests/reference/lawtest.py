"""Laws of documents 01 and 02 and of the order's demands, held to the reference over seeded numbers."""

import random
from fractions import Fraction
from itertools import islice, product

from inputs.rows import FIELDS, READ, flat, some_case, some_records, some_row, text_in, text_of
from inputs.sharing import most_segments
from inputs.sound import some_session
from tally import alone

from . import bulletin, delay, earth, session, together, track
from .sine import ONE, TURN, S, sine
from .whole import R

HALF_PI = Fraction(314159265358979323846, 2 * 10**20)


def taylor(r):
    """The Taylor sum of degree 15 of the sine at (r/2^30)·(half of pi)."""
    x = Fraction(r, 2**30) * HALF_PI
    term, total = x, x
    for k in range(3, 16, 2):
        term = -term * x * x / (k * (k - 1))
        total += term
    return total


def rounding(tally):
    for a, wanted in zip(range(-6, 7), (-2, -1, -1, -1, -1, 0, 0, 0, 1, 1, 1, 1, 2), strict=True):
        tally.equal("R(%d/4), halves away from zero" % a, R(a, 4), wanted)


def sine_near_its_sum(tally, random):
    for r in [random.randrange(ONE + 1) for _ in range(400)] + [0, 1, ONE - 1, ONE]:
        tally.check("S(%d) within 4 of the Taylor sum" % r, abs(S(r) - ONE * taylor(r)) <= 4)


def sine_turned(tally, random):
    for tick in [random.randrange(TURN) for _ in range(400)]:
        turned = (sine(-tick), sine(tick + 2**31))
        tally.equal("the sine of %d is odd, and half a turn negates it" % tick, turned, (-sine(tick), -sine(tick)))


def angle_near_its_fraction(tally, random):
    def distance(day, f):
        turned = Fraction(f, 86_400_000_000) + day - 51_544 - Fraction(1, 2)
        exact = Fraction("0.7790572732640") + Fraction("1.00273781191135448") * turned
        gap = (Fraction(earth.angle_e(day, f), 10**17) - exact) % 1
        return min(gap, 1 - gap)

    for _ in range(2_000):
        day, f = random.randint(41_317, 69_806), random.randint(earth.LEAST_F, earth.GREATEST_F)
        near = distance(day, f) <= Fraction(4, 10**11)
        tally.check("E of day %d, f %d within 4/10^11 turn of its fraction" % (day, f), near)


def tide_bound(tally):
    most = 1_000 * sum(abs(row[5]) for row in earth.TIDE_ROWS)
    tally.equal("rows of the tide, and their greatest sum in ns", (len(earth.TIDE_ROWS), most), (41, 2_723_000))


def swapped_stations(tally, random):
    def number(size):
        return random.randint(-size, size)

    for _ in range(300):
        stations = [(1, *(number(6_400_000_000) for _ in range(3))) for _ in range(2)]
        source = (1, random.randrange(TURN), number(ONE))
        values = (number(1_000_000), number(1_000_000), 0, random.randrange(TURN))
        there, back = delay.delay_of(*stations, source, values), delay.delay_of(*stations[::-1], source, values)
        right = there == -back and abs(there) <= 130_000_000_000
        tally.check("swapped stations negate", right, repr((stations, source, values)))


def fits(part, tolerance, offset, rate):
    return all(abs(offset + rate * j - track.UNIT * s) <= track.UNIT * tolerance for j, s in enumerate(part))


def rates_by_pairs(part, tolerance):
    """The least and the greatest rate that fit, a pair of samples at a time; least above greatest where none does."""
    least, greatest = -10**20, 10**20
    for k in range(len(part)):
        for j in range(k):
            near, far = (track.UNIT * (part[k] - part[j] + side * 2 * tolerance) for side in (-1, 1))
            least = max(least, track.ceiling(near, k - j))
            greatest = min(greatest, far // (k - j))
    return (0, 0) if len(part) == 1 else (least, greatest)


def track_by_pairs(samples, tolerance):
    """Document 01's rule word by word: the longest part that fits, its least rate, its least offset."""
    segments, start = [], 0
    while start < len(samples):
        count = 1
        while start + count < len(samples) and count < track.LONGEST_SEGMENT:
            least, greatest = rates_by_pairs(samples[start:start + count + 1], tolerance)
            if least > greatest:
                break
            count += 1
        part = samples[start:start + count]
        rate = rates_by_pairs(part, tolerance)[0]
        segments.append((start, count, track.least_offset(part, tolerance, rate), rate))
        start += count
    return segments


def fewest(samples, tolerance):
    """The least number of segments of any track, every place for the last cut weighed."""
    best = [0]
    for end in range(1, len(samples) + 1):
        fitting = [start for start in range(end) if fits_somehow(samples[start:end], tolerance)]
        best.append(1 + min(best[start] for start in fitting))
    return best[-1]


def fits_somehow(part, tolerance):
    least, greatest = rates_by_pairs(part, tolerance)
    return least <= greatest


def rough_samples(random, count, size):
    value, step, samples = random.randint(-size, size), random.randint(-size, size), []
    for _ in range(count):
        samples.append(max(-track.GREATEST_SAMPLE, min(track.GREATEST_SAMPLE, value)))
        step += random.randint(-size, size) if random.random() < 0.3 else 0
        value += step + random.randint(-2, 2)
    return samples


def wrong_segment(samples, tolerance, segment):
    """What is wrong about a segment of a track, by document 01's words: it fits, and no lesser offset or rate does."""
    first, count, offset, rate = segment
    part = samples[first:first + count]
    below = track.least_offset(part, tolerance, rate - 1)
    yield "" if fits(part, tolerance, offset, rate) else "%r does not fit" % (segment,)
    yield "%r has not the least offset" % (segment,) if fits(part, tolerance, offset - 1, rate) else ""
    yield "%r has not the least rate" % (segment,) if count > 1 and fits(part, tolerance, below, rate - 1) else ""


def wrong_track(samples, tolerance):
    segments = track.track_of(samples, tolerance)
    yield "" if segments == track_by_pairs(samples, tolerance) else "it is not the track by pairs"
    yield "" if len(segments) == fewest(samples, tolerance) else "another has fewer segments"
    for segment in segments:
        yield from wrong_segment(samples, tolerance, segment)


def small_tracks(tally, random):
    """A track is one test."""
    for _ in range(400):
        samples = rough_samples(random, random.randint(1, 16), random.choice((1, 3, 20, 1_000, 10**10)))
        tolerance = random.choice((0, 1, 2, 5, 1_000))
        tally.nothing_wrong("track of %r tolerance %d:" % (samples, tolerance), wrong_track(samples, tolerance))


def wrong_long_segment(samples, tolerance, segment):
    """A long segment's rate is the least by pairs, and one sample more does not fit."""
    first, count, _, rate = segment
    least = rates_by_pairs(samples[first:first + count], tolerance)[0]
    ended = count in (track.LONGEST_SEGMENT, len(samples) - first)
    longest = ended or not fits_somehow(samples[first:first + count + 1], tolerance)
    yield "" if rate == least else "segment from %d: rate %d, the least is %d" % (first, rate, least)
    yield "" if longest else "segment from %d could be longer" % first


def long_tracks(tally):
    """Smooth samples, in segments of hundreds."""
    for bend, tolerance in ((400_000, 30), (40_000, 50), (6_000_000, 4)):
        samples = [R(i * i * i, bend) - 90 * i for i in range(1_300)]
        segments = track.track_of(samples, tolerance)
        wrong = [each for segment in segments for each in wrong_long_segment(samples, tolerance, segment)]
        tally.nothing_wrong("long track, bend %d:" % bend, wrong + ["it covers nothing" if not segments else ""])


def own_tracks_are_well_formed(tally, random):
    """Samples that leap about: what the track predicts keeps the tolerance, and two samples always fit a segment."""
    for size, tolerance in ((10**11, 1_000_000), (130_000_000_000, 0), (1_000, 10), (130_000_000_000, 1_000_000)):
        samples = [random.randint(-size, size) for _ in range(700)] + [size, -size, size, size, -size, -size]
        flat = [number for segment in track.track_of(samples, tolerance) for number in segment]
        predicted = [track.predict(flat, i) for i in range(len(samples))]
        near = all(number == 0 and abs(ps - sample) <= tolerance for (number, ps), sample in zip(predicted, samples))
        short = len(flat) // 4 <= (len(samples) + 1) // 2
        wrong = ["" if near else "a prediction misses its sample", "" if short else "more segments than pairs"]
        tally.nothing_wrong("own track, samples within %d, tolerance %d:" % (size, tolerance), wrong)


def two_calls(file, index, room, sample_room=track.MOST_SAMPLES):
    """The calls of document 01 for a pass, one after the other: its samples, in so much room, and their track."""
    number, count, samples = delay.samples(file, index, [-7] * sample_room)
    if number:
        return (number, 0, room)
    *_, tolerance = session.record_at(file, delay.PASSES, index)
    return track.track(samples[:count], tolerance, room)


def passes_in_one_step(tally, random):
    """Document 02, L6: as the two calls in any sample room that is enough, so never 7. A pass in a room is one test, and so
    is the index behind the last.
    """
    for i in range(100):
        lists = some_session(random)
        file, counts = session.encode(lists), [*(planned[6] for planned in lists[delay.PASSES]), 0]
        for index, count in enumerate(counts):
            room, some = [-7] * random.randint(0, 2 * count + 6), random.randint(count, track.MOST_SAMPLES)
            answers = [two_calls(file, index, room, sample_room) for sample_room in (count, some, track.MOST_SAMPLES)]
            name = "pass %d of session %d in %d and %d" % (index, i, len(room), some)
            tally.equal(name, [together.pass_track(file, index, room)] * 3, [each for each in answers if each[0] != 7])


def one_by_one(file, room):
    """The two calls for pass after pass, each in what is left of the room: number, counts, room afterwards."""
    counts, at, after = [], 0, list(room)
    for index in range(len(session.sections_of(file)[delay.PASSES])):
        number, count, part = two_calls(file, index, after[at:])
        if number:
            return (number, [0] * 64, room)
        after[at:], at = part, at + 4 * count
        counts.append(count)
    return (0, counts + [0] * (64 - len(counts)), after)


def covered(counts, room):
    """How many samples the segments cover that are counted for each pass."""
    segments = iter(track.segments_of(room))
    return [sum(segment[1] for segment in islice(segments, count)) for count in counts]


def wrong_together(file, room):
    """Document 02, L2: as one by one, nothing but the counted segments written, and no answer but 8 moved by more room."""
    number, counts, after = answer = together.all_tracks(file, room)
    passes = session.sections_of(file)[delay.PASSES]
    samples, written = [planned[6] for planned in passes], 4 * sum(counts)
    more, more_counts, longer = together.all_tracks(file, room + room)
    yield "" if answer == one_by_one(file, room) else "it is not what the single calls answer"
    yield "" if after[written:] == room[written:] else "behind the segments the room is touched"
    yield "" if number or covered(counts, after) == samples + [0] * (64 - len(samples)) else "a pass is not covered"
    yield "" if number == 0 or (counts, after) == ([0] * 64, room) else "refused, it left other counts or another room"
    yield "" if number == 8 or (more, more_counts, longer[:len(room)]) == answer else "more room moves it"
    yield "it is 8 in ample room" if number == 8 and most_segments(*passes) <= len(room) // 4 else ""


def passes_together(tally, random):
    """A session in a room is one test."""
    for i in range(100):
        lists = some_session(random)
        ample = 4 * most_segments(*lists[delay.PASSES])
        for numbers in (ample, random.randint(0, ample)):
            wrong = wrong_together(session.encode(lists), [-7] * numbers)
            tally.nothing_wrong("all passes of session %d in %d:" % (i, numbers), wrong)


def short_decimals(tally):
    """Of all texts of five columns those that document 02, L3, lets be decimals with one digit behind the point."""
    heads = [blanks + sign for blanks in ("", " ", "  ") for sign in ("", "-")]
    made = {head + "".join(digits) for head in heads for count in (2, 3, 4) for digits in product("07", repeat=count)}
    wanted = {text[:-1] + "." + text[-1] for text in made if len(text) == 4}
    texts = ("".join(text) for text in product(" -+07.", repeat=5))
    got = {text for text in texts if bulletin.decimal_of(text.encode(), 1, 5, 1) is not None}
    tally.equal("decimals of five columns", sorted(got), sorted(wanted))


def decimals_read(tally, random):
    """What is read of a row is the number that stands there."""
    for _ in range(200):
        row = some_row(random, random.randint(-9_999, 99_999))
        stands = [Fraction(text_in(row, field).decode()) for field in FIELDS]
        read = zip((bulletin.day_of(row), *bulletin.values_of(row)), (1, 10**6, 10**6, 10**9))
        tally.equal("what is read of %r" % row[:68], [Fraction(value, unit) for value, unit in read], stands)


def wrong_rows(records, room):
    """Document 02, L3: rows of 185 columns with four decimals, blank beside them, that read back as the same records."""
    days, need = flat(records), 186 * len(records)
    number, written, after = bulletin.rows_from_days(days, room)
    rows = bulletin.rows_of(after[:written])
    beside = {bytes(byte for column, byte in enumerate(row, 1) if column not in READ) for row in rows}
    again = bulletin.days_from_rows(after[:written], days[0], len(records), days[4::6])
    yield "" if (number, written) == ((0, need) if need <= len(room) else (7, 0)) else "refused with %d" % number
    yield "" if after[written:] == room[written:] else "behind the rows the room is touched"
    yield "" if number or [len(row) for row in rows] == [185] * len(records) else "it is not in rows of 185 columns"
    yield "" if beside <= {b" " * 149} else "columns beside the decimals are not blank"
    yield "" if number or again == (0, *days, *[0] * (384 - len(days))) else "it does not read back"


def rows_written(tally, random):
    """A list of records in a room is one test."""
    for i in range(100):
        records = some_records(random, random.choice((2, 3, 10, 64)), consecutive=True)
        room = b"?" * (186 * len(records) + random.choice((0, 0, 1, 500, -1)))
        tally.nothing_wrong("list %d of %d records:" % (i, len(records)), wrong_rows(records, room))


def unasked_rows(tally, random):
    """Rows of other days, bytes behind the last line feed, and further rows of a day do not move an answer."""
    for _ in range(100):
        case = some_case(random)
        other = some_row(random, random.choice((-1, 0, 99_999, case.first - 1, case.first + case.count)))
        more = case._replace(rows=(other, *case.rows, some_row(random, case.first)), rest=other[:-1])
        answers = [bulletin.days_from_rows(text_of(each), *each[1:4]) for each in (case, more)]
        tally.equal("the same of more rows, %d of %d" % (case.count, case.first), answers[1], answers[0])


def run(tally):
    numbers = random.Random(20_101)
    rounding(tally)
    tide_bound(tally)
    long_tracks(tally)
    short_decimals(tally)
    for part in (sine_near_its_sum, sine_turned, angle_near_its_fraction):
        part(tally, numbers)
    for part in (swapped_stations, small_tracks, own_tracks_are_well_formed, passes_together, passes_in_one_step):
        part(tally, numbers)
    for part in (decimals_read, rows_written, unasked_rows):
        part(tally, numbers)


if __name__ == "__main__":
    alone(run)
