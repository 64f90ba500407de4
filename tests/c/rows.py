"""The inputs of the C tests over numbers, each with what the reference answers to it: angles, tracks, predictions.

A table is its name, its columns in C, and its rows; a row begins with the name of its test.
"""

from c import bulletinrows, filerows, names, writerows
from c.cells import Name
from reference import earth, sine, track

LEAST, GREATEST, LAST_INDEX = -(2**63), 2**63 - 1, 2**64 - 1

BAD_EPOCHS = [(41_316, 0, 0), (69_807, 0, 0), (51_544, -1, 0), (51_544, 86_400_000, 0), (51_544, 0, -1), (LEAST,) * 3]


def tick_tables():
    ticks = [0, 1, 2, 3, 2**32 - 1, 2**31 + 2, 2**30, 2**30 - 1, 1_234_567_890, 3_000_000_000, 4_100_000_000]
    ticks += [1_050_000_001, 1_065_432_109, 2_140_000_003, 3_210_987_654]  # near the end of a quarter
    for name, call in (("sine", sine.sine), ("cosine", sine.cosine)):
        rows = [("%s of %d" % (name, tick), tick, call(tick)) for tick in ticks]
        yield (name, "uint32_t tick; int64_t want;", rows)
    rows = [("rotation by %d" % tick, tick, earth.rotate(tick)) for tick in ticks]
    yield ("rotation", "uint32_t tick; int64_t want[9];", rows)


def called(call, asked):
    """Rows of a call of numbers: the call and its arguments as a name, then both in C."""
    return [("%s%r" % (call.__name__, arguments), *arguments, call(*arguments)) for arguments in asked]


def epoch_tables():
    added = [(51_544, 86_399_999, 1), (69_806, 86_399_999, 14_742_000_000), (41_317, 0, 0), (51_544, 0, 14_742_000_001)]
    yield ("later", "int64_t day, ms, add; int64_t want[3];", called(earth.later, added + BAD_EPOCHS))
    epochs = [(51_544, 43_135_816, 32), (51_544, 43_195_815, 32), (41_317, 0, 0), (69_806, 86_399_999, 99)]
    epochs += [(51_544, 0, 100), *BAD_EPOCHS]
    yield ("arguments", "int64_t day, ms, tai_utc; int64_t want[7];", called(earth.arguments, epochs))
    yield ("tide", "int64_t day, ms, tai_utc; int64_t want[2];", called(earth.tide, epochs))
    turns = [(51_544, 43_200_000_000), (51_544, 0), (41_317, -100_000_000), (69_806, 86_500_000_000)]
    turns += [(41_316, 0), (69_807, 0), (51_544, -100_000_001), (51_544, 86_500_000_001), (LEAST, GREATEST)]
    yield ("angle", "int64_t day, f; int64_t want[3];", called(earth.angle_at, turns))


def sampled():
    """Samples, tolerance, and numbers of room."""
    line, step, peak, zeros, far = [0, 10, 20], [0, 0, 1], [0, 10, 0], [0] * 4_097, track.GREATEST_SAMPLE
    yield from ((line, 0, 8_200), (step, 0, 8), (step, 1, 4), (peak, 5, 7), (peak, 4, 8), (peak, 4, 7))
    yield from ((line, 0, 0), (line, 0, 3), (line, -1, 8_200), (line, 1_000_001, 8_200), (line, 1_000_000, 8_200))
    yield from ((zeros[:1_025], 0, 8_200), (zeros[:4_096], 0, 16), (zeros, 0, 8_200), ([], 0, 8_200), ([], 0, 0))
    yield from (([far, -far], 0, 4), ([0, far + 1], 0, 8_200), ([-far - 1, 0], 0, 0), ([LEAST], 0, 8_200))


def track_table():
    rows = []
    for samples, tolerance, room in sampled():
        number, count, after = track.track(samples, tolerance, [0] * room)
        what = "track of %r.. (%d), tolerance %d, room %d" % (samples[:2], len(samples), tolerance, room)
        rows.append((what, samples, len(samples), tolerance, room, (number, count), after[:4 * count]))
    columns = "const int64_t *samples; size_t sample_count; int64_t tolerance; size_t room_numbers;"
    yield ("track", columns + " int64_t want[2]; const int64_t *numbers;", rows)


TWO_SEGMENTS = [0, 3, 65_536, -32_768, 3, 2, -65_536, 655_360]


def lent_tracks():
    """Name, numbers lent, and the samples asked for."""
    full = [number for i in range(4) for number in (1_024 * i, 1_024, 0, 0)]
    yield ("a track of two segments", TWO_SEGMENTS, [0, 1, 2, 3, 4, 5, LAST_INDEX])
    yield ("numbers after the last whole segment", [*TWO_SEGMENTS, 1, 2, 3], [4])
    yield ("an empty track", [], [0])
    yield ("no whole segment", TWO_SEGMENTS[:3], [0])
    yield ("the farthest prediction", [0, 2, 8_585_216_000_032_767, -17_170_432_000_065_534], [0, 1])
    yield ("a prediction beyond", [0, 2, 8_585_216_000_032_768, 0], [0])
    yield ("4,096 samples", full, [0, 4_095, 4_096])
    yield ("4,097 samples in all", [*full, 4_096, 1, 0, 0], [0, 4_096])


def malformed_tracks():
    """The track of two segments with one number changed, which each sample then shows."""
    changes = [(0, 1), (0, -1), (1, 0), (1, -3), (5, 1_025), (4, 4), (4, 2), (2, 9 * 10**15 + 1), (6, -9 * 10**15 - 1)]
    changes += [(3, 2 * 10**16 + 1), (7, -2 * 10**16 - 1), (7, LEAST), (7, 8_585_216_000_100_000)]
    for place, value in changes:
        numbers = [*TWO_SEGMENTS[:place], value, *TWO_SEGMENTS[place + 1:]]
        yield ("a track whose number %d is %d" % (place, value), numbers, range(6))


def predict_table():
    rows = []
    for what, numbers, asked in (*lent_tracks(), *malformed_tracks()):
        for sample in asked:
            doubles = tuple(Name("0x%016x" % track.bits(double)) for double in track.host_at(numbers, sample)[1:])
            answer = track.predict(numbers, sample)
            rows.append(("%s, at sample %d" % (what, sample), numbers, len(numbers), sample, answer, doubles))
    columns = "const int64_t *track; size_t track_numbers; uint64_t sample; int64_t want[2]; uint64_t bits[2];"
    yield ("predict", columns, rows)


def tables():
    for made in (tick_tables, epoch_tables, track_table, predict_table):
        yield from made()
    for module in (filerows, writerows, bulletinrows, names):
        yield from module.tables()
