"""The numbers of document 01, 'Numbers to meet', starred and not, held to the reference."""

from tally import alone

from . import bulletin, delay, earth, program, session, together, track
from .sine import sine


def sines(tally):
    for tick, value in ((0, 0), (1, 1), (2, 3), (3, 4), (2**32 - 1, -1), (2**31 + 2, -3)):
        tally.equal("sine of tick %d" % tick, sine(tick), value)


def minutes_and_arguments(tally):
    tally.equal("l at n = 0", earth.five_arguments(0)[0], 1_610_176_110)
    for ms, n in ((43_135_815, -1), (43_135_816, 0), (43_195_815, 0), (43_195_816, 1)):
        tally.equal("n at millisecond %d" % ms, earth.arguments(51_544, ms, 32)[:2], (0, n))


def angles(tally):
    tally.equal("angle at noon", earth.angle_at(51_544, 43_200_000_000), (0, 77_905_727_326_332_276, 3_346_025_510))
    tally.equal("angle at 0h", earth.angle_at(51_544, 0)[2], 1_192_662_456)


def numbers(count):
    return [-7] * count


def tracks(tally):
    cases = (
        ([0, 10, 20], 0, [(0, 3, 0, 655_360)]),
        ([0, 0, 1], 0, [(0, 2, 0, 0), (2, 1, 65_536, 0)]),
        ([0, 0, 1], 1, [(0, 3, 65_536, -32_768)]),
        ([0, 10, 0], 5, [(0, 3, 327_680, 0)]),
        ([0, 10, 0], 4, [(0, 2, 262_144, 131_072), (2, 1, -262_144, 0)]),
        ([0] * 1_025, 0, [(0, 1_024, 0, 0), (1_024, 1, 0, 0)]),
    )
    for samples, tolerance, segments in cases:
        name = "track of %.20s tolerance %d" % (samples, tolerance)
        flat = [number for segment in segments for number in segment]
        for spare in range(4):
            room = numbers(len(flat) + spare)
            tally.equal(name, track.track(samples, tolerance, room), (0, len(segments), flat + numbers(spare)))
        short = numbers(len(flat) - 1)
        tally.equal(name + ", room short", track.track(samples, tolerance, short), (8, 0, short))
    tally.equal("track of no samples", track.track([], 0, numbers(8)), (2, 0, numbers(8)))
    tally.equal("prediction", track.predict([0, 3, 65_536, -32_768], 1), (0, 1))


def small_session(samples=3, tolerance=0, day_kind=3):
    """One station, one source, two days, one pass of that station with itself."""
    lists = (
        [(1, 4_075_539_757, 931_735_390, 4_801_629_449)],
        [(1, 0, 0)],
        [(51_544, 0, 0, 0, 32, 0), (51_545, 0, 0, 0, 32, 0)],
        [(1, 1, 1, 51_544, 0, 1_000, samples, tolerance)],
    )
    return session.encode(lists, day_kind)


def the_program(tally):
    file = small_session()
    for kind, length in ((3, 304), (5, 320)):
        same = small_session(day_kind=kind)
        tally.equal("length of the small session, days of kind %d" % kind, len(same), length)
        tally.equal("counts of the small session, days of kind %d" % kind, session.check(same), (0, 1, 1, 2, 1, kind))
        tally.equal("tracks of the small session, days of kind %d" % kind, program.lines(same), ["pass 0 1", "0 3 0 0"])
    tally.equal("tracks of nothing", program.lines(b""), ["refused 1"])
    tally.equal("tracks of over-long input", program.lines(file + bytes(65_536)), ["refused 1"])
    tally.equal("samples of the small session", delay.samples(file, 0, [5] * 4), (0, 3, [0, 0, 0, 5]))
    tally.equal("pass track of the small session", together.pass_track(file, 0, [5] * 5), (0, 1, [0, 3, 0, 0, 5]))
    tally.equal("the same in short room", together.pass_track(file, 0, [5] * 3), (8, 0, [5] * 3))
    tally.equal("pass track of a pass that is not there", together.pass_track(file, 1, [5] * 3), (5, 0, [5] * 3))
    tally.equal("all tracks of the small session", together.all_tracks(file, [5] * 5), (0, [1] + [0] * 63, [0, 3, 0, 0, 5]))


def rows(tally):
    """Three published rows, their values typed by hand from the page; then the row that is written of the first."""
    text = b"".join(row + b"\n" for row in (
        b"16 2 1 57359.00 I -0.003225 0.000031  0.299494 0.000025  I 0.0262864 0.0000042  1.3154 0.0035  I    -0.094",
        b"16 2 2 57360.00 I -0.004706 0.000030  0.301252 0.000024  I 0.0249911 0.0000057  1.2412 0.0034  I    -0.108",
        b"16 728 57537.00 P  0.211431 0.008135  0.445716 0.011520  P-0.2231750 0.0085261",
    ))
    two = (57_359, -3_225, 299_494, 26_286_400, 36, 1, 57_360, -4_706, 301_252, 24_991_100, 36, 1)
    tally.equal("two published days", bulletin.days_from_rows(text, 57_359, 2, [36, 36]), (0, *two, *[0] * 372))
    tally.equal("a day that is not there", bulletin.days_from_rows(text, 57_360, 2, [36, 36]), (11, *[0] * 384))
    predicted = bulletin.values_of(bulletin.rows_of(text)[2])
    tally.equal("a published prediction", predicted, [211_431, 445_716, -223_175_000])
    row = b"       57359.00   -0.003225           0.299494             0.0262864" + b" " * 117
    tally.equal("a row that is written", bulletin.row_of(two[:6]), row)


def run(tally):
    for part in (sines, minutes_and_arguments, angles, tracks, the_program, rows):
        part(tally)


if __name__ == "__main__":
    alone(run)
