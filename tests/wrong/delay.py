"""Wrong rules of the delay: what is wrong, the module and the function that it stands in for, and the wrong function."""

from reference import delay, earth, session
from reference.sine import ONE, TURN, cosine, sine
from reference.whole import R

RIGHT_DELAY, RIGHT_DAYS, RIGHT_ORIENTATION, RIGHT_SAMPLES = delay.delay_of, delay.two_days, delay.orientation_of, delay.samples_of
RIGHT_CALL, RIGHT_DELAY_CALL, RIGHT_VALUES, RIGHT_LEAP = delay.samples, delay.delay, delay.day_values_of, delay.leap_of


def halves_upward(a, b):
    return (2 * a + b) // (2 * b)


def pole_exchanged(station1, station2, source, values):
    return RIGHT_DELAY(station1, station2, source, (values[1], values[0], *values[2:]))


def stations_exchanged(station1, station2, source, values):
    return RIGHT_DELAY(station2, station1, source, values)


def sine_for_cosine(station1, station2, source, values):
    return RIGHT_DELAY(station1, station2, source, (*values[:3], (values[3] - 2**30) % TURN))


def tide_left_out(today, tomorrow, ms, tide_used=None):
    return RIGHT_ORIENTATION(today, tomorrow, ms, lambda n: 0)


def next_days_tai(today, tomorrow, ms, tide_used=earth.tide_at):
    """The tide's minute is counted by the TAI-UTC of the next day's record."""
    return RIGHT_ORIENTATION(today, tomorrow, ms, lambda n: tide_used(earth.minutes(today[0], ms, tomorrow[4])))


def leap_of_the_day_after(days, day):
    """TAI-UTC of record d+2 stands in record d+1."""
    pair, after = RIGHT_DAYS(days, day), delay.named(days, day + 2)
    return pair if pair is None or after is None else (pair[0], (*pair[1][:4], after[4], pair[1][5]))


def leap_at_both_ends(today, tomorrow, ms, tide_used):
    x, y, _ = RIGHT_VALUES(today, tomorrow, ms, tide_used)
    ends = (delay.ut1r_of(record, tide_used) - RIGHT_LEAP(today, tomorrow) for record in (today, tomorrow))
    return (x, y, delay.line(*ends, ms))


def declination_unsigned(station1, station2, source, values):
    return RIGHT_DELAY(station1, station2, (*source[:2], abs(source[2])), values)


def rounded_once(station1, station2, source, values):
    """The projections are not rounded to whole millimetres."""
    x, y, _, era = values
    bx, by, bz = (station2[i] - station1[i] for i in (1, 2, 3))
    px, py = bx - delay.pole_shift(bz, x), by + delay.pole_shift(bz, y)
    pz = bz + delay.pole_shift(bx, x) - delay.pole_shift(by, y)
    h = (era - source[1]) % TURN
    g = (px * cosine(h) - py * sine(h)) * cosine(source[2]) + pz * sine(source[2]) * ONE
    return R(-g * 1_000_000_000, 299_792_458 * ONE * ONE)


def last_day_at_0h(days, day):
    """The last day is taken for covered."""
    today = delay.named(days, day)
    return None if today is None else (today, delay.named(days, day + 1) or today)


def first_epoch_only(lists, planned):
    """Only the first sample's epoch is looked at."""
    number, made = RIGHT_SAMPLES(lists, planned)
    covered = RIGHT_DAYS(lists[delay.DAYS], planned[3]) is not None
    return (0, [0] * planned[6]) if number == 6 and covered else (number, made)


def room_one_short(file, index, room):
    number, written, after = RIGHT_CALL(file, index, room + [0])
    return (number, written, after[:len(room)])


def arguments_first(file, *asked):
    """Arguments are judged before the file, also where the file's number is 1."""
    return (2, 0) if asked[0] == 0 else RIGHT_DELAY_CALL(file, *asked)


def file_first(file, *asked):
    """The file's 3 or 4 is given although an argument is out of range."""
    return (session.refusal(file), 0) if session.refusal(file) else RIGHT_DELAY_CALL(file, *asked)


WRONG = (
    ("delay 0 always", delay, "delay_of", lambda *records: 0),
    ("halves rounded upward in day values", delay, "line", lambda v0, v1, ms: v0 + halves_upward((v1 - v0) * ms, earth.DAY_MS)),
    ("halves rounded upward in projections", delay, "R", halves_upward),
    ("pole's x and y exchanged", delay, "delay_of", pole_exchanged),
    ("stations exchanged", delay, "delay_of", stations_exchanged),
    ("sine for cosine of H", delay, "delay_of", sine_for_cosine),
    ("the tide left out", delay, "orientation_of", tide_left_out),
    ("TAI-UTC of the next day", delay, "orientation_of", next_days_tai),
    ("a leap second forgotten", delay, "leap_of", lambda today, tomorrow: 0),
    ("a leap second added", delay, "leap_of", lambda today, tomorrow: -RIGHT_LEAP(today, tomorrow)),
    ("the leap second of the day after the next", delay, "two_days", leap_of_the_day_after),
    ("a leap second taken from the epoch's own day, too", delay, "day_values_of", leap_at_both_ends),
    ("no pole", delay, "pole_shift", lambda c, p: 0),
    ("a declination without its sign", delay, "delay_of", declination_unsigned),
    ("projections not rounded", delay, "delay_of", rounded_once),
    ("the last day covered at 0h", delay, "two_days", last_day_at_0h),
    ("coverage judged at the first sample", delay, "samples_of", first_epoch_only),
    ("room for one sample too few", delay, "samples", room_one_short),
    ("2 given for a file that is refused with 1", delay, "delay", arguments_first),
    ("3 or 4 given where 2 applies", delay, "delay", file_first),
    ("every refused file is 2", session, "refusal", lambda file: 2 if session.fault(file)[0] else 0),
)
