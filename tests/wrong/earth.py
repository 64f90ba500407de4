"""Wrong rules of Earth rotation: what is wrong, the module and the function that it stands in for, and the wrong function."""

from reference import earth
from reference.sine import ONE, TURN, sine
from reference.whole import R


def toward_zero(a, b):
    return -(-a // b) if a < 0 else a // b


def tt_minutes(days, ms, tai, divide):
    return divide(days * earth.DAY_MS - 43_200_000 + ms + 32_184 + 1_000 * tai, 60_000)


def minutes_unsigned(day, ms, tai):
    return tt_minutes((day - 51_544) % 2**32, ms, tai, lambda a, b: a // b)


def minutes_toward_zero(day, ms, tai):
    return tt_minutes(day - 51_544, ms, tai, toward_zero)


def argument_toward_zero(constant, rate, n):
    w = constant * earth.CENTURY_MINUTES + rate * n
    return abs(w - toward_zero(w, earth.M) * earth.M) * TURN // earth.M


def tide_with_rows(rows, scale):
    def tide_at(n):
        arguments = earth.five_arguments(n)
        return R(scale * sum(row[5] * sine(earth.row_angle(row[:5], arguments)) for row in rows), ONE)

    return tide_at


def row_angle_cut_off(multipliers, arguments):
    return min(max(sum(m * a for m, a in zip(multipliers, arguments)), 0), TURN - 1)


def row_angle_by(number):
    """The row angle with another number of times for each multiplier."""
    return lambda multipliers, arguments: sum(number(m) * a for m, a in zip(multipliers, arguments)) % TURN


def angle_with(day_added, divide):
    def angle_e(day, f):
        turned = 27_768_836_730_832_276 + 273_781_191_135_448 * (day + day_added - 51_544)
        return (turned + 10 * (3_125_000 * f // 27) + 1_368_905_955 * divide(f, 1_000) // 432) % 10**17

    return angle_e


CHANGED_ROW = earth.TIDE_ROWS[:40] + ((-1, -1, 0, 2, 0, 9),)

WRONG = (
    ("days subtracted unsigned", earth, "minutes", minutes_unsigned),
    ("minutes toward zero", earth, "minutes", minutes_toward_zero),
    ("arguments toward zero", earth, "argument", argument_toward_zero),
    ("a wrong row of the tide", earth, "tide_at", tide_with_rows(CHANGED_ROW, 1_000)),
    ("a row too few", earth, "tide_at", tide_with_rows(earth.TIDE_ROWS[1:], 1_000)),
    ("the tide without its 1,000", earth, "tide_at", tide_with_rows(earth.TIDE_ROWS, 1)),
    ("a row's sum not wrapped", earth, "row_angle", row_angle_cut_off),
    ("a column added once for twice", earth, "row_angle", row_angle_by(lambda m: min(max(m, -1), 1))),
    ("a column's sign lost", earth, "row_angle", row_angle_by(abs)),
    ("the angle of the next day", earth, "angle_e", angle_with(1, lambda a, b: a // b)),
    ("milliseconds of f toward zero", earth, "angle_e", angle_with(0, toward_zero)),
    ("later days not carried", earth, "later_epoch", lambda day, ms, add: (day, (ms + add) % earth.DAY_MS)),
)
