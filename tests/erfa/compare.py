"""The reference held to values of ERFA, a library that none of us wrote; the C programs beside this file made the values that are stored here."""

import os
from fractions import Fraction
from math import isqrt

from inputs import sample
from reference import delay, earth
from tally import alone

from . import inputs

HERE = os.path.dirname(os.path.abspath(__file__))
TWO_PI = Fraction(314159265358979323846264338327950288, 5 * 10**34)

# E keeps 4/10^11 turn from its exact fraction. ERFA adds terms of up to 60 turns in doubles, each sum and product rounded by at most
# 2^-48 turn; half a dozen of them stay below 2/10^14 turn.
ERA_DISTANCE = Fraction(4, 10**11)
ERFA_ROUNDING = Fraction(2, 10**14)


# The terms in t^2 and in t^3 and beyond of the five arguments, in arcseconds, which document 01 leaves out; rounded up
NAMES = ("l", "l'", "F", "D", "Omega")
TERMS_LEFT_OUT = tuple((Fraction(square), Fraction(cube)) for square, cube in (
    ("31.88", "0.052"), ("0.554", "0.0002"), ("12.752", "0.0011"), ("6.371", "0.0067"), ("7.473", "0.0078"),
))


def stored(name):
    with open(os.path.join(HERE, name)) as lines:
        return [line.split() for line in lines]


def turns_apart(day, f, radians):
    """How far E lies from ERFA's angle, round the circle."""
    gap = (Fraction(earth.angle_e(day, f), 10**17) - Fraction(float(radians)) / TWO_PI) % 1
    return min(gap, 1 - gap)


def rotation_angle(tally):
    rows = stored("era.txt")
    grid = [(int(day), int(f)) for day, f, _ in rows]
    tally.check("erfa: the stored angles are those of the grid", grid == inputs.era_inputs())
    worst = Fraction(0)
    for (day, f), row in zip(grid, rows):
        apart = turns_apart(day, f, row[2])
        worst = max(worst, apart)
        tally.check("erfa: rotation angle", apart <= ERA_DISTANCE + ERFA_ROUNDING, "day %d f %d: %.3g turn" % (day, f, apart))
    tally.say("erfa: %d rotation angles, the furthest %.3g turn from ERFA's" % (len(rows), worst))


def turns_between(tick, radians):
    gap = (Fraction(tick, 2**32) - Fraction(float(radians)) / TWO_PI) % 1
    return min(gap, 1 - gap)


def allowed_argument(n, square, cube):
    """A tick, the fifth decimal that document 01 leaves out, ERFA's rounding, and the terms in t^2 and beyond, in turns."""
    t = abs(Fraction(n, 52_596_000))
    return Fraction(1, 2**32) + Fraction(1, 10**9) + (square * t * t + cube * t * t * t) / 1_296_000


def arguments_apart(n, radians):
    """Each of the five arguments at a minute that lies too far from ERFA's."""
    ticks = earth.five_arguments(n)
    for name, tick, value, (square, cube) in zip(NAMES, ticks, radians, TERMS_LEFT_OUT, strict=True):
        apart = turns_between(tick, value)
        yield "" if apart <= allowed_argument(n, square, cube) else "%s by %.3g turn" % (name, apart)


def delaunay_arguments(tally):
    """A minute is one test."""
    rows = stored("arguments.txt")
    tally.check("erfa: the stored arguments are those of the inputs", [(int(row[0]),) for row in rows] == inputs.argument_inputs())
    for n, *radians in rows:
        tally.nothing_wrong("erfa: arguments at n %s" % n, arguments_apart(int(n), radians))
    tally.say("erfa: %d arguments, apart from ERFA's by no more than the terms that document 01 leaves out" % (5 * len(rows)))


def delay_without_tide(values):
    stations = [(1, *values[0:3]), (2, *values[3:6])]
    source, day, ms = (1, *values[6:8]), values[8], values[9]
    today, tomorrow = (day, *values[10:13], 37, 0), (day + 1, *values[13:16], 37, 0)
    orientation = delay.orientation_of(today, tomorrow, ms, lambda n: 0)
    return delay.delay_of(*stations, source, orientation)


def length(values):
    """The baseline's length in mm, rounded down."""
    return isqrt(sum((values[3 + i] - values[i]) ** 2 for i in range(3)))


def plane_wave(tally):
    rows = stored("delay.txt")
    cases = [[int(value) for value in row[:16]] for row in rows]
    tally.check("erfa: the stored delays are those of the inputs", cases == list(inputs.delay_inputs()))
    worst_share, worst_slope, worst_short = Fraction(0), Fraction(0), Fraction(0)
    for values, row in zip(cases, rows):
        apart, mm = abs(delay_without_tide(values) - Fraction(row[16])), length(values)
        allowed = 12 + Fraction(5, 10**8) * mm
        worst_share = max(worst_share, apart / allowed)
        worst_slope = max(worst_slope, apart / mm if mm > 10**9 else 0)
        worst_short = max(worst_short, apart if mm < 10**6 else 0)
        tally.check("erfa: plane-wave delay", apart <= allowed, "%r: %.4g ps of %.4g" % (values, apart, allowed))
    tally.say("erfa: %d delays, the worst %.2f of the allowance" % (len(rows), worst_share))
    tally.say("erfa: beyond 1,000 km at most %.2g ps for each mm; below 1 km at most %.2f ps" % (worst_slope, worst_short))


def places_of_date(tally):
    words = [tuple(row[:3]) for row in stored("places.txt")]
    tally.equal("erfa: the stored places are those of the sample session", words, [(*place, str(mjd)) for *place, mjd in sample.places()])


def run(tally):
    places_of_date(tally)
    rotation_angle(tally)
    delaunay_arguments(tally)
    plane_wave(tally)


if __name__ == "__main__":
    alone(run)
