"""Epochs, the tide in UT1 and the rotation angle: document 01, 'Numbers used' and 'Earth rotation'.

The calls later, arguments, tide, angle_at hand back a tuple whose first entry is the refusal number; refused, the rest are zeros.
"""

from .sine import ONE, TURN, cosine, sine
from .whole import R, within

DAY_MS = 86_400_000
FIRST_DAY, LAST_DAY = 41_317, 69_806
J2000_DAY = 51_544
MOST_ADDED = 14_742_000_000
LEAST_F, GREATEST_F = -100_000_000, 86_500_000_000

M = 681_644_160_000_000_000
CENTURY_MINUTES = 52_596_000

# l, l', F, D, Omega: constant, and rate per century, in units of 0.0001 arcsecond
DELAUNAY = (
    (4_858_682_490, 17_179_159_232_178),
    (12_871_047_930, 1_295_965_810_481),
    (3_357_795_262, 17_395_272_628_478),
    (10_722_607_037, 16_029_616_012_090),
    (4_501_603_980, -69_628_905_431),
)

# Multipliers of l l' F D Omega, then A in microseconds, as document 01 prints them
TIDE_ROWS = tuple(
    tuple(int(number) for number in row.split())
    for row in (
        "1 0 2 2 2 -2; 2 0 2 0 1 -4; 2 0 2 0 2 -10; 0 0 2 2 1 -5; 0 0 2 2 2 -12; 1 0 2 0 0 -4; 1 0 2 0 1 -41; "
        "1 0 2 0 2 -99; 3 0 0 0 0 -2; -1 0 2 2 1 -8; -1 0 2 2 2 -20; 1 0 0 2 0 -8; 2 0 2 -2 2 2; 0 1 2 0 2 3; "
        "0 0 2 0 0 -30; 0 0 2 0 1 -321; 0 0 2 0 2 -776; 2 0 0 0 -1 2; 2 0 0 0 0 -34; 2 0 0 0 1 2; 0 -1 2 0 2 -2; "
        "0 0 0 2 -1 5; 0 0 0 2 0 -73; 0 0 0 2 1 -5; 0 -1 0 2 0 -5; 1 0 2 -2 1 5; 1 0 2 -2 2 10; 1 1 0 0 0 4; "
        "-1 0 2 0 0 5; -1 0 2 0 1 18; -1 0 2 0 2 44; 1 0 0 0 -1 53; 1 0 0 0 0 -826; 1 0 0 0 1 54; 0 0 0 1 0 5; "
        "1 -1 0 0 0 -6; -1 0 0 2 -1 12; -1 0 0 2 0 -182; -1 0 0 2 1 13; 1 0 -2 2 -1 2; -1 -1 0 2 0 -9"
    ).split(";")
)


def later_epoch(day, ms, add):
    """The epoch with milliseconds added, which carry into the day."""
    return day + (ms + add) // DAY_MS, (ms + add) % DAY_MS


def minutes(day, ms, tai):
    """n, minutes of TT from J2000."""
    return ((day - J2000_DAY) * DAY_MS - 43_200_000 + ms + 32_184 + 1_000 * tai) // 60_000


def argument(constant, rate, n):
    """One Delaunay argument at n, in ticks."""
    w = (constant * CENTURY_MINUTES + rate * n) % M
    return TURN * w // M


def five_arguments(n):
    return tuple(argument(constant, rate, n) for constant, rate in DELAUNAY)


def row_angle(multipliers, arguments):
    return sum(m * a for m, a in zip(multipliers, arguments)) % TURN


def tide_at(n):
    """The tide in nanoseconds at n minutes."""
    arguments = five_arguments(n)
    total = sum(row[5] * sine(row_angle(row[:5], arguments)) for row in TIDE_ROWS)
    return R(1_000 * total, ONE)


def microseconds(ms, ut1_utc):
    """f of an epoch's millisecond and the UT1-UTC used, in nanoseconds."""
    return 1_000 * ms + ut1_utc // 1_000


def angle_e(day, f):
    """E, the rotation angle in 1/10^17 turn."""
    fm = f // 1_000
    turned = 27_768_836_730_832_276 + 273_781_191_135_448 * (day - J2000_DAY)
    return (turned + 10 * (3_125_000 * f // 27) + 1_368_905_955 * fm // 432) % 10**17


def angle_tick(e):
    """ERA in ticks."""
    return TURN * e // 10**17


def day_in_range(day):
    return within(day, FIRST_DAY, LAST_DAY)


def epoch_in_range(day, ms):
    return day_in_range(day) and within(ms, 0, DAY_MS - 1)


def later(day, ms, add):
    if not (epoch_in_range(day, ms) and within(add, 0, MOST_ADDED)):
        return (2, 0, 0)
    return (0, *later_epoch(day, ms, add))


def arguments(day, ms, tai):
    if not (epoch_in_range(day, ms) and within(tai, 0, 99)):
        return (2, 0, 0, 0, 0, 0, 0)
    n = minutes(day, ms, tai)
    return (0, n, *five_arguments(n))


def tide(day, ms, tai):
    if not (epoch_in_range(day, ms) and within(tai, 0, 99)):
        return (2, 0)
    return (0, tide_at(minutes(day, ms, tai)))


def angle_at(day, f):
    if not (day_in_range(day) and within(f, LEAST_F, GREATEST_F)):
        return (2, 0, 0)
    e = angle_e(day, f)
    return (0, e, angle_tick(e))


def rotate(tick):
    """Three rows of three, scaled by 2^30, in one tuple of nine."""
    c, s = cosine(tick), sine(tick)
    return (c, -s, 0, s, c, 0, 0, 0, ONE)
