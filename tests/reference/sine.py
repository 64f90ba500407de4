"""Sine and cosine of ticks, scaled by 2^30: document 01, 'Sine'."""

TURN = 2**32
QUARTER = 2**30
ONE = 2**30


def S(r):
    """The sine of r/2^30 of a quarter turn, r from 0 to 2^30."""
    y = r * 1_686_629_713 // ONE
    z = y * y // ONE
    h = ONE - z // 156
    for k in (110, 72, 42, 20, 6):
        h = ONE - z * h // (k * ONE)
    return min(y * h // ONE, ONE)


def sine(tick):
    """The sine of a tick; a negative tick is read modulo 2^32."""
    q, r = divmod(tick % TURN, QUARTER)
    size = S(r) if q in (0, 2) else S(QUARTER - r)
    return size if q in (0, 1) else -size


def cosine(tick):
    return sine(tick + QUARTER)
