"""The days about the leap seconds of June 2015 and December 2016, as the IERS published them: the rows of leap-seconds.txt, beside this file."""

import os
from decimal import Decimal

from reference.delay import ut1r_of

HERE = os.path.dirname(os.path.abspath(__file__))
FIRST_DAYS = (57_200, 57_750)


def scaled(text, unit):
    """A decimal as a whole number of units."""
    return int(Decimal(text) * unit)


def published():
    """Two rows of orientation records: they hold full UT1, and are marked so."""
    with open(os.path.join(HERE, "leap-seconds.txt")) as lines:
        rows = [line.split() for line in lines if not line.startswith("#")]
    days = [(int(day), scaled(x, 10**6), scaled(y, 10**6), scaled(ut1, 10**9), int(tai), 1) for day, x, y, ut1, tai in rows]
    return [[day for day in days if first <= day[0] < first + 100] for first in FIRST_DAYS]


def as_filed(days):
    """The records with UT1R, without the tide at 0h of the day: marked 0."""
    return [(*day[:3], ut1r_of(day), day[4], 0) for day in days]


def last_day_before(days):
    """The day that a leap second ends."""
    return next(today[0] for today, tomorrow in zip(days, days[1:]) if tomorrow[4] != today[4])
