"""Half a year of finals2000A as the IERS published it, predictions included: finals2000A-2016.txt, beside this file."""

import os
from functools import cache

HERE = os.path.dirname(os.path.abspath(__file__))
FIRST_DAY, DAYS = 57_359, 181
TAI_UTC = 36


@cache
def text():
    with open(os.path.join(HERE, "finals2000A-2016.txt"), "rb") as file:
        return file.read()


@cache
def rows():
    return text().splitlines()
