"""The places of date that examples/place.c made, as tests/erfa/make stored them in places.txt: words, then ticks."""

import os

HERE = os.path.dirname(os.path.abspath(__file__))


def ticks_of(right_ascension, declination, mjd):
    """Right ascension and declination of date, in ticks, of an ICRS place on a day."""
    with open(os.path.join(HERE, "places.txt")) as lines:
        rows = [line.split() for line in lines]
    wanted = [right_ascension, declination, str(mjd)]
    found = [row[3:] for row in rows if row[:3] == wanted]
    if len(found) != 1:
        raise LookupError("tests/erfa/make has not made the place %s" % " ".join(wanted))
    return tuple(map(int, found[0]))
