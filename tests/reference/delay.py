"""Day values, orientation, delays and samples: document 01, 'Day values', 'Delay' and refusals 1 to 7; document 02, L1 and L4.

A function that ends in `_of` works on records that are at hand; the others are the calls over a session file. Each call hands back
its refusal first; refused, the rest are zeros.
"""

from . import earth, session
from .sine import ONE, TURN, cosine, sine
from .whole import R, within

STATIONS, SOURCES, DAYS, PASSES = range(4)


def line(v0, v1, ms):
    """The value at a millisecond of the day, on the line between two days' records."""
    return v0 + R((v1 - v0) * ms, earth.DAY_MS)


def leap_of(today, tomorrow):
    """By how many nanoseconds UT1-UTC steps between two records because TAI-UTC does, while UT1 goes on: document 02, L1."""
    return (tomorrow[4] - today[4]) * 1_000_000_000


def ut1r_of(record, tide_used=earth.tide_at):
    """UT1R-UTC of a record. One marked 1 holds full UT1: its tide at 0h of its own day is taken away, document 02, L4."""
    day, _, _, ut1, tai, mark = record
    return ut1 - tide_used(earth.minutes(day, 0, tai)) if mark == 1 else ut1


def day_values_of(today, tomorrow, ms, tide_used=earth.tide_at):
    """x, y and UT1R-UTC at a millisecond of the day of the record `today`."""
    x, y = (line(today[i], tomorrow[i], ms) for i in (1, 2))
    ends = ut1r_of(today, tide_used), ut1r_of(tomorrow, tide_used) - leap_of(today, tomorrow)
    return (x, y, line(*ends, ms))


def orientation_of(today, tomorrow, ms, tide_used=earth.tide_at):
    """x, y, UT1-UTC used, and ERA in ticks."""
    day, tai = today[0], today[4]
    x, y, ut1r = day_values_of(today, tomorrow, ms, tide_used)
    ut1 = ut1r + tide_used(earth.minutes(day, ms, tai))
    return (x, y, ut1, earth.angle_tick(earth.angle_e(day, earth.microseconds(ms, ut1))))


def pole_shift(c, p):
    """Document 01's c*p."""
    return R(R(c * p, 10**6) * 4_848_137, 10**12)


def delay_of(station1, station2, source, values):
    """The delay of two station records, a source record and the epoch's orientation, in ps."""
    x, y, _, era = values
    bx, by, bz = (station2[i] - station1[i] for i in (1, 2, 3))
    px = bx - pole_shift(bz, x)
    py = by + pole_shift(bz, y)
    pz = bz + pole_shift(bx, x) - pole_shift(by, y)
    _, ascension, declination = source
    h = (era - ascension) % TURN
    p = R(px * cosine(h) - py * sine(h), ONE)
    g = R(p * cosine(declination) + pz * sine(declination), ONE)
    return R(-g * 1_000_000_000, 299_792_458)


def named(records, name):
    """The record with an id, or none."""
    return next((record for record in records if record[0] == name), None)


def two_days(days, day):
    """Records d and d+1, or none."""
    today, tomorrow = named(days, day), named(days, day + 1)
    return None if today is None or tomorrow is None else (today, tomorrow)


def lowest(*numbers):
    """The lowest refusal number of those that apply; 0 stands for none."""
    return min((number for number in numbers if number), default=0)


def orientation(file, day, ms):
    """Refusal, x, y, UT1-UTC used, ERA."""
    number = lowest(session.refusal(file), 0 if earth.epoch_in_range(day, ms) else 2)
    if number:
        return (number, 0, 0, 0, 0)
    days = two_days(session.sections_of(file)[DAYS], day)
    if days is None:
        return (6, 0, 0, 0, 0)
    return (0, *orientation_of(*days, ms))


def delay(file, name1, name2, source_name, day, ms):
    """Refusal and the delay."""
    in_range = all(within(name, 1, 65_535) for name in (name1, name2, source_name)) and earth.epoch_in_range(day, ms)
    number = lowest(session.refusal(file), 0 if in_range else 2)
    if number:
        return (number, 0)
    lists = session.sections_of(file)
    station1, station2 = named(lists[STATIONS], name1), named(lists[STATIONS], name2)
    source = named(lists[SOURCES], source_name)
    if station1 is None or station2 is None or source is None:
        return (5, 0)
    days = two_days(lists[DAYS], day)
    if days is None:
        return (6, 0)
    return (0, delay_of(station1, station2, source, orientation_of(*days, ms)))


def epochs_of(planned):
    """The epoch of each sample of a pass record."""
    day, ms, step, samples = planned[3:7]
    return [earth.later_epoch(day, ms, i * step) for i in range(samples)]


def kept_tide():
    """The tide as a function of n that works each n out once."""
    known = {}

    def tide_used(n):
        if n not in known:
            known[n] = earth.tide_at(n)
        return known[n]

    return tide_used


def samples_of(lists, planned):
    """Refusal 5 or 6 or 0, and the samples of a pass record; room is not looked at."""
    station1, station2 = (named(lists[STATIONS], name) for name in planned[:2])
    source = named(lists[SOURCES], planned[2])
    if station1 is None or station2 is None or source is None:
        return (5, [])
    epochs = epochs_of(planned)
    days = {day: two_days(lists[DAYS], day) for day in {day for day, _ in epochs}}
    if any(pair is None for pair in days.values()):
        return (6, [])
    tide_used = kept_tide()
    return (0, [delay_of(station1, station2, source, orientation_of(*days[day], ms, tide_used)) for day, ms in epochs])


def samples(file, index, room):
    """Refusal, samples written, and the room afterwards."""
    number = session.refusal(file)
    if number:
        return (number, 0, room)
    lists = session.sections_of(file)
    if index >= len(lists[PASSES]):
        return (5, 0, room)
    number, made = samples_of(lists, lists[PASSES][index])
    if number == 0 and len(made) > len(room):
        number = 7
    if number:
        return (number, 0, room)
    return (0, len(made), made + room[len(made):])
