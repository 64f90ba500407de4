"""UT1 goes on over a leap second: document 02, L1 and L4, asked of the proved program for the last two of them."""

from unittest.mock import patch

import rattle
from inputs import leapseconds
from inputs.questions import ORIENTATION, Question, stdin_of
from reference import delay, earth, session
from tally import alone

NOON, LAST_MS = 43_200_000, 86_399_999
SECOND, TENTH_OF_A_MS = 10**9, 100_000
MINUTE_OF_TIDE = 3


def ut1_used(days, epochs):
    """UT1-UTC as the program uses it at some epochs, for a session with these days."""
    file = session.encode(([(1, 0, 0, 0)], [(1, 0, 0)], days, [(1, 1, 1, days[0][0], 0, 1, 1, 0)]), 5)
    asked = [Question(ORIENTATION, *epoch, lent=file) for epoch in epochs]
    wrote, _, _ = rattle.run(rattle.command("answers"), stdin_of(asked))
    answers = [[int(number) for number in line.split()] for line in wrote.splitlines()]
    if [number for number, *_ in answers] != [0] * len(epochs):
        raise ValueError("answers did not answer %r" % epochs)
    return [ut1 for _, _, _, ut1, _ in answers]


def ut1_tai(days, epochs):
    """UT1-TAI at some epochs: the value used less TAI-UTC of its day."""
    seconds = {day[0]: day[4] for day in days}
    return [ut1 - seconds[day] * SECOND for (day, _), ut1 in zip(epochs, ut1_used(days, epochs))]


def old_step(days, day):
    """How UT1-TAI stepped at the end of a day while the line was drawn without the leap, by the reference."""
    def ut1_at(day, ms):
        today, tomorrow = delay.two_days(days, day)
        return delay.orientation_of(today, tomorrow, ms)[2] - today[4] * SECOND

    with patch.object(delay, "leap_of", lambda today, tomorrow: 0):
        return ut1_at(day + 1, 0) - ut1_at(day, LAST_MS)


def over_the_night(days, day):
    """UT1-TAI does not step; by the rule before L1 it stepped by nearly a second."""
    before, after = ut1_tai(days, [(day, LAST_MS), (day + 1, 0)])
    old = abs(old_step(days, day))
    yield "" if abs(after - before) <= 1 else "UT1-TAI steps by %d ns" % (after - before)
    yield "" if 999 * SECOND < 1_000 * old <= 1_000 * SECOND else "by the old rule it stepped by %d ns" % old


def at_noon(days, day):
    """Midway between 0h and 0h, and between the noons of the day before and the day after."""
    noon, *others = ut1_tai(days, [(day, NOON), (day, 0), (day + 1, 0), (day - 1, NOON), (day + 1, NOON)])
    for name, neighbours in (("0h", others[:2]), ("noons", others[2:])):
        apart = abs(2 * noon - sum(neighbours))
        yield "" if apart <= 2 * TENTH_OF_A_MS else "noon is %d ns from the mean of the %s" % (apart // 2, name)


def at_its_end(published, day):
    """Drawn between published values as if they were UT1R, and without the tide, the line ends at the next day's UT1."""
    tomorrow = delay.named(published, day + 1)
    tide = earth.tide_at(earth.minutes(day, LAST_MS, delay.named(published, day)[4]))
    [used] = ut1_used([(*record[:5], 0) for record in published], [(day, LAST_MS)])
    apart = abs(used - tide - (tomorrow[3] - SECOND))
    yield "" if apart <= TENTH_OF_A_MS else "the line ends %d ns from UT1" % apart


def as_published(published):
    """Published values are marked 1: UT1 used is theirs at 0h of each day, the next one's at its end, but for a minute of the
    tide, and between them it is what their UT1R gives.
    """
    days = [record[0] for record in published[:-1]]
    at_0h, at_the_end, at_noon = ([(day, ms) for day in days] for ms in (0, LAST_MS, NOON))
    wanted = [record[3] - record[4] * SECOND for record in published]
    begun, ended = ut1_tai(published, at_0h), ut1_tai(published, at_the_end)
    far = max(abs(one - other) for one, other in zip(ended, wanted[1:]))
    same = ut1_used(published, at_noon) == ut1_used(leapseconds.as_filed(published), at_noon)
    yield "" if begun == wanted[:-1] else "UT1 at 0h is not the published one"
    yield "" if far <= MINUTE_OF_TIDE else "UT1 at the end of a day is %d ns from the published one" % far
    yield "" if same else "noon by published values differs from that by UT1R"


def run(tally):
    """A night is one test."""
    for published in leapseconds.published():
        days, day = leapseconds.as_filed(published), leapseconds.last_day_before(published)
        wrong = [*over_the_night(days, day), *at_noon(days, day), *at_its_end(published, day)]
        wrong += [*over_the_night(published, day), *at_noon(published, day), *as_published(published)]
        tally.nothing_wrong("the leap second at the end of %d" % day, wrong)


if __name__ == "__main__":
    alone(run)
