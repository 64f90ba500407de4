"""Laws of document 02, L4, held to the reference over seeded sessions: what marks do to delays, and the way back of files."""

import random

from inputs.marktraps import judged
from inputs.questions import lists_lent
from inputs.sound import marked, some_days, some_marks, some_session, with_marks
from inputs.write import faults_together
from tally import alone

from . import delay, earth, session

MOST_TIDE = 2_723_000
DAY_MS = earth.DAY_MS


def plain(record):
    """The record marked 0 whose UT1-UTC is less by the record's own tide; it may be beyond what a file can hold."""
    day, x, y, ut1, tai, mark = record
    return (day, x, y, ut1 - earth.tide(day, 0, tai)[1] if mark == 1 else ut1, tai, 0)


def samples_of(lists):
    """Refusal and samples of each pass."""
    return [delay.samples_of(lists, planned) for planned in lists[delay.PASSES]]


def some_marked(numbers):
    """A session of kind 5, as its file hands it out; in one of three UT1-UTC is at the ends of its range."""
    stations, sources, days, passes = with_marks(numbers, some_session(numbers))
    if numbers.random() < 0.3:
        days = [(*day[:3], numbers.choice((-1, 1)) * 900_000_000, *day[4:]) for day in days]
    return session.sections_of(session.encode((stations, sources, days, passes), 5))


def wrong_marks(lists):
    """A record marked 1 has the delays of the one marked 0 whose UT1-UTC is less by the tide, which keeps its bound."""
    less = [plain(record) for record in lists[delay.DAYS]]
    moved = [abs(one[3] - other[3]) for one, other in zip(lists[delay.DAYS], less)]
    same = samples_of(lists) == samples_of((*lists[:2], less, lists[3]))
    yield "" if same else "it has not the delays of its UT1R"
    yield "" if max(moved) <= MOST_TIDE else "a tide of %d ns is taken away" % max(moved)


def wrong_kinds(lists):
    """With marks 0 a file of kind 5 answers as that of kind 3, but for its kind."""
    lists = (*lists[:2], marked(lists[delay.DAYS], (0,)), lists[3])
    three, five = (session.encode(lists, kind) for kind in (3, 5))
    asked = [(place, i) for place in range(4) for i in range(4)]
    same = all(session.record_at(three, *each) == session.record_at(five, *each) for each in asked)
    yield "" if session.check(three)[:5] == session.check(five)[:5] and same else "the records differ"
    yield "" if samples_of(session.sections_of(three)) == samples_of(session.sections_of(five)) else "the delays differ"


def wrong_round(lists, kind):
    """What is written of a kind and records is read as these, and what is read is written as the same bytes."""
    room = b"?" * 15_464
    flats = [[number for record in records for number in record] for records in lists]
    number, length, after = session.write(kind, flats, room)
    file = after[:length]
    refused = kind == 3 and any(record[5] for record in lists[delay.DAYS])
    if refused or number:
        yield "" if (number, length, after) == (2, 0, room) and refused else "it is refused with %d" % number
        return
    yield "" if session.check(file)[5] == kind and session.sections_of(file) == lists else "it reads back as another"
    yield "" if after[length:] == room[length:] and file == session.encode(lists, kind) else "it is another file"
    yield "" if session.write(kind, flats, file)[2] == file else "its own length is not enough"
    yield "" if session.write(kind, flats, file[:-1]) == (7, 0, file[:-1]) else "a byte less is not 7"


def sessions(tally, numbers):
    """A session is one test."""
    for i in range(150):
        lists = some_marked(numbers)
        wrong = [*wrong_marks(lists), *wrong_kinds(lists), *wrong_round(lists, 3), *wrong_round(lists, 5)]
        tally.nothing_wrong("session %d of kind 5:" % i, wrong)


def at_0h(tally, numbers):
    """At 0h of a day that is marked 1, UT1-UTC used is the record's own; marked 0 it is more by the tide."""
    for _ in range(200):
        today, tomorrow = marked(some_days(numbers, 2), some_marks(numbers, 2))
        wanted = today[3] if today[5] else today[3] + earth.tide(today[0], 0, today[4])[1]
        tally.equal("UT1-UTC at 0h, %r" % (today,), delay.orientation_of(today, tomorrow, 0)[2], wanted)


def over_midnight(tally, numbers):
    """Where TAI-UTC stays, UT1 does not step between two days, whatever their marks, but by a minute of the tide."""
    for _ in range(100):
        days = [(*day[:4], 30, day[5]) for day in marked(some_days(numbers, 3), some_marks(numbers, 3))]
        before, after = (delay.orientation_of(*days[i:i + 2], ms)[2] for i, ms in ((0, DAY_MS - 1), (1, 0)))
        change = abs(delay.ut1r_of(days[1]) - delay.ut1r_of(days[0])) // DAY_MS
        tally.check("UT1 over midnight, %r" % days, abs(after - before) <= change + 4, "it steps by %d" % (after - before))


def lowest_number(tally):
    """Of lists with faults the lowest number of those that each fault gives by itself."""
    for question in faults_together():
        asked = (question.d, lists_lent(question))
        number, _, _ = session.write(*asked, bytes(question.room))
        tally.equal("lists of kind %d, room %d" % (question.d, question.room), number, judged(*asked, question.room)[1])


def run(tally):
    numbers = random.Random(50_205)
    lowest_number(tally)
    for part in (sessions, at_0h, over_midnight):
        part(tally, numbers)


if __name__ == "__main__":
    alone(run)
