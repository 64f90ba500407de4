"""What questions on the track of a single pass meet: refusals, lengths, the first pass beside it, rooms; the traps of document 02, L6."""

from reference import delay, session
from reference.delay import DAYS, PASSES

from . import marktraps
from .marktraps import holding
from .questions import index
from .sharing import of_room, passes_alone

PARTS = {
    "stations": slice(0, 2),
    "source": slice(2, 3),
    "start": slice(3, 5),
    "step": slice(5, 6),
    "samples": slice(6, 7),
    "tolerance": slice(7, 8),
}


def covered(lists, planned):
    """Whether the days are there for every sample of a pass."""
    return all(delay.two_days(lists[DAYS], day) for day, _ in delay.epochs_of(planned))


def of_lacking(lists, place):
    """Of a pass that is refused with 5."""
    if place >= len(lists[PASSES]):
        return {"beyond the last pass"}
    return set() if covered(lists, lists[PASSES][place]) else {"a name and a day that are not there"}


def unlike(first, planned):
    """The part in which a pass differs from the first one, where it is one alone."""
    parts = [name for name, part in PARTS.items() if planned[part] != first[part]]
    return {"only %s unlike the first pass's" % name for name in parts if len(parts) == 1}


def of_sampled(file, place, room):
    """Of a pass that has samples, whether or not the room is enough."""
    lists = session.sections_of(file)
    planned = lists[PASSES][place]
    marks = marktraps.of_pass(lists, planned) if marktraps.has_marks(file) else {"days of kind 3"}
    fit = of_room([passes_alone(file)[place]], room)
    return {"%d samples" % planned[6], *unlike(lists[PASSES][0], planned), *marks, *fit}


def traps(question, number):
    """All of these of a question that is refused with a number, or with 0 answered."""
    file, place, room = question.lent, index(question.a), question.room
    found = {"tracked with %d" % number} | holding({"%d in room for no segment" % number: room < 4})
    if number == 5:
        found |= of_lacking(session.sections_of(file), place)
    if number in (0, 8):
        found |= of_sampled(file, place, room)
    return found
