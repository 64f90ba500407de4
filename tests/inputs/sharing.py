"""What the passes of a session meet that share a room: their own refusals and segments, and the traps of document 02, L2."""

from functools import cache

from reference import session, together

COUNTS = {1: "one pass", 2: "two passes", 64: "64 passes"}


def most_segments(*passes):
    """As many segments as the tracks of passes can have: two samples always fit one."""
    return sum((planned[6] + 1) // 2 for planned in passes)


@cache
def passes_alone(file):
    """Each pass of an accepted file by itself in enough room: its refusal, its segments, and as many as it can have."""
    lists = session.sections_of(file)
    alone = [together.pass_track_of(lists, planned, [0] * together.ENOUGH_ROOM) for planned in lists[3]]
    return [(number, segments, most_segments(planned)) for (number, segments, _), planned in zip(alone, lists[3])]


def first_refused(passes, left):
    """Where so many segments are left, the place of the first pass that is refused, its number, and what is left for it."""
    for place, (number, segments, _) in enumerate(passes):
        if number or segments > left:
            return (place, number or 8, left)
        left -= segments
    return (len(passes), 0, left)


def of_refused(passes, place, number, left):
    """Which pass is refused, and with which numbers a later one would be."""
    name = "first" if place == 0 else "last" if place == len(passes) - 1 else "middle"
    behind = {own or (8 if segments > left else 0) for own, segments, _ in passes[place + 1:]} - {0, number}
    return {"%s pass refused with %d" % (name, number), *("%d before %d" % (number, other) for other in behind)}


def of_answered(passes, left):
    """From which pass on the room cannot run short, however many segments each further one has."""
    for place, (_, segments, _) in enumerate(passes):
        if sum(most for _, _, most in passes[place:]) <= left:
            return {"ample from the first pass on" if place == 0 else "ample from a later pass on"}
        left -= segments
    return {"never ample"}


def of_room(passes, room):
    """How the room lies to what all passes need, and to what they can need, where none is refused by itself."""
    refused, need, most = map(sum, zip(*passes))
    found = {
        "no room": room == 0,
        "numbers behind the last whole segment": room % 4 != 0,
        "room for the first pass alone": room // 4 == passes[0][1] < need,
        "a number short": room == 4 * need - 1,
        "a segment short": room == 4 * need - 4,
        "just enough": room == 4 * need,
        "just ample": room == 4 * most > 4 * need,
        "a number short of ample": need <= room // 4 and room == 4 * most - 1,
    }
    return {name for name, holds in found.items() if holds and refused == 0}


def traps(file, room):
    """All of these of a file in a room."""
    if session.refusal(file):
        return {"file refused with %d" % session.refusal(file)}
    passes = passes_alone(file)
    place, number, left = first_refused(passes, room // 4)
    if number == 0:
        ended = {"%s answered" % COUNTS.get(len(passes), "several passes"), *of_answered(passes, room // 4)}
    else:
        enough = "ample" if sum(most for _, _, most in passes) <= room // 4 else "tight"
        ended = {"refused with %d in %s room" % (number, enough), *of_refused(passes, place, number, left)}
    return ended | of_room(passes, room)
