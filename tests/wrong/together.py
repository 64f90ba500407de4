"""Wrong tracks of all passes: what is wrong, the module and the function that it stands in for, and the wrong function."""

from inputs.sharing import most_segments
from reference import session, together
from reference.delay import PASSES

RIGHT, RIGHT_PASS, RIGHT_COUNTS = together.all_tracks_of, together.pass_track_of, together.counts_of


def in_turn(lists, room):
    """Up to the first pass that is refused, each one's number, its count, and the whole room after it."""
    at, made = 0, []
    for planned in lists[PASSES]:
        number, count, after = RIGHT_PASS(lists, planned, room[at:])
        room, at = room[:at] + after, at + 4 * count
        made.append((number, count, room))
        if number:
            break
    return made


def left_written(where):
    """The passes before a refused one stay written where the passes, the segments of the room and the number are so."""

    def all_tracks_of(lists, room):
        number, counts, after = RIGHT(lists, room)
        left = number and where(lists[PASSES], len(room) // 4, number)
        return (number, counts, in_turn(lists, room)[-1][2] if left else after)

    return all_tracks_of


def pairs_of(passes):
    """How many pairs of samples there are, in whole pairs of each pass."""
    return sum(planned[6] // 2 for planned in passes)


LEFT_ALWAYS = left_written(lambda passes, segments, number: True)
LEFT_IN_AMPLE_ROOM = left_written(lambda passes, segments, number: most_segments(*passes) <= segments)
LEFT_BY_FEWER = left_written(lambda passes, segments, number: number == 8 and pairs_of(passes) <= segments)
LEFT_BY_THE_FIRST = left_written(lambda passes, segments, number: number == 8 and most_segments(passes[0]) <= segments)


def counts_kept(lists, room):
    number, _, after = RIGHT(lists, room)
    return (number, RIGHT_COUNTS([count for _, count, _ in in_turn(lists, room)]), after)


def refused_where(short):
    """8 also where the counts, the passes and the segments of the room are so."""

    def all_tracks_of(lists, room):
        number, counts, after = RIGHT(lists, room)
        also = number == 0 and short(counts, lists[PASSES], len(room) // 4)
        return together.refused(8, room) if also else (number, counts, after)

    return all_tracks_of


def whole_room(lists, room):
    """Each pass is given the whole room, from its start."""
    counts, after = [], room
    for planned in lists[PASSES]:
        number, count, after = RIGHT_PASS(lists, planned, after)
        if number:
            return together.refused(number, room)
        counts.append(count)
    return (0, RIGHT_COUNTS(counts), after)


def judged_by_the_whole_room(lists, room):
    """8 only where the whole room is too short for a pass; what goes past the room's end is not written."""
    if any(RIGHT_PASS(lists, planned, room)[0] for planned in lists[PASSES]):
        return RIGHT(lists, room)
    number, counts, after = RIGHT(lists, room + [0] * 4 * most_segments(*lists[PASSES]))
    return (number, counts, after[:len(room)])


def decided_by(choose):
    """The number is chosen from those of the first refused pass and of all behind it, each in the room left for that one."""

    def all_tracks_of(lists, room):
        number, counts, after = RIGHT(lists, room)
        made = in_turn(lists, room)
        left = room[4 * sum(count for _, count, _ in made):]
        numbers = [RIGHT_PASS(lists, planned, left)[0] for planned in lists[PASSES][len(made) - 1:]]
        return (choose([each for each in numbers if each]) if number else 0, counts, after)

    return all_tracks_of


def refused_left_out(lists, room):
    """A refused pass has no segments, and the next one follows, as in what `tracks` prints."""
    answered = [planned for planned in lists[PASSES] if RIGHT_PASS(lists, planned, room)[0] == 0]
    return RIGHT((*lists[:PASSES], answered), room)


def spread(lists, room):
    """Each pass is written behind as many segments as those before it can have."""
    number, counts, after = RIGHT(lists, room)
    made, at = list(after), 0
    for i, planned in enumerate(lists[PASSES]):
        segments = after[4 * sum(counts[:i]):4 * sum(counts[:i + 1])]
        made[at:at + len(segments)] = segments
        at += 4 * most_segments(planned)
    return (number, counts, made[:len(room)])


def rest_cleared(lists, room):
    number, counts, after = RIGHT(lists, room)
    at = 4 * sum(counts)
    return (number, counts, after if number else after[:at] + [0] * (len(room) - at))


def counted_on(lists, room):
    """First samples are counted through all passes."""
    number, counts, after = RIGHT(lists, room)
    before = [sum(planned[6] for planned in lists[PASSES][:i]) for i, count in enumerate(counts) for _ in range(count)]
    firsts = {4 * segment: samples for segment, samples in enumerate(before)}
    return (number, counts, [value + firsts.get(i, 0) for i, value in enumerate(after)])


def of_other_passes(change):
    return lambda lists, room: RIGHT((*lists[:PASSES], change(lists[PASSES])), room)


def first_tolerance(passes):
    return [(*planned[:7], passes[0][7]) for planned in passes]


ALL_TRACKS = {
    "the passes before a refused one left written": LEFT_ALWAYS,
    "in ample room the passes before a refused one left written": LEFT_IN_AMPLE_ROOM,
    "room taken for ample at half the samples, rounded down": LEFT_BY_FEWER,
    "room taken for ample by the first pass alone": LEFT_BY_THE_FIRST,
    "8 unless the room is ample": refused_where(lambda counts, passes, segments: most_segments(*passes) > segments),
    "8 where all passes just fit": refused_where(lambda counts, passes, segments: sum(counts) == segments),
    "each pass given the whole room": whole_room,
    "each pass judged by the whole room": judged_by_the_whole_room,
    "the lowest number of all passes": decided_by(min),
    "the number of the last refused pass": decided_by(lambda numbers: numbers[-1]),
    "5 and 6 of a later pass before 8": decided_by(lambda numbers: next((each for each in numbers if each < 8), 8)),
    "refused passes left out": refused_left_out,
    "each pass behind all that those before it can need": spread,
    "the rest of the room cleared": rest_cleared,
    "first samples counted through all passes": counted_on,
    "the first pass's tolerance for all": of_other_passes(first_tolerance),
    "the passes from the last to the first": of_other_passes(lambda passes: passes[::-1]),
    "the last of 64 passes left out": of_other_passes(lambda passes: passes[:63]),
    "counts kept where refused": counts_kept,
}

COUNTS = {
    "counts of the pass before": lambda counts: [0, *counts][:len(counts)],
    "counts added up": lambda counts: [sum(counts[:i + 1]) for i in range(len(counts))],
    "counts of numbers": lambda counts: [4 * count for count in counts],
    "the last count given for passes that are not there": lambda counts: counts + counts[-1:] * (64 - len(counts)),
}


def counted(wrong):
    return lambda counts: RIGHT_COUNTS(wrong(counts))


WRONG = (
    *((name, together, "all_tracks_of", instead) for name, instead in ALL_TRACKS.items()),
    *((name, together, "counts_of", counted(wrong)) for name, wrong in COUNTS.items()),
    ("every refused file is 1", session, "refusal", lambda file: 1 if session.fault(file)[0] else 0),
)
