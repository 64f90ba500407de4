"""Wrong tracks of a single pass: what is wrong, the module and the function that it stands in for, and the wrong function."""

from inputs.passtraps import PARTS, covered
from reference import delay, session, together, track
from reference.delay import PASSES
from reference.lawtest import two_calls

RIGHT, RIGHT_OF, RIGHT_SAMPLES = together.pass_track, together.pass_track_of, delay.samples_of


def of_another(change):
    """The track of a record that is made of the first pass's and the pass's own."""
    return lambda lists, planned, room: RIGHT_OF(lists, change(lists[PASSES][0], planned), room)


def of_the_first(part):
    """A part of the record is the first pass's."""

    def mixed(first, planned):
        made = list(planned)
        made[part] = first[part]
        return made

    return of_another(mixed)


def by_index(change):
    """Another index is taken, made of it and of the number of passes."""
    return lambda file, index, room: RIGHT(file, change(index, session.check(file)[4]), room)


def where(number, instead):
    """Another answer where the right one is refused with a number."""

    def pass_track(file, index, room):
        answer = RIGHT(file, index, room)
        return instead(number, room) if answer[0] == number else answer

    return pass_track


def short_first(number, room):
    """Room for no segment is looked at first."""
    return (8 if len(room) < 4 else number, 0, room)


def cleared(number, room):
    return (number, 0, [0] * len(room))


def index_first(file, index, room):
    """The index is looked at before the records of the file."""
    beyond = session.refusal(file) > 1 and index >= len(session.sections_of(file)[PASSES])
    return (5, 0, room) if beyond else RIGHT(file, index, room)


def days_first(lists, planned):
    """Days are looked for before names."""
    return RIGHT_SAMPLES(lists, planned) if covered(lists, planned) else (6, [])


def all_places(lists, planned):
    """The samples are the whole buffer: zeros stand behind the pass's own."""
    number, made = RIGHT_SAMPLES(lists, planned)
    return (number, [] if number else made + [0] * (track.MOST_SAMPLES - len(made)))


PASS_TRACK = {
    "7 for a pass of more than 2,048 samples": lambda file, index, room: two_calls(file, index, room, 2_048),
    "7 for more samples than the room has numbers": lambda file, index, room: two_calls(file, index, room, len(room)),
    "an index beyond the last taken for the last": by_index(lambda index, passes: max(0, min(index, passes - 1))),
    "32 bits of the index": by_index(lambda index, passes: index % 2**32),
    "5 before 2, 3 and 4": index_first,
    **{"8 before %d" % number: where(number, short_first) for number in range(1, 7)},
    **{"the room cleared before %d" % number: where(number, cleared) for number in (1, 2, 3, 4, 5, 6, 8)},
}

OF_RECORDS = {
    "the first pass whatever the index": of_another(lambda first, planned: first),
    **{"%s of the first pass" % name: of_the_first(part) for name, part in PARTS.items()},
    "the step taken for the tolerance": of_another(lambda first, planned: (*planned[:7], planned[5])),
}

WRONG = (
    *((name, together, "pass_track", instead) for name, instead in PASS_TRACK.items()),
    *((name, together, "pass_track_of", instead) for name, instead in OF_RECORDS.items()),
    ("6 before 5", delay, "samples_of", days_first),
    ("the track of all places of the buffer", delay, "samples_of", all_places),
)
