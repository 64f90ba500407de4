"""The questions of crates/answers/stdin: document 01's, some delays, tracks and marks, and of each call one for each number it gives."""

from reference import session

from . import chosen, earth, together, track, write
from .questions import CHECK, DAY, DELAY, FAULT, NAMES, ORIENTATION, PASS_TRACK, SAMPLES, Question, refusal

# The numbers that documents 01 and 02 let each call give, beside an answer.
GIVEN = {
    "sine": (), "cosine": (), "rotate": (),
    "arguments": (2,), "tide": (2,), "angle_at": (2,), "later": (2,),
    "check": (1, 2, 3, 4), "fault": (1, 2, 3, 4),
    "station_at": (1, 2, 3, 4, 5), "source_at": (1, 2, 3, 4, 5), "day_at": (1, 2, 3, 4, 5), "pass_at": (1, 2, 3, 4, 5),
    "orientation": (1, 2, 3, 4, 6), "delay": (1, 2, 3, 4, 5, 6), "samples": (1, 2, 3, 4, 5, 6, 7),
    "write": (1, 2, 3, 4, 7),
    "track": (2, 8), "predict": (9,), "host_at": (9,), "all_tracks": (1, 2, 3, 4, 5, 6, 8),
    "days_from_rows": (1, 2, 10, 11), "rows_from_days": (2, 7), "pass_track": (1, 2, 3, 4, 5, 6, 8),
}


def expected_kinds():
    """Each call with an answer and with each of its numbers."""
    return {(name, number) for name, numbers in GIVEN.items() for number in (0, *numbers)}


def kinds(known):
    """Each question that is answered, and its kind: the call, and the number that it gives."""
    for question, lines in known:
        if lines:
            yield (question, (NAMES[question.what], refusal(question, lines)))


def size(question):
    return len(question.lent or b"") + question.room


def of_each_kind(known):
    """The smallest question of each kind, the first where several are; `known` has the answer beside each question."""
    smallest = {}
    for question, name in kinds(known):
        if name not in smallest or size(question) < size(smallest[name]):
            smallest[name] = question
    return sorted(smallest.values(), key=lambda question: (question.lent or b"", question))


def of_tracks():
    """Document 01's. Its 1,025 samples are asked in two rooms alone: `rt try` has 10,000,000 steps for all that is asked here."""
    small = [asked for given in track.SMALL for asked in track.in_rooms(*given)]
    return [*small, *track.in_rooms(*track.LONG, more=(0, -1))]


def of_two_stations():
    """Orientation, a delay, samples and tracks that are not 0, of two stations over a midnight."""
    file = chosen.passes_refused_and_not()
    yield Question(ORIENTATION, 60_000, 86_399_000, lent=file)
    yield from (Question(DELAY, *names, 1, 60_000, 86_399_000, lent=file) for names in ((10, 20), (20, 10)))
    yield from (Question(SAMPLES, index, room=6, lent=file) for index in range(5))
    yield from (Question(PASS_TRACK, index, room=6, lent=file) for index in range(4))


def of_marks():
    """A file of kind 5: a day, and what it gives about midnight and noon; a mark that is none; marks written in either kind."""
    file, small = chosen.marked_passes(1, 0, 1), chosen.small_marked(1, 0)
    yield from (Question(CHECK, lent=file), Question(DAY, 0, lent=file))
    yield from (Question(ORIENTATION, 60_000, 86_399_000, lent=file), Question(SAMPLES, 0, room=5, lent=file))
    yield Question(PASS_TRACK, 2, room=5, lent=file)
    yield Question(FAULT, lent=chosen.small_marked(1, 2))
    yield from (write.question(kind, write.flats_of(session.sections_of(small)), len(small)) for kind in (5, 3))


def short(known):
    of_two_passes = together.in_rooms(together.ROUGH, together.CALM)
    chosen_ones = [*of_two_stations(), *of_two_passes, *of_marks()]
    return [*earth.document(), *of_tracks(), *chosen_ones, *of_each_kind(known)]
