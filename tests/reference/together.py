"""The track of a pass in one step, document 02, L6; of all passes together, L2: pass after pass, each behind the last."""

from . import delay, session, track

MOST_PASSES = 64
# For the track of any pass: two samples always fit a segment, which is four numbers.
ENOUGH_ROOM = 4 * track.MOST_SAMPLES // 2


def pass_track_of(lists, planned, room):
    """Refusal 5, 6, 8 or 0 of a pass record, its segments, and the room afterwards."""
    number, samples = delay.samples_of(lists, planned)
    if number:
        return (number, 0, room)
    return track.track(samples, planned[7], room)


def pass_track(file, index, room):
    """Refusal, segments written, and the room (a list of numbers) afterwards: what `delay.samples`, in room for every
    sample, and then `track.track` answer.
    """
    number, *planned = session.record_at(file, delay.PASSES, index)
    return (number, 0, room) if number else pass_track_of(session.sections_of(file), planned, room)


def counts_of(counts):
    """The counts as 64 numbers, 0 beyond the last pass."""
    return counts + [0] * (MOST_PASSES - len(counts))


def refused(number, room):
    return (number, counts_of([]), room)


def all_tracks_of(lists, room):
    """Refusal, counts and room for an accepted file's records: each pass is given what the passes before it left."""
    counts, written, left = [], [], room
    for planned in lists[delay.PASSES]:
        number, count, after = pass_track_of(lists, planned, left)
        if number:
            return refused(number, room)
        counts.append(count)
        written, left = written + after[:4 * count], after[4 * count:]
    return (0, counts_of(counts), written + left)


def all_tracks(file, room):
    """Refusal, the 64 counts, and the room afterwards."""
    number = session.refusal(file)
    return refused(number, room) if number else all_tracks_of(session.sections_of(file), room)
