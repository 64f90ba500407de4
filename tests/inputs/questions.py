"""Questions to the proved program `answers`: how they are written and read, and what the reference prints for each.

The table in ../README.md is their format. Run as a program, this reads questions and prints each with its answer:

    cd tests && python3 -m inputs.questions < ../crates/answers/stdin
"""

import struct
import sys
from typing import NamedTuple

from lines import line
from reference import bulletin, delay, earth, session, together, track
from reference.sine import cosine, sine

SINE, COSINE, ARGUMENTS, TIDE, ANGLE, LATER, ROTATE = range(1, 8)
CHECK, FAULT, STATION, SOURCE, DAY, PASS = range(8, 14)
ORIENTATION, DELAY, SAMPLES, WRITE, TRACK, PREDICT, HOST, ALL_TRACKS = range(14, 22)
DAYS_FROM_ROWS, ROWS_FROM_DAYS, PASS_TRACK = range(22, 25)

NAMES = dict(enumerate(
    "sine cosine arguments tide angle_at later rotate check fault station_at source_at day_at pass_at "
    "orientation delay samples write track predict host_at all_tracks days_from_rows rows_from_days pass_track".split(), 1,
))

HEAD_BYTES = 64
MOST_LENT = 66_560
MOST_ROOM = {
    **dict.fromkeys((SAMPLES, TRACK, ALL_TRACKS, PASS_TRACK), 8_200),
    **dict.fromkeys((WRITE, ROWS_FROM_DAYS), 16_384),
}
FILLED_NUMBER, FILLED_BYTE = 0x5555_5555_5555_5555, 165
SAME_AS_BEFORE = -1


class Question(NamedTuple):
    """A call, its arguments, its room, and the bytes that it is lent; none where it reads none."""

    what: int
    a: int = 0
    b: int = 0
    c: int = 0
    d: int = 0
    e: int = 0
    room: int = 0
    lent: bytes = None


def lent_numbers(numbers):
    """The bytes of numbers that are lent."""
    return struct.pack("<%dq" % len(numbers), *numbers)


def numbers_lent(lent):
    """The whole numbers of lent bytes."""
    return list(struct.unpack_from("<%dq" % (len(lent) // 8), lent))


def head_bytes(question, length):
    return struct.pack("<8Q", *(number % 2**64 for number in (*question[:7], length)))


def stdin_of(questions):
    """The bytes that ask some questions; what the one before was lent is not lent again."""
    made, lent = [], b""
    for question in questions:
        if question.lent is None or question.lent == lent:
            made.append(head_bytes(question, SAME_AS_BEFORE))
        else:
            lent = question.lent
            made += [head_bytes(question, len(lent)), lent]
    return b"".join(made)


def questions_of(stdin):
    """The questions that bytes ask; a head that is cut short ends them."""
    at, lent = 0, b""
    while at + HEAD_BYTES <= len(stdin):
        *head, length = struct.unpack_from("<7qQ", stdin, at)
        at += HEAD_BYTES
        if length <= MOST_LENT:
            lent = stdin[at:at + length]
            at += length
        yield Question(*head, lent)


def index(number):
    """A number as 64 bits without sign."""
    return number % 2**64


def record(place):
    return lambda q: [line(session.record_at(q.lent, place, index(q.a)))]


def filled_room(q):
    """A room of numbers before the call."""
    return [FILLED_NUMBER] * q.room


def with_room(answer):
    """The lines of a refusal, a count, and the room of numbers after the call."""
    number, count, room = answer
    return [line((number, count)), line(room)]


def lists_lent(q):
    """The four lists that are lent to the writer."""
    numbers = numbers_lent(q.lent)
    ends = (0, q.a, q.a + q.b, q.a + q.b + q.c, len(numbers))
    return [numbers[ends[i]:ends[i + 1]] for i in range(4)]


def write(q):
    number, count, room = session.write(q.d, lists_lent(q), bytes([FILLED_BYTE]) * q.room)
    return [line((number, count)), room.hex()]


def all_tracks(q):
    number, counts, room = together.all_tracks(q.lent, filled_room(q))
    return [line((number, *counts)), line(room)]


def days_from_rows(q):
    tai, text = q.lent[:8 * q.c], q.lent[8 * q.c:]
    return [line(bulletin.days_from_rows(text, q.a, q.b, numbers_lent(tai)))]


def rows_from_days(q):
    number, count, room = bulletin.rows_from_days(numbers_lent(q.lent), bytes([FILLED_BYTE]) * q.room)
    return [line((number, count)), room.hex()]


def host(q):
    number, *doubles = track.host_at(numbers_lent(q.lent), index(q.a))
    return [line((number, *map(track.bits, doubles)))]


CALLS = {
    SINE: lambda q: [line([sine(q.a)])],
    COSINE: lambda q: [line([cosine(q.a)])],
    ARGUMENTS: lambda q: [line(earth.arguments(q.a, q.b, q.c))],
    TIDE: lambda q: [line(earth.tide(q.a, q.b, q.c))],
    ANGLE: lambda q: [line(earth.angle_at(q.a, q.b))],
    LATER: lambda q: [line(earth.later(q.a, q.b, q.c))],
    ROTATE: lambda q: [line(earth.rotate(q.a))],
    CHECK: lambda q: [line(session.check(q.lent))],
    FAULT: lambda q: [line(session.fault(q.lent))],
    STATION: record(0),
    SOURCE: record(1),
    DAY: record(2),
    PASS: record(3),
    ORIENTATION: lambda q: [line(delay.orientation(q.lent, q.a, q.b))],
    DELAY: lambda q: [line(delay.delay(q.lent, *q[1:6]))],
    SAMPLES: lambda q: with_room(delay.samples(q.lent, index(q.a), filled_room(q))),
    WRITE: write,
    TRACK: lambda q: with_room(track.track(numbers_lent(q.lent), q.a, filled_room(q))),
    PREDICT: lambda q: [line(track.predict(numbers_lent(q.lent), index(q.a)))],
    HOST: host,
    ALL_TRACKS: all_tracks,
    DAYS_FROM_ROWS: days_from_rows,
    ROWS_FROM_DAYS: rows_from_days,
    PASS_TRACK: lambda q: with_room(together.pass_track(q.lent, index(q.a), filled_room(q))),
}


def answered(q):
    """Whether a question is one of the calls, with a room and lists that `answers` takes."""
    if q.what in MOST_ROOM and index(q.room) > MOST_ROOM[q.what]:
        return False
    listed = {WRITE: q[1:4], DAYS_FROM_ROWS: [q.c]}.get(q.what, ())
    if sum(map(index, listed)) > len(q.lent or b"") // 8:
        return False
    return q.what in CALLS


def lines_of(question):
    """The lines that the reference prints for a question."""
    return CALLS[question.what](question) if answered(question) else []


def refusal(question, lines):
    """The number with which a question was refused, 0 for an answer; the calls of a tick refuse nothing."""
    return 0 if question.what in (SINE, COSINE, ROTATE) else int(lines[0].split()[0])


def head(question):
    """A question's head in words."""
    lent = "" if question.lent is None else ", %d bytes lent" % len(question.lent)
    return "%s(%s), room %d%s" % (NAMES.get(question.what, question.what), line(question[1:6]), question.room, lent)


def main():
    for question in questions_of(sys.stdin.buffer.read()):
        print(head(question))
        for each in lines_of(question):
            print("    " + each)


if __name__ == "__main__":
    main()
