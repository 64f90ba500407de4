"""Questions on the format: bytes that stay lent, what is no call, and rooms and lists that a call cannot have."""

from reference.selftest import small_session

from .questions import CHECK, DAYS_FROM_ROWS, FAULT, MOST_LENT, MOST_ROOM, PREDICT, WRITE, Question, lent_numbers

NO_CALLS = (0, 25, -1, 2**63 - 1, -(2**63))
TRACK_OF_ONE = lent_numbers([0, 1, 65_536, 0])


def kept():
    """At first nothing is lent; a file that is lent with no call stays lent, whatever was asked between."""
    nothing, file = b"", small_session()
    yield from (Question(what, lent=nothing) for what in (CHECK, FAULT))
    for what in NO_CALLS:
        yield from (Question(each, lent=file) for each in (what, CHECK, what, FAULT))
        yield Question(CHECK, lent=nothing)
    yield from (Question(PREDICT, lent=lent) for lent in (TRACK_OF_ONE, TRACK_OF_ONE + bytes(7), TRACK_OF_ONE[:-1]))
    yield Question(CHECK, lent=bytes(MOST_LENT))


def rooms():
    """The greatest room of each call, and greater ones, which are not answered."""
    for what, most in MOST_ROOM.items():
        yield from (Question(what, 0, room=room, lent=small_session()) for room in (most, most + 1, 2**63, -1))


def lists():
    """Lists for the writer, and of TAI-UTC, that take all numbers lent, or more than those."""
    numbers = lent_numbers(range(20))
    whole = ((20, 0, 0), (0, 20, 0), (0, 0, 20))
    beyond = ((21, 0, 0), (10, 10, 1), (-1, 0, 0), (0, -1, 1), (1, 1, 2**63))
    for lengths in whole + beyond:
        yield Question(WRITE, *lengths, room=8, lent=numbers)
    for length in (19, 20, 21, 2**63, -1):
        yield from (Question(DAYS_FROM_ROWS, 60_000, length, length, lent=lent) for lent in (numbers, numbers + bytes(7)))


def questions():
    return [*kept(), *rooms(), *lists()]
