"""Session files that were thought of one by one, each with one fault or one trap, and lists for the writer."""

from reference import session

from .damaged import DAY_KIND, NO_DAY_KINDS, with_word
from .sound import file_of, marked

STATION, SOURCE, PASS = (1, 0, 0, 0), (1, 0, 0), (1, 1, 1, 51_544, 0, 1_000, 3, 0)
DAYS = [(51_544, 0, 0, 0, 32), (51_545, 0, 0, 0, 32)]
GAP = [(51_544, 0, 0, 0, 32), (51_546, 0, 0, 0, 32)]

WETTZELL, ONSALA = (10, 4_075_540_000, 931_735_000, 4_801_629_000), (20, 3_370_606_000, 711_918_000, 5_349_831_000)
SOURCES = [(1, 2_247_483_648, 24_469_000), (2, 1_058_000_000, -475_000_000)]
THREE_DAYS = [(60_000 + i, 100_000 + 1_000 * i, 400_000 + 1_000 * i, -20_000_000 - 1_000_000 * i, 37) for i in range(3)]
OVER_MIDNIGHT = (10, 20, 1, 60_000, 86_399_000, 1_000, 5, 100)


def fullest(marks):
    """As many records of each kind as a file can hold, with fields at the ends of their ranges."""
    days = [(69_743 + i, 1_000_000, -1_000_000, 900_000_000 - i, 99) for i in range(64)]
    return file_of((
        [(i + 1, -6_400_000_000 + i, 6_400_000_000 - i, i) for i in range(64)],
        [(2 * i + 1, 16_777_216 * i, 2**30 - 8_388_608 * i) for i in range(256)],
        marked(days, marks) if marks else days,
        [(1, 64, 511, 69_743, 86_399_999 - i, 3_600_000, 4_096, 1_000_000) for i in range(64)],
    ))


def zeros():
    """Zero is a value: it stands wherever it may."""
    days = [(41_317, 0, 0, 0, 0), (41_318, 0, 0, 0, 0)]
    return session.encode(([(7, 0, 0, 0)], [(7, 0, 0)], days, [(7, 7, 7, 41_317, 0, 1, 1, 0)]))


def smallest():
    """The smallest file, and the same cut short, drawn out, and with one number wrong; the wrong ids and days."""
    small = session.encode(([STATION], [SOURCE], DAYS, [PASS]))
    same_ids = session.encode(([(5, 0, 0, 0), (5, 1, 1, 1)], [SOURCE], GAP, [PASS]))
    gap = session.encode(([(5, 0, 0, 0)], [(1, 0, 0), (2, 0, 0)], GAP, [PASS]))
    falling_ids = session.encode(([(5, 0, 0, 0)], [(2, 0, 0), (1, 0, 0)], DAYS, [PASS]))
    in_contents = [(0, 5), (4, 7), (8, 168), (3, 65), (3, -1), (12, 2**63 - 1)]
    in_records = [(14, 6_400_000_001), (14, -6_400_000_001), (37, -1), (19, -(2**63)), (13, 0)]
    lengths = [b"", small[:100], small[:103], small.ljust(65_537, bytes(1)), small + bytes(8), small[:-1]]
    wrong = [with_word(small, *change) for change in in_contents + in_records]
    return [small, *lengths, *wrong, same_ids, with_word(same_ids, 14, 2**63 - 1), gap, falling_ids]


def small_marked(*marks, days=DAYS):
    return file_of(([STATION], [SOURCE], marked(days, marks), [PASS]))


def smallest_marked():
    """The smallest file of kind 5 with each two marks, with marks that are none, and with a day left out."""
    none = (2, -1, -2, 2**32, 2**32 + 1, 2**63 - 1, -(2**63))
    sound = [small_marked(one, two) for one in (0, 1) for two in (0, 1)]
    wrong = [small_marked(*marks) for mark in none for marks in ((mark, 1), (0, mark))]
    return [*sound, *wrong, small_marked(1, 1, days=GAP), small_marked(1, 2, days=GAP)]


def said_to_have(file, kind, count):
    """A file whose contents table has another kind and count of days."""
    return with_word(with_word(file, DAY_KIND, kind), DAY_KIND + 2, count)


def kinds_of_days():
    """Files that say another kind of days, or are as long as of another; six days of kind 3 have the bytes of five of kind 5."""
    plain, small = file_of(([STATION], [SOURCE], DAYS, [PASS])), small_marked(1)
    days = [(51_544 + i, 0, 0, 0, 32) for i in range(6)]
    six, five = file_of(([STATION], [SOURCE], days, [PASS])), small_marked(1, days=days[:5])
    return [
        *(said_to_have(plain, kind, 2) for kind in (5, *NO_DAY_KINDS)),
        *(said_to_have(small, kind, 2) for kind in (3, 4, 6)),
        *(small[:-16], plain + bytes(16), small[:-1], small + bytes(8)),
        *(said_to_have(six, 5, 5), said_to_have(five, 3, 6)),
    ]


def two_stations(stations=(WETTZELL, ONSALA), days=THREE_DAYS, passes=(OVER_MIDNIGHT,)):
    return file_of((stations, SOURCES, days, passes))


def of_two_stations():
    """Two stations seen over a midnight: the file cut off, a pass of no samples, ids that fall, a day left out."""
    return [
        two_stations()[:-8],
        two_stations(passes=[(*OVER_MIDNIGHT[:6], 0, 100)]),
        two_stations(stations=[ONSALA, WETTZELL]),
        two_stations(days=[THREE_DAYS[0], THREE_DAYS[2]]),
    ]


def passes_refused_and_not(days=THREE_DAYS):
    """Five passes: over midnight; of a station that is not there; exact; past the last day; of three segments."""
    return two_stations(days=days, passes=[
        OVER_MIDNIGHT,
        (10, 30, 1, 60_000, 0, 1_000, 3, 0),
        (20, 10, 2, 60_001, 43_200_000, 250, 4, 0),
        (20, 10, 2, 60_001, 86_399_999, 1, 2, 0),
        (10, 20, 1, 60_000, 0, 60_000, 40, 1_000_000),
    ])


def marked_passes(*marks):
    return passes_refused_and_not(marked(THREE_DAYS, marks))


def one_station_twice():
    """The file of 304 bytes of document 01: a pass in which a station is named twice."""
    return session.encode(([WETTZELL], SOURCES[:1], THREE_DAYS[:2], [(10, 10, 1, 60_000, 0, 1_000, 3, 0)]))


def files():
    over_long = one_station_twice().ljust(65_537, bytes(1))
    sound = [fullest(()), zeros(), one_station_twice(), passes_refused_and_not()]
    marked_ones = [fullest((1,)), *(marked_passes(*marks) for marks in ((0,), (1,), (0, 1), (1, 0)))]
    of_days = [*smallest_marked(), *kinds_of_days(), *marked_ones]
    return [*smallest(), *sound, *of_two_stations(), over_long, bytes([7]) * 303, *of_days]


def lists_to_write():
    """The smallest file of each kind in a room that is enough and in one a byte short; then lists that are refused, each by
    one number more: kind of the days, lists, room.
    """
    days, gap = marked(DAYS, (0,)), marked(GAP, (0,))
    ones, twos = marked(DAYS, (0, 1)), marked(GAP, (0, 2))
    listed, kinds = (ones, gap, days[:1], DAYS, DAYS * 3, []), (3, 5, 0, 4, 6, -3, -5, 2**32 + 5)
    written = [
        *((kind, [STATION], days, room) for kind, length in ((3, 304), (5, 320)) for room in (length, length - 1)),
        *((5, [STATION], ones, room) for room in (320, 319)),
        (3, [STATION, (2,)], gap, 303),
        (3, [(1, 0, 0, 6_400_000_001)], gap, 303),
        (3, [STATION, STATION], gap, 303),
        (3, [STATION], gap, 303),
        (5, [STATION, (2,)], twos, 319),
        (4, [STATION, (2,)], twos, 319),
        *((kind, [STATION, STATION], twos, 319) for kind in (5, 4, 3)),
        *((kind, [STATION], some, 320) for kind in kinds for some in listed),
    ]
    return [(kind, (stations, [SOURCE], some, [PASS]), room) for kind, stations, some, room in written]
