"""Session files made for what `tracks` says of them: text, ends of ids and days, passes that leave its days."""

from reference import session
from reference.earth import DAY_MS
from reference.session import encode

from .damaged import with_word

LETTERS = b"A session file, typed by hand: stations first.\r\n\tid 7213, X 4075540000\n"
FIRST_DAY, LAST_DAY = 60_000, 60_002


def lists(stations=(10,), sources=(1,), days=(FIRST_DAY, FIRST_DAY + 1, LAST_DAY), passes=()):
    """Records with these ids and days; every other field is one that is allowed, the mark 1."""
    return (
        [(name, 4_075_540_000 - name, 931_735_000, 4_801_629_000) for name in stations],
        [(name, 2_247_483_648, 24_469_000) for name in sources],
        [(day, 100_000, 400_000, -20_000_000, 37, 1) for day in days],
        [*passes] or [(stations[0], stations[-1], sources[0], days[0], 0, 1_000, 3, 0)],
    )


def texts():
    """Text of several lengths; bytes just outside those of text, among the 32 and behind them; and none at all."""
    sound = encode(lists())
    edges = [bytes([byte]) * 40 for byte in (9, 10, 13, 32, 126, 8, 11, 12, 14, 31, 127, 128, 255)]
    odd = [LETTERS[:at] + b"\0" + LETTERS[at + 1:] for at in (0, 7, 30, 31, 32, 40)]
    cut = [LETTERS[:length] for length in (1, 7, 8, 31, 32, 33)]
    return [b"", LETTERS, *cut, *odd, *edges, LETTERS * 1_000, sound[:8] + LETTERS]


def orders():
    """Ids that do not rise and days that do not follow, at and near the greatest."""
    ids = [(7, 5), (7, 7), (65_534, 65_534), (65_534, 65_535, 65_535), (65_535, 1), (1, 65_535, 2)]
    days = [(60_000, 60_002), (60_000, 60_000), (69_805, 69_805), (69_806, 69_806), (69_806, 69_805)]
    return [
        *(encode(lists(stations=names)) for names in ids),
        *(encode(lists(sources=names)) for names in ids),
        *(encode(lists(days=some), kind) for some in (*days, (69_805, 69_806, 41_317)) for kind in (3, 5)),
    ]


def wrong_counts():
    """Counts that stay in their limits and are wrong: they show at the next first byte, the last one as the length."""
    some = lists(stations=(10, 20, 30), sources=(1, 2), passes=2 * [(10, 20, 1, FIRST_DAY, 0, 1_000, 3, 0)])
    files = (encode(some, kind) for kind in (3, 5))
    return [with_word(file, word, session.word(file, 8 * word) + 1) for file in files for word in (3, 6, 9, 12)]


def planned(day, ms, step, samples):
    return (10, 10, 1, day, ms, step, samples, 0)


def leaving():
    """Passes that start before the file's days, that start on its last, or that reach it later."""
    noon = DAY_MS // 2
    passes = [
        planned(FIRST_DAY - 2, noon, 1_000, 3),
        planned(FIRST_DAY - 1, DAY_MS - 1, 1, 2),
        planned(LAST_DAY, 0, 1_000, 1),
        planned(LAST_DAY + 1, 0, 1_000, 1),
        planned(41_317, 0, 3_600_000, 4_096),
        planned(69_806, DAY_MS - 1, 1, 2),
        planned(FIRST_DAY, 0, 3_600_000, 4_096),
        planned(FIRST_DAY + 1, DAY_MS - 3, 1, 4),
        planned(FIRST_DAY + 1, DAY_MS - 3, 1, 3),
        planned(FIRST_DAY + 1, DAY_MS - 4_095, 1, 4_096),
        planned(FIRST_DAY + 1, noon, 1_234_567, 100),
        (10, 11, 2, LAST_DAY, 0, 1_000, 3, 0),
    ]
    last = lists(days=(69_805, 69_806), passes=[planned(69_805, noon, 3_600_000, 24)])
    return [encode(lists(passes=passes)), encode(last)]


def files():
    return [*texts(), *orders(), *wrong_counts(), *leaving()]
