"""What the header names: limits and refusals, by the reference; sections and fields, in the words of `tracks`."""

from c.cells import Name
from c.filerows import DAYS, FILES, SOURCES, at, changed
from reference import words
from reference import bulletin, delay, earth, session, together, track

FILE = FILES[5]


def track_limits():
    segments = (track.MOST_SAMPLES + 1) // 2
    yield from (("MOST_SAMPLES", track.MOST_SAMPLES), ("MOST_SEGMENTS", segments), ("MOST_TRACK_NUMBERS", 4 * segments))
    yield from (("MOST_SEGMENT_SAMPLES", track.LONGEST_SEGMENT), ("SEGMENT_NUMBERS", 4))
    yield ("ALL_TRACKS_NUMBERS", 4 * segments * together.MOST_PASSES)
    yield from (("MOST_TOLERANCE", track.GREATEST_TOLERANCE), ("MOST_DELAY", track.GREATEST_SAMPLE))


def file_limits():
    layouts = session.layouts_with(5)
    most = session.CONTENTS_BYTES + sum(8 * len(fields) * count for _, fields, _, count in layouts)
    yield from (("RIGHT_FILE_BYTES", most), ("ANY_FILE_BYTES", session.LONGEST_FILE))
    yield from (("CONTENTS_BYTES", session.CONTENTS_BYTES), ("MOST_ID", session.ID[1]))
    names = (("STATION", "STATIONS"), ("SOURCE", "SOURCES"), ("DAY", "DAYS"), ("PASS", "PASSES"))
    for (one, many), (kind, _, _, _), (_, fields, _, count) in zip(names, session.layouts_with(3), layouts):
        yield from (("KIND_" + one, kind), (one + "_NUMBERS", len(fields)), ("MOST_" + many, count))
    yield from (("KIND_MARKED_DAY", layouts[DAYS][0]), ("LEAST_DAYS", layouts[DAYS][2]))
    yield from (("FIRST_MJD", earth.FIRST_DAY), ("LAST_MJD", earth.LAST_DAY), ("LAST_MS", earth.DAY_MS - 1))


def row_limits():
    row = bulletin.ROW_COLUMNS + 1
    yield from (("ANY_ROWS_BYTES", bulletin.LONGEST_TEXT), ("MOST_DAYS_NUMBERS", bulletin.MOST_NUMBERS))
    yield from (("ROW_BYTES", row), ("MOST_ROWS_BYTES", row * bulletin.MOST), ("ROW_UT1_STEP", bulletin.VALUES[2][3]))


def refusals():
    """Each number by an input that is refused with it."""
    yield from (("ANSWERED", session.refusal(FILE)), ("WRONG_FILE", session.refusal(b"")))
    yield ("OUT_OF_RANGE", earth.later(0, 0, 0)[0])
    yield ("IDS_DO_NOT_RISE", session.refusal(changed((5, at(5, SOURCES, 1, 0), 1))))
    yield ("DAYS_NOT_CONSECUTIVE", session.refusal(changed((5, at(5, DAYS, 1, 0), 60_002))))
    yield from (("NOT_THERE", session.record_at(FILE, 0, 2)[0]), ("DAY_LACKING", delay.orientation(FILE, 60_002, 0)[0]))
    yield from (("ROOM_TOO_SHORT", delay.samples(FILE, 0, [])[0]), ("NO_TRACK_FITS", track.track([0], 0, [])[0]))
    yield ("NOT_PREDICTED", track.predict([], 0)[0])
    for name, text in (("WRONG_ROW", b"\n"), ("ROW_LACKING", b"")):
        yield (name, bulletin.days_from_rows(text, earth.FIRST_DAY, 2, [0, 0])[0])


def numbers():
    named = [*track_limits(), *file_limits(), *row_limits(), *refusals()]
    yield ("named", "int64_t got, want;", [("FRINGE_" + name, Name("FRINGE_" + name), value) for name, value in named])


def kinds():
    """Each kind, its section's name, and the names of its fields."""
    for place, layouts in enumerate(session.PLACES):
        yield from ((kind, words.SECTIONS[place], words.FIELDS[place][:len(fields)]) for kind, fields, _, _ in layouts)


def section_names():
    names = {kind: section for kind, section, _ in kinds()}
    asked = (-(2**63), *range(-1, 8), 2**63 - 1)
    rows = [("name of section %d" % kind, kind, names.get(kind, "no section")) for kind in asked]
    yield ("section_name", "int64_t kind; const char *want;", rows)


def field_names():
    """For each kind each field, and some that are none."""
    names = {(kind, i): name for kind, _, fields in kinds() for i, name in enumerate(fields)}
    asked = [(kind, field) for kind in range(7) for field in (-1, *range(9))]
    asked += [(-(2**63), 0), (2**63 - 1, 0), (1, -(2**63)), (4, 2**63 - 1)]
    rows = [("name of field %d of kind %d" % place[::-1], *place, names.get(place, "no field")) for place in asked]
    yield ("field_name", "int64_t kind, field; const char *want;", rows)


def tables():
    for made in (numbers, section_names, field_names):
        yield from made()
