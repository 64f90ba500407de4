"""What the program `tracks` writes to standard output and to standard error, by the reference."""

from lines import text
from reference import delay, program, session, words

from . import chosen, features, generate, spoken

TEXT_BYTES = {9, 10, 13, *range(32, 127)}


def short():
    return chosen.one_station_twice()


def inputs():
    return [*generate.files(), *spoken.files()]


def printed(file):
    return text(program.lines(file))


def refused_passes(stdout):
    """Index and number of each pass that is refused, in what is printed for a file that is accepted."""
    heads = [line.split() for line in stdout.decode().splitlines() if line.startswith(("pass", "refused"))]
    return [(index, int(number)) for index, (word, number, *_) in enumerate(heads) if word == "refused"]


# ---- a file that is refused


def looks_like_text(file):
    return file != b"" and all(byte in TEXT_BYTES for byte in file[:32])


def layout_in(file, place):
    """Kind, ranges and counts of a place's records, by the kind that the contents table says of it."""
    return session.layout_of(place, session.word(file, 8 + 24 * place))


def place_of(kind):
    """The place in which a kind may stand."""
    return next(place for place in range(len(session.PLACES)) if session.layout_of(place, kind))


def end_of(file, place):
    """Where a place's body ends, by the words of the contents table that stand for it."""
    first, count = session.word(file, 16 + 24 * place), session.word(file, 24 + 24 * place)
    return first + 8 * len(layout_in(file, place)[1]) * count


def of_word(file, word):
    """The first wrong word of the contents table, which the file holds."""
    found = session.word(file, 8 * word)
    if word == 0:
        return words.of_sections(found)
    place, which = divmod(word - 1, 3)
    if which == 0:
        return words.of_kind(place, found, [kind for kind, _, _, _ in session.PLACES[place]])
    if which == 2:
        return words.of_count(place, found, *layout_in(file, place)[2:])
    if place == 0:
        return words.of_first_byte(place, found, session.CONTENTS_BYTES, None)
    return words.of_first_byte(place, found, end_of(file, place - 1), session.word(file, 24 * place))


def of_contents(file, word):
    if word < 13:
        said = words.of_cut(len(file)) if len(file) < 8 * word + 8 else of_word(file, word)
    else:
        said = words.of_length(len(file), session.LONGEST_FILE, end_of(file, words.PASSES), session.word(file, 96))
    return said + (words.TEXT if looks_like_text(file) else "")


def byte_of(file, place, record, field):
    """The first byte of a field in the file."""
    return session.word(file, 16 + 24 * place) + 8 * (len(layout_in(file, place)[1]) * record + field)


def of_field(file, kind, record, field):
    place = place_of(kind)
    row, (low, high) = session.sections_of(file)[place][record], layout_in(file, place)[1][field]
    byte = byte_of(file, place, record, field)
    return words.of_range(place, kind, record, field, row[0], row[field], low, high, byte)


def of_order(file, number, kind, record):
    """Refusals 3 and 4: what the record before leaves for this one's first field."""
    place = place_of(kind)
    rows, greatest = session.sections_of(file)[place], layout_in(file, place)[1][0][1]
    found, before = rows[record][0], rows[record - 1][0]
    least = before + 1
    allowed = () if least > greatest else (least, greatest) if number == 3 else (least,)
    return words.of_order(place, kind, record, found, before, allowed, byte_of(file, place, record, 0))


def of_file(file):
    number, kind, record, field = session.fault(file)
    if number == 1:
        return words.of_file(number, of_contents(file, field))
    if number == 2:
        return words.of_file(number, of_field(file, kind, record, field))
    return words.of_file(number, of_order(file, number, kind, record))


# ---- a pass that is refused, in a file that is accepted


def of_names(lists, planned):
    """Field and id of each station and source that a pass names and the file lacks."""
    stations, sources, _, _ = lists
    there = [[record[0] for record in records] for records in (stations, stations, sources)]
    return words.of_names([(field, planned[field]) for field in range(3) if planned[field] not in there[field]])


def of_days(lists, planned):
    """The first sample that lacks a day, its day, and which days it lacks."""
    known = [day[0] for day in lists[2]]
    for sample, (day, _) in enumerate(delay.epochs_of(planned)):
        lacking = [needed for needed in (day, day + 1) if needed not in known]
        if lacking:
            return words.of_days(sample, day, known[0], known[-1], lacking)
    raise ValueError("no sample lacks a day")


def of_pass(lists, index, number):
    planned = lists[3][index]
    return words.of_pass(index, number, of_names(lists, planned) if number == 5 else of_days(lists, planned))


def said(file, stdout):
    """Standard error, for a file and what is printed for it: why the file is refused, or each pass that is."""
    if session.refusal(file):
        return text([of_file(file)])
    lists = session.sections_of(file)
    return text(of_pass(lists, index, number) for index, number in refused_passes(stdout))


def report(cases):
    return features.report([file for file, _ in cases])
