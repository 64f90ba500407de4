"""Wrong readers of the session file: what is wrong, the module and the name that it stands in for, and what stands there instead."""

from reference import session

RIGHT_FAULT, RIGHT_CHECK, RIGHT_AT = session.fault, session.check, session.record_at
FIELDS, IDS, DAYS = session.fault_of_fields, session.fault_of_ids, session.fault_of_days


def ids_first(layouts, lists):
    """The ids are tested before the ranges."""
    for number, find in ((3, IDS), (2, FIELDS), (4, DAYS)):
        if find(layouts, lists) is not None:
            return (number, *find(layouts, lists))
    return (0, 0, 0, 0)


def last_record_unread(find):
    return lambda layouts, lists: find(layouts, [records[:-1] for records in lists])


def days_that_rise(layouts, lists):
    days = lists[2]
    falls = [i for i in range(1, len(days)) if days[i][0] <= days[i - 1][0]]
    return (layouts[2][0], falls[0], 0) if falls else None


def equal_ids_taken(layouts, lists):
    for kind in (1, 2):
        ids = [record[0] for record in lists[kind - 1]]
        falls = [i for i in range(1, len(ids)) if ids[i] < ids[i - 1]]
        if falls:
            return (kind, falls[0], 0)
    return None


def with_place(place, *kinds):
    """The places with other kinds in one."""
    return (*session.PLACES[:place], kinds, *session.PLACES[place + 1:])


def with_most(place, most, least=1):
    """The places with other limits of the count of one."""
    return with_place(place, *((kind, fields, least, most) for kind, fields, _, _ in session.PLACES[place]))


PLAIN, MARKED = session.PLACES[2]


def with_mark(*ends):
    """Another range of the mark."""
    return with_place(2, PLAIN, (5, (*session.ORIENTATION, ends), 2, 64))


def section_3_named(file):
    """A fault of the days is of section 3, also where they are of kind 5."""
    number, kind, record, field = RIGHT_FAULT(file)
    return (number, 3 if kind == 5 else kind, record, field)


def kind_of(other):
    """Another kind of days said where they are of a kind."""
    return lambda file: (*RIGHT_CHECK(file)[:5], other.get(RIGHT_CHECK(file)[5], RIGHT_CHECK(file)[5]))


def mark_handed(change):
    """Another mark handed out with a day."""

    def record_at(file, place, index):
        answer = RIGHT_AT(file, place, index)
        return change(file, answer) if place == 2 else answer

    return record_at


def mark_1_of_kind_3(file, answer):
    return answer if answer[0] or RIGHT_CHECK(file)[5] == 5 else (*answer[:6], 1)


PLACES = {
    "257 sources taken": with_most(1, 257),
    "one day taken": with_most(2, 64, 1),
    "65 days taken": with_most(2, 65, 2),
    "65 days of kind 5 taken": with_place(2, PLAIN, (5, session.MARKED, 2, 65)),
    "one day of kind 5 taken": with_place(2, PLAIN, (5, session.MARKED, 1, 64)),
    "64 days of kind 5 refused": with_place(2, PLAIN, (5, session.MARKED, 2, 63)),
    "65 passes taken": with_most(3, 65),
    "65 stations taken": with_most(0, 65),
    "64 stations refused": with_most(0, 63),
    "kind 5 not known": with_place(2, PLAIN),
    "kind 3 not known": with_place(2, MARKED),
    "kind 4 taken for days": with_place(2, PLAIN, MARKED, (4, session.MARKED, 2, 64)),
    "kind 6 taken for days": with_place(2, PLAIN, MARKED, (6, session.MARKED, 2, 64)),
    "kind 5 read with five numbers": with_place(2, PLAIN, (5, session.ORIENTATION, 2, 64)),
    "kind 3 read with six numbers": with_place(2, (3, session.MARKED, 2, 64), MARKED),
    "any mark taken": with_mark(-(2**63), 2**63 - 1),
    "a mark 2 taken": with_mark(0, 2),
    "a mark -1 taken": with_mark(-1, 1),
    "a mark 0 refused": with_mark(1, 1),
    "a mark 1 refused": with_mark(0, 0),
}

CHECKS = {
    "kind 3 said of all days": kind_of({5: 3}),
    "kind 5 said of all days": kind_of({3: 5}),
    "kind 3 said where refused": kind_of({0: 3}),
}

WRONG = (
    ("a reader that refuses everything", session, "fault", lambda file: (1, 0, 0, 0)),
    *((name, session, "PLACES", instead) for name, instead in PLACES.items()),
    *((name, session, "check", instead) for name, instead in CHECKS.items()),
    ("ids tested before ranges", session, "fault_of_records", ids_first),
    ("the last record's range not tested", session, "fault_of_fields", last_record_unread(FIELDS)),
    ("the last record's id not tested", session, "fault_of_ids", last_record_unread(IDS)),
    ("days that rise but do not follow", session, "fault_of_days", days_that_rise),
    ("equal ids taken", session, "fault_of_ids", equal_ids_taken),
    ("section 3 named in days of kind 5", session, "fault", section_3_named),
    ("the mark 0 handed out always", session, "record_at", mark_handed(lambda file, answer: (*answer[:6], 0))),
    ("the mark 1 handed out of kind 3", session, "record_at", mark_handed(mark_1_of_kind_3)),
)
