"""Wrong tracks and predictions: what is wrong, the module and the function that it stands in for, and the wrong function."""

from reference import track

RIGHT_LONGEST, RIGHT_OFFSET, RIGHT_MALFORMED = track.longest, track.least_offset, track.malformed
RIGHT_TRACK_OF, RIGHT_TRACK = track.track_of, track.track


def fits(part, tolerance, rate):
    offset = RIGHT_OFFSET(part, tolerance, rate)
    return all(offset + rate * j <= track.UNIT * (sample + tolerance) for j, sample in enumerate(part))


def longest_with(rate_of):
    """The longest segment whose rate is fixed by a rule of its own."""

    def longest(samples, start, tolerance):
        count = 1
        while start + count < len(samples) and count < track.LONGEST_SEGMENT:
            part = samples[start:start + count + 1]
            if not fits(part, tolerance, rate_of(part)):
                break
            count += 1
        part = samples[start:start + count]
        return (count, rate_of(part) if count > 1 else 0)

    return longest


def by_first_two(part):
    return track.UNIT * (part[1] - part[0])


def by_first_and_last(part):
    return track.UNIT * (part[-1] - part[0]) // (len(part) - 1)


def a_segment_a_sample(samples, tolerance):
    """The first segment fits well, each later sample has its own."""
    first = RIGHT_TRACK_OF(samples, tolerance)[0]
    return [first] + [(i, 1, track.UNIT * (samples[i] - tolerance), 0) for i in range(first[1], len(samples))]


def capped(cap):
    return lambda samples, start, tolerance: RIGHT_LONGEST(samples[:start + cap], start, tolerance)


def refused_at_equality(samples, tolerance, room):
    number, written, after = RIGHT_TRACK(samples, tolerance, room)
    return (8, 0, room) if number == 0 and written == len(room) // 4 else (number, written, after)


def written_before_refusal(samples, tolerance, room):
    number, written, after = RIGHT_TRACK(samples, tolerance, room)
    return (number, written, [0] * len(room)) if number == 8 else (number, written, after)


def not_written(samples, tolerance, room):
    number, written, _ = RIGHT_TRACK(samples, tolerance, room)
    return (number, written, room)


def count_one_more(samples, tolerance, room):
    number, written, after = RIGHT_TRACK(samples, tolerance, room)
    return (number, written + (number == 0), after)


def halves_upward(offset, rate, j):
    return (2 * (offset + rate * j) + track.UNIT) // (2 * track.UNIT)


WRONG = (
    ("the same track always", track, "track_of", lambda samples, tolerance: [(0, 1, 0, 0)]),
    ("no segment written but counted", track, "track", not_written),
    ("a count that is not the number written", track, "track", count_one_more),
    ("first segment well fitted, then a segment a sample", track, "track_of", a_segment_a_sample),
    ("rate fixed by the first two samples", track, "longest", longest_with(by_first_two)),
    ("rate fixed by first and last sample", track, "longest", longest_with(by_first_and_last)),
    ("offset not the least", track, "least_offset", lambda part, tolerance, rate: RIGHT_OFFSET(part, tolerance, rate) + 1),
    ("rate not the least", track, "longest", lambda *given: (RIGHT_LONGEST(*given)[0], RIGHT_LONGEST(*given)[1] + 1)),
    ("segments of at most 1,023", track, "longest", capped(1_023)),
    ("segments of 1,025", track, "LONGEST_SEGMENT", 1_025),
    ("refused with 8 at equality", track, "track", refused_at_equality),
    ("the room touched before 8", track, "track", written_before_refusal),
    ("the last segment of a lent track not looked at", track, "malformed", lambda segments: RIGHT_MALFORMED(segments[:-1])),
    ("segments behind the sample not looked at", track, "malformed", lambda segments: RIGHT_MALFORMED(segments[:1])),
    ("halves of a prediction rounded upward", track, "prediction", halves_upward),
    ("rate of 2·10^16 refused", track, "GREATEST_RATE", 2 * 10**16 - 1),
    ("prediction of 131,000,000,000 refused", track, "GREATEST_PREDICTION", 131_000_000_000 - 1),
    ("predictions past 131,000,000,000 taken", track, "GREATEST_PREDICTION", 131_000_000_000 + 1),
    ("4,097 samples taken", track, "MOST_SAMPLES", 4_097),
    ("cycles by a product", track, "host_record", lambda ps: (float(ps) / 1e12, float(ps * 32) * 1e-6)),
    ("seconds by a product", track, "host_record", lambda ps: (float(ps) * 1e-12, float(ps * 32) / 1e6)),
)
