/* Document 01, 'Day values' and 'Delay', and document 02, L1 and L4. Of a pass the look-ups, the baseline and the declination are worked out once, a day's record is
   read, and its tide taken away, once, and the tide of an epoch is worked out once a minute. */
#include "baseline.h"

struct place { int64_t x, y, z; };
struct wave { struct place baseline; uint32_t ascension; int64_t cos_dec, sin_dec; };
struct minute { int64_t n, tide; };
struct record { int64_t mjd, x, y, ut1r, tai; };
struct days { struct record today, tomorrow; };

/* The record of a section whose first number is `name`, or none. */
static const uint8_t *named(const uint8_t *file, size_t place, int64_t name) {
    size_t first = (size_t)base_word(file, 16 + 24 * place), count = (size_t)base_word(file, 24 + 24 * place);
    size_t bytes = 8 * base_fields[base_word(file, 8 + 24 * place)];
    for (size_t i = 0; i < count; i++, first += bytes)
        if (base_word(file, first) == name) return file + first;
    return NULL;
}

static int covered(const uint8_t *file, int64_t day) { return named(file, 2, day) != NULL && named(file, 2, day + 1) != NULL; }

/* The record of a day that the file has, with UT1R: one marked 1 holds the tide of its own 0h. */
static struct record record_of(const uint8_t *file, int64_t day) {
    const uint8_t *at = named(file, 2, day);
    int64_t ut1 = base_word(at, 24), tai = base_word(at, 32);
    if (base_word(file, 56) == 5 && base_word(at, 40) == 1) ut1 -= base_tide_at(base_minutes(day, 0, tai));
    return (struct record){day, base_word(at, 8), base_word(at, 16), ut1, tai};
}

static struct days two_days(const uint8_t *file, int64_t day) { return (struct days){record_of(file, day), record_of(file, day + 1)}; }

/* The value at a millisecond of the day, on a straight line. */
static int64_t line(int64_t v0, int64_t v1, int64_t ms) { return v0 + base_nearest((v1 - v0) * ms, 86400000); }

/* Nanoseconds by which TAI-UTC rises from one record to the next. */
static int64_t leap(const struct days *d) { return (d->tomorrow.tai - d->today.tai) * 1000000000; }

static struct fringe_earth orientation_of(const struct days *d, int64_t ms, struct minute *kept) {
    const struct record *r0 = &d->today, *r1 = &d->tomorrow;
    struct fringe_earth answer = {0, line(r0->x, r1->x, ms), line(r0->y, r1->y, ms), line(r0->ut1r, r1->ut1r - leap(d), ms), 0};
    int64_t n = base_minutes(r0->mjd, ms, r0->tai), e;
    if (n != kept->n) *kept = (struct minute){n, base_tide_at(n)};
    answer.ut1_used += kept->tide;
    answer.tick = base_turned(r0->mjd, 1000 * ms + base_floor(answer.ut1_used, 1000), &e);
    return answer;
}

static int64_t pole_shift(int64_t c, int64_t p) {
    return base_nearest(base_nearest(c * p, 1000000) * 4848137, 1000000000000);
}

static struct wave wave_of(const uint8_t *station1, const uint8_t *station2, const uint8_t *source) {
    struct place b = {
        base_word(station2, 8) - base_word(station1, 8),
        base_word(station2, 16) - base_word(station1, 16),
        base_word(station2, 24) - base_word(station1, 24),
    };
    uint32_t declination = (uint32_t)base_word(source, 16);
    return (struct wave){b, (uint32_t)base_word(source, 8), base_cosine(declination), base_sine(declination)};
}

static int64_t picoseconds(int64_t mm) {
    __int128 twice = (__int128)(mm < 0 ? -mm : mm) * 2000000000;
    int64_t size = (int64_t)((twice + 299792458) / (2 * 299792458));
    return mm < 0 ? size : -size;
}

static int64_t delay_of(struct wave w, struct fringe_earth at) {
    struct place b = w.baseline;
    int64_t x = b.x - pole_shift(b.z, at.x), y = b.y + pole_shift(b.z, at.y);
    int64_t z = b.z + pole_shift(b.x, at.x) - pole_shift(b.y, at.y);
    uint32_t h = at.tick - w.ascension;
    int64_t p = base_nearest_of_30_bits((__int128)x * base_cosine(h) - (__int128)y * base_sine(h));
    int64_t g = base_nearest_of_30_bits((__int128)p * w.cos_dec + (__int128)z * w.sin_dec);
    return picoseconds(g);
}

/* The lower of two refusal numbers, of which 0 stands for none. */
static int64_t lower(int64_t a, int64_t b) { return a == 0 || (b != 0 && b < a) ? b : a; }

static const struct minute none = {INT64_MIN, 0};

struct fringe_earth base_orientation(const uint8_t *file, size_t n, int64_t day, int64_t ms) {
    int in_range = base_day_in_range(day) && base_ms_in_range(ms);
    int64_t refusal = lower(base_check(file, n).refusal, in_range ? 0 : 2);
    if (refusal == 0 && !covered(file, day)) refusal = 6;
    if (refusal != 0) return (struct fringe_earth){refusal, 0, 0, 0, 0};
    struct days d = two_days(file, day);
    struct minute kept = none;
    return orientation_of(&d, ms, &kept);
}

static int is_id(int64_t name) { return 1 <= name && name <= 65535; }

struct fringe_number base_delay(const uint8_t *file, size_t n, int64_t station1, int64_t station2, int64_t source, int64_t day, int64_t ms) {
    int in_range = is_id(station1) && is_id(station2) && is_id(source) && base_day_in_range(day) && base_ms_in_range(ms);
    int64_t refusal = lower(base_check(file, n).refusal, in_range ? 0 : 2);
    if (refusal != 0) return (struct fringe_number){refusal, 0};
    const uint8_t *one = named(file, 0, station1), *two = named(file, 0, station2), *star = named(file, 1, source);
    if (one == NULL || two == NULL || star == NULL) return (struct fringe_number){5, 0};
    if (!covered(file, day)) return (struct fringe_number){6, 0};
    struct days d = two_days(file, day);
    struct minute kept = none;
    return (struct fringe_number){0, delay_of(wave_of(one, two, star), orientation_of(&d, ms, &kept))};
}

struct fringe_number base_samples(const uint8_t *file, size_t n, uint64_t pass, int64_t *room, size_t m) {
    struct fringe_counts counts = base_check(file, n);
    if (counts.refusal != 0) return (struct fringe_number){counts.refusal, 0};
    if (pass >= (uint64_t)counts.passes) return (struct fringe_number){5, 0};
    const uint8_t *planned = file + base_word(file, 88) + 64 * pass;
    const uint8_t *one = named(file, 0, base_word(planned, 0)), *two = named(file, 0, base_word(planned, 8));
    const uint8_t *star = named(file, 1, base_word(planned, 16));
    if (one == NULL || two == NULL || star == NULL) return (struct fringe_number){5, 0};
    int64_t day = base_word(planned, 24), ms = base_word(planned, 32), step = base_word(planned, 40);
    int64_t samples = base_word(planned, 48), last = day + (ms + (samples - 1) * step) / 86400000;
    if (!covered(file, day) || !covered(file, last)) return (struct fringe_number){6, 0};
    if ((size_t)samples > m) return (struct fringe_number){7, 0};
    struct wave wave = wave_of(one, two, star);
    struct days d = two_days(file, day);
    struct minute kept = none;
    for (int64_t i = 0; i < samples; i++, ms += step) {
        if (ms >= 86400000) {
            ms -= 86400000;
            d = (struct days){d.tomorrow, record_of(file, ++day + 1)};
        }
        room[i] = delay_of(wave, orientation_of(&d, ms, &kept));
    }
    return (struct fringe_number){0, samples};
}
