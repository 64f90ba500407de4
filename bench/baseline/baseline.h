/* Plain C by the rules of documents 01 and 02, with __int128 where a product passes 64 bits: what the proved calls are measured beside.
   Names, arguments, answers and refusal numbers are those of include/erlensieg.h, with base_ for fringe_. Nothing here is proved;
   selftest holds it to the independent program of tests/reference, and bench/run starts with that. */
#ifndef BASELINE_H
#define BASELINE_H

#include "../../include/erlensieg.h"

int64_t base_sine(uint32_t tick);
int64_t base_cosine(uint32_t tick);
struct fringe_epoch base_later(int64_t day, int64_t ms, int64_t add);
struct fringe_ticks base_arguments(int64_t day, int64_t ms, int64_t tai);
struct fringe_number base_tide(int64_t day, int64_t ms, int64_t tai);
struct fringe_angle base_angle_at(int64_t day, int64_t f);
struct fringe_counts base_check(const uint8_t *file, size_t n);
/* The four lists and their lengths, in the order of fringe_write. */
struct fringe_number base_write(int64_t day_kind, const int64_t *const lists[4], const size_t lengths[4], uint8_t *room, size_t m);
struct fringe_days base_days_from_rows(const uint8_t *text, size_t n, int64_t first, int64_t count, const int64_t *tai, size_t m);
struct fringe_number base_rows_from_days(const int64_t *days, size_t n, uint8_t *room, size_t m);
struct fringe_earth base_orientation(const uint8_t *file, size_t n, int64_t day, int64_t ms);
struct fringe_number base_delay(const uint8_t *file, size_t n, int64_t station1, int64_t station2, int64_t source, int64_t day, int64_t ms);
struct fringe_number base_samples(const uint8_t *file, size_t n, uint64_t pass, int64_t *room, size_t m);
struct fringe_number base_track(const int64_t *samples, size_t n, int64_t tolerance, int64_t *room, size_t m);

/* Inner functions that several files use. */
int64_t base_minutes(int64_t day, int64_t ms, int64_t tai);
int64_t base_tide_at(int64_t n);
uint32_t base_turned(int64_t day, int64_t f, int64_t *e);
int64_t base_word(const uint8_t *file, size_t at);
int base_day_in_range(int64_t day);
int base_ms_in_range(int64_t ms);

/* How many fields a record of each kind has, by the kind. */
extern const size_t base_fields[6];

static inline int64_t base_floor(int64_t a, int64_t b) { return a / b - (a % b < 0); }

/* The nearest whole number to a/b, halves away from zero. */
static inline int64_t base_nearest(int64_t a, int64_t b) { return a < 0 ? -((b / 2 - a) / b) : (a + b / 2) / b; }

/* The nearest whole number to a/2^30, halves away from zero. */
static inline int64_t base_nearest_of_30_bits(__int128 a) {
    const __int128 half = 1 << 29;
    return (int64_t)(a < 0 ? -((half - a) >> 30) : (a + half) >> 30);
}

#endif
