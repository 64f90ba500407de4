/* Document 01, 'Session file', and document 02, L4: the check, and the writer. */
#include "baseline.h"

#include <endian.h>
#include <string.h>

const size_t base_fields[6] = {0, 4, 3, 5, 8, 6};
static const int64_t least_count[4] = {1, 1, 2, 1}, most_count[4] = {64, 256, 64, 64};

#define FAR 6400000000

/* By the kind. A record of kind 3 that is to be written has a sixth number, too, its mark, which is 0. */
static const int64_t low[6][8] = {
    {0},
    {1, -FAR, -FAR, -FAR},
    {1, 0, -1073741824},
    {41317, -1000000, -1000000, -900000000, 0, 0},
    {1, 1, 1, 41317, 0, 1, 1, 0},
    {41317, -1000000, -1000000, -900000000, 0, 0},
};
static const int64_t high[6][8] = {
    {0},
    {65535, FAR, FAR, FAR},
    {65535, 4294967295, 1073741824},
    {69806, 1000000, 1000000, 900000000, 99, 0},
    {65535, 65535, 65535, 69806, 86399999, 3600000, 4096, 1000000},
    {69806, 1000000, 1000000, 900000000, 99, 1},
};

static int is_day_kind(int64_t kind) { return kind == 3 || kind == 5; }

/* Whether a kind may stand in a place. */
static int stands(int64_t kind, int place) { return place == 2 ? is_day_kind(kind) : kind == place + 1; }

int64_t base_word(const uint8_t *file, size_t at) {
    uint64_t word;
    memcpy(&word, file + at, sizeof word);
    return (int64_t)le64toh(word);
}

/* Whether contents table and length are right; the kinds and the counts. */
static int contents_right(const uint8_t *file, size_t n, int64_t kind[4], int64_t count[4]) {
    size_t body = 104;
    if (n < 104 || n > 65536 || base_word(file, 0) != 4) return 0;
    for (int place = 0; place < 4; place++) {
        size_t entry = 8 + 24 * (size_t)place;
        kind[place] = base_word(file, entry);
        count[place] = base_word(file, entry + 16);
        if (!stands(kind[place], place) || base_word(file, entry + 8) != (int64_t)body) return 0;
        if (count[place] < least_count[place] || count[place] > most_count[place]) return 0;
        body += (size_t)count[place] * 8 * base_fields[kind[place]];
    }
    return body == n;
}

static int in_range(int64_t value, int64_t kind, size_t field) { return value >= low[kind][field] && value <= high[kind][field]; }

static int record_in_range(const uint8_t *file, size_t at, int64_t kind) {
    for (size_t i = 0; i < base_fields[kind]; i++)
        if (!in_range(base_word(file, at + 8 * i), kind, i)) return 0;
    return 1;
}

static int64_t least(int64_t a, int64_t b) { return a != 0 && a < b ? a : b; }

static struct fringe_counts refused(int64_t number) { return (struct fringe_counts){number, 0, 0, 0, 0, 0}; }

struct fringe_counts base_check(const uint8_t *file, size_t n) {
    int64_t kind[4], count[4], refusal = 0, before = 0;
    size_t at = 104;
    if (!contents_right(file, n, kind, count)) return refused(1);
    for (int place = 0; place < 4; place++) {
        for (int64_t i = 0; i < count[place]; i++, at += 8 * base_fields[kind[place]]) {
            int64_t first = base_word(file, at);
            if (!record_in_range(file, at, kind[place])) return refused(2);
            if (i > 0 && place < 2 && first <= before) refusal = 3;
            if (i > 0 && place == 2 && first != before + 1) refusal = least(refusal, 4);
            before = first;
        }
    }
    if (refusal != 0) return refused(refusal);
    return (struct fringe_counts){0, count[0], count[1], count[2], count[3], kind[2]};
}

/* How many numbers a record has in the list of each place: a day its mark for either kind. */
static const size_t list_fields[4] = {4, 3, 6, 8};

/* Whether a list is a right count of whole records. */
static int list_right(int place, size_t length) {
    size_t count = length / list_fields[place];
    return length % list_fields[place] == 0 && count >= (size_t)least_count[place] && count <= (size_t)most_count[place];
}

static int64_t lists_refusal(const int64_t kind[4], const int64_t *const lists[4], const size_t lengths[4]) {
    for (int place = 0; place < 4; place++)
        if ((place != 2 || is_day_kind(kind[2])) && !list_right(place, lengths[place])) return 1;
    if (!is_day_kind(kind[2])) return 2;
    for (int place = 0; place < 4; place++)
        for (size_t i = 0; i < lengths[place]; i++)
            if (!in_range(lists[place][i], kind[place], i % list_fields[place])) return 2;
    for (int place = 0; place < 2; place++)
        for (size_t i = list_fields[place]; i < lengths[place]; i += list_fields[place])
            if (lists[place][i] <= lists[place][i - list_fields[place]]) return 3;
    for (size_t i = list_fields[2]; i < lengths[2]; i += list_fields[2])
        if (lists[2][i] != lists[2][i - list_fields[2]] + 1) return 4;
    return 0;
}

static void put(uint8_t *room, size_t at, int64_t value) {
    uint64_t word = htole64((uint64_t)value);
    memcpy(room + at, &word, sizeof word);
}

/* A day list without its marks, as a file of kind 3 holds it; how many numbers that are. */
static size_t without_marks(const int64_t *days, size_t length, int64_t *five) {
    size_t n = 0;
    for (size_t i = 0; i < length; i += 6)
        for (size_t j = 0; j < 5; j++) five[n++] = days[i + j];
    return n;
}

struct fringe_number base_write(int64_t day_kind, const int64_t *const lists[4], const size_t lengths[4], uint8_t *room, size_t m) {
    const int64_t kind[4] = {1, 2, day_kind, 4}, *list[4] = {lists[0], lists[1], lists[2], lists[3]};
    size_t length[4] = {lengths[0], lengths[1], lengths[2], lengths[3]}, body = 104;
    int64_t refusal = lists_refusal(kind, lists, lengths), five[5 * 64];
    if (refusal != 0) return (struct fringe_number){refusal, 0};
    if (day_kind == 3) {
        length[2] = without_marks(lists[2], lengths[2], five);
        list[2] = five;
    }
    if (104 + 8 * (length[0] + length[1] + length[2] + length[3]) > m) return (struct fringe_number){7, 0};
    put(room, 0, 4);
    for (size_t place = 0; place < 4; place++) {
        put(room, 8 + 24 * place, kind[place]);
        put(room, 16 + 24 * place, (int64_t)body);
        put(room, 24 + 24 * place, (int64_t)(length[place] / base_fields[kind[place]]));
        for (size_t i = 0; i < length[place]; i++, body += 8) put(room, body, list[place][i]);
    }
    return (struct fringe_number){0, (int64_t)body};
}
