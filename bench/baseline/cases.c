/* Answers the questions of the tests on calls that the baseline has, in the format of tests/README.md. */
#include "baseline.h"

#include <inttypes.h>
#include <stdio.h>
#include <string.h>

#define MOST_LENT 66560
#define MOST_NUMBERS 8200
#define MOST_BYTES 16384

static uint8_t lent[MOST_LENT], bytes[MOST_BYTES];
static int64_t numbers[MOST_LENT / 8], room[MOST_NUMBERS];
static size_t length;

static void print(const int64_t *values, size_t n) {
    for (size_t i = 0; i < n; i++) printf("%s%" PRId64, i ? " " : "", values[i]);
    printf("\n");
}

static void answer(struct fringe_number a) { print((int64_t[]){a.refusal, a.value}, 2); }

static void fill(size_t m) {
    for (size_t i = 0; i < m; i++) room[i] = 0x5555555555555555;
}

static void of_an_angle(const int64_t q[8]) {
    int64_t s = base_sine((uint32_t)q[1]), c = base_cosine((uint32_t)q[1]);
    struct fringe_ticks t;
    struct fringe_angle angle;
    struct fringe_epoch e;
    switch (q[0]) {
    case 1: print(&s, 1); break;
    case 2: print(&c, 1); break;
    case 3:
        t = base_arguments(q[1], q[2], q[3]);
        print((int64_t[]){t.refusal, t.n, t.l, t.lp, t.f, t.d, t.om}, 7);
        break;
    case 4: answer(base_tide(q[1], q[2], q[3])); break;
    case 5: angle = base_angle_at(q[1], q[2]), print((int64_t[]){angle.refusal, angle.e, angle.tick}, 3); break;
    case 6: e = base_later(q[1], q[2], q[3]), print((int64_t[]){e.refusal, e.day, e.ms}, 3); break;
    case 7: print((int64_t[]){c, -s, 0, s, c, 0, 0, 0, 1 << 30}, 9); break;
    }
}

static void of_a_file(const int64_t q[8]) {
    struct fringe_counts c;
    struct fringe_earth e;
    switch (q[0]) {
    case 8:
        c = base_check(lent, length);
        print((int64_t[]){c.refusal, c.stations, c.sources, c.days, c.passes, c.day_kind}, 6);
        break;
    case 14:
        e = base_orientation(lent, length, q[1], q[2]);
        print((int64_t[]){e.refusal, e.x, e.y, e.ut1_used, e.tick}, 5);
        break;
    case 15: answer(base_delay(lent, length, q[1], q[2], q[3], q[4], q[5])); break;
    }
}

static void with_numbers(const int64_t q[8], size_t m) {
    if (m > MOST_NUMBERS) return;
    fill(m);
    if (q[0] == 16) answer(base_samples(lent, length, (uint64_t)q[1], room, m));
    else answer(base_track(numbers, length / 8, q[1], room, m));
    print(room, m);
}

static void of_rows(const int64_t q[8], size_t m) {
    struct fringe_days d;
    if (m > length / 8) return;
    d = base_days_from_rows(lent + 8 * m, length - 8 * m, q[1], q[2], numbers, m);
    printf("%" PRId64 " ", d.refusal);
    print(d.days, sizeof d.days / 8);
}

/* Parts the lent numbers into the writer's lists; whether there are so many. */
static int parted(const int64_t q[8], const int64_t *lists[4], size_t lengths[4]) {
    size_t at = 0, count = length / 8;
    for (size_t i = 0; i < 4; i++) {
        lists[i] = numbers + at;
        lengths[i] = i < 3 ? (size_t)q[i + 1] : count - at;
        if (lengths[i] > count - at) return 0;
        at += lengths[i];
    }
    return 1;
}

static void with_bytes(const int64_t q[8], size_t m) {
    const int64_t *lists[4];
    size_t lengths[4];
    if (m > MOST_BYTES || (q[0] == 17 && !parted(q, lists, lengths))) return;
    memset(bytes, 165, m);
    answer(q[0] == 17 ? base_write(q[4], lists, lengths, bytes, m) : base_rows_from_days(numbers, length / 8, bytes, m));
    for (size_t i = 0; i < m; i++) printf("%02x", bytes[i]);
    printf("\n");
}

/* Takes in the bytes behind a head, or keeps what is lent. */
static void lend(uint64_t n) {
    if (n > MOST_LENT) return;
    length = fread(lent, 1, n, stdin);
    for (size_t i = 0; i < length / 8; i++) numbers[i] = base_word(lent, 8 * i);
}

int main(void) {
    uint8_t head[64];
    int64_t q[8];
    while (fread(head, 1, sizeof head, stdin) == sizeof head) {
        for (size_t i = 0; i < 8; i++) q[i] = base_word(head, 8 * i);
        lend((uint64_t)q[7]);
        if (q[0] == 16 || q[0] == 18) with_numbers(q, (size_t)q[6]);
        else if (q[0] == 17 || q[0] == 23) with_bytes(q, (size_t)q[6]);
        else if (q[0] == 22) of_rows(q, (size_t)q[3]);
        else if (q[0] < 8) of_an_angle(q);
        else of_a_file(q);
    }
    return 0;
}
