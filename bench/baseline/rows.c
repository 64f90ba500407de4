/* Document 02, L3 and L4: orientation records from rows of finals2000A, and rows from records. A record has six numbers, its mark last. */
#include "baseline.h"

#include <string.h>

/* From a column to another, counted from 1, with so many decimals, the last of which is worth so many units of a record. */
struct columns { size_t first, last, decimals; int64_t unit; };

static const struct columns mjd = {8, 15, 2, 1};
static const struct columns values[3] = {{19, 27, 6, 1}, {38, 46, 6, 1}, {59, 68, 7, 100}};

static int is_digit(uint8_t byte) { return byte >= '0' && byte <= '9'; }

/* Whether the columns of a row hold a decimal; its value in units. */
static int decimal(const uint8_t *row, size_t length, struct columns c, int64_t *value) {
    if (length < c.last) return 0;
    size_t at = c.first - 1, point = c.last - c.decimals - 1;
    while (at < point && row[at] == ' ') at++;
    int negative = row[at] == '-';
    if (negative) at++;
    if (at >= point || row[point] != '.') return 0;
    int64_t size = 0;
    for (; at < c.last; at++) {
        if (at == point) continue;
        if (!is_digit(row[at])) return 0;
        size = 10 * size + (row[at] - '0');
    }
    *value = c.unit * (negative ? -size : size);
    return 1;
}

/* A row with a day has 16 bytes or more, its line feed among them; so a text has at most this many. */
#define MOST_ROWS 4096

struct day_row { const uint8_t *start; size_t length; int64_t day; };

/* Lists the rows of a text. Whether each has a day. */
static int list_rows(const uint8_t *text, size_t n, struct day_row *rows, size_t *count) {
    const uint8_t *end = text + n, *feed;
    for (const uint8_t *at = text; at < end && (feed = memchr(at, '\n', (size_t)(end - at))); at = feed + 1) {
        struct day_row row = {at, (size_t)(feed - at), 0};
        if (!decimal(row.start, row.length, mjd, &row.day) || row.day % 100 != 0) return 0;
        row.day /= 100;
        rows[(*count)++] = row;
    }
    return 1;
}

/* The first of some rows with a day; their number where there is none. */
static size_t first_with(const struct day_row *rows, size_t count, int64_t day) {
    size_t i = 0;
    while (i < count && rows[i].day != day) i++;
    return i;
}

/* x, y and UT1-UTC of a row; whether each is a decimal. */
static int fields_of(const struct day_row *row, int64_t *fields) {
    for (int i = 0; i < 3; i++)
        if (!decimal(row->start, row->length, values[i], &fields[i])) return 0;
    return 1;
}

/* Whether each row that is taken has its fields. */
static int taken_filled(const struct day_row *rows, size_t n, int64_t first, int64_t count) {
    int64_t fields[3];
    for (size_t i = 0; i < n; i++) {
        int64_t day = rows[i].day;
        if (day < first || day >= (__int128)first + count || first_with(rows, i, day) < i) continue;
        if (!fields_of(&rows[i], fields)) return 0;
    }
    return 1;
}

/* Whether a record can stand in a row, but for the unit of UT1-UTC: its fields are in their ranges, and it holds full UT1. */
static int day_right(const int64_t *day) {
    static const int64_t most[3] = {1000000, 1000000, 900000000};
    for (int i = 0; i < 3; i++)
        if (day[1 + i] < -most[i] || day[1 + i] > most[i]) return 0;
    return base_day_in_range(day[0]) && day[4] >= 0 && day[4] <= 99 && day[5] == 1;
}

static int count_right(int64_t count) { return count >= 2 && count <= 64; }

static struct fringe_days refused(int64_t number) { return (struct fringe_days){number, {0}}; }

struct fringe_days base_days_from_rows(const uint8_t *text, size_t n, int64_t first, int64_t count, const int64_t *tai, size_t m) {
    struct fringe_days answer = refused(0);
    struct day_row rows[MOST_ROWS];
    size_t all = 0;
    if (n > 65536) return refused(1);
    if (!list_rows(text, n, rows, &all) || !taken_filled(rows, all, first, count)) return refused(10);
    for (int64_t k = 0; k < count; k++)
        if (first_with(rows, all, first + k) == all) return refused(11);
    if (!base_day_in_range(first) || !count_right(count) || m != (size_t)count) return refused(2);
    for (int64_t k = 0; k < count; k++) {
        int64_t *day = answer.days + 6 * k;
        day[0] = first + k;
        fields_of(&rows[first_with(rows, all, first + k)], day + 1);
        day[4] = tai[k];
        day[5] = 1;
        if (!day_right(day)) return refused(2);
    }
    return answer;
}

/* Puts a number of units into the columns of a row, from the last decimal to the sign. */
static void put_decimal(uint8_t *row, struct columns c, int64_t value) {
    uint64_t left = (uint64_t)(value < 0 ? -value : value) / (uint64_t)c.unit;
    size_t at = c.last, point = c.last - c.decimals - 1;
    do {
        row[--at] = (uint8_t)('0' + left % 10);
        left /= 10;
        if (at == point + 1) row[--at] = '.';
    } while (left > 0 || at >= point);
    if (value < 0) row[--at] = '-';
}

struct fringe_number base_rows_from_days(const int64_t *days, size_t n, uint8_t *room, size_t m) {
    size_t count = n / 6, bytes = 186 * count;
    if (n % 6 != 0 || !count_right((int64_t)count)) return (struct fringe_number){2, 0};
    for (size_t i = 0; i < count; i++)
        if (!day_right(days + 6 * i) || days[6 * i + 3] % 100 != 0) return (struct fringe_number){2, 0};
    if (bytes > m) return (struct fringe_number){7, 0};
    memset(room, ' ', bytes);
    for (size_t i = 0; i < count; i++) {
        uint8_t *row = room + 186 * i;
        put_decimal(row, mjd, 100 * days[6 * i]);
        for (int j = 0; j < 3; j++) put_decimal(row, values[j], days[6 * i + 1 + (size_t)j]);
        row[185] = '\n';
    }
    return (struct fringe_number){0, (int64_t)bytes};
}
