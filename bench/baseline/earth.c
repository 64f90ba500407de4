/* Document 01, adding milliseconds to an epoch, 'Arguments', 'Tide in UT1' and 'Rotation angle'. */
#include "baseline.h"

static const int64_t M = 681644160000000000;

static const int64_t constant[5] = {4858682490, 12871047930, 3357795262, 10722607037, 4501603980};
static const int64_t rate[5] = {17179159232178, 1295965810481, 17395272628478, 16029616012090, -69628905431};

static const int16_t tide_rows[41][6] = {
    {1, 0, 2, 2, 2, -2},    {2, 0, 2, 0, 1, -4},   {2, 0, 2, 0, 2, -10},   {0, 0, 2, 2, 1, -5},    {0, 0, 2, 2, 2, -12},
    {1, 0, 2, 0, 0, -4},    {1, 0, 2, 0, 1, -41},  {1, 0, 2, 0, 2, -99},   {3, 0, 0, 0, 0, -2},    {-1, 0, 2, 2, 1, -8},
    {-1, 0, 2, 2, 2, -20},  {1, 0, 0, 2, 0, -8},   {2, 0, 2, -2, 2, 2},    {0, 1, 2, 0, 2, 3},     {0, 0, 2, 0, 0, -30},
    {0, 0, 2, 0, 1, -321},  {0, 0, 2, 0, 2, -776}, {2, 0, 0, 0, -1, 2},    {2, 0, 0, 0, 0, -34},   {2, 0, 0, 0, 1, 2},
    {0, -1, 2, 0, 2, -2},   {0, 0, 0, 2, -1, 5},   {0, 0, 0, 2, 0, -73},   {0, 0, 0, 2, 1, -5},    {0, -1, 0, 2, 0, -5},
    {1, 0, 2, -2, 1, 5},    {1, 0, 2, -2, 2, 10},  {1, 1, 0, 0, 0, 4},     {-1, 0, 2, 0, 0, 5},    {-1, 0, 2, 0, 1, 18},
    {-1, 0, 2, 0, 2, 44},   {1, 0, 0, 0, -1, 53},  {1, 0, 0, 0, 0, -826},  {1, 0, 0, 0, 1, 54},    {0, 0, 0, 1, 0, 5},
    {1, -1, 0, 0, 0, -6},   {-1, 0, 0, 2, -1, 12}, {-1, 0, 0, 2, 0, -182}, {-1, 0, 0, 2, 1, 13},   {1, 0, -2, 2, -1, 2},
    {-1, -1, 0, 2, 0, -9},
};

int base_day_in_range(int64_t day) { return 41317 <= day && day <= 69806; }
int base_ms_in_range(int64_t ms) { return 0 <= ms && ms <= 86399999; }

struct fringe_epoch base_later(int64_t day, int64_t ms, int64_t add) {
    if (!base_day_in_range(day) || !base_ms_in_range(ms) || add < 0 || add > 14742000000) return (struct fringe_epoch){2, 0, 0};
    return (struct fringe_epoch){0, day + (ms + add) / 86400000, (ms + add) % 86400000};
}

int64_t base_minutes(int64_t day, int64_t ms, int64_t tai) {
    return base_floor((day - 51544) * 86400000 - 43200000 + ms + 32184 + 1000 * tai, 60000);
}

static uint32_t argument(int i, int64_t n) {
    __int128 w = ((__int128)constant[i] * 52596000 + (__int128)rate[i] * n) % M;
    if (w < 0) w += M;
    return (uint32_t)(((unsigned __int128)w << 32) / (unsigned __int128)M);
}

static uint32_t row_angle(const int16_t row[6], const uint32_t arguments[5]) {
    uint32_t sum = 0;
    for (int i = 0; i < 5; i++) sum += (uint32_t)row[i] * arguments[i];
    return sum;
}

int64_t base_tide_at(int64_t n) {
    uint32_t arguments[5];
    int64_t total = 0;
    for (int i = 0; i < 5; i++) arguments[i] = argument(i, n);
    for (int i = 0; i < 41; i++) total += tide_rows[i][5] * base_sine(row_angle(tide_rows[i], arguments));
    return base_nearest_of_30_bits(1000 * total);
}

static int asked_in_range(int64_t day, int64_t ms, int64_t tai) {
    return base_day_in_range(day) && base_ms_in_range(ms) && 0 <= tai && tai <= 99;
}

struct fringe_ticks base_arguments(int64_t day, int64_t ms, int64_t tai) {
    if (!asked_in_range(day, ms, tai)) return (struct fringe_ticks){2, 0, 0, 0, 0, 0, 0};
    int64_t n = base_minutes(day, ms, tai);
    return (struct fringe_ticks){0, n, argument(0, n), argument(1, n), argument(2, n), argument(3, n), argument(4, n)};
}

struct fringe_number base_tide(int64_t day, int64_t ms, int64_t tai) {
    if (!asked_in_range(day, ms, tai)) return (struct fringe_number){2, 0};
    return (struct fringe_number){0, base_tide_at(base_minutes(day, ms, tai))};
}

uint32_t base_turned(int64_t day, int64_t f, int64_t *e) {
    const int64_t turn = 100000000000000000;
    int64_t fm = base_floor(f, 1000);
    int64_t fast = 10 * base_floor(3125000 * f, 27);
    int64_t slow = base_floor(1368905955 * fm, 432);
    int64_t sum = (27768836730832276 + 273781191135448 * (day - 51544)) % turn + fast % turn + slow;
    *e = sum % turn;
    if (*e < 0) *e += turn;
    return (uint32_t)(((unsigned __int128)*e << 32) / (unsigned __int128)turn);
}

struct fringe_angle base_angle_at(int64_t day, int64_t f) {
    struct fringe_angle answer = {2, 0, 0};
    if (!base_day_in_range(day) || f < -100000000 || f > 86500000000) return answer;
    answer.refusal = 0;
    answer.tick = base_turned(day, f, &answer.e);
    return answer;
}
