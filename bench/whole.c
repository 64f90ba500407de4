/* links: bench */
#include <stdbool.h>
#include "frame.h"
#include "baseline/baseline.h"

int64_t bench_floor(int64_t, int64_t);
int64_t bench_round(int64_t, uint64_t);
int64_t bench_floor_60000(int64_t);
int64_t bench_round_1000000(int64_t);
int64_t bench_line(int64_t, int64_t, int64_t);
uint32_t bench_argument_ticks(uint64_t);
uint64_t bench_argument_product(int64_t, int64_t);
uint32_t bench_rotation_ticks(uint64_t);
int64_t bench_turned(int64_t, int64_t, int64_t, int64_t);
int64_t bench_light_time(int64_t);
bool bench_within(int64_t, int64_t, int64_t, int64_t, int64_t);

typedef __int128 wide;
typedef unsigned __int128 unsigned_wide;

static const int64_t M = 681644160000000000;

/* R(a/b), halves away from zero */
static int64_t plain_round(int64_t a, uint64_t b)
{
	uint64_t n = a < 0 ? -(uint64_t)a : (uint64_t)a;
	int64_t m = (n + b / 2) / b;
	return a < 0 ? -m : m;
}

static int64_t plain_floor_60000(int64_t x) { return base_floor(x, 60000); }

static int64_t plain_round_1000000(int64_t a) { return plain_round(a, 1000000); }

static int64_t plain_line(int64_t v0, int64_t v1, int64_t u) { return v0 + plain_round((v1 - v0) * u, 86400000); }

static uint32_t plain_argument_ticks(uint64_t w) { return ((unsigned_wide)w << 32) / M; }

static uint64_t plain_argument_product(int64_t rate, int64_t n)
{
	wide m = (wide)rate * n % M;
	return m < 0 ? m + M : m;
}

static uint32_t plain_rotation_ticks(uint64_t e) { return ((unsigned_wide)e << 32) / 100000000000000000; }

static int64_t plain_turned(int64_t x, int64_t y, int64_t c, int64_t d)
{
	return base_nearest_of_30_bits((wide)x * c + (wide)y * d);
}

static int64_t plain_light_time(int64_t g)
{
	wide p = (wide)g * 1000000000;
	return p < 0 ? -((-p + 149896229) / 299792458) : (p + 149896229) / 299792458;
}

static bool plain_within(int64_t a, int64_t r, int64_t j, int64_t s, int64_t k)
{
	wide v = a + (wide)r * j - 65536 * s;
	return v < 0 ? -v <= k : v <= k;
}

ROW(floor, int64_t, (int64_t x, int64_t b), (between(-4000000000000000000, 4000000000000000000), between(1, 100000000)), bench_floor, base_floor)
ROW(round, int64_t, (int64_t a, uint64_t b), (between(-4000000000000000000, 4000000000000000000), between(1, 100000000)), bench_round, plain_round)
ROW(floor_60000, int64_t, (int64_t x), (between(-4000000000000000000, 4000000000000000000)), bench_floor_60000, plain_floor_60000)
ROW(round_1000000, int64_t, (int64_t a), (between(-4000000000000000000, 4000000000000000000)), bench_round_1000000, plain_round_1000000)
ROW(line, int64_t, (int64_t v0, int64_t v1, int64_t u), (between(-900000000, 900000000), between(-900000000, 900000000), between(0, 86399999)), bench_line, plain_line)
ROW(argument_ticks, uint32_t, (uint64_t w), (between(0, M - 1)), bench_argument_ticks, plain_argument_ticks)
ROW(argument_product, uint64_t, (int64_t rate, int64_t n), (between(-69628905431, 17395272628478), between(-15000000, 27000000)), bench_argument_product, plain_argument_product)
ROW(rotation_ticks, uint32_t, (uint64_t e), (between(0, 99999999999999999)), bench_rotation_ticks, plain_rotation_ticks)
ROW(turned, int64_t, (int64_t x, int64_t y, int64_t c, int64_t d), (between(-12800000000, 12800000000), between(-12800000000, 12800000000), between(-1073741824, 1073741824), between(-1073741824, 1073741824)), bench_turned, plain_turned)
ROW(light_time, int64_t, (int64_t g), (between(-38000000000, 38000000000)), bench_light_time, plain_light_time)
/* samples on a line of rate r/65,536, about half of them within k */
ROW(within, bool, (int64_t a, int64_t r, int64_t j, int64_t s, int64_t k), (between(-65536, 65536), 65536 * 3, between(0, 1023), between(0, 3069), 65536 * 1000), bench_within, plain_within)

MAIN({"floor", row_floor}, {"round", row_round}, {"floor_60000", row_floor_60000},
     {"round_1000000", row_round_1000000}, {"line", row_line}, {"argument_ticks", row_argument_ticks},
     {"argument_product", row_argument_product}, {"rotation_ticks", row_rotation_ticks}, {"turned", row_turned},
     {"light_time", row_light_time}, {"within", row_within})
