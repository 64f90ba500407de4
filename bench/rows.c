/* links: erlensieg */
/* Rows of finals2000A: 14 days of the 181 rows that were published, the last 64 days of 352 full rows, and the rows of 64 days. `calls` counts
   hundredths of a call. */
#include "frame.h"
#include "baseline/sine.c"
#include "baseline/earth.c"
#include "baseline/rows.c"

enum { SHARE = 100, FULL = 352, FIRST = 57359 };

static uint8_t text[FRINGE_ANY_ROWS_BYTES], room[FRINGE_MOST_ROWS_BYTES];
static int64_t days[FRINGE_DAY_NUMBERS * FULL], tai[FRINGE_MOST_DAYS];

static void fill_days(void)
{
	for (int i = 0; i < FULL; i++)
		memcpy(days + 6 * i, (int64_t[]){FIRST + i, between(-1000000, 1000000), between(-1000000, 1000000), 100 * between(-9000000, 9000000), 36, 1}, 48);
}

static size_t published(void)
{
	FILE *in = fopen("tests/inputs/finals2000A-2016.txt", "rb");
	size_t bytes = in ? fread(text, 1, sizeof text, in) : 0;
	if (bytes == 0)
		exit(1);
	fclose(in);
	return bytes;
}

static size_t full(void)
{
	fill_days();
	for (int i = 0; i < FULL; i += 32)
		base_rows_from_days(days + 6 * i, 6 * 32, text + FRINGE_ROW_BYTES * i, FRINGE_ROW_BYTES * 32);
	return FRINGE_ROW_BYTES * FULL;
}

typedef struct fringe_days reader(const uint8_t *text, size_t n, int64_t first, int64_t count, const int64_t *tai, size_t m);

static struct fringe_days no_days(const uint8_t *text, size_t n, int64_t first, int64_t count, const int64_t *tai, size_t m) { return (struct fringe_days){0}; }

static uint64_t read_days(enum side side, long calls, size_t bytes, int64_t first, int64_t count)
{
	reader *volatile callee = side == NOTHING ? no_days : side == OURS ? fringe_days_from_rows : base_days_from_rows;
	uint64_t sum = 0;
	for (; calls > 0; calls -= SHARE) {
		struct fringe_days r = callee(text, bytes, first, count, tai, count);
		sum = sum * 31 + r.refusal;
		for (size_t i = 0; i < FRINGE_MOST_DAYS_NUMBERS; i++)
			sum = sum * 31 + r.days[i];
	}
	return sum;
}

static uint64_t row_read_14(enum side side, long calls) { return read_days(side, calls, published(), FIRST + 80, 14); }
static uint64_t row_read_64(enum side side, long calls) { return read_days(side, calls, full(), FIRST + FULL - 64, 64); }

static struct fringe_number no_rows(const int64_t *days, size_t n, uint8_t *room, size_t m) { return (struct fringe_number){0, 0}; }

static uint64_t row_write_64(enum side side, long calls)
{
	struct fringe_number (*volatile callee)(const int64_t *, size_t, uint8_t *, size_t) = side == NOTHING ? no_rows : side == OURS ? fringe_rows_from_days : base_rows_from_days;
	uint64_t sum = 0;
	fill_days();
	for (; calls > 0; calls -= SHARE) {
		struct fringe_number r = callee(days, FRINGE_MOST_DAYS_NUMBERS, room, sizeof room);
		sum = sum * 31 + r.refusal * 7 + r.value;
		for (size_t i = 0; i < sizeof room; i++)
			sum = sum * 31 + room[i];
	}
	return sum;
}

MAIN({"read_14_a_hundredth", row_read_14}, {"read_64_a_hundredth", row_read_64}, {"write_64_a_hundredth", row_write_64})
