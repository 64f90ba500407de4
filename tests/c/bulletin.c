/* Rows of finals2000A: the days that they give, and the rows of days; what is lent to be read stays. */
#include "test.h"
#include "values.h"
#include <stdio.h>
#include <string.h>

/* the published rows, and zeros behind them */
static uint8_t published[FRINGE_ANY_ROWS_BYTES + 8];

int load_rows(const char *path)
{
	FILE *in = fopen(path, "rb");
	size_t bytes = in ? fread(published, 1, sizeof published, in) : 0;
	if (in)
		fclose(in);
	return bytes > 0 && bytes < sizeof published;
}

/* numbers, and zeros behind them */
static void days_are(const int64_t *got, const int64_t *want, size_t n)
{
	int64_t all[FRINGE_MOST_DAYS_NUMBERS] = {0};
	memcpy(all, want, n * sizeof *want);
	same(got, all, FRINGE_MOST_DAYS_NUMBERS);
}

static void read_one(const struct days_row *row)
{
	static uint8_t text[sizeof published];
	memcpy(text, published, sizeof text);
	memcpy(text + row->at, row->put, strlen(row->put));
	lend_bytes(text, row->bytes);
	lend(row->tai_utc, row->tai_utc_numbers);
	struct fringe_days r = fringe_days_from_rows(file, file_bytes, row->first, row->count, lent, row->tai_utc_numbers);
	test(row->what);
	one(r.refusal, row->refusal);
	days_are(r.days, row->days, row->day_numbers);
	file_stays();
	lent_stays();
}

static void write_one(const struct rows_row *row)
{
	lend(row->days, row->day_numbers);
	empty_byte_room();
	test(row->what);
	number(fringe_rows_from_days(lent, row->day_numbers, byte_room, row->room_bytes), row->want);
	holds_bytes(row->rows, (size_t)row->want[1]);
	lent_stays();
}

/* 352 rows of 185 columns, the published ones from the last to the first, and once more as far as they go */
static size_t full_text(uint8_t *text)
{
	const uint8_t *starts[400];
	size_t rows = 0;
	for (const uint8_t *at = published; *at; at = (const uint8_t *)strchr((const char *)at, '\n') + 1)
		starts[rows++] = at;
	for (size_t i = 0; i < 352; i++, text += FRINGE_ROW_BYTES) {
		memcpy(text, starts[rows - 1 - i % rows], FRINGE_ROW_BYTES - 1);
		text[FRINGE_ROW_BYTES - 1] = '\n';
	}
	return 352 * FRINGE_ROW_BYTES;
}

/* the row's days, from the lent text */
static struct fringe_days full_days(const struct full_row *row, const char *what)
{
	size_t count = (size_t)row->count;
	struct fringe_days r = fringe_days_from_rows(file, file_bytes, row->first, row->count, row->tai_utc, count);
	test(what);
	one(r.refusal, FRINGE_ANSWERED);
	same(r.days, row->days, FRINGE_MOST_DAYS_NUMBERS);
	file_stays();
	return r;
}

static void full_one(const struct full_row *row)
{
	static uint8_t text[FRINGE_ANY_ROWS_BYTES];
	lend_bytes(text, full_text(text));
	full_days(row, row->what);
	one((int64_t)file_bytes, 65472);
}

/* the most days, as the published rows give them: written, read back, and written again */
static void round_trip(const struct full_row *row)
{
	static uint8_t rows[FRINGE_MOST_ROWS_BYTES];
	const int64_t all[] = {FRINGE_ANSWERED, FRINGE_MOST_ROWS_BYTES};
	test("the rows of the most days");
	number(fringe_rows_from_days(row->days, FRINGE_MOST_DAYS_NUMBERS, rows, sizeof rows), all);
	lend_bytes(rows, sizeof rows);
	struct fringe_days r = full_days(row, "the same days from these rows");
	empty_byte_room();
	test("the same rows from these days");
	number(fringe_rows_from_days(r.days, FRINGE_MOST_DAYS_NUMBERS, byte_room, sizeof rows), all);
	holds_bytes(rows, sizeof rows);
}

/* ---- days of rows in a session file */

/* the sound file with these days for its own, in the room: the answer */
static struct fringe_number with_days(int64_t day_kind, const int64_t *days)
{
	const struct write_row *row = write_rows;
	empty_byte_room();
	return fringe_write(day_kind, row->lists[0], row->lengths[0], row->lists[1], row->lengths[1], days,
			    FRINGE_MOST_DAYS_NUMBERS, row->lists[3], row->lengths[3], byte_room, ROOM_BYTES);
}

/* lends that file, which is right */
static void lend_days(const char *what, int64_t day_kind, const int64_t *days)
{
	struct fringe_number r = with_days(day_kind, days);
	test(what);
	one(r.refusal, FRINGE_ANSWERED);
	lend_bytes(byte_room, (size_t)r.value);
}

/* UT1-UTC that the lent file uses at an epoch */
static int64_t ut1_used(int64_t day, int64_t ms)
{
	struct fringe_earth r = fringe_orientation(file, file_bytes, day, ms);
	one(r.refusal, FRINGE_ANSWERED);
	return r.ut1_used;
}

/* the same days without their tides, marked 0: as either kind they are used as the marked ones are, at noon, too */
static void without_tides(const struct full_row *row)
{
	static int64_t noons[FRINGE_MOST_DAYS - 1];
	int64_t days[FRINGE_MOST_DAYS_NUMBERS];
	memcpy(days, row->days, sizeof days);
	for (size_t i = 0; i < FRINGE_MOST_DAYS; i++) {
		int64_t *day = days + FRINGE_DAY_NUMBERS * i;
		day[3] -= fringe_tide(day[0], 0, day[4]).value;
		day[5] = 0;
	}
	for (size_t i = 0; i < COUNT(noons); i++)
		noons[i] = ut1_used(row->first + (int64_t)i, 43200000);
	for (int64_t kind = FRINGE_KIND_DAY; kind <= FRINGE_KIND_MARKED_DAY; kind += 2) {
		lend_days("days without their tides", kind, days);
		for (size_t i = 0; i < COUNT(noons); i++) {
			one(ut1_used(row->first + (int64_t)i, 0), row->days[FRINGE_DAY_NUMBERS * i + 3]);
			one(ut1_used(row->first + (int64_t)i, 43200000), noons[i]);
		}
	}
}

/* days of rows go into a file as they are: the orientation at 0h then is what was published */
static void filed(const struct full_row *row)
{
	lend_days("days of rows in a session file", FRINGE_KIND_MARKED_DAY, row->days);
	for (size_t i = 0; i < FRINGE_MOST_DAYS - 1; i++) {
		const int64_t *day = row->days + FRINGE_DAY_NUMBERS * i;
		struct fringe_earth r = fringe_orientation(file, file_bytes, day[0], 0);
		same((int64_t[]){r.refusal, r.x, r.y, r.ut1_used}, (int64_t[]){FRINGE_ANSWERED, day[1], day[2], day[3]}, 4);
	}
	without_tides(row);
	test("days of rows as kind 3");
	number(with_days(FRINGE_KIND_DAY, row->days), (int64_t[]){FRINGE_OUT_OF_RANGE, 0});
	holds_bytes(file, 0);
}

void bulletin(void)
{
	for EACH (days, row)
		read_one(row);
	for EACH (rows, row)
		write_one(row);
	for EACH (full, row) {
		full_one(row);
		round_trip(row);
		filed(row);
	}
}
