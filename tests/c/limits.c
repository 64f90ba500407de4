/* The named limits against what the calls do: the limit is taken, and one beyond it is refused. */
#include "test.h"
#include "values.h"
#include <string.h>

static int64_t samples[FRINGE_MOST_SAMPLES + 1];

static void tracked(const char *what, size_t count, int64_t tolerance, size_t numbers, int64_t refusal, int64_t value)
{
	empty_room();
	test(what);
	number(fringe_track(samples, count, tolerance, room, numbers), (int64_t[]){refusal, value});
}

/* zeros, one sample at a limit, and then the worst that samples can ask for: no three of them on a line */
static void of_tracks(void)
{
	const size_t all = FRINGE_MOST_TRACK_NUMBERS;
	const int64_t longest = FRINGE_MOST_SEGMENT_SAMPLES;
	memset(samples, 0, sizeof samples);
	tracked("the most samples", FRINGE_MOST_SAMPLES, 0, all, FRINGE_ANSWERED, FRINGE_MOST_SAMPLES / longest);
	tracked("a sample more", FRINGE_MOST_SAMPLES + 1, 0, all, FRINGE_OUT_OF_RANGE, 0);
	tracked("the longest segment", FRINGE_MOST_SEGMENT_SAMPLES, 0, all, FRINGE_ANSWERED, 1);
	tracked("a sample more than it takes", FRINGE_MOST_SEGMENT_SAMPLES + 1, 0, all, FRINGE_ANSWERED, 2);
	tracked("the greatest tolerance", 1, FRINGE_MOST_TOLERANCE, all, FRINGE_ANSWERED, 1);
	tracked("a greater tolerance", 1, FRINGE_MOST_TOLERANCE + 1, all, FRINGE_OUT_OF_RANGE, 0);
	for (int64_t sign = -1; sign <= 1; sign += 2) {
		samples[0] = sign * FRINGE_MOST_DELAY;
		tracked("the greatest delay", 1, 0, all, FRINGE_ANSWERED, 1);
		samples[0] += sign;
		tracked("a greater delay", 1, 0, all, FRINGE_OUT_OF_RANGE, 0);
	}
	for (size_t i = 0; i < FRINGE_MOST_SAMPLES; i++)
		samples[i] = i % 2 ? 10 : 0;
	tracked("the most segments", FRINGE_MOST_SAMPLES, 0, all, FRINGE_ANSWERED, FRINGE_MOST_SEGMENTS);
	tracked("room for one less", FRINGE_MOST_SAMPLES, 0, all - 1, FRINGE_NO_TRACK_FITS, 0);
}

#define MOST_NUMBERS ((FRINGE_MOST_SOURCES + 1) * FRINGE_PASS_NUMBERS)
static int64_t lists[4][MOST_NUMBERS];
static const size_t width[] = {FRINGE_STATION_NUMBERS, FRINGE_SOURCE_NUMBERS, FRINGE_DAY_NUMBERS, FRINGE_PASS_NUMBERS};
static const size_t most[] = {FRINGE_MOST_STATIONS, FRINGE_MOST_SOURCES, FRINGE_MOST_DAYS, FRINGE_MOST_PASSES};

/* a right value of a field: ids rise, days follow each other, and 1 is right everywhere else, as a mark, too */
static int64_t field_of(size_t list, size_t record, size_t field)
{
	if (list == 2 && field == 0)
		return FRINGE_FIRST_MJD + (int64_t)record;
	if (list == 3 && field == 3)
		return FRINGE_FIRST_MJD;
	return list < 2 && field == 0 ? 1 + (int64_t)record : 1;
}

/* one record more of each than a file may have */
static void fill_lists(void)
{
	for (size_t i = 0; i < 4; i++)
		for (size_t j = 0; j < (most[i] + 1) * width[i]; j++)
			lists[i][j] = field_of(i, j / width[i], j % width[i]);
}

static uint8_t written[FRINGE_RIGHT_FILE_BYTES];

static void write_as(const char *what, int64_t day_kind, const size_t *count, size_t room_bytes, int64_t refusal,
		     int64_t wrote)
{
	test(what);
	number(fringe_write(day_kind, lists[0], count[0] * width[0], lists[1], count[1] * width[1], lists[2],
			    count[2] * width[2], lists[3], count[3] * width[3], written, room_bytes),
	       (int64_t[]){refusal, wrote});
}

static void write_counts(const char *what, const size_t *count, size_t room_bytes, int64_t refusal, int64_t wrote)
{
	write_as(what, FRINGE_KIND_MARKED_DAY, count, room_bytes, refusal, wrote);
}

/* the longest file of kind 3 is shorter by its marks, which are 0 */
static void of_unmarked_files(void)
{
	const size_t bytes = FRINGE_RIGHT_FILE_BYTES - 8 * FRINGE_MOST_DAYS;
	size_t one_more[4], fewest[] = {1, 1, FRINGE_LEAST_DAYS - 1, 1};
	fill_lists();
	write_as("marks of 1 as kind 3", FRINGE_KIND_DAY, most, bytes, FRINGE_OUT_OF_RANGE, 0);
	for (size_t i = 0; i <= FRINGE_MOST_DAYS; i++)
		lists[2][width[2] * i + width[2] - 1] = 0;
	write_as("the longest file of kind 3", FRINGE_KIND_DAY, most, bytes, FRINGE_ANSWERED, (int64_t)bytes);
	test("the longest file of kind 3 is right");
	one(fringe_check(written, bytes).refusal, FRINGE_ANSWERED);
	write_as("a byte less room, kind 3", FRINGE_KIND_DAY, most, bytes - 1, FRINGE_ROOM_TOO_SHORT, 0);
	memcpy(one_more, most, sizeof most);
	one_more[2]++;
	write_as("a day more, kind 3", FRINGE_KIND_DAY, one_more, bytes, FRINGE_WRONG_FILE, 0);
	write_as("too few days, kind 3", FRINGE_KIND_DAY, fewest, bytes, FRINGE_WRONG_FILE, 0);
	write_as("a day more, no kind of days", FRINGE_KIND_PASS, one_more, bytes, FRINGE_OUT_OF_RANGE, 0);
}

static void of_files(void)
{
	size_t one_more[4], fewest[] = {1, 1, FRINGE_LEAST_DAYS, 1}, least_bytes = FRINGE_CONTENTS_BYTES;
	fill_lists();
	write_counts("the longest file", most, sizeof written, FRINGE_ANSWERED, FRINGE_RIGHT_FILE_BYTES);
	test("the longest file is right");
	one(fringe_check(written, sizeof written).refusal, FRINGE_ANSWERED);
	write_counts("a byte less room", most, sizeof written - 1, FRINGE_ROOM_TOO_SHORT, 0);
	for (size_t i = 0; i < 4; i++) {
		memcpy(one_more, most, sizeof most);
		one_more[i]++;
		write_counts("one record more", one_more, sizeof written, FRINGE_WRONG_FILE, 0);
		least_bytes += 8 * width[i] * fewest[i];
	}
	write_counts("the fewest records", fewest, sizeof written, FRINGE_ANSWERED, (int64_t)least_bytes);
	fewest[2]--;
	write_counts("a day less", fewest, sizeof written, FRINGE_WRONG_FILE, 0);
	lend_sound(FRINGE_KIND_MARKED_DAY);
	test("a contents table that is a byte short");
	one(fringe_fault(file, FRINGE_CONTENTS_BYTES - 1).field, 12);
	test("a contents table and no more");
	one(fringe_fault(file, FRINGE_CONTENTS_BYTES).field, 13);
	test("the greatest id");
	one(fringe_delay(file, file_bytes, FRINGE_MOST_ID, 1, 1, FRINGE_FIRST_MJD, 0).refusal, FRINGE_NOT_THERE);
	test("a greater id");
	one(fringe_delay(file, file_bytes, FRINGE_MOST_ID + 1, 1, 1, FRINGE_FIRST_MJD, 0).refusal, FRINGE_OUT_OF_RANGE);
}

/* the most passes, each of the most samples, no three of them on a line: so each segment has two samples */
static void fill_passes(void)
{
	static const int64_t pass[] = {1, 2, 1, FRINGE_FIRST_MJD, 20000000, 1000, FRINGE_MOST_SAMPLES, 0};
	fill_lists();
	lists[0][FRINGE_STATION_NUMBERS + 1] = 6400000000;
	for (size_t i = 0; i < FRINGE_MOST_PASSES; i++)
		memcpy(lists[3] + FRINGE_PASS_NUMBERS * i, pass, sizeof pass);
	write_counts("the most passes", most, sizeof written, FRINGE_ANSWERED, FRINGE_RIGHT_FILE_BYTES);
}

/* the room for tracks, with a guard on either side */
static int64_t all[1 + FRINGE_ALL_TRACKS_NUMBERS + 1];

static void untouched(size_t from, size_t to)
{
	for (size_t i = from; i < to; i++)
		one(all[i], 0x5555555555555555);
}

/* the room holds so many segments of two samples each, track after track, and nothing else was written */
static void in_pairs(size_t segments)
{
	untouched(0, 1);
	for (size_t i = 0; i < segments; i++)
		same(all + 1 + FRINGE_SEGMENT_NUMBERS * i, (int64_t[]){2 * (int64_t)(i % FRINGE_MOST_SEGMENTS), 2}, 2);
	untouched(1 + FRINGE_SEGMENT_NUMBERS * segments, COUNT(all));
}

static void all_tracked(const char *what, size_t numbers, int64_t refusal, int64_t count)
{
	memset(all, 0x55, sizeof all);
	struct fringe_tracks r = fringe_all_tracks(written, sizeof written, all + 1, numbers);
	test(what);
	one(r.refusal, refusal);
	for (size_t i = 0; i < FRINGE_MOST_PASSES; i++)
		one(r.counts[i], count);
	in_pairs(FRINGE_MOST_PASSES * (size_t)count);
}

static void pass_tracked(const char *what, uint64_t pass, size_t numbers, int64_t refusal, int64_t count)
{
	memset(all, 0x55, sizeof all);
	test(what);
	number(fringe_pass_track(written, sizeof written, pass, all + 1, numbers), (int64_t[]){refusal, count});
	in_pairs((size_t)count);
}

static void of_sessions(void)
{
	const size_t room_for_one = FRINGE_MOST_TRACK_NUMBERS;
	const uint64_t last = FRINGE_MOST_PASSES - 1;
	fill_passes();
	all_tracked("the most tracks", FRINGE_ALL_TRACKS_NUMBERS, FRINGE_ANSWERED, FRINGE_MOST_SEGMENTS);
	all_tracked("room for one segment less", FRINGE_ALL_TRACKS_NUMBERS - 1, FRINGE_NO_TRACK_FITS, 0);
	pass_tracked("the track of the most samples", last, room_for_one, FRINGE_ANSWERED, FRINGE_MOST_SEGMENTS);
	pass_tracked("a number less room", last, room_for_one - 1, FRINGE_NO_TRACK_FITS, 0);
	pass_tracked("one beyond the most passes", last + 1, room_for_one, FRINGE_NOT_THERE, 0);
}

static uint8_t text[FRINGE_ANY_ROWS_BYTES + 1];

/* the rows of so many days, from one of the list on, to a place of the text; how many bytes that is */
static size_t rows_of(const char *what, size_t first, size_t count, size_t at, size_t room_bytes, int64_t refusal)
{
	size_t bytes = refusal ? 0 : count * FRINGE_ROW_BYTES;
	test(what);
	number(fringe_rows_from_days(lists[2] + first * width[2], count * width[2], text + at, room_bytes),
	       (int64_t[]){refusal, (int64_t)bytes});
	return bytes;
}

/* so many days of the text, from the first of the list on */
static void days_of(const char *what, size_t bytes, size_t count, int64_t refusal)
{
	const int64_t tai_utc[FRINGE_MOST_DAYS + 1] = {0};
	test(what);
	one(fringe_days_from_rows(text, bytes, lists[2][0], (int64_t)count, tai_utc, count).refusal, refusal);
}

static void of_rows(void)
{
	const size_t most_days = FRINGE_MOST_DAYS, fewest = FRINGE_LEAST_DAYS, all = FRINGE_MOST_ROWS_BYTES;
	fill_lists();
	for (size_t i = 0; i <= most_days; i++)
		lists[2][i * width[2] + 3] = FRINGE_ROW_UT1_STEP;
	rows_of("one row more than the most", 0, most_days + 1, 0, sizeof text, FRINGE_OUT_OF_RANGE);
	rows_of("the most rows, and a byte less room", 0, most_days, 0, all - 1, FRINGE_ROOM_TOO_SHORT);
	rows_of("a row less than the fewest", 0, fewest - 1, 0, sizeof text, FRINGE_OUT_OF_RANGE);
	size_t bytes = rows_of("the most rows", 0, most_days, 0, all, FRINGE_ANSWERED);
	bytes += rows_of("the fewest rows", most_days + 1 - fewest, fewest, bytes, sizeof text - bytes, FRINGE_ANSWERED);
	lists[2][3]++;
	rows_of("UT1-UTC between two steps", 0, most_days, bytes, sizeof text - bytes, FRINGE_OUT_OF_RANGE);
	days_of("the most days of rows", bytes, most_days, FRINGE_ANSWERED);
	days_of("one day more", bytes, most_days + 1, FRINGE_OUT_OF_RANGE);
	days_of("the fewest days of rows", bytes, fewest, FRINGE_ANSWERED);
	days_of("a day less", bytes, fewest - 1, FRINGE_OUT_OF_RANGE);
	days_of("the longest text of rows", FRINGE_ANY_ROWS_BYTES, fewest, FRINGE_ANSWERED);
	days_of("a byte more", FRINGE_ANY_ROWS_BYTES + 1, fewest, FRINGE_WRONG_FILE);
}

static void epoch(const char *what, int64_t day, int64_t ms, int64_t refusal)
{
	test(what);
	one(fringe_later(day, ms, 0).refusal, refusal);
}

void limits(void)
{
	of_tracks();
	of_files();
	of_unmarked_files();
	of_sessions();
	of_rows();
	epoch("the first day", FRINGE_FIRST_MJD, 0, FRINGE_ANSWERED);
	epoch("the day before it", FRINGE_FIRST_MJD - 1, 0, FRINGE_OUT_OF_RANGE);
	epoch("the last millisecond of the last day", FRINGE_LAST_MJD, FRINGE_LAST_MS, FRINGE_ANSWERED);
	epoch("the day after it", FRINGE_LAST_MJD + 1, 0, FRINGE_OUT_OF_RANGE);
	epoch("the millisecond after it", FRINGE_LAST_MJD, FRINGE_LAST_MS + 1, FRINGE_OUT_OF_RANGE);
}
