/* links: erlensieg */
#include "frame.h"
#include "baseline/session.c"

/* The fullest session, 64 stations, 256 sources, 64 days and 64 passes: 14,952 bytes with days of kind 3, 15,464 with marked days, of kind 5. */
enum { STATIONS = 64, SOURCES = 256, DAYS = 64, PASSES = 64 };

static int64_t stations[4 * STATIONS], sources[3 * SOURCES], days[6 * DAYS], passes[8 * PASSES];
static uint8_t file[FRINGE_RIGHT_FILE_BYTES], room[FRINGE_RIGHT_FILE_BYTES];

typedef struct fringe_number writer(int64_t kind, uint8_t *to);

static struct fringe_number ours_into(int64_t kind, uint8_t *to)
{
	return fringe_write(kind, stations, 4 * STATIONS, sources, 3 * SOURCES, days, 6 * DAYS, passes, 8 * PASSES, to, FRINGE_RIGHT_FILE_BYTES);
}

static struct fringe_number plain_into(int64_t kind, uint8_t *to)
{
	const int64_t *lists[] = {stations, sources, days, passes};
	return base_write(kind, lists, (size_t[]){4 * STATIONS, 3 * SOURCES, 6 * DAYS, 8 * PASSES}, to, FRINGE_RIGHT_FILE_BYTES);
}

static void fill(int64_t kind)
{
	for (int i = 0; i < STATIONS; i++)
		memcpy(stations + 4 * i, (int64_t[]){i + 1, between(-6400000000, 6400000000), between(-6400000000, 6400000000), between(-6400000000, 6400000000)}, 32);
	for (int i = 0; i < SOURCES; i++)
		memcpy(sources + 3 * i, (int64_t[]){i + 1, between(0, 4294967295), between(-1073741824, 1073741824)}, 24);
	for (int i = 0; i < DAYS; i++)
		memcpy(days + 6 * i, (int64_t[]){57000 + i, between(-1000000, 1000000), between(-1000000, 1000000), between(-900000000, 900000000), 37, kind == 5}, 48);
	for (int i = 0; i < PASSES; i++)
		memcpy(passes + 8 * i, (int64_t[]){1, 2, i + 1, 57000 + i, between(0, 86399999), 1000, 300, 100}, 64);
}

/* Each call stands for a hundredth of the work: every hundredth does it whole. */
enum { SHARE = 100 };

typedef struct fringe_counts checker(const uint8_t *file, size_t n);

static inline int64_t checked(checker *check, int64_t kind)
{
	static unsigned long call;
	static size_t bytes;
	if (call == 0)
		fill(kind), bytes = plain_into(kind, file).value;
	if (call++ % SHARE != 0)
		return 1;
	struct fringe_counts r = check(file, bytes);
	return r.sources + r.day_kind;
}

static inline int64_t written(writer *into, int64_t kind)
{
	static unsigned long call;
	if (call == 0)
		fill(kind);
	if (call++ % SHARE != 0)
		return 1;
	struct fringe_number r = into(kind, room);
	return r.value + room[call % r.value];
}

#define OF_KIND(check_name, write_name, kind)                                                       \
	static int64_t our_##check_name(int begun) { return checked(fringe_check, kind); }          \
	static int64_t plain_##check_name(int begun) { return checked(base_check, kind); }          \
	static int64_t our_##write_name(int begun) { return written(ours_into, kind); }             \
	static int64_t plain_##write_name(int begun) { return written(plain_into, kind); }          \
	ROW(check_name, int64_t, (int begun), (1), our_##check_name, plain_##check_name)            \
	ROW(write_name, int64_t, (int begun), (1), our_##write_name, plain_##write_name)

OF_KIND(check_a_hundredth, write_a_hundredth, 3)
OF_KIND(check_marked_a_hundredth, write_marked_a_hundredth, 5)

MAIN({"check_a_hundredth", row_check_a_hundredth}, {"check_marked_a_hundredth", row_check_marked_a_hundredth},
     {"write_a_hundredth", row_write_a_hundredth}, {"write_marked_a_hundredth", row_write_marked_a_hundredth})
