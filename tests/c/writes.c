/* The writer: what it writes is the file that is wanted, and a refused call leaves the room. */
#include "test.h"
#include "values.h"
#include <string.h>

/* the four lists, each between guard numbers */
#define GUARDS 8
#define NUMBERS (GUARDS + 64 + GUARDS)
static int64_t lists[4][NUMBERS], kept[4][NUMBERS];

static void fill(const int64_t *const *from, const size_t *lengths)
{
	for (int64_t i = 0; i < 4; i++) {
		for (int64_t j = 0; j < NUMBERS; j++)
			lists[i][j] = -987654321 - NUMBERS * i - j;
		memcpy(lists[i] + GUARDS, from[i], 8 * lengths[i]);
	}
	memcpy(kept, lists, sizeof lists);
}

static struct fringe_number written(int64_t day_kind, const size_t *lengths, size_t room_bytes)
{
	return fringe_write(day_kind, lists[0] + GUARDS, lengths[0], lists[1] + GUARDS, lengths[1], lists[2] + GUARDS,
			    lengths[2], lists[3] + GUARDS, lengths[3], byte_room, room_bytes);
}

/* the answer, and every byte of the room, of the lists and of their guards afterwards */
static void write_one(const struct write_row *row)
{
	fill(row->lists, row->lengths);
	empty_byte_room();
	test(row->what);
	number(written(row->day_kind, row->lengths, row->room_bytes), row->want);
	holds_bytes(row->file, (size_t)row->want[1]);
	same_bytes(lists, kept, sizeof kept);
}

/* puts the records of the lent file into the lists, as the calls hand them out, and says how many numbers these are */
static void hand_out(const int64_t *counts, size_t *lengths)
{
	for (int64_t kind = 1; kind <= 4; kind++) {
		int64_t got[9], *to = lists[kind - 1] + GUARDS;
		lengths[kind - 1] = 0;
		for (uint64_t i = 0; i < (uint64_t)counts[kind]; i++) {
			size_t n = record_of(kind, i, got) - 1;
			memcpy(to + lengths[kind - 1], got + 1, 8 * n);
			lengths[kind - 1] += n;
		}
	}
}

/* an accepted file is what the writer makes of its kind of days and of its records */
static void round_trip(const struct counts_row *row)
{
	size_t lengths[4];
	lend_sound(row->kind);
	hand_out(row->want, lengths);
	empty_byte_room();
	test("a file written anew of its records");
	number(written(fringe_check(file, file_bytes).day_kind, lengths, file_bytes),
	       (int64_t[]){FRINGE_ANSWERED, (int64_t)file_bytes});
	holds_bytes(file, file_bytes);
	file_stays();
}

void writes(void)
{
	for EACH (write, row)
		write_one(row);
	for EACH (counts, row)
		round_trip(row);
}
