#include "test.h"
#include "values.h"
#include <stdio.h>
#include <string.h>

static int tests, failed, bad;
static const char *current;

void test(const char *what)
{
	current = what;
	tests++;
	bad = 0;
}

/* the first check of a test that fails is said, and counts */
static void fails(size_t place, int64_t got, int64_t want)
{
	if (!bad)
		printf("FAILED %s: number %zu is %lld, not %lld\n", current, place, (long long)got, (long long)want);
	failed += !bad;
	bad = 1;
}

void same(const int64_t *got, const int64_t *want, size_t n)
{
	for (size_t i = 0; i < n; i++)
		if (got[i] != want[i])
			fails(i, got[i], want[i]);
}

void one(int64_t got, int64_t want)
{
	same(&got, &want, 1);
}

void number(struct fringe_number r, const int64_t *want)
{
	int64_t got[] = {r.refusal, r.value};
	same(got, want, 2);
}

void same_bytes(const void *got, const void *want, size_t n)
{
	const uint8_t *ours = got, *theirs = want;
	for (size_t i = 0; i < n; i++)
		if (ours[i] != theirs[i])
			fails(i, ours[i], theirs[i]);
}

/* ---- the lent file, or text */

#define GUARD_BYTES 64
#define MOST_BYTES (FRINGE_ANY_FILE_BYTES + 8)
static uint8_t bytes[GUARD_BYTES + MOST_BYTES + GUARD_BYTES], kept_bytes[sizeof bytes];
uint8_t *file = bytes + GUARD_BYTES;
size_t file_bytes;

void lend_bytes(const void *from, size_t length)
{
	memset(bytes, 0xA5, sizeof bytes);
	memcpy(file, from, length);
	memcpy(kept_bytes, bytes, sizeof bytes);
	file_bytes = length;
}

const int64_t *sound(int64_t kind)
{
	return kind == FRINGE_KIND_DAY ? sound_3 : sound_5;
}

size_t sound_bytes(int64_t kind)
{
	return kind == FRINGE_KIND_DAY ? sizeof sound_3 : sizeof sound_5;
}

void lend_cut(int64_t kind, size_t at, int64_t value, size_t length)
{
	static uint8_t whole[MOST_BYTES];
	memset(whole, 0, sizeof whole);
	memcpy(whole, sound(kind), sound_bytes(kind));
	memcpy(whole + 8 * at, &value, 8);
	lend_bytes(whole, length);
}

void lend_file(int64_t kind, size_t at, int64_t value)
{
	lend_cut(kind, at, value, sound_bytes(kind));
}

void lend_sound(int64_t kind)
{
	lend_bytes(sound(kind), sound_bytes(kind));
}

void file_stays(void)
{
	same_bytes(bytes, kept_bytes, sizeof bytes);
}

/* ---- lent numbers, and the lent room */

#define GUARDS 16
#define MOST_NUMBERS (GUARDS + ROOM_NUMBERS + GUARDS)
#define PATTERN 0x5555555555555555
static int64_t read_only[MOST_NUMBERS], kept[MOST_NUMBERS], memory[MOST_NUMBERS];
int64_t *lent = read_only + GUARDS, *room = memory + GUARDS;

void lend(const int64_t *numbers, size_t n)
{
	for (int64_t i = 0; i < MOST_NUMBERS; i++)
		read_only[i] = 7777777 * i - 1;
	memcpy(lent, numbers, n * sizeof *numbers);
	memcpy(kept, read_only, sizeof kept);
}

void lent_stays(void)
{
	same(read_only, kept, MOST_NUMBERS);
}

static int64_t unwritten(int64_t i)
{
	return i < GUARDS || i >= GUARDS + ROOM_NUMBERS ? 0x0123456789ABCDEF ^ i : PATTERN;
}

void empty_room(void)
{
	for (int64_t i = 0; i < MOST_NUMBERS; i++)
		memory[i] = unwritten(i);
}

void holds(const int64_t *numbers, size_t n)
{
	static int64_t want[MOST_NUMBERS];
	for (int64_t i = 0; i < MOST_NUMBERS; i++)
		want[i] = unwritten(i);
	memcpy(want + GUARDS, numbers, n * sizeof *numbers);
	same(memory, want, MOST_NUMBERS);
}

/* ---- the lent room for bytes */

#define ALL_BYTES (GUARD_BYTES + ROOM_BYTES + GUARD_BYTES)
static uint8_t byte_memory[ALL_BYTES];
uint8_t *byte_room = byte_memory + GUARD_BYTES;

static uint8_t unwritten_byte(size_t i)
{
	return i < GUARD_BYTES || i >= GUARD_BYTES + ROOM_BYTES ? (uint8_t)(0xC3 ^ i) : 0x5A;
}

void empty_byte_room(void)
{
	for (size_t i = 0; i < ALL_BYTES; i++)
		byte_memory[i] = unwritten_byte(i);
}

void holds_bytes(const void *from, size_t n)
{
	static uint8_t want[ALL_BYTES];
	for (size_t i = 0; i < ALL_BYTES; i++)
		want[i] = unwritten_byte(i);
	memcpy(want + GUARD_BYTES, from, n);
	same_bytes(byte_memory, want, ALL_BYTES);
}

/* the path of the real rows is the only word */
int main(int count, char **words)
{
	if (count != 2 || !load_rows(words[1])) {
		fprintf(stderr, "usage: tests ROWS, where ROWS is a file of rows of finals2000A\n");
		return 2;
	}
	angles();
	files();
	writes();
	bulletin();
	delays();
	tracks();
	names();
	limits();
	empties();
	stacks();
	printf("%d passed, %d failed\n", tests - failed, failed);
	return failed > 0;
}
