/* The tests of the calls from C: counting, and memory that is lent between guards. */
#ifndef TEST_H
#define TEST_H

#include <erlensieg.h>

/* each row of a table of values.h */
#define COUNT(table) (sizeof(table) / sizeof *(table))
#define EACH(name, row) \
	(const struct name##_row *row = name##_rows; row < name##_rows + COUNT(name##_rows); row++)

/* Begins a test: an input of one call. It passes if every check up to the next test holds. */
void test(const char *what);
void same(const int64_t *got, const int64_t *want, size_t n);
void one(int64_t got, int64_t want);
void number(struct fringe_number r, const int64_t *want);
void same_bytes(const void *got, const void *want, size_t n);

/* The two sound files, by the kind of their days, 3 or 5: their numbers, and their bytes. */
const int64_t *sound(int64_t kind);
size_t sound_bytes(int64_t kind);

/*
 * The lent session file, between guard bytes: a sound one as it is, one with a number changed, such a one cut off or
 * lengthened by zeros to `length`, or any bytes. `file_stays` is a check that neither they nor a guard have changed since.
 */
extern uint8_t *file;
extern size_t file_bytes;
void lend_sound(int64_t kind);
void lend_file(int64_t kind, size_t at, int64_t value);
void lend_cut(int64_t kind, size_t at, int64_t value, size_t length);
void lend_bytes(const void *from, size_t length);
void file_stays(void);

/*
 * Puts the refusal and the fields of a record of the lent file, by its kind (3 for days of either kind) and its index,
 * and says how many numbers these are.
 */
size_t record_of(int64_t kind, uint64_t index, int64_t *got);

/* Numbers that are lent to be read, between guards, and a check that they stay. */
extern int64_t *lent;
void lend(const int64_t *numbers, size_t n);
void lent_stays(void);

/* Room for numbers, filled with a pattern, between guards; a check that it holds n numbers, and then the pattern. */
#define ROOM_NUMBERS 8200
extern int64_t *room;
void empty_room(void);
void holds(const int64_t *numbers, size_t n);

/* The same for bytes. */
#define ROOM_BYTES (FRINGE_MOST_ROWS_BYTES + 600)
extern uint8_t *byte_room;
void empty_byte_room(void);
void holds_bytes(const void *from, size_t n);

/* The real rows, from a file; 0 where it cannot be read. */
int load_rows(const char *path);

void angles(void);
void files(void);
void writes(void);
void bulletin(void);
void delays(void);
void tracks(void);
void names(void);
void limits(void);
void empties(void);
void stacks(void);

#endif
