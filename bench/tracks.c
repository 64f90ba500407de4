/* links: erlensieg */
/* The tracks of all passes of a session, per sample: `calls` counts samples. A row asks pass by pass, in two calls or in one step, or all together. */
#include "frame.h"
#include "baseline/sine.c"
#include "baseline/earth.c"
#include "baseline/session.c"
#include "baseline/delay.c"
#include "baseline/track.c"

/* Two sessions of one baseline and one source: long passes, and short ones. Samples are a second apart. */
#define TOLERANCE 10 /* ps */
struct shape { int64_t passes, samples; };
static const struct shape long_passes = {5, 4000}, short_passes = {40, 100};

static const int64_t records[] = {
	1, 4075539836, 931735270, 4801629352, 2, 3370605765, 711917674, 5349830991,
	7, 2233382912, 25165824,
	57753, 91234, 402345, -412345678, 37, 0, 57754, 92345, 403456, -413456789, 37, 0,
};

static uint8_t file[FRINGE_RIGHT_FILE_BYTES];
static size_t bytes;
static int64_t samples[FRINGE_MOST_SAMPLES], room[FRINGE_ALL_TRACKS_NUMBERS];

static void fill(struct shape s)
{
	int64_t passes[FRINGE_PASS_NUMBERS * FRINGE_MOST_PASSES];
	for (int64_t i = 0; i < s.passes; i++)
		memcpy(passes + 8 * i, (int64_t[]){1, 2, 7, 57753, 1000000 * i, 1000, s.samples, TOLERANCE}, 64);
	const int64_t *lists[] = {records, records + 8, records + 11, passes};
	bytes = base_write(3, lists, (size_t[]){8, 3, 12, 8 * s.passes}, file, sizeof file).value;
}

/* What each callee does: the tracks of the file, with so many numbers of room. */
typedef struct fringe_tracks tracks_of(size_t numbers);

static struct fringe_tracks nothing(size_t numbers) { return (struct fringe_tracks){0}; }

static struct fringe_tracks together(size_t numbers) { return fringe_all_tracks(file, bytes, room, numbers); }

/* One pass: how many segments its track has, which is written to `at`, where so many numbers are left. */
typedef int64_t track_of(int64_t pass, int64_t *at, size_t left);

/* The tolerance is known, as it is to a caller who planned the pass. */
static int64_t pass_in_two_calls(int64_t pass, int64_t *at, size_t left)
{
	size_t n = fringe_samples(file, bytes, pass, samples, FRINGE_MOST_SAMPLES).value;
	return fringe_track(samples, n, TOLERANCE, at, left).value;
}

static int64_t pass_in_one_step(int64_t pass, int64_t *at, size_t left) { return fringe_pass_track(file, bytes, pass, at, left).value; }

static int64_t pass_in_plain_c(int64_t pass, int64_t *at, size_t left)
{
	int64_t tolerance = base_word(file, base_word(file, 88) + 64 * pass + 56);
	size_t n = base_samples(file, bytes, pass, samples, FRINGE_MOST_SAMPLES).value;
	return base_track(samples, n, tolerance, at, left).value;
}

/* Pass after pass, each with the room that is left. */
static struct fringe_tracks in_turn(track_of *one, int64_t passes, size_t numbers)
{
	struct fringe_tracks all = {0};
	int64_t *at = room;
	for (int64_t i = 0; i < passes; i++) {
		all.counts[i] = one(i, at, numbers - (at - room));
		at += 4 * all.counts[i];
	}
	return all;
}

static struct fringe_tracks two_calls(size_t numbers) { return in_turn(pass_in_two_calls, fringe_check(file, bytes).passes, numbers); }
static struct fringe_tracks one_step(size_t numbers) { return in_turn(pass_in_one_step, fringe_check(file, bytes).passes, numbers); }
static struct fringe_tracks plain(size_t numbers) { return in_turn(pass_in_plain_c, base_check(file, bytes).passes, numbers); }

static size_t segments(struct fringe_tracks all)
{
	size_t sum = 0;
	for (int i = 0; i < FRINGE_MOST_PASSES; i++)
		sum += all.counts[i];
	return sum;
}

/* Room that is always enough, or just what the tracks need. */
enum how { AMPLE, TIGHT };

static size_t numbers_for(struct shape s, enum how how)
{
	size_t ample = 4 * s.passes * ((s.samples + 1) / 2);
	return how == AMPLE ? ample : 4 * segments(plain(ample));
}

static uint64_t run(enum side side, tracks_of *ours, long calls, struct shape s, enum how how)
{
	tracks_of *volatile callee = side == NOTHING ? nothing : side == OURS ? ours : plain;
	uint64_t sum = 0;
	fill(s);
	size_t numbers = numbers_for(s, how);
	for (; calls > 0; calls -= s.passes * s.samples) {
		struct fringe_tracks all = callee(numbers);
		sum = sum * 31 + all.refusal * 7 + segments(all);
		for (size_t i = 0; i < numbers; i++)
			sum = sum * 31 + room[i];
	}
	return sum;
}

#define ASKED(name, ours, shape, how) \
	static uint64_t row_##name(enum side side, long calls) { return run(side, ours, calls, shape, how); }

ASKED(long_two_calls, two_calls, long_passes, AMPLE)
ASKED(long_one_step, one_step, long_passes, AMPLE)
ASKED(long_together, together, long_passes, AMPLE)
ASKED(long_tight, together, long_passes, TIGHT)
ASKED(short_two_calls, two_calls, short_passes, AMPLE)
ASKED(short_one_step, one_step, short_passes, AMPLE)
ASKED(short_together, together, short_passes, AMPLE)
ASKED(short_tight, together, short_passes, TIGHT)

MAIN({"long_two_calls", row_long_two_calls}, {"long_one_step", row_long_one_step},
     {"long_together", row_long_together}, {"long_tight", row_long_tight},
     {"short_two_calls", row_short_two_calls}, {"short_one_step", row_short_one_step},
     {"short_together", row_short_together}, {"short_tight", row_short_tight})
