/* links: erlensieg */
/* The track of samples, per sample: `calls` counts samples, in lists of 4,096. */
#include "frame.h"
#include "baseline/track.c"

enum { MOST = 4096 };

static struct fringe_number nothing(const int64_t *s, size_t n, int64_t t, int64_t *room, size_t m) { return (struct fringe_number){0, 0}; }

static int64_t samples[MOST], room[4 * MOST];

/* an arc as of a source that passes over, in segments of up to 1,024; an arc with a tight tolerance, in some of tens; noise, in segments of two or three;
   a straight line at tolerance 0, which of some forty such rows (noise, walks, arcs, waves and teeth at tolerances up to the greatest) took ours the most */
static void arc(size_t n, int64_t height)
{
	for (size_t i = 0; i < n; i++) {
		int64_t x = (int64_t)i - MOST / 2;
		samples[i] = height - x * x * height / ((int64_t)MOST * MOST) + between(-20, 20);
	}
}

static void noise(size_t n)
{
	for (size_t i = 0; i < n; i++)
		samples[i] = between(-100000, 100000);
}

static void line(size_t n)
{
	for (size_t i = 0; i < n; i++)
		samples[i] = 1000 * (int64_t)i;
}

enum { SMOOTH, CURVED, NOISY, WORST };
static const int64_t tolerances[] = {1000000, 1000, 20000, 0};

static void fill(size_t n, int kind)
{
	if (kind == NOISY)
		noise(n);
	else if (kind == WORST)
		line(n);
	else
		arc(n, kind == SMOOTH ? 10000000 : 100000000);
}

static uint64_t run(enum side side, long calls, int kind)
{
	struct fringe_number (*volatile callee)(const int64_t *, size_t, int64_t, int64_t *, size_t) = side == NOTHING ? nothing : side == OURS ? fringe_track : base_track;
	uint64_t sum = 0;
	while (calls > 0) {
		size_t n = calls < MOST ? calls : MOST;
		fill(n, kind);
		struct fringe_number a = callee(samples, n, tolerances[kind], room, 4 * MOST);
		sum = sum * 31 + a.refusal * 7 + a.value;
		for (size_t i = 0; i < 4 * MOST; i++)
			sum = sum * 31 + room[i];
		calls -= n;
	}
	return sum;
}

static uint64_t row_smooth(enum side side, long calls) { return run(side, calls, SMOOTH); }
static uint64_t row_curved(enum side side, long calls) { return run(side, calls, CURVED); }
static uint64_t row_noisy(enum side side, long calls) { return run(side, calls, NOISY); }
static uint64_t row_worst(enum side side, long calls) { return run(side, calls, WORST); }

MAIN({"smooth", row_smooth}, {"curved", row_curved}, {"noisy", row_noisy}, {"worst", row_worst})
