/* links: erlensieg */
#include "frame.h"
#include "baseline/sine.c"
#include "baseline/earth.c"
#include "baseline/session.c"
#include "baseline/delay.c"

/* A session of two stations, a source, five days, and five passes. Three have 4,096 samples, a millisecond, a second and a minute apart. Two have 50, each
   with a minute of its own: a minute apart on one day, and an hour apart over three midnights. */
enum { SAMPLES = 4096, FEW = 50, DAYS = 5 };

static const int64_t stations[] = {1, 4075539836, 931735270, 4801629352, 2, 3370605765, 711917674, 5349830991};
static const int64_t sources[] = {7, 2233382912, 25165824};
static const int64_t passes[] = {
	1, 2, 7, 57753, 43200000, 1, SAMPLES, 1000,
	1, 2, 7, 57753, 43200000, 1000, SAMPLES, 1000,
	1, 2, 7, 57753, 0, 60000, SAMPLES, 1000,
	1, 2, 7, 57753, 43200000, 60000, FEW, 1000,
	1, 2, 7, 57753, 86340000, 3600000, FEW, 1000,
};

enum pass { MILLISECOND, SECOND, MINUTE, DAY, MIDNIGHTS };

static uint8_t file[FRINGE_RIGHT_FILE_BYTES];
static size_t bytes;
static int64_t room[SAMPLES];

static void fill(int64_t kind, int64_t mark)
{
	int64_t days[6 * DAYS];
	for (int64_t i = 0; i < DAYS; i++)
		memcpy(days + 6 * i, (int64_t[]){57753 + i, 91234 + 1111 * i, 402345 + 1111 * i, -412345678 - 1111111 * i, 37, mark}, 48);
	const int64_t *lists[] = {stations, sources, days, passes};
	bytes = base_write(kind, lists, (size_t[]){8, 3, 6 * DAYS, sizeof passes / 8}, file, sizeof file).value;
}

typedef struct fringe_number taker(const uint8_t *file, size_t n, uint64_t pass, int64_t *room, size_t m);

/* Each call stands for a share of a pass: every so many make all of its samples. Of the long passes a share is one sample, so that what a pass costs once
   is shared out. */
static inline int64_t taken(taker *samples, int64_t kind, int64_t mark, enum pass pass, unsigned long shares)
{
	static unsigned long call;
	if (call == 0)
		fill(kind, mark);
	if (call % shares == 0 && samples(file, bytes, pass, room, SAMPLES).refusal)
		exit(1);
	return room[call++ % shares];
}

#define TAKEN(name, kind, mark, pass, shares)                                                                      \
	static int64_t ours_##name(int begun) { return taken(fringe_samples, kind, mark, pass, shares); }          \
	static int64_t plain_##name(int begun) { return taken(base_samples, kind, mark, pass, shares); }           \
	ROW(name, int64_t, (int begun), (1), ours_##name, plain_##name)

TAKEN(sample_each_millisecond, 3, 0, MILLISECOND, SAMPLES)
TAKEN(sample_each_second, 3, 0, SECOND, SAMPLES)
TAKEN(sample_each_minute, 3, 0, MINUTE, SAMPLES)
TAKEN(marked_sample_each_second, 5, 1, SECOND, SAMPLES)
/* these four are one file but for the marks: what they differ by is the tides of the records */
TAKEN(day_a_hundredth, 5, 0, DAY, 100)
TAKEN(marked_day_a_hundredth, 5, 1, DAY, 100)
TAKEN(midnights_a_hundredth, 5, 0, MIDNIGHTS, 100)
TAKEN(marked_midnights_a_hundredth, 5, 1, MIDNIGHTS, 100)

MAIN({"sample_each_millisecond", row_sample_each_millisecond}, {"sample_each_second", row_sample_each_second},
     {"sample_each_minute", row_sample_each_minute}, {"marked_sample_each_second", row_marked_sample_each_second},
     {"day_a_hundredth", row_day_a_hundredth}, {"marked_day_a_hundredth", row_marked_day_a_hundredth},
     {"midnights_a_hundredth", row_midnights_a_hundredth}, {"marked_midnights_a_hundredth", row_marked_midnights_a_hundredth})
