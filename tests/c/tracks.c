/* Tracks and predictions: what is lent to be read stays, and so does the rest of the room, or all of it if refused. */
#include "test.h"
#include "values.h"
#include <string.h>

static void track_one(const struct track_row *row)
{
	lend(row->samples, row->sample_count);
	empty_room();
	test(row->what);
	number(fringe_track(lent, row->sample_count, row->tolerance, room, row->room_numbers), row->want);
	holds(row->numbers, FRINGE_SEGMENT_NUMBERS * (size_t)row->want[1]);
	lent_stays();
}

/* the tracks of all passes: each count, also beyond the last pass, and what the room holds */
static void all_one(const struct all_tracks_row *row)
{
	lend_file(row->kind, row->at, row->value);
	empty_room();
	struct fringe_tracks r = fringe_all_tracks(file, file_bytes, room, row->room_numbers);
	test(row->what);
	one(r.refusal, row->want[0]);
	same(r.counts, row->want + 1, FRINGE_MOST_PASSES);
	holds(row->numbers, FRINGE_SEGMENT_NUMBERS * row->segments);
	file_stays();
}

/* the track of a pass of the lent file in one step, held to that of its samples: how many numbers it has */
static size_t one_step(uint64_t pass, size_t room_numbers)
{
	static int64_t samples[FRINGE_MOST_SAMPLES], want[ROOM_NUMBERS];
	struct fringe_number taken = fringe_samples(file, file_bytes, pass, samples, FRINGE_MOST_SAMPLES);
	int64_t tolerance = fringe_pass_at(file, file_bytes, pass).tolerance;
	struct fringe_number made = fringe_track(samples, (size_t)taken.value, tolerance, want, room_numbers);
	empty_room();
	test("a pass of the sample session in one step");
	number(fringe_pass_track(file, file_bytes, pass, room, room_numbers), (int64_t[]){made.refusal, made.value});
	holds(want, FRINGE_SEGMENT_NUMBERS * (size_t)made.value);
	file_stays();
	return FRINGE_SEGMENT_NUMBERS * (size_t)made.value;
}

/* each pass of the sample session, with more room than its track takes, with just enough, and with a number less */
static void sample_passes(void)
{
	lend_bytes(sample_session, sizeof sample_session);
	uint64_t passes = (uint64_t)fringe_check(file, file_bytes).passes;
	test("the sample session has passes");
	one(passes > 0, 1);
	for (uint64_t i = 0; i < passes; i++) {
		size_t numbers = one_step(i, ROOM_NUMBERS);
		one(numbers > 0, 1);
		one_step(i, numbers);
		one_step(i, numbers - 1);
	}
}

static void predict_one(const struct predict_row *row)
{
	lend(row->track, row->track_numbers);
	test(row->what);
	number(fringe_predict(lent, row->track_numbers, row->sample), row->want);
	lent_stays();
}

/* the same prediction as doubles, bit for bit */
static void host_one(const struct predict_row *row)
{
	lend(row->track, row->track_numbers);
	struct fringe_host r = fringe_host_at(lent, row->track_numbers, row->sample);
	test(row->what);
	one(r.refusal, row->want[0]);
	same_bytes(&r.record.seconds, row->bits, 8);
	same_bytes(&r.record.cycles, row->bits + 1, 8);
	lent_stays();
}

void tracks(void)
{
	for EACH (track, row)
		track_one(row);
	for EACH (all_tracks, row)
		all_one(row);
	sample_passes();
	for EACH (predict, row) {
		predict_one(row);
		host_one(row);
	}
}
