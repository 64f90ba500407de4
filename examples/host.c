/*
 * What a correlator's host does with a session file: examples/run-host builds and runs it on the sample session. It
 * prints the first pass's track, the prediction at its middle sample, its samples, which are for plotting, the first
 * segment of every pass from all tracks in one call, the session's days as rows of finals2000A, whether the session
 * written with days of these rows is the same, and where the fault of a damaged copy lies. Rows hold full UT1: of a
 * session whose days are not all marked 1 there are none, which it says. A file that cannot be read, or is refused, or
 * has a pass that is refused, ends it with a status that is not 0; of a refused file it prints where the fault lies.
 */
#include <erlensieg.h>
#include <errno.h>
#include <inttypes.h>
#include <stdio.h>
#include <string.h>

/* one byte more than a file may have, so that a longer one is noticed */
#define MOST_BYTES (FRINGE_ANY_FILE_BYTES + 1)

static uint8_t file[MOST_BYTES], copy[MOST_BYTES];
static int64_t track[FRINGE_MOST_TRACK_NUMBERS], tracks[FRINGE_ALL_TRACKS_NUMBERS];

/* reads a file and puts its length into `bytes`; 0 where it cannot be read */
static int load(const char *name, size_t *bytes)
{
	FILE *in = fopen(name, "rb");
	*bytes = in ? fread(file, 1, MOST_BYTES, in) : 0;
	int bad = !in || ferror(in);
	if (bad)
		fprintf(stderr, "host: cannot read '%s': %s\n", name, strerror(errno));
	if (in)
		fclose(in);
	return !bad;
}

static int refused(const char *what, int64_t number)
{
	if (number)
		printf("%s: refused %" PRId64 ": %s\n", what, number, fringe_refusal_text(number));
	return number != 0;
}

static void print_fault(const char *what, const uint8_t *lent, size_t bytes)
{
	struct fringe_place place = fringe_fault(lent, bytes);
	refused(what, place.number);
	if (place.number == FRINGE_WRONG_FILE)
		printf("see number %" PRId64 " of the contents table, where 13 is the file's length\n", place.field);
	else
		printf("see section %" PRId64 " (%s), record %" PRId64 ", field %" PRId64 " (%s)\n", place.section,
		       fringe_section_name(place.section), place.record, place.field,
		       fringe_field_name(place.section, place.field));
}

static void print_segment(const int64_t *segment)
{
	printf("segment %" PRId64 " %" PRId64 " %" PRId64 " %" PRId64 "\n", segment[0], segment[1], segment[2], segment[3]);
}

/* the track of the first pass, from the session in one call; how many numbers it has, 0 where it is refused */
static size_t print_track(size_t bytes, struct fringe_pass pass)
{
	struct fringe_number made = fringe_pass_track(file, bytes, 0, track, FRINGE_MOST_TRACK_NUMBERS);
	if (refused("track of pass 0", made.refusal))
		return 0;
	printf("%" PRId64 " samples, tolerance %" PRId64 " ps: %" PRId64 " segments\n", pass.samples, pass.tolerance,
	       made.value);
	for (int64_t i = 0; i < made.value; i++)
		print_segment(track + FRINGE_SEGMENT_NUMBERS * i);
	return FRINGE_SEGMENT_NUMBERS * (size_t)made.value;
}

static int print_prediction(size_t track_numbers, uint64_t sample)
{
	struct fringe_number delay = fringe_predict(track, track_numbers, sample);
	struct fringe_host host = fringe_host_at(track, track_numbers, sample);
	if (refused("prediction", delay.refusal) || refused("host record", host.refusal))
		return 0;
	printf("prediction at sample %" PRIu64 ": %" PRId64 " ps, %.15g s, %.15g cycles\n", sample, delay.value,
	       host.record.seconds, host.record.cycles);
	return 1;
}

/* the delays of the first pass's samples, for plotting; no track needs them */
static int print_samples(size_t bytes)
{
	static int64_t samples[FRINGE_MOST_SAMPLES];
	struct fringe_number taken = fringe_samples(file, bytes, 0, samples, FRINGE_MOST_SAMPLES);
	if (refused("samples of pass 0", taken.refusal))
		return 0;
	for (int64_t i = 0; i < taken.value; i++)
		printf("sample %" PRId64 ": %" PRId64 " ps\n", i, samples[i]);
	return 1;
}

/* the tracks of all passes, in one call: how many segments each has, and its first, which stands behind those before */
static int print_tracks(size_t bytes, int64_t passes)
{
	struct fringe_tracks all = fringe_all_tracks(file, bytes, tracks, FRINGE_ALL_TRACKS_NUMBERS);
	const int64_t *first = tracks;
	if (refused("tracks of all passes", all.refusal))
		return 0;
	for (int64_t i = 0; i < passes; i++) {
		printf("pass %" PRId64 ": %" PRId64 " segments\n", i, all.counts[i]);
		print_segment(first);
		first += FRINGE_SEGMENT_NUMBERS * all.counts[i];
	}
	return 1;
}

/* the records of the session as lists of numbers, as fringe_write takes them */
static int64_t stations[FRINGE_STATION_NUMBERS * FRINGE_MOST_STATIONS];
static int64_t sources[FRINGE_SOURCE_NUMBERS * FRINGE_MOST_SOURCES];
static int64_t days[FRINGE_MOST_DAYS_NUMBERS], tai_utc[FRINGE_MOST_DAYS];
static int64_t passes[FRINGE_PASS_NUMBERS * FRINGE_MOST_PASSES];

static void list_days(size_t bytes, size_t count)
{
	for (size_t i = 0; i < count; i++) {
		struct fringe_day r = fringe_day_at(file, bytes, i);
		const int64_t numbers[] = {r.mjd, r.x, r.y, r.ut1_utc, r.tai_utc, r.mark};
		memcpy(days + FRINGE_DAY_NUMBERS * i, numbers, sizeof numbers);
		tai_utc[i] = r.tai_utc;
	}
}

static void list_others(size_t bytes, struct fringe_counts counts)
{
	for (size_t i = 0; i < (size_t)counts.stations; i++) {
		struct fringe_station r = fringe_station_at(file, bytes, i);
		const int64_t numbers[] = {r.id, r.x, r.y, r.z};
		memcpy(stations + FRINGE_STATION_NUMBERS * i, numbers, sizeof numbers);
	}
	for (size_t i = 0; i < (size_t)counts.sources; i++) {
		struct fringe_source r = fringe_source_at(file, bytes, i);
		const int64_t numbers[] = {r.id, r.right_ascension, r.declination};
		memcpy(sources + FRINGE_SOURCE_NUMBERS * i, numbers, sizeof numbers);
	}
	for (size_t i = 0; i < (size_t)counts.passes; i++) {
		struct fringe_pass r = fringe_pass_at(file, bytes, i);
		const int64_t numbers[] = {r.station1, r.station2, r.source, r.mjd, r.ms, r.step, r.samples, r.tolerance};
		memcpy(passes + FRINGE_PASS_NUMBERS * i, numbers, sizeof numbers);
	}
}

/* the session written anew, with days that were read of rows: they go into its file as they are */
static void write_anew(size_t bytes, struct fringe_counts counts, const int64_t *read)
{
	list_others(bytes, counts);
	struct fringe_number made = fringe_write(
		FRINGE_KIND_MARKED_DAY, stations, FRINGE_STATION_NUMBERS * (size_t)counts.stations,
		sources, FRINGE_SOURCE_NUMBERS * (size_t)counts.sources, read, FRINGE_DAY_NUMBERS * (size_t)counts.days,
		passes, FRINGE_PASS_NUMBERS * (size_t)counts.passes, copy, sizeof copy);
	if (refused("session with days of rows", made.refusal))
		return;
	int same = (size_t)made.value == bytes && memcmp(copy, file, bytes) == 0;
	printf("session with days of rows: %" PRId64 " bytes, %s file\n", made.value, same ? "the same" : "another");
}

/* the days as rows, as far as columns are used, and what is read back of them */
static void print_rows(size_t bytes, struct fringe_counts counts)
{
	static uint8_t rows[FRINGE_MOST_ROWS_BYTES];
	size_t count = (size_t)counts.days;
	list_days(bytes, count);
	struct fringe_number made = fringe_rows_from_days(days, FRINGE_DAY_NUMBERS * count, rows, sizeof rows);
	if (refused("rows of the days", made.refusal))
		return;
	for (size_t i = 0; i < count; i++)
		printf("row%.68s\n", (const char *)rows + FRINGE_ROW_BYTES * i);
	struct fringe_days read = fringe_days_from_rows(rows, (size_t)made.value, days[0], counts.days, tai_utc, count);
	if (refused("days of the rows", read.refusal))
		return;
	printf("read back: %s days\n", memcmp(read.days, days, sizeof days) ? "other" : "the same");
	write_anew(bytes, counts, read.days);
}

/* where the fault of a copy lies whose first station has no id */
static void damage(size_t bytes)
{
	memcpy(copy, file, bytes);
	memset(copy + FRINGE_CONTENTS_BYTES, 0, 8);
	print_fault("damaged copy", copy, bytes);
}

int main(int count, char **words)
{
	size_t bytes;
	if (count != 2) {
		fprintf(stderr, "usage: host FILE\n");
		return 2;
	}
	if (!load(words[1], &bytes))
		return 2;

	struct fringe_counts counts = fringe_check(file, bytes);
	if (counts.refusal) {
		print_fault("session", file, bytes);
		return 1;
	}
	printf("%" PRId64 " stations, %" PRId64 " sources, %" PRId64 " days of kind %" PRId64 ", %" PRId64 " passes\n",
	       counts.stations, counts.sources, counts.days, counts.day_kind, counts.passes);

	struct fringe_pass pass = fringe_pass_at(file, bytes, 0);
	size_t numbers = print_track(bytes, pass);
	if (!numbers || !print_prediction(numbers, (uint64_t)pass.samples / 2))
		return 1;
	if (!print_samples(bytes) || !print_tracks(bytes, counts.passes))
		return 1;
	print_rows(bytes, counts);
	damage(bytes);
	return 0;
}
