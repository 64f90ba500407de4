/* Session files: each call with the two sound files, and with each that is refused; the lent bytes stay. */
#include "test.h"
#include "values.h"
#include <string.h>

static void check_file(const char *what, const int64_t *want)
{
	struct fringe_counts r = fringe_check(file, file_bytes);
	int64_t got[] = {r.refusal, r.stations, r.sources, r.days, r.passes, r.day_kind};
	test(what);
	same(got, want, 6);
	file_stays();
}

static void find_fault(const char *what, const int64_t *want)
{
	struct fringe_place r = fringe_fault(file, file_bytes);
	int64_t got[] = {r.number, r.section, r.record, r.field};
	test(what);
	same(got, want, 4);
	file_stays();
}

size_t record_of(int64_t kind, uint64_t index, int64_t *got)
{
	if (kind == FRINGE_KIND_STATION) {
		struct fringe_station r = fringe_station_at(file, file_bytes, index);
		memcpy(got, (int64_t[]){r.refusal, r.id, r.x, r.y, r.z}, 40);
		return 1 + FRINGE_STATION_NUMBERS;
	}
	if (kind == FRINGE_KIND_SOURCE) {
		struct fringe_source r = fringe_source_at(file, file_bytes, index);
		memcpy(got, (int64_t[]){r.refusal, r.id, r.right_ascension, r.declination}, 32);
		return 1 + FRINGE_SOURCE_NUMBERS;
	}
	if (kind == FRINGE_KIND_DAY) {
		struct fringe_day r = fringe_day_at(file, file_bytes, index);
		memcpy(got, (int64_t[]){r.refusal, r.mjd, r.x, r.y, r.ut1_utc, r.tai_utc, r.mark}, 56);
		return 1 + FRINGE_DAY_NUMBERS;
	}
	struct fringe_pass r = fringe_pass_at(file, file_bytes, index);
	int64_t all[] = {r.refusal, r.station1, r.station2, r.source, r.mjd, r.ms, r.step, r.samples, r.tolerance};
	memcpy(got, all, sizeof all);
	return 1 + FRINGE_PASS_NUMBERS;
}

/* a refused record: its number and zeros */
static void no_record(const char *what, int64_t kind, uint64_t index, int64_t refusal)
{
	int64_t got[9], want[9] = {refusal};
	test(what);
	same(got, want, record_of(kind, index, got));
	file_stays();
}

/* the record at an index, held to its numbers in the file; where these end. A day of kind 3 has the mark 0. */
static const int64_t *record_is(int64_t kind, int64_t day_kind, uint64_t index, const int64_t *fields)
{
	int64_t got[9];
	size_t n = record_of(kind, index, got) - 1;
	test("a record of the sound file");
	one(got[0], FRINGE_ANSWERED);
	if (kind == FRINGE_KIND_DAY && day_kind == FRINGE_KIND_DAY)
		one(got[n--], 0);
	same(got + 1, fields, n);
	file_stays();
	return fields + n;
}

/* every record of a sound file, as its numbers stand there, and 5 beyond the last of each section */
static void accepted(const struct counts_row *row)
{
	const int64_t *want = row->want, *fields = sound(row->kind) + FRINGE_CONTENTS_BYTES / 8;
	lend_sound(row->kind);
	check_file(row->what, want);
	find_fault(row->what, (int64_t[]){0, 0, 0, 0});
	for (int64_t kind = 1; kind <= 4; kind++) {
		for (uint64_t i = 0; i < (uint64_t)want[kind]; i++)
			fields = record_is(kind, row->kind, i, fields);
		no_record("one beyond the last record", kind, (uint64_t)want[kind], FRINGE_NOT_THERE);
		no_record("the greatest index", kind, UINT64_MAX, FRINGE_NOT_THERE);
	}
}

static void refused(const struct refused_row *row)
{
	int64_t zeros[6] = {row->want[0]};
	lend_cut(row->kind, row->at, row->value, row->bytes);
	check_file(row->what, zeros);
	find_fault(row->what, row->want);
	for (int64_t kind = 1; kind <= 4; kind++) {
		no_record(row->what, kind, 0, row->want[0]);
		no_record(row->what, kind, UINT64_MAX, row->want[0]);
	}
}

void files(void)
{
	for EACH (counts, row)
		accepted(row);
	for EACH (refused, row)
		refused(row);
}
