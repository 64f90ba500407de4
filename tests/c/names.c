/* What the header itself gives: numbers with names, words, and empty slices. */
#include "test.h"
#include "values.h"
#include <string.h>

static void same_text(const char *what, const char *got, const char *want)
{
	test(what);
	one(got && strcmp(got, want) == 0, 1);
}

/* the words of a refusal: those of no other, and no number beyond has words of its own */
static void refusal_text(int64_t refusal)
{
	static const int64_t others[] = {INT64_MIN, -1, FRINGE_ROW_LACKING + 1, 4294967297, INT64_MAX};
	const char *text = fringe_refusal_text(refusal);
	test("words of a refusal");
	one(text && strlen(text) > 0, 1);
	for (int64_t i = FRINGE_ANSWERED; i <= FRINGE_ROW_LACKING; i++)
		one(strcmp(text, fringe_refusal_text(i)) == 0, i == refusal);
	for (size_t i = 0; i < COUNT(others); i++)
		one(strcmp(text, fringe_refusal_text(others[i])) == 0, 0);
}

void names(void)
{
	for EACH (named, row) {
		test(row->what);
		one(row->got, row->want);
	}
	for EACH (section_name, row)
		same_text(row->what, fringe_section_name(row->kind), row->want);
	for EACH (field_name, row)
		same_text(row->what, fringe_field_name(row->kind, row->field), row->want);
	for (int64_t i = FRINGE_ANSWERED; i <= FRINGE_ROW_LACKING; i++)
		refusal_text(i);
	same_text("words of no refusal", fringe_refusal_text(12), fringe_refusal_text(INT64_MIN));
}

/* every call that takes a slice, with the names of empty ones */
void empties(void)
{
	const uint8_t *no_file = fringe_no_bytes();
	int64_t *none = fringe_no_numbers();
	lend_sound(FRINGE_KIND_MARKED_DAY);
	test("an empty file");
	one(fringe_check(no_file, 0).refusal, FRINGE_WRONG_FILE);
	test("its fault");
	one(fringe_fault(no_file, 0).number, FRINGE_WRONG_FILE);
	test("its stations");
	one(fringe_station_at(no_file, 0, 0).refusal, FRINGE_WRONG_FILE);
	test("its sources");
	one(fringe_source_at(no_file, 0, 0).refusal, FRINGE_WRONG_FILE);
	test("its days");
	one(fringe_day_at(no_file, 0, 0).refusal, FRINGE_WRONG_FILE);
	test("its passes");
	one(fringe_pass_at(no_file, 0, 0).refusal, FRINGE_WRONG_FILE);
	test("its orientation");
	one(fringe_orientation(no_file, 0, FRINGE_FIRST_MJD, 0).refusal, FRINGE_WRONG_FILE);
	test("its delays");
	one(fringe_delay(no_file, 0, 1, 1, 1, FRINGE_FIRST_MJD, 0).refusal, FRINGE_WRONG_FILE);
	test("its samples, and no room");
	one(fringe_samples(no_file, 0, 0, none, 0).refusal, FRINGE_WRONG_FILE);
	test("no room for samples");
	one(fringe_samples(file, file_bytes, 0, none, 0).refusal, FRINGE_ROOM_TOO_SHORT);
	test("its track, and no room");
	one(fringe_pass_track(no_file, 0, 0, none, 0).refusal, FRINGE_WRONG_FILE);
	test("no room for the track of a pass");
	one(fringe_pass_track(file, file_bytes, 0, none, 0).refusal, FRINGE_NO_TRACK_FITS);
	test("no records, and no room");
	one(fringe_write(FRINGE_KIND_DAY, none, 0, none, 0, none, 0, none, 0, fringe_no_bytes(), 0).refusal,
	    FRINGE_WRONG_FILE);
	test("no rows, and no TAI-UTC");
	one(fringe_days_from_rows(no_file, 0, FRINGE_FIRST_MJD, 2, none, 0).refusal, FRINGE_ROW_LACKING);
	test("no days asked of no rows");
	one(fringe_days_from_rows(no_file, 0, FRINGE_FIRST_MJD, 0, none, 0).refusal, FRINGE_OUT_OF_RANGE);
	test("no days, and no room for rows");
	one(fringe_rows_from_days(none, 0, fringe_no_bytes(), 0).refusal, FRINGE_OUT_OF_RANGE);
	test("no room for rows");
	one(fringe_rows_from_days(rows_rows[0].days, rows_rows[0].day_numbers, fringe_no_bytes(), 0).refusal,
	    FRINGE_ROOM_TOO_SHORT);
	test("no samples, and no room");
	one(fringe_track(none, 0, 0, none, 0).refusal, FRINGE_OUT_OF_RANGE);
	test("no room for a track");
	one(fringe_track(sound_5, 1, 0, none, 0).refusal, FRINGE_NO_TRACK_FITS);
	test("the tracks of an empty file, and no room");
	one(fringe_all_tracks(no_file, 0, none, 0).refusal, FRINGE_WRONG_FILE);
	test("no room for all tracks");
	one(fringe_all_tracks(file, file_bytes, none, 0).refusal, FRINGE_NO_TRACK_FITS);
	test("no track to predict");
	one(fringe_predict(none, 0, 0).refusal, FRINGE_NOT_PREDICTED);
	test("no track for a record");
	one(fringe_host_at(none, 0, 0).refusal, FRINGE_NOT_PREDICTED);
	test("nothing was put there");
	one(*none, 0);
	one(*fringe_no_bytes(), 0);
}
