/* Orientation and delays of the lent file, and of its passes samples and tracks. */
#include "test.h"
#include "values.h"

static void orientation_one(const struct orientation_row *row)
{
	lend_file(row->kind, row->at, row->value);
	struct fringe_earth r = fringe_orientation(file, file_bytes, row->day, row->ms);
	int64_t got[] = {r.refusal, r.x, r.y, r.ut1_used, r.tick};
	test(row->what);
	same(got, row->want, 5);
	file_stays();
}

static void delay_one(const struct delay_row *row)
{
	lend_file(row->kind, row->at, row->value);
	test(row->what);
	number(fringe_delay(file, file_bytes, row->station1, row->station2, row->source, row->day, row->ms), row->want);
	file_stays();
}

/* the samples or the track of a pass: the answer, and what the room holds */
static void pass_one(const struct pass_row *row)
{
	lend_file(row->kind, row->at, row->value);
	empty_room();
	test(row->what);
	number(row->call(file, file_bytes, row->pass, room, row->room_numbers), row->want);
	holds(row->numbers, row->width * (size_t)row->want[1]);
	file_stays();
}

void delays(void)
{
	for EACH (orientation, row)
		orientation_one(row);
	for EACH (delay, row)
		delay_one(row);
	for EACH (pass, row)
		pass_one(row);
}
