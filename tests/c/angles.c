/* Ticks, epochs and Earth rotation. */
#include "test.h"
#include "values.h"

static void ticks(void)
{
	for EACH (sine, row) {
		test(row->what);
		one(fringe_sine(row->tick), row->want);
	}
	for EACH (cosine, row) {
		test(row->what);
		one(fringe_cosine(row->tick), row->want);
	}
	for EACH (rotation, row) {
		struct fringe_rotation r = fringe_rotate(row->tick);
		int64_t got[] = {r.xx, r.xy, r.xz, r.yx, r.yy, r.yz, r.zx, r.zy, r.zz};
		test(row->what);
		same(got, row->want, 9);
	}
}

static void epochs(void)
{
	for EACH (later, row) {
		struct fringe_epoch r = fringe_later(row->day, row->ms, row->add);
		int64_t got[] = {r.refusal, r.day, r.ms};
		test(row->what);
		same(got, row->want, 3);
	}
	for EACH (arguments, row) {
		struct fringe_ticks r = fringe_arguments(row->day, row->ms, row->tai_utc);
		int64_t got[] = {r.refusal, r.n, r.l, r.lp, r.f, r.d, r.om};
		test(row->what);
		same(got, row->want, 7);
	}
	for EACH (tide, row) {
		test(row->what);
		number(fringe_tide(row->day, row->ms, row->tai_utc), row->want);
	}
	for EACH (angle, row) {
		struct fringe_angle r = fringe_angle_at(row->day, row->f);
		int64_t got[] = {r.refusal, r.e, r.tick};
		test(row->what);
		same(got, row->want, 3);
	}
}

void angles(void)
{
	ticks();
	epochs();
}
