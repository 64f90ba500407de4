/* links: erlensieg */
#include "frame.h"
#include "baseline/sine.c"
#include "baseline/earth.c"

/* An answer as one number, made alike on both sides: what this costs is counted with each. */
static int64_t epoch_sum(struct fringe_epoch r) { return r.refusal + r.day + r.ms; }
static int64_t ticks_sum(struct fringe_ticks r) { return r.refusal + r.n + r.l + r.lp + r.f + r.d + r.om; }
static int64_t number_sum(struct fringe_number r) { return r.refusal + r.value; }
static int64_t angle_sum(struct fringe_angle r) { return r.refusal + r.e + r.tick; }

static int64_t ours_later(int64_t day, int64_t ms, int64_t add) { return epoch_sum(fringe_later(day, ms, add)); }
static int64_t plain_later(int64_t day, int64_t ms, int64_t add) { return epoch_sum(base_later(day, ms, add)); }
static int64_t ours_arguments(int64_t day, int64_t ms, int64_t tai) { return ticks_sum(fringe_arguments(day, ms, tai)); }
static int64_t plain_arguments(int64_t day, int64_t ms, int64_t tai) { return ticks_sum(base_arguments(day, ms, tai)); }
static int64_t ours_tide(int64_t day, int64_t ms, int64_t tai) { return number_sum(fringe_tide(day, ms, tai)); }
static int64_t plain_tide(int64_t day, int64_t ms, int64_t tai) { return number_sum(base_tide(day, ms, tai)); }
static int64_t ours_angle_at(int64_t day, int64_t f) { return angle_sum(fringe_angle_at(day, f)); }
static int64_t plain_angle_at(int64_t day, int64_t f) { return angle_sum(base_angle_at(day, f)); }

#define DAY between(41317, 69806)
#define MS between(0, 86399999)

ROW(later, int64_t, (int64_t day, int64_t ms, int64_t add), (DAY, MS, between(0, 14742000000)), ours_later, plain_later)
ROW(arguments, int64_t, (int64_t day, int64_t ms, int64_t tai), (DAY, MS, between(0, 99)), ours_arguments, plain_arguments)
ROW(tide, int64_t, (int64_t day, int64_t ms, int64_t tai), (DAY, MS, between(0, 99)), ours_tide, plain_tide)
ROW(angle_at, int64_t, (int64_t day, int64_t f), (DAY, between(-100000000, 86500000000)), ours_angle_at, plain_angle_at)

MAIN({"later", row_later}, {"arguments", row_arguments}, {"tide", row_tide}, {"angle_at", row_angle_at})
