/* Document 01, 'Track': the least and the greatest rate that fit the samples seen so far of a segment, by the convex hulls of the band's two edges. */
#include "baseline.h"

#define UNIT 65536
#define LONGEST 1024

struct segment { int64_t count, rate; };

static int64_t ceiling(int64_t a, int64_t b) { return a / b + (a % b > 0); }

static int64_t refusal_of(const int64_t *samples, size_t n, int64_t tolerance) {
    if (n < 1 || n > 4096 || tolerance < 0 || tolerance > 1000000) return 2;
    for (size_t i = 0; i < n; i++)
        if (samples[i] < -130000000000 || samples[i] > 130000000000) return 2;
    return 0;
}

/* One edge of the band as a convex chain from below, in ps: the upper edge, or the lower edge with all signs turned. A line to a later sample
   counts only if it is steeper than those before, and a steeper line touches the chain further right: corners before `first` are done with. */
struct chain { int64_t x[LONGEST], y[LONGEST]; int first, end; };

static int above(const struct chain *c, int i, int64_t x, int64_t y) {
    return (c->x[i + 1] - c->x[i]) * (y - c->y[i]) > (x - c->x[i]) * (c->y[i + 1] - c->y[i]);
}

static void add(struct chain *c, int64_t x, int64_t y) {
    while (c->end - c->first > 1 && !above(c, c->end - 2, x, y)) c->end--;
    c->x[c->end] = x;
    c->y[c->end] = y;
    c->end++;
}

/* The least whole rate of a line from the chain to a point right of it that nowhere passes over the chain, or `least` where that is more. */
static int64_t steepest(struct chain *c, int64_t x, int64_t y, int64_t least) {
    while (c->first + 1 < c->end && above(c, c->first, x, y)) c->first++;
    int64_t rate = ceiling(UNIT * (y - c->y[c->first]), x - c->x[c->first]);
    return rate > least ? rate : least;
}

/* The longest segment from the first sample. */
static struct segment longest(const int64_t *s, int64_t n, int64_t tolerance) {
    static struct chain upper, lower;
    int64_t least = INT64_MIN, greatest = INT64_MIN; /* the greatest rate with its sign turned */
    upper.first = upper.end = lower.first = lower.end = 0;
    for (int64_t k = 0; k < n; k++) {
        if (k > 0) {
            int64_t new_least = steepest(&upper, k, s[k] - tolerance, least);
            int64_t new_greatest = steepest(&lower, k, -s[k] - tolerance, greatest);
            if (new_least > -new_greatest) return (struct segment){k, least};
            least = new_least;
            greatest = new_greatest;
        }
        add(&upper, k, s[k] + tolerance);
        add(&lower, k, -s[k] + tolerance);
    }
    return (struct segment){n, n == 1 ? 0 : least};
}

static int64_t least_offset(const int64_t *s, struct segment g, int64_t tolerance) {
    int64_t offset = INT64_MIN;
    for (int64_t j = 0; j < g.count; j++) {
        int64_t needed = UNIT * (s[j] - tolerance) - g.rate * j;
        if (needed > offset) offset = needed;
    }
    return offset;
}

static struct segment from(const int64_t *samples, size_t n, size_t start, int64_t tolerance) {
    size_t left = n - start;
    return longest(samples + start, (int64_t)(left < LONGEST ? left : LONGEST), tolerance);
}

/* The segments are kept until their number is known, since a refused call leaves the room as it was. */
struct fringe_number base_track(const int64_t *samples, size_t n, int64_t tolerance, int64_t *room, size_t m) {
    static struct segment found[4096];
    size_t count = 0, first = 0;
    if (refusal_of(samples, n, tolerance) != 0) return (struct fringe_number){2, 0};
    for (size_t start = 0; start < n; start += (size_t)found[count++].count) {
        if (count == m / 4) return (struct fringe_number){8, 0};
        found[count] = from(samples, n, start, tolerance);
    }
    for (size_t i = 0; i < count; i++) {
        room[4 * i] = (int64_t)first;
        room[4 * i + 1] = found[i].count;
        room[4 * i + 2] = least_offset(samples + first, found[i], tolerance);
        room[4 * i + 3] = found[i].rate;
        first += (size_t)found[i].count;
    }
    return (struct fringe_number){0, (int64_t)count};
}
