/* The stack that each call takes, as the header names it: how deep a call reaches below its caller, on a painted stack. */
#define _GNU_SOURCE
#include "test.h"
#include <stdint.h>
#include <string.h>
#include <ucontext.h>

#define PAINT 0xA5
#define SAMPLES FRINGE_MOST_SAMPLES
#define DAYS FRINGE_MOST_DAYS

/* two stations, a source, two days and two passes as long as can be; the days of a text of rows; samples of the worst kind */
static const int64_t stations[] = {1, 4075539836, 931735270, 4801629352, 2, 3370605765, 711917674, 5349830991};
static const int64_t sources[] = {1, 2233382912, 25165824};
static const int64_t two_days[] = {57753, 91234, 402345, -412345600, 37, 1, 57754, 92345, 403456, -413456700, 37, 1};
static const int64_t passes[] = {1, 2, 1, 57753, 43200000, 1000, SAMPLES, 10, 1, 2, 1, 57753, 43200000, 1000, SAMPLES, 10};
static int64_t many_days[DAYS * FRINGE_DAY_NUMBERS], tai_utc[DAYS], samples[SAMPLES], places[FRINGE_MOST_TRACK_NUMBERS];
static uint8_t whole[FRINGE_RIGHT_FILE_BYTES], damaged[FRINGE_RIGHT_FILE_BYTES], text[FRINGE_MOST_ROWS_BYTES];
static size_t bytes, text_bytes, track_numbers;

/* what the calls answer: a struct that is handed out by value has its place in the caller */
static struct fringe_number answer;
static struct fringe_tracks all;
static struct fringe_days days;
static struct fringe_counts counts;
static struct fringe_place place;
static struct fringe_earth earth;
static struct fringe_station station;
static struct fringe_source source;
static struct fringe_day day;
static struct fringe_pass pass;
static struct fringe_epoch epoch;
static struct fringe_ticks ticks;
static struct fringe_angle angle;
static struct fringe_rotation rotation;
static struct fringe_host host;
static int64_t value;
static const int64_t none = FRINGE_ANSWERED;        /* for calls that refuse nothing */

#define STACK_BYTES (256 * 1024)
static uint8_t stack[STACK_BYTES];
static ucontext_t here, there;
static uintptr_t top;

/* a call, and the stack pointer of its caller before it */
#define CALL(name, of_it) \
	static void name(void) \
	{ \
		__asm__ volatile("mov %%rsp, %0" : "=r"(top) : : "memory"); \
		of_it; \
	}
CALL(all_tracks, all = fringe_all_tracks(whole, bytes, places, 2 * track_numbers))
CALL(pass_track, answer = fringe_pass_track(whole, bytes, 0, places, COUNT(places)))
CALL(days_from_rows, days = fringe_days_from_rows(text, text_bytes, 57753, DAYS, tai_utc, DAYS))
CALL(track, answer = fringe_track(samples, SAMPLES, 0, places, COUNT(places)))
CALL(written, answer = fringe_write(FRINGE_KIND_MARKED_DAY, stations, COUNT(stations), sources, COUNT(sources), two_days, COUNT(two_days), passes, COUNT(passes), whole, sizeof whole))
CALL(tide, answer = fringe_tide(57753, 43200000, 37))
CALL(orientation, earth = fringe_orientation(whole, bytes, 57753, 43200000))
CALL(delay, answer = fringe_delay(whole, bytes, 1, 2, 1, 57753, 43200000))
CALL(sampled, answer = fringe_samples(whole, bytes, 0, places, COUNT(places)))
CALL(rows_from_days, answer = fringe_rows_from_days(many_days, COUNT(many_days), text, sizeof text))
CALL(checked, counts = fringe_check(whole, bytes))
CALL(fault, place = fringe_fault(damaged, bytes))
CALL(station_at, station = fringe_station_at(whole, bytes, 1))
CALL(source_at, source = fringe_source_at(whole, bytes, 0))
CALL(day_at, day = fringe_day_at(whole, bytes, 1))
CALL(pass_at, pass = fringe_pass_at(whole, bytes, 1))
CALL(predicted, answer = fringe_predict(places, track_numbers, SAMPLES - 1))
CALL(host_at, host = fringe_host_at(places, track_numbers, SAMPLES - 1))
CALL(later, epoch = fringe_later(57753, 43200000, 86400000))
CALL(arguments, ticks = fringe_arguments(57753, 43200000, 37))
CALL(angle_at, angle = fringe_angle_at(57753, 43200000))
CALL(rotated, rotation = fringe_rotate(2233382912))
CALL(sine, value = fringe_sine(2233382912))
CALL(cosine, value = fringe_cosine(2233382912))

/* Makes the call, and says how deep it came if that is more than `most`. `refusal` is where its answer stands, and must be 0. */
static void reaches(const char *what, void (*call)(void), const int64_t *refusal, int64_t most)
{
	memset(stack, PAINT, sizeof stack);
	getcontext(&there);
	there.uc_stack.ss_sp = stack;
	there.uc_stack.ss_size = sizeof stack;
	there.uc_link = &here;
	makecontext(&there, call, 0);
	swapcontext(&here, &there);
	size_t deepest = 0;
	while (deepest < sizeof stack && stack[deepest] == PAINT)
		deepest++;
	int64_t took = (int64_t)(top - (uintptr_t)(stack + deepest));
	test(what);
	one(took < most ? most : took, most);
	one(*refusal, FRINGE_ANSWERED);
}

static void lists(void)
{
	for (size_t i = 0; i < DAYS; i++) {
		memcpy(many_days + FRINGE_DAY_NUMBERS * i, two_days, FRINGE_DAY_NUMBERS * sizeof *two_days);
		many_days[FRINGE_DAY_NUMBERS * i] += (int64_t)i;
		tai_utc[i] = 37;
	}
	for (size_t i = 0; i < SAMPLES; i++)
		samples[i] = i % 2 ? 10 : 0;
}

/* The numbers are those of the header, 'Building'. Some calls need what one before them leaves. */
void stacks(void)
{
	lists();
	reaches("the stack of fringe_write", written, &answer.refusal, 19000);
	bytes = (size_t)answer.value;
	reaches("the stack of fringe_rows_from_days", rows_from_days, &answer.refusal, 1000);
	text_bytes = (size_t)answer.value;
	reaches("the stack of fringe_days_from_rows", days_from_rows, &days.refusal, 76000);
	reaches("the stack of fringe_samples", sampled, &answer.refusal, 3400);
	reaches("the stack of fringe_track", track, &answer.refusal, 63000);
	reaches("the stack of fringe_pass_track", pass_track, &answer.refusal, 99000);
	track_numbers = FRINGE_SEGMENT_NUMBERS * (size_t)answer.value;
	reaches("the stack of fringe_predict", predicted, &answer.refusal, 400);
	reaches("the stack of fringe_host_at", host_at, &host.refusal, 400);
	reaches("the stack of fringe_all_tracks", all_tracks, &all.refusal, 165000);
	reaches("the stack of fringe_tide", tide, &answer.refusal, 3400);
	reaches("the stack of fringe_orientation", orientation, &earth.refusal, 3400);
	reaches("the stack of fringe_delay", delay, &answer.refusal, 3400);
	reaches("the stack of fringe_check", checked, &counts.refusal, 400);
	reaches("the stack of fringe_station_at", station_at, &station.refusal, 400);
	reaches("the stack of fringe_source_at", source_at, &source.refusal, 400);
	reaches("the stack of fringe_day_at", day_at, &day.refusal, 400);
	reaches("the stack of fringe_pass_at", pass_at, &pass.refusal, 400);
	reaches("the stack of fringe_later", later, &epoch.refusal, 400);
	reaches("the stack of fringe_arguments", arguments, &ticks.refusal, 400);
	reaches("the stack of fringe_angle_at", angle_at, &angle.refusal, 400);
	reaches("the stack of fringe_rotate", rotated, &none, 400);
	reaches("the stack of fringe_sine", sine, &none, 400);
	reaches("the stack of fringe_cosine", cosine, &none, 400);
	/* a fault is looked for up to the last number of the file */
	memcpy(damaged, whole, bytes);
	memset(damaged + bytes - 8, 0xFF, 8);
	reaches("the stack of fringe_fault", fault, &none, 400);
	one(place.number, FRINGE_OUT_OF_RANGE);
}
