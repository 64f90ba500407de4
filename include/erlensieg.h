/*
 * Erlensieg: the delays of a fringe check between two radio telescopes, for the program that runs the correlator.
 *
 * You have a session file: stations, radio sources, days of Earth orientation, planned passes. The calls below give the
 * delay of each sample of a pass, and a track: a row of straight segments, the fewest that keep to all of the samples.
 *
 *     struct fringe_counts counts = fringe_check(file, file_bytes);            1. is the file right?
 *     struct fringe_pass pass = fringe_pass_at(file, file_bytes, 0);           2. when its first pass starts, its step
 *     struct fringe_number made = fringe_pass_track(file, file_bytes, 0, track, FRINGE_MOST_TRACK_NUMBERS);
 *                                                                              3. the track of this pass
 *     struct fringe_host now = fringe_host_at(track, FRINGE_SEGMENT_NUMBERS * (size_t)made.value, 7);
 *                                                                              4. the delay at sample 7, from the track
 *
 *     struct fringe_tracks all = fringe_all_tracks(file, file_bytes, room, FRINGE_ALL_TRACKS_NUMBERS);
 *                                                                              or the tracks of all passes, in one call
 *
 *     struct fringe_number taken = fringe_samples(file, file_bytes, 0, samples, FRINGE_MOST_SAMPLES);
 *                                                                              for a plot: the delays of its samples
 *
 *     struct fringe_days read = fringe_days_from_rows(text, text_bytes, first, count, tai_utc, count);
 *                                                                              days for a file, from the IERS's text;
 *                                                                              fringe_write takes them as they are
 *
 * Look at `refusal` after each call. examples/host.c is such a program, whole.
 *
 * Building
 *   The library is one archive, liberlensieg.a, for x86-64 Linux:
 *       gcc your.c -Iinclude -Lcrates/erlensieg/out -lerlensieg                in the repository
 *       gcc your.c $(pkg-config --cflags --libs erlensieg)                     after `examples/install PREFIX`
 *   For the second, PKG_CONFIG_PATH has PREFIX/lib/pkgconfig. On another processor it takes a cross compiler for x86-64
 *   and an emulator, as examples/run-host shows. This header is C99, C11 or C++17. The archive needs memcpy and memset
 *   of the C library, no other. It keeps nothing between calls, so calls may run at the same time. The stack that a
 *   call takes, as measured with the older kit and rounded up: fringe_all_tracks 165,000 bytes, fringe_pass_track 99,000,
 *   fringe_days_from_rows 76,000, fringe_track 63,000, fringe_write 19,000, fringe_tide, fringe_orientation,
 *   fringe_delay and fringe_samples 3,400, fringe_rows_from_days 1,000, each of the others 400.
 *
 * Lent memory
 *   NULL may not be passed, not even with length 0. For an empty slice pass fringe_no_numbers() or fringe_no_bytes().
 *   A slice is a pointer and the parameter behind it, its length. A length counts what its name says: `.._bytes` bytes,
 *   `.._numbers` numbers of 8 bytes, `sample_count` samples, one number each. A `const` slice is read only; `room` is
 *   memory that the call may write. What is written starts at the first place of the room. The rest of it stays as it
 *   was, and after a refusal all of it does. Nothing lent is kept after the call. Slices lent to one call do not
 *   overlap. A pointer to numbers is aligned to 8 bytes; int64_t objects are.
 *
 * Refusals
 *   Every call answers every input. A struct's `refusal` is 0, or one of the numbers of enum fringe_refusal; then all
 *   of its other fields are 0. Where several apply, the lowest is given. So an argument that is out of range is 2 also
 *   where the file by itself would be 3 or 4, and a file that is 1 goes before it. Two calls have an order of their
 *   own: fringe_all_tracks gives the number of the first pass that is refused, also where a later one has a lower
 *   number, and fringe_days_from_rows gives 10 and 11 before 2.
 *
 * Units
 *   tick               1/2^32 of a turn, 0 to 2^32 - 1
 *   length             millimetres
 *   delay, tolerance   picoseconds (ps)
 *   pole x, y          microarcseconds
 *   UT1-UTC, tide      nanoseconds
 *   TAI-UTC            seconds
 *   day                MJD; an epoch is a day and a UTC millisecond of it, 0 to 86,399,999
 *   sine, cosine       scaled by 2^30
 *   offset, rate       of a segment: 1/65,536 ps, and 1/65,536 ps for each sample (not for each second)
 *
 * What a delay is
 *   The time at which the wave reaches station 2 less that at which it reaches station 1: -s.b/c, where b is station 2
 *   less station 1, both where they are at the epoch, s points to the source, which is infinitely far away, and c is
 *   the speed of light. Exchanged stations negate it exactly, and one station named twice gives 0.
 *   Not in it, each with its order of magnitude (light takes 3.3 ms for 1,000 km, and 21 ms for the Earth's radius):
 *     the turning of the Earth while     station 2 goes on at up to 465 m/s: up to 21 ms, 10 m and 33 ns; for stations
 *     the wave is on its way             1,000 km apart up to 5 ns
 *     aberration, annual                 1/10,000 of the light time: 300 ns for 1,000 km, 2 microseconds for 6,400 km,
 *                                        unless the place that you give for the source has it already
 *     aberration, diurnal                1.5 millionths of the light time: 5 ns for 1,000 km
 *     motion of the place of date        up to 0.16" a day, since the file has one place for all of its days: 3 ns for
 *                                        1,000 km and a day
 *     gravity                            of the Sun 0.4 ns at right angles to it and 170 ns at its edge, both for
 *                                        6,000 km; of the Earth 0.02 ns
 *     air, dry                           8 ns for each station at the zenith, 80 ns at 5 degrees above the horizon
 *     air, wet                           up to 1.3 ns and 13 ns, in the same places
 *     ionosphere                         for 10^18 electrons on a square metre 2 ns at 8.4 GHz and 25 ns at 2.3 GHz, at
 *                                        the zenith; up to three times that low down
 *     tides and loading of the ground    1 ns for the tide of the solid Earth, up to 0.3 ns for the oceans' load
 *     drift of the continents            up to 0.3 ns a year, from the date that your stations' places are of
 *     tides in UT1 and pole within       0.1 ns
 *     a day
 *     clocks, cables, antenna axes       whatever they are: 4 to 5 ns for a metre of cable
 *   Most of these are differences between the two stations, and small for stations that are close together.
 *
 * What accuracy to expect
 *   Of the arithmetic: compared with the plane wave worked out in doubles by ERFA, the delays of 600 tested baselines
 *   lie within 12 ps and 5 10^-8 ps for each millimetre of baseline (50 ps for 1,000 km). What is left out is far more,
 *   so a tolerance of some ps keeps the track to the model and not to the sky.
 *   Round a triangle: the delays 1-2, 2-3 and 3-1 of one source and epoch add up to 0 but for the rounding of each. A
 *   search for the worst found 14 ps. That no sum is greater is not proved yet.
 *
 * UT1
 *   UT1 is the time that the Earth keeps by its turning. The Moon and the Sun raise tides, with which the Earth turns
 *   faster and slower. What those with periods of up to 35 days do to UT1 is called the tide here, and UT1R is UT1
 *   without it. The record of a day says by its mark what its UT1-UTC is:
 *     mark 1    full UT1, with the tide in it, as bulletins and finals2000A print it: file it as it is printed
 *     mark 0    UT1R. A record of kind 3 has no mark in the file, and is such a one
 *   From a record marked 1 the calls take away the tide of 0h of its own day, by its own TAI-UTC, which is
 *   fringe_tide(mjd, 0, tai_utc).value. They draw a straight line from the UT1R of one day to that of the next, and add
 *   the tide of the epoch. So a file may have records of both marks, and at 0h of a day marked 1 its UT1-UTC is used as
 *   it stands. Whoever files a bulletin's UT1-UTC with mark 0, or in a file of kind 3, takes the tide away first:
 *       ut1_utc = (the bulletin's UT1-UTC in nanoseconds) - fringe_tide(mjd, 0, tai_utc).value
 *   With a wrong mark the tide counts twice, or not at all, and no call can notice. The tide is below 2.8 ms, so delays
 *   would be wrong by up to 0.7 ns for each 1,000 km between the stations.
 *   What fringe_orientation answers as `ut1_used` is full UT1-UTC, with the tide, as the delay uses it.
 *   The pole goes on a straight line, too. Where the next record's TAI-UTC is k seconds more (a leap second: k is 1),
 *   UT1-UTC steps at its 0h and UT1 does not: the line of that day goes to the next record's UT1R-UTC less k seconds,
 *   so that ut1_used may pass 900,000,000 there.
 *
 * Session file
 *   All numbers of 8 bytes, little-endian, two's complement. First the contents table of 13 numbers: the number of
 *   sections, 4; then for each section in turn: kind, first byte, record count. The kinds are 1, 2, 3 or 5, and 4. Then
 *   the records of the four sections in that order without gaps, the first at byte 104, the last ending the file. A
 *   record, and how many:
 *     kind 1, station       id 1-65,535; X, Y, Z within 6,400,000,000 either side                          1 to 64
 *     kind 2, source        id 1-65,535; right ascension 0 to 2^32 - 1; declination within 2^30            1 to 256
 *     kind 3, day           MJD 41,317-69,806; x, y of the pole within 1,000,000; UT1-UTC within           2 to 64
 *                           900,000,000, which is UT1R-UTC, see UT1 above; TAI-UTC 0-99
 *     kind 5, marked day    the fields of kind 3, then the mark: 1 if UT1-UTC is full UT1, 0 if it is      2 to 64
 *                           UT1R-UTC
 *     kind 4, pass          ids of station 1, of station 2 and of the source; MJD; u, a UTC millisecond;   1 to 64
 *                           step from one sample to the next, 1-3,600,000 ms; samples, 1-4,096;
 *                           tolerance 0-1,000,000
 *   Ids of stations, and of sources, rise from one record to the next; days are consecutive. X, Y, Z are a station's
 *   place in the Earth-fixed frame: X toward the Greenwich meridian, Y toward 90 degrees east, Z toward the pole. A
 *   source's place is on the intermediate equator of date, its right ascension counted from the celestial intermediate
 *   origin, both in ticks: a place from a catalogue has to be turned to the date first. A day's record is of 0h UTC.
 *
 * Rows of finals2000A
 *   finals2000A is a text file of the IERS, the service that measures how the Earth turns. It has a row for each day:
 *   past days as measured, then days to come as predicted. Its values are those of 0h UTC, so a row has what a day's
 *   record is made of, but for TAI-UTC. UT1-UTC of a row is full UT1. So the records that are read of rows are marked
 *   1, and rows are written of records that are marked 1 alone.
 *   A row is the bytes before a line feed; bytes behind the last line feed are no row. A column is a byte of the row,
 *   counted from 1. Four fields are read, those of the IERS's Bulletin A, and become whole numbers exactly:
 *     columns  holds             unit         for example    becomes
 *     8-15     MJD               day            57419.00          57419
 *     19-27    x of the pole     arcsecond     -0.003225          -3225   microarcseconds
 *     38-46    y of the pole     arcsecond      0.299494         299494   microarcseconds
 *     59-68    UT1-UTC           second        0.0262864       26286400   nanoseconds
 *   A field has in its columns: blanks or none, then '-' or nothing, then at least one digit, a point, and as many
 *   decimals as in the example, the last in the last column. So '.5', '+0.1', a tab, or blanks alone are no number. An
 *   MJD ends with '.00'. No other column is looked at, and a row may be shorter or longer than the 185 of the IERS.
 *   There are editions of half a year, and some of many years, which are longer than the call takes. Of these lend the
 *   part with your days, from the start of a row on; a last row that is cut off is no row.
 *   TAI-UTC is not in the file. It is whole seconds, and steps with each leap second: 36 from 2015 July 1 (MJD 57,204)
 *   on, 37 from 2017 January 1 (MJD 57,754) on. The IERS announces the next step in its Bulletin C.
 */
#ifndef ERLENSIEG_H
#define ERLENSIEG_H

#include <stddef.h>
#include <stdint.h>

/* the version; as a number to compare it is 10,000 times the first, and 100 times the second, and the third */
#define FRINGE_VERSION "0.5.0"
#define FRINGE_VERSION_NUMBER 500

/* ---- Limits */

/* of samples and tracks */
#define FRINGE_MOST_SAMPLES 4096          /* samples of a pass, and of a track */
#define FRINGE_MOST_SEGMENTS 2048         /* segments of a track that the library makes: more it never needs */
#define FRINGE_MOST_SEGMENT_SAMPLES 1024  /* samples of a segment */
#define FRINGE_SEGMENT_NUMBERS 4          /* numbers of a segment: first sample, samples, offset, rate */
#define FRINGE_MOST_TRACK_NUMBERS 8192    /* numbers of FRINGE_MOST_SEGMENTS: a room that is always enough */
#define FRINGE_ALL_TRACKS_NUMBERS 524288  /* the same for the tracks of FRINGE_MOST_PASSES passes together */
#define FRINGE_MOST_TOLERANCE 1000000     /* ps */
#define FRINGE_MOST_DELAY INT64_C(130000000000) /* ps, either side: no delay is beyond, no sample of a track may be */

/* of session files */
#define FRINGE_RIGHT_FILE_BYTES 15464     /* the longest file that is right: a room that is always enough */
#define FRINGE_ANY_FILE_BYTES 65536       /* a longer file is refused by its length alone */
#define FRINGE_CONTENTS_BYTES 104         /* the contents table */
#define FRINGE_STATION_NUMBERS 4          /* numbers of a record, as fringe_write takes them */
#define FRINGE_SOURCE_NUMBERS 3
#define FRINGE_DAY_NUMBERS 6              /* for both kinds of days; in a file a day of kind 3 has no mark, so 5 */
#define FRINGE_PASS_NUMBERS 8
#define FRINGE_MOST_STATIONS 64           /* records of a file */
#define FRINGE_MOST_SOURCES 256
#define FRINGE_MOST_DAYS 64
#define FRINGE_LEAST_DAYS 2               /* of the other kinds one record is enough */
#define FRINGE_MOST_PASSES 64
#define FRINGE_MOST_ID 65535

/* of rows of finals2000A */
#define FRINGE_ANY_ROWS_BYTES 65536       /* longer text is refused by its length alone; 352 rows of 186 bytes fit */
#define FRINGE_MOST_DAYS_NUMBERS 384      /* numbers of FRINGE_MOST_DAYS records */
#define FRINGE_ROW_BYTES 186              /* a row that is written, its line feed among them */
#define FRINGE_MOST_ROWS_BYTES 11904      /* FRINGE_MOST_DAYS of these rows: a room that is always enough */
#define FRINGE_ROW_UT1_STEP 100           /* ns: UT1-UTC of a row is a multiple, since it has 7 decimals of a second */

/* of epochs */
#define FRINGE_FIRST_MJD 41317
#define FRINGE_LAST_MJD 69806
#define FRINGE_LAST_MS 86399999           /* the last millisecond of a day, also of one that a leap second ends */

/* ---- Numbers with names */

enum fringe_refusal {
	FRINGE_ANSWERED = 0,
	/*
	 * file over 65,536 bytes, or contents table or length not as they must be, counts included (writer: a count); or
	 * a text of rows over 65,536 bytes
	 */
	FRINGE_WRONG_FILE = 1,
	/*
	 * a field of the file or of a record, or an argument of the call, is outside its range; or a record's mark is one
	 * that a file of kind 3, or a row, cannot hold
	 */
	FRINGE_OUT_OF_RANGE = 2,
	/* station or source ids do not rise */
	FRINGE_IDS_DO_NOT_RISE = 3,
	/* orientation days are not consecutive */
	FRINGE_DAYS_NOT_CONSECUTIVE = 4,
	/* the station, source or pass asked for is not there; an index beyond the last record */
	FRINGE_NOT_THERE = 5,
	/* the file lacks the day of an epoch, or the day after; an epoch on the file's last day lacks the day after */
	FRINGE_DAY_LACKING = 6,
	/* the lent room for samples, for a file, or for rows is too short */
	FRINGE_ROOM_TOO_SHORT = 7,
	/* no track of the samples fits the lent room */
	FRINGE_NO_TRACK_FITS = 8,
	/* the sample is not covered, or the lent track is malformed: see fringe_predict */
	FRINGE_NOT_PREDICTED = 9,
	/* a row's MJD, or another field of a row that is taken, is no number as 'Rows of finals2000A' has it */
	FRINGE_WRONG_ROW = 10,
	/* a day that is asked for is in no row */
	FRINGE_ROW_LACKING = 11
};

/* kinds of sections of a session file; its days are of kind 3 or of kind 5 */
enum fringe_kind {
	FRINGE_KIND_STATION = 1,
	FRINGE_KIND_SOURCE = 2,
	FRINGE_KIND_DAY = 3,
	FRINGE_KIND_PASS = 4,
	FRINGE_KIND_MARKED_DAY = 5
};

/* What will be said of a track that was made elsewhere, by a call that is not there yet. */
enum fringe_track_fault {
	FRINGE_TRACK_ACCEPTED = 0,
	FRINGE_TRACK_PLACE = 1,  /* a segment does not start where the one before it ends, or runs past the samples */
	FRINGE_TRACK_LENGTH = 2, /* a segment has no sample, or more than 1,024 */
	FRINGE_TRACK_SAMPLE = 3  /* a segment misses one of its samples by more than the tolerance */
};

/* ---- Answers */

/* one number: see each call */
struct fringe_number {
	int64_t refusal, value;
};

struct fringe_epoch {
	int64_t refusal, day, ms;
};

/* n, minutes of TT from J2000; then the five Delaunay arguments l, l', F, D, Omega in ticks */
struct fringe_ticks {
	int64_t refusal, n;
	uint32_t l, lp, f, d, om;
};

/* E, in 10^-17 of a turn, 0 to 10^17 - 1, and the Earth rotation angle ERA, in ticks */
struct fringe_angle {
	int64_t refusal, e;
	uint32_t tick;
};

/* three rows of three, scaled by 2^30 */
struct fringe_rotation {
	int64_t xx, xy, xz, yx, yy, yz, zx, zy, zz;
};

/* how many records of each kind, and the kind of the days: FRINGE_KIND_DAY or FRINGE_KIND_MARKED_DAY */
struct fringe_counts {
	int64_t refusal, stations, sources, days, passes, day_kind;
};

struct fringe_station {
	int64_t refusal, id, x, y, z;
};

struct fringe_source {
	int64_t refusal, id, right_ascension, declination;
};

/* ut1_utc is as the file holds it: with the tide if mark is 1, without it if mark is 0, as in each record of kind 3 */
struct fringe_day {
	int64_t refusal, mjd, x, y, ut1_utc, tai_utc, mark;
};

struct fringe_pass {
	int64_t refusal, station1, station2, source, mjd, ms, step, samples, tolerance;
};

/* where a file's refusal arises; it is never refused itself */
struct fringe_place {
	int64_t number, section, record, field;
};

/* as used at an epoch: the pole, UT1-UTC with the tide, and ERA in ticks */
struct fringe_earth {
	int64_t refusal, x, y, ut1_used;
	uint32_t tick;
};

/* one prediction: seconds, and cycles of the 32 MHz clock */
struct fringe_record {
	double seconds, cycles;
};

struct fringe_host {
	int64_t refusal;
	struct fringe_record record;
};

/* how many segments each pass has, in the file's order; 0 beyond its last pass */
struct fringe_tracks {
	int64_t refusal;
	int64_t counts[FRINGE_MOST_PASSES];
};

/* records of days, FRINGE_DAY_NUMBERS each: MJD, x, y, UT1-UTC with the tide, TAI-UTC, mark 1; 0 behind the last */
struct fringe_days {
	int64_t refusal;
	int64_t days[FRINGE_MOST_DAYS_NUMBERS];
};

#ifdef __cplusplus
extern "C" {
#endif

/* ---- Angles and Earth rotation */

/* The sine and the cosine of a tick, from -2^30 to 2^30. Never refused. */
int64_t fringe_sine(uint32_t tick);
int64_t fringe_cosine(uint32_t tick);

/* The epoch that is `add` milliseconds later, 0 to 14,742,000,000; the day reached may pass 69,806. Refusal: 2. */
struct fringe_epoch fringe_later(int64_t day, int64_t ms, int64_t add);

/* n and the five arguments at an epoch, by a TAI-UTC of 0 to 99. Refusal: 2. */
struct fringe_ticks fringe_arguments(int64_t day, int64_t ms, int64_t tai_utc);

/*
 * The tide in UT1 at an epoch, by a TAI-UTC of 0 to 99: the rows with periods of up to 35 days. value: nanoseconds,
 * never beyond 2,723,000 either side. Refusal: 2.
 */
struct fringe_number fringe_tide(int64_t day, int64_t ms, int64_t tai_utc);

/* E and ERA of a day and of `f`, microseconds of UT1 in it, -100,000,000 to 86,500,000,000. Refusal: 2. */
struct fringe_angle fringe_angle_at(int64_t day, int64_t f);

/* The rotation by a tick: cos, -sin, 0; sin, cos, 0; 0, 0, 2^30. Never refused. */
struct fringe_rotation fringe_rotate(uint32_t tick);

/* ---- The session file */

/* Whether the file is right, how many records of each kind it has, and the kind of its days. Refusals: 1 to 4. */
struct fringe_counts fringe_check(const uint8_t *file, size_t file_bytes);

/*
 * Where the number that fringe_check gives arises first; zeros for a right file.
 * Number 1: section and record are 0. field is the first wrong number of the contents table, counted from 0 to 12; or
 * 13, where all of them are right and the file's length is not. A number that the file does not wholly hold is wrong. A
 * wrong count that is within its limits shows at the next section's first byte, which then does not follow from it, or
 * for the last section as 13.
 * Numbers 2, 3, 4: section is the kind, and record and field count from 0. For 3 and 4 the record is the later of the
 * two that do not follow each other, and field is 0.
 */
struct fringe_place fringe_fault(const uint8_t *file, size_t file_bytes);

/* The record at an index, counted from 0, of each kind. Refusals: 1 to 4, and 5 beyond the last. */
struct fringe_station fringe_station_at(const uint8_t *file, size_t file_bytes, uint64_t index);
struct fringe_source fringe_source_at(const uint8_t *file, size_t file_bytes, uint64_t index);
struct fringe_day fringe_day_at(const uint8_t *file, size_t file_bytes, uint64_t index);
struct fringe_pass fringe_pass_at(const uint8_t *file, size_t file_bytes, uint64_t index);

/*
 * Writes the session file of four lists of numbers, record after record, each record with its fields in the order of
 * 'Session file' above. day_kind is the kind that the days get in the file: FRINGE_KIND_MARKED_DAY, which keeps their
 * marks, or FRINGE_KIND_DAY, for which all marks are 0 and none is written. In the list a day has FRINGE_DAY_NUMBERS
 * numbers for either kind, its mark last. value: bytes written; FRINGE_RIGHT_FILE_BYTES are always enough.
 * A file that fringe_check accepts is what this call makes of its day_kind and of its records, byte for byte.
 * Refusals: 1 where a list is no whole number of records, or a count is outside its limits; 2 where day_kind is no kind
 * of days, or is FRINGE_KIND_DAY and a mark is not 0; 2 to 4 as fringe_check would give them for the file; 7. Where
 * day_kind is no kind of days, the length of their list is not judged.
 */
struct fringe_number fringe_write(int64_t day_kind,
				  const int64_t *stations, size_t station_numbers,
				  const int64_t *sources, size_t source_numbers,
				  const int64_t *days, size_t day_numbers,
				  const int64_t *passes, size_t pass_numbers,
				  uint8_t *room, size_t room_bytes);

/* ---- Days of the IERS's text: see 'Rows of finals2000A' above */

/*
 * The records of `count` days from the MJD `first` on, of rows of finals2000A; count is 2 to FRINGE_MOST_DAYS. tai_utc
 * has TAI-UTC for each of these days, in their order. The answer holds the records, so no room is lent. They are marked
 * 1, as rows hold full UT1, and fringe_write takes them as they are, as days of FRINGE_KIND_MARKED_DAY: of `days` the
 * first FRINGE_DAY_NUMBERS times count numbers.
 * Rows may be in any order, and may have days that are not asked for. For each day asked for its first row is taken; of
 * the other rows only the MJD is judged.
 * Refusals, the first of these: 1 where the text has more than FRINGE_ANY_ROWS_BYTES; 10 where the MJD of any row, or
 * x, y or UT1-UTC of a row that is taken, is no number of its form; 11 where a day asked for is in no row; 2 where
 * first or count is out of its range, tai_utc_numbers is not count, or a field of a record is outside the range that
 * 'Session file' gives it. So a day that no row has is 11 also where first or count is out of range.
 */
struct fringe_days fringe_days_from_rows(const uint8_t *text, size_t text_bytes, int64_t first, int64_t count,
					 const int64_t *tai_utc, size_t tai_utc_numbers);

/*
 * Writes records as rows, which fringe_days_from_rows reads back as the same records if their days follow each other
 * and it is given their TAI-UTC. Here days may come in any order. `days` has 2 to FRINGE_MOST_DAYS records, as struct
 * fringe_days has them, each marked 1, since rows hold full UT1.
 * A row has 185 columns and a line feed. Each field ends in its last column, has all of its decimals, and at least one
 * digit before the point; all other columns are blank. TAI-UTC and the mark are not written.
 * value: bytes written, FRINGE_ROW_BYTES for each record; FRINGE_MOST_ROWS_BYTES are always enough.
 * Refusals: 2 where the list is no whole number of records, their count or a field is out of its range, a mark is not
 * 1, or UT1-UTC is no multiple of FRINGE_ROW_UT1_STEP; 7.
 */
struct fringe_number fringe_rows_from_days(const int64_t *days, size_t day_numbers, uint8_t *room, size_t room_bytes);

/* ---- Delays between stations of the file */

/* The pole, UT1-UTC with the tide, and ERA, as used at an epoch. Refusals: 1 to 4, 2 also for the epoch, and 6. */
struct fringe_earth fringe_orientation(const uint8_t *file, size_t file_bytes, int64_t day, int64_t ms);

/*
 * The delay at an epoch between two stations, by their ids, for a source, by its id. value: ps, never beyond
 * FRINGE_MOST_DELAY either side. Refusals: 1 to 4, 2 also for ids and epoch, 5, 6.
 */
struct fringe_number fringe_delay(const uint8_t *file, size_t file_bytes, int64_t station1, int64_t station2,
				  int64_t source, int64_t day, int64_t ms);

/*
 * The delays of a pass's samples, by the pass's index, counted from 0. They are for plotting, and for looking at a
 * pass: whoever wants its track asks fringe_pass_track. Sample i, counted from 0, is the delay at the pass's epoch with
 * i times its step added. value: samples written; FRINGE_MOST_SAMPLES are always enough.
 * Refusals: 1 to 4; 5 where the pass, or a station or the source that it names, is not there; 6 where any sample's
 * epoch lacks its day or the day after; 7.
 */
struct fringe_number fringe_samples(const uint8_t *file, size_t file_bytes, uint64_t pass,
				    int64_t *room, size_t room_numbers);

/* ---- Tracks */

/*
 * A track is a row of segments, with four numbers to each: first sample, samples (1 to 1,024), offset A, rate r. A
 * segment fits if A + r j lies within 65,536 times the tolerance of 65,536 times its sample j, for each j from 0. The
 * first segment starts at sample 0, each other where the one before it ends, and the last ends at the last sample.
 * Of a track that the library makes each segment is the longest that fits from its start; its r is the least that fits,
 * 0 for a single sample, and its A the least for that r. So no track whose every segment fits has fewer segments. For n
 * samples it never has more than (n + 1) / 2 of them, rounded down.
 * Numbers of the room behind its last whole segment are not used. Behind the last segment that is written the room
 * stays as it was, and after a refusal all of it does.
 */

/*
 * The track of a pass, by the pass's index, counted from 0: the way from a session to a track. Its samples are the
 * delays that fringe_samples gives, for which you lend no memory, and the tolerance is the pass's own. value: segments
 * written, so 4 times as many numbers; FRINGE_MOST_TRACK_NUMBERS are always enough.
 * Refusals: 1 to 6 as fringe_samples gives them; then 8, exactly if no track fits the room. 7 is never given.
 */
struct fringe_number fringe_pass_track(const uint8_t *file, size_t file_bytes, uint64_t pass,
				       int64_t *room, size_t room_numbers);

/*
 * The track of samples that come from elsewhere: each within FRINGE_MOST_DELAY either side, 1 to FRINGE_MOST_SAMPLES of
 * them, with a tolerance from 0 to FRINGE_MOST_TOLERANCE. For a pass of a session ask fringe_pass_track. value, and the
 * room that is always enough: as there. Refusals: 2; and 8 exactly if no track fits the room.
 */
struct fringe_number fringe_track(const int64_t *samples, size_t sample_count, int64_t tolerance,
				  int64_t *room, size_t room_numbers);

/*
 * The tracks of all passes of the file, in its order, each behind the last: what fringe_pass_track gives for one pass
 * after the other, each with the room that those before it left.
 * counts[i]: segments of pass i, counted from 0. Its segments start at number 4 (counts[0] + .. + counts[i - 1]) of the
 * room, those of pass 0 at number 0, and have 4 counts[i] numbers. They are a track by themselves, as fringe_predict
 * takes it: samples count from 0 in each pass.
 * Room for (n + 1) / 2 segments of each pass of n samples is always enough, and FRINGE_ALL_TRACKS_NUMBERS, 4 MiB, for
 * every file. With less room the call may still be answered, since most tracks have far fewer segments; but it may then
 * take twice as long.
 * Refusals: 1 to 4 for the file. Then the passes are asked in turn, and the first that is refused decides: 5, 6 or 8 as
 * fringe_pass_track gives it with the room that is left. So pass 0's 8 is given before pass 1's 5. After a refusal all
 * counts are 0, and nothing is written, also where earlier passes had a track.
 */
struct fringe_tracks fringe_all_tracks(const uint8_t *file, size_t file_bytes, int64_t *room, size_t room_numbers);

/*
 * The delay that a track predicts at a sample, counted from 0. track_numbers is 4 times the track's segments. value:
 * ps, (A + r j) / 65,536 to the nearest, halves away from zero, with j counted from the segment's first sample. Numbers
 * behind the last whole segment are not read.
 * Refusal 9: no segment covers the sample; or any segment has a length outside 1-1,024, leaves a gap or an overlap, the
 * first is not at 0, there are over 4,096 samples in all, A is beyond 9 10^15 or r beyond 2 10^16 either side, or the
 * prediction at any sample is beyond 131,000,000,000 either side. A track that the library made is never malformed.
 */
struct fringe_number fringe_predict(const int64_t *track, size_t track_numbers, uint64_t sample);

/*
 * The same prediction as two doubles: seconds, the ps divided once by 1e12; and cycles of the 32 MHz clock, the ps
 * times 32, divided once by 1e6. It is asked for, and refused, as fringe_predict is.
 */
struct fringe_host fringe_host_at(const int64_t *track, size_t track_numbers, uint64_t sample);

#ifdef __cplusplus
}
#endif

/* ---- In this header alone */

/* A pointer to pass with length 0, for numbers and for bytes. Nothing is read or written there. */
static inline int64_t *fringe_no_numbers(void)
{
	static int64_t none;
	return &none;
}

static inline uint8_t *fringe_no_bytes(void)
{
	static uint8_t none;
	return &none;
}

/* A refusal in words. */
static inline const char *fringe_refusal_text(int64_t refusal)
{
	switch (refusal) {
	case FRINGE_ANSWERED:
		return "not refused";
	case FRINGE_WRONG_FILE:
		return "the contents table, a count or the length of the file is not as it must be";
	case FRINGE_OUT_OF_RANGE:
		return "a field or an argument is outside its range";
	case FRINGE_IDS_DO_NOT_RISE:
		return "the ids do not rise";
	case FRINGE_DAYS_NOT_CONSECUTIVE:
		return "the orientation days are not consecutive";
	case FRINGE_NOT_THERE:
		return "the station, source, day or pass asked for is not in the file";
	case FRINGE_DAY_LACKING:
		return "the file lacks the orientation record of an epoch's day or of the next day";
	case FRINGE_ROOM_TOO_SHORT:
		return "the lent room is too short";
	case FRINGE_NO_TRACK_FITS:
		return "no track of the samples fits the lent room";
	case FRINGE_NOT_PREDICTED:
		return "the track does not cover the sample, or is malformed";
	case FRINGE_WRONG_ROW:
		return "a row's MJD, or x, y or UT1-UTC of a row that is taken, is not printed as it must be";
	case FRINGE_ROW_LACKING:
		return "a day asked for is in no row";
	default:
		return "no refusal has this number";
	}
}

/* The name of a section, by its kind. */
static inline const char *fringe_section_name(int64_t kind)
{
	switch (kind) {
	case FRINGE_KIND_STATION:
		return "stations";
	case FRINGE_KIND_SOURCE:
		return "sources";
	case FRINGE_KIND_DAY:
	case FRINGE_KIND_MARKED_DAY:
		return "days";
	case FRINGE_KIND_PASS:
		return "passes";
	default:
		return "no section";
	}
}

/* The name of a field of a record, by its section's kind; fields count from 0. */
static inline const char *fringe_field_name(int64_t kind, int64_t field)
{
	static const char *const names[5][8] = {
		{"id", "X", "Y", "Z"},
		{"id", "right ascension", "declination"},
		{"MJD", "x", "y", "UT1-UTC", "TAI-UTC"},
		{"station 1", "station 2", "source", "MJD", "u", "step", "samples", "tolerance"},
		{"MJD", "x", "y", "UT1-UTC", "TAI-UTC", "mark"},
	};
	if (kind < 1 || kind > 5 || field < 0 || field > 7 || !names[kind - 1][field])
		return "no field";
	return names[kind - 1][field];
}

#endif
