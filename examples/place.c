/*
 * From a catalogue to a session file: the place of a source of date, from its ICRS place, by ERFA (Debian: liberfa-dev).
 *
 *     gcc place.c -lerfa -lm -o place
 *     ./place 12:29:06.69973 +02:03:08.5981 54196
 *     2234311431 23999085
 *
 * The words are right ascension in hours, declination in degrees, and the MJD, at whose 0h the place is wanted. It prints the two
 * numbers that a session file holds, in ticks, 1/2^32 of a turn: right ascension from the celestial intermediate origin, and
 * declination from the intermediate equator. Precession and nutation are those of IAU 2006/2000A. A place moves by at most 0.16
 * seconds of arc a day, 16 ns of delay on a baseline as long as the Earth's radius: once a session is enough.
 */
#include <erfa.h>
#include <erfam.h>
#include <math.h>
#include <stdio.h>
#include <stdlib.h>

/* hours or degrees of `12:29:06.69973`, with or without a sign; NAN for what is no such text */
static double sexagesimal(const char *text)
{
	int negative = text[0] == '-', end = 0;
	double whole, minutes, seconds;
	const char *digits = text + (negative || text[0] == '+');
	if (sscanf(digits, "%lf:%lf:%lf%n", &whole, &minutes, &seconds, &end) != 3 || digits[end])
		return NAN;
	if (whole < 0 || minutes < 0 || minutes >= 60 || seconds < 0 || seconds >= 60)
		return NAN;
	whole += minutes / 60 + seconds / 3600;
	return negative ? -whole : whole;
}

static long long ticks(double radians)
{
	return llround(radians / ERFA_D2PI * 4294967296.0);
}

int main(int count, char **words)
{
	double hours = count == 4 ? sexagesimal(words[1]) : NAN, degrees = count == 4 ? sexagesimal(words[2]) : NAN;
	char *end = words[0];
	double mjd = count == 4 ? strtod(words[3], &end) : NAN, x, y, s, turned[3][3], place[3], right_ascension, declination;
	if (!(hours >= 0 && hours < 24 && fabs(degrees) <= 90 && mjd >= 41317 && mjd <= 69806) || *end) {
		fprintf(stderr, "usage: place HH:MM:SS.S [+-]DD:MM:SS.S MJD\n");
		return 2;
	}
	eraXys06a(ERFA_DJM0, mjd, &x, &y, &s);
	eraC2ixys(x, y, s, turned);
	eraS2c(hours * 15 * ERFA_DD2R, degrees * ERFA_DD2R, place);
	eraRxp(turned, place, place);
	eraC2s(place, &right_ascension, &declination);
	printf("%lld %lld\n", ticks(eraAnp(right_ascension)) & 0xffffffff, ticks(declination));
	return 0;
}
