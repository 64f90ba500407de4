/* Reads lines of an MJD day and microseconds of UT1 in it, and prints each with ERFA's Earth rotation angle in radians.
   The day goes into one half of the Julian date and the microseconds into the other, so that the date loses nothing to rounding. */
#include <erfa.h>
#include <erfam.h>
#include <stdio.h>

int main(void) {
    long long day, f;
    while (scanf("%lld %lld", &day, &f) == 2) {
        double angle = eraEra00(ERFA_DJM0 + (double)day, (double)f / 86400e6);
        printf("%lld %lld %.17g\n", day, f, angle);
    }
    return 0;
}
