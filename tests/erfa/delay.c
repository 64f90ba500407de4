/* Plane-wave delays in doubles, with ERFA's rotation angle and polar motion and without the tide in UT1.
   Reads lines of 16 whole numbers and prints each line again with the delay in ps behind it:
   station 1 (3, mm), station 2 (3, mm), right ascension and declination (ticks), MJD day, UTC millisecond,
   x, y (microarcseconds) and UT1-UTC (ns) of that day's record, and the same three of the next day's. */
#include <erfa.h>
#include <erfam.h>
#include <stdio.h>

static double between(long long today, long long tomorrow, long long ms) {
    return (double)today + (double)(tomorrow - today) * (double)ms / 86400e3;
}

static double radians(long long tick) { return (double)tick * (ERFA_D2PI / 4294967296.0); }

static double delay(const long long v[16]) {
    double baseline[3], equator[3], celestial[3], source[3], polar[3][3], turned[3][3];
    double microarcsecond = 1e-6 * ERFA_DAS2R;
    double x = between(v[10], v[13], v[9]) * microarcsecond, y = between(v[11], v[14], v[9]) * microarcsecond;
    double ut1_utc = between(v[12], v[15], v[9]) * 1e-9;
    double angle = eraEra00(ERFA_DJM0 + (double)v[8], ((double)v[9] * 1e-3 + ut1_utc) / 86400.0);
    for (int i = 0; i < 3; i++) baseline[i] = (double)(v[3 + i] - v[i]);
    eraPom00(x, y, 0.0, polar);
    eraTrxp(polar, baseline, equator);
    eraIr(turned);
    eraRz(angle, turned);
    eraTrxp(turned, equator, celestial);
    eraS2c(radians(v[6]), radians(v[7]), source);
    return -eraPdp(source, celestial) * 1e9 / ERFA_CMPS;
}

int main(void) {
    long long v[16];
    for (;;) {
        for (int i = 0; i < 16; i++)
            if (scanf("%lld", &v[i]) != 1) return 0;
        for (int i = 0; i < 16; i++) printf("%lld ", v[i]);
        printf("%.4f\n", delay(v));
    }
}
