/* Reads lines of minutes of TT from J2000, and prints each with ERFA's five Delaunay arguments l, l', F, D, Omega in radians. */
#include <erfa.h>
#include <stdio.h>

int main(void) {
    long long n;
    while (scanf("%lld", &n) == 1) {
        double t = (double)n / 52596000.0;
        printf("%lld %.17g %.17g %.17g %.17g %.17g\n", n, eraFal03(t), eraFalp03(t), eraFaf03(t), eraFad03(t), eraFaom03(t));
    }
    return 0;
}
