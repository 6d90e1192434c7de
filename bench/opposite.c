/* Exactly opposite hues: how often LittleCMS takes the other way round the hue circle, and how often
 * its CIEDE2000 changes when the samples are exchanged. */
#include "lahsufiq.h"

#include <lcms2.h>
#include <math.h>
#include <stdint.h>
#include <stdio.h>

static uint64_t state = 88172645463325252u;

static uint64_t next_random(void) {
    state ^= state << 13;
    state ^= state >> 7;
    state ^= state << 17;
    return state;
}

int main(void) {
    int pairs = 0, off = 0, asymmetric = 0;
    double most = 0;
    while (pairs < 3000) {
        /* (a, b) and minus some other multiple of it, in 1/10,000 */
        int u = (int)(next_random() % 20001) - 10000, v = (int)(next_random() % 20001) - 10000;
        int p = 1 + (int)(next_random() % 120), q = 1 + (int)(next_random() % 120);
        float l = (float)(next_random() % 1000001) / 10000;
        double a1 = p * u / 10000.0, b1 = p * v / 10000.0, a2 = -q * u / 10000.0, b2 = -q * v / 10000.0;
        if ((u == 0 && v == 0) || fabs(a1) > 128 || fabs(b1) > 128 || fabs(a2) > 128 || fabs(b2) > 128) continue;
        double exact;
        if (lq_ciede2000(l, (float)a1, (float)b1, l, (float)a2, (float)b2, 1, 1, 1, &exact) != 0) continue;
        cmsCIELab s = {l, a1, b1}, t = {l, a2, b2};
        double there = cmsCIE2000DeltaE(&s, &t, 1, 1, 1), back = cmsCIE2000DeltaE(&t, &s, 1, 1, 1);
        pairs++;
        if (fabs(there - exact) > 0.01) off++;
        if (fabs(there - back) > 0.01) asymmetric++;
        most = fmax(most, fabs(there - exact));
    }
    printf("\nExactly opposite hues: of %d pairs LittleCMS is off by more than 0.01 in %d (by up to %.2f), and in %d it\n"
           "changes by more than 0.01 when the samples are exchanged.\n", pairs, off, most, asymmetric);
    return 0;
}
