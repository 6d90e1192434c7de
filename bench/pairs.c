/* The program pairs as one would write it in C, for the benchmark: fgets, strtod, printf, with LCMS by
 * LittleCMS, else in plain double precision. It believes more than pairs does, as such programs do: numbers
 * of any form that strtod takes, spaces of any number.
 * LittleCMS gives no signed parts of CIEDE2000. With it the last three figures of a line are the plain
 * differences of lightness, chroma and hue, which CIE94 needs anyhow. */
#include "plain.h"

#include <stdbool.h>
#include <stdio.h>
#include <stdlib.h>

#ifdef LCMS
#include <lcms2.h>
#endif

static double cie76(Colour s1, Colour s2) {
    double dl = s2.l - s1.l, da = s2.a - s1.a, db = s2.b - s1.b;
    return sqrt(dl * dl + da * da + db * db);
}

/* CIE94 for graphic arts, sample 1 the standard; its parts are the differences before the weighting. */
static Parts cie94(Colour s1, Colour s2) {
    double c1 = sqrt(s1.a * s1.a + s1.b * s1.b), c2 = sqrt(s2.a * s2.a + s2.b * s2.b);
    double dl = s2.l - s1.l, da = s2.a - s1.a, db = s2.b - s1.b, dc = c2 - c1;
    double square = da * da + db * db - dc * dc, dh = sqrt(square > 0 ? square : 0);
    if (s1.a * s2.b < s2.a * s1.b) dh = -dh;
    double c = dc / (1 + 0.045 * c1), h = dh / (1 + 0.015 * c1);
    return (Parts){sqrt(dl * dl + c * c + h * h), dl, dc, dh};
}

/* CIEDE2000 and the last three figures of the line. */
static Parts ciede2000(Colour s1, Colour s2, Parts cie94) {
#ifdef LCMS
    cmsCIELab lab1 = {s1.l, s1.a, s1.b}, lab2 = {s2.l, s2.a, s2.b};
    return (Parts){cmsCIE2000DeltaE(&lab1, &lab2, 1, 1, 1), cie94.l, cie94.c, cie94.h};
#else
    (void)cie94;
    return plain_ciede2000(s1, s2);
#endif
}

static bool numbers(const char *line, double number[6]) {
    char *after;
    for (int i = 0; i < 6; i++, line = after) {
        number[i] = strtod(line, &after);
        if (after == line) return false;
    }
    return *line == '\n' || *line == 0;
}

static bool inside(Colour s) { return s.l >= 0 && s.l <= 100 && fabs(s.a) <= 128 && fabs(s.b) <= 128; }

static void answer(const char *line) {
    double n[6];
    if (!numbers(line, n)) {
        printf("refused\n");
        return;
    }
    Colour s1 = {n[0], n[1], n[2]}, s2 = {n[3], n[4], n[5]};
    if (!inside(s1) || !inside(s2)) {
        printf("refused\n");
        return;
    }
    Parts de94 = cie94(s1, s2), de00 = ciede2000(s1, s2, de94);
    printf("%.6f %.6f %.6f %.6f %.6f %.6f\n", cie76(s1, s2), de94.difference, de00.difference, de00.l, de00.c, de00.h);
}

int main(void) {
    char line[256];
    printf("de76 de94 de00 dl dc dh\n");
    while (fgets(line, sizeof line, stdin)) answer(line);
    return 0;
}
