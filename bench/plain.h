/* The equations in double precision, as one would write them down; for bench.c and pairs.c. */
#ifndef PLAIN_H
#define PLAIN_H

#include <math.h>

static const double PI = 3.14159265358979323846;

typedef struct {
    double l, a, b;
} Colour;

/* A difference and its signed parts. */
typedef struct {
    double difference, l, c, h;
} Parts;

static inline double degrees(double b, double a) {
    if (a == 0 && b == 0) return 0;
    double h = atan2(b, a) * 180 / PI;
    return h < 0 ? h + 360 : h;
}

static inline double cosine(double angle) { return cos(angle * PI / 180); }

static inline double seventh(double c) { return sqrt(pow(c, 7) / (pow(c, 7) + 6103515625.0)); }

/* CIEDE2000 by source 001's equations. */
static inline Parts plain_ciede2000(Colour s1, Colour s2) {
    double l1 = s1.l, a1 = s1.a, b1 = s1.b, l2 = s2.l, a2 = s2.a, b2 = s2.b;
    double mean_chroma = (sqrt(a1 * a1 + b1 * b1) + sqrt(a2 * a2 + b2 * b2)) / 2;
    double g = 0.5 * (1 - seventh(mean_chroma));
    a1 *= 1 + g;
    a2 *= 1 + g;
    double c1 = sqrt(a1 * a1 + b1 * b1), c2 = sqrt(a2 * a2 + b2 * b2);
    double h1 = degrees(b1, a1), h2 = degrees(b2, a2);
    double dh = h2 - h1, mean_h = h1 + h2;
    if (c1 * c2 == 0) {
        dh = 0;
    } else if (fabs(dh) <= 180) {
        mean_h /= 2;
    } else {
        dh += dh > 0 ? -360 : 360;
        mean_h = (mean_h + (mean_h < 360 ? 360 : -360)) / 2;
    }
    double dl = l2 - l1, dc = c2 - c1, dhh = 2 * sqrt(c1 * c2) * sin(dh / 2 * PI / 180);
    double mean_c = (c1 + c2) / 2, from_50 = (l1 + l2) / 2 - 50;
    double t = 1 - 0.17 * cosine(mean_h - 30) + 0.24 * cosine(2 * mean_h) + 0.32 * cosine(3 * mean_h + 6) -
               0.20 * cosine(4 * mean_h - 63);
    double turn = (mean_h - 275) / 25;
    double rt = -sin(60 * exp(-turn * turn) * PI / 180) * 2 * seventh(mean_c);
    double l = dl / (1 + 0.015 * from_50 * from_50 / sqrt(20 + from_50 * from_50));
    double c = dc / (1 + 0.045 * mean_c), h = dhh / (1 + 0.015 * mean_c * t);
    return (Parts){sqrt(l * l + c * c + h * h + rt * c * h), l, c, h};
}

#endif
