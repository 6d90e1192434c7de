/* The benchmark; bench/run builds and starts it. It writes its tables to standard output.
 * Times are processor time, so that other work on the machine changes them little; each is the median
 * of several rounds, in which the methods take turns on the same data. */
#define _GNU_SOURCE
#include "lahsufiq.h"
#include "plain.h"

#include <fcntl.h>
#include <stdio.h>
#include <stdlib.h>
#include <string.h>
#include <sys/resource.h>
#include <sys/wait.h>
#include <time.h>
#include <unistd.h>

#ifdef LCMS
#include <lcms2.h>
#endif

enum { ROUNDS = 9, PAIRS = 20000, READINGS = 40, MOST_SWATCHES = 4096, CENTRES = 12, LINES = 200000, FILES = 200 };

typedef struct {
    float l, a, b;
} Sample;

/* --- repeatable random numbers (SplitMix64) --- */

static uint64_t state = 1;

static uint64_t next_random(void) {
    uint64_t z = state += 0x9e3779b97f4a7c15;
    z = (z ^ z >> 30) * 0xbf58476d1ce4e5b9;
    z = (z ^ z >> 27) * 0x94d049bb133111eb;
    return z ^ z >> 31;
}

/* A whole number of 1/10,000 from low to high. */
static int32_t random_grid(int32_t low, int32_t high) {
    return low + (int32_t)(next_random() % (uint64_t)(high - low + 1));
}

static int32_t within(int32_t x, int32_t low, int32_t high) { return x < low ? low : x > high ? high : x; }

/* --- time --- */

static double processor_seconds(void) {
    struct timespec now;
    clock_gettime(CLOCK_PROCESS_CPUTIME_ID, &now);
    return (double)now.tv_sec + 1e-9 * (double)now.tv_nsec;
}

static int rising(const void *x, const void *y) {
    double a = *(const double *)x, b = *(const double *)y;
    return (a > b) - (a < b);
}

static double median(double times[ROUNDS]) {
    qsort(times, ROUNDS, sizeof times[0], rising);
    return times[ROUNDS / 2];
}

/* --- the three methods --- */

static double proved(const Sample *s1, const Sample *s2) {
    double difference;
    lq_ciede2000(s1->l, s1->a, s1->b, s2->l, s2->a, s2->b, 1, 1, 1, &difference);
    return difference;
}

static Colour colour(const Sample *s) { return (Colour){s->l, s->a, s->b}; }

static double plain(const Sample *s1, const Sample *s2) { return plain_ciede2000(colour(s1), colour(s2)).difference; }

#ifdef LCMS
static double lcms(const Sample *s1, const Sample *s2) {
    cmsCIELab lab1 = {s1->l, s1->a, s1->b}, lab2 = {s2->l, s2->a, s2->b};
    return cmsCIE2000DeltaE(&lab1, &lab2, 1, 1, 1);
}
#endif

/* CIE94 as LittleCMS has it: the constants for textiles, and neither sample a standard. */
static double proved94(const Sample *s1, const Sample *s2) {
    bool textile = true, standard = false;
    double difference;
    lq_cie94(s1->l, s1->a, s1->b, s2->l, s2->a, s2->b, 1, 1, 1, textile, standard, &difference);
    return difference;
}

static double plain94(const Sample *s1, const Sample *s2) {
    double a1 = s1->a, b1 = s1->b, a2 = s2->a, b2 = s2->b;
    double c1 = sqrt(a1 * a1 + b1 * b1), c2 = sqrt(a2 * a2 + b2 * b2), mean = sqrt(c1 * c2);
    double dl = (double)s2->l - s1->l, da = a2 - a1, db = b2 - b1, dc = c2 - c1;
    double hue = da * da + db * db - dc * dc, sc = 1 + 0.048 * mean, sh = 1 + 0.014 * mean;
    return sqrt(dl * dl + dc * dc / (sc * sc) + (hue > 0 ? hue : 0) / (sh * sh));
}

#ifdef LCMS
static double lcms94(const Sample *s1, const Sample *s2) {
    cmsCIELab lab1 = {s1->l, s1->a, s1->b}, lab2 = {s2->l, s2->a, s2->b};
    return cmsCIE94DeltaE(&lab1, &lab2);
}
#endif

/* --- a pair --- */

typedef double (*Method)(const Sample *, const Sample *);

#ifdef LCMS
enum { METHODS = 3 };
static const Method CIEDE2000[METHODS] = {proved, plain, lcms}, CIE94[METHODS] = {proved94, plain94, lcms94};
static const char *NAME[METHODS] = {"Lahsufiq", "plain double", "LittleCMS"};
#else
enum { METHODS = 2 };
static const Method CIEDE2000[METHODS] = {proved, plain}, CIE94[METHODS] = {proved94, plain94};
static const char *NAME[METHODS] = {"Lahsufiq", "plain double"};
#endif

static volatile double sink;

static Sample random_sample(void) {
    return (Sample){(float)(random_grid(0, 1000000) / 1e4), (float)(random_grid(-1280000, 1280000) / 1e4),
                    (float)(random_grid(-1280000, 1280000) / 1e4)};
}

static float moved(float x, int32_t by, int32_t low, int32_t high) {
    int32_t grid = (int32_t)lrint(x * 1e4) + random_grid(-by, by);
    return (float)(within(grid, low, high) / 1e4);
}

static Sample near(Sample s, int32_t by) {
    return (Sample){moved(s.l, by, 0, 1000000), moved(s.a, by, -1280000, 1280000), moved(s.b, by, -1280000, 1280000)};
}

/* Prints the head of a table: the columns given, a column a method, and the ratios to the others. */
static void head(const char *columns) {
    printf("%s", columns);
    for (int m = 0; m < METHODS; m++) printf(" %s |", NAME[m]);
    for (int m = 1; m < METHODS; m++) printf(" to %s |", NAME[m]);
    printf("\n|");
    for (const char *c = columns + 1; *c; c++)
        if (*c == '|') printf("---|");
    for (int m = 0; m < 2 * METHODS - 1; m++) printf("---|");
    printf("\n");
}

/* The rest of a row: the times with so many places, and the ratios with theirs. */
static void row(const double times[METHODS], double unit, int places, int ratio_places) {
    for (int m = 0; m < METHODS; m++) printf(" %.*f |", places, times[m] * unit);
    for (int m = 1; m < METHODS; m++) printf(" %.*f |", ratio_places, times[0] / times[m]);
    printf("\n");
}

static void pairs_of(const char *what, const Method methods[METHODS], const Sample *first, const Sample *second) {
    double times[METHODS][ROUNDS], medians[METHODS];
    for (int round = 0; round < ROUNDS; round++)
        for (int m = 0; m < METHODS; m++) {
            double began = processor_seconds(), sum = 0;
            for (int i = 0; i < PAIRS; i++) sum += methods[m](&first[i], &second[i]);
            times[m][round] = (processor_seconds() - began) / PAIRS;
            sink = sum;
        }
    for (int m = 0; m < METHODS; m++) medians[m] = median(times[m]);
    printf("| %s |", what);
    row(medians, 1e9, 0, 2);
}

/* The differences of all pairs: Lahsufiq's in one call, those of another method in a loop. */
static void differences_of(int m, const Sample *first, const Sample *second, double differences[PAIRS]) {
    static uint8_t refusals[PAIRS];
    size_t answered;
    _Static_assert(sizeof(Sample) == 3 * sizeof(float), "samples are their floats one after the other");
    if (m == 0)
        lq_ciede2000_many((const float *)first, 3 * PAIRS, (const float *)second, 3 * PAIRS, 1, 1, 1, differences,
                          PAIRS, refusals, PAIRS, &answered);
    else
        for (int i = 0; i < PAIRS; i++) differences[i] = CIEDE2000[m](&first[i], &second[i]);
}

/* The call on many pairs has to give what the call on one pair gives. */
static void compare_many(const char *what, const Sample *first, const Sample *second) {
    static double differences[PAIRS];
    int other = 0;
    differences_of(0, first, second, differences);
    for (int i = 0; i < PAIRS; i++) other += differences[i] != proved(&first[i], &second[i]);
    if (other) fprintf(stderr, "bench: pairs %s: %d of %d differences change in one call\n", what, other, PAIRS);
}

static void many_of(const char *what, const Sample *first, const Sample *second) {
    static double differences[METHODS][PAIRS];
    double times[METHODS][ROUNDS], medians[METHODS];
    for (int round = 0; round < ROUNDS; round++)
        for (int m = 0; m < METHODS; m++) {
            double began = processor_seconds();
            differences_of(m, first, second, differences[m]);
            times[m][round] = (processor_seconds() - began) / PAIRS;
            sink = differences[m][round];
        }
    for (int m = 0; m < METHODS; m++) medians[m] = median(times[m]);
    printf("| %s |", what);
    row(medians, 1e9, 0, 2);
    compare_many(what, first, second);
}

/* How far a method's CIE94 lies from Lahsufiq's, at most. */
static double deviation(Method method, const Sample *first, const Sample *second) {
    double most = 0;
    for (int i = 0; i < PAIRS; i++)
        most = fmax(most, fabs(method(&first[i], &second[i]) - proved94(&first[i], &second[i])));
    return most;
}

static void bench_pairs(void) {
    static Sample first[PAIRS], far_second[PAIRS], near_second[PAIRS];
    for (int i = 0; i < PAIRS; i++) {
        first[i] = random_sample();
        far_second[i] = random_sample();
        near_second[i] = near(first[i], 30000);
    }
    printf("One CIEDE2000 difference, nanoseconds (ratio: Lahsufiq's time to the other's)\n\n");
    head("| Pairs |");
    pairs_of("anywhere", CIEDE2000, first, far_second);
    pairs_of("near each other", CIEDE2000, first, near_second);
    printf("\nCIEDE2000 of %d pairs in one call, nanoseconds a pair, beside a loop\n\n", PAIRS);
    head("| Pairs |");
    many_of("anywhere", first, far_second);
    many_of("near each other", first, near_second);
    printf("\nOne CIE94 difference for textiles without a standard, nanoseconds\n\n");
    head("| Pairs |");
    pairs_of("anywhere", CIE94, first, far_second);
    pairs_of("near each other", CIE94, first, near_second);
    for (int m = 1; m < METHODS; m++)
        printf("\nCIE94 of these pairs: %s deviates by at most %.6f", NAME[m],
               fmax(deviation(CIE94[m], first, far_second), deviation(CIE94[m], first, near_second)));
    printf("\n\n");
}

/* --- a search --- */

typedef struct {
    size_t size;
    int32_t l[MOST_SWATCHES], a[MOST_SWATCHES], b[MOST_SWATCHES];
    Sample swatch[MOST_SWATCHES];
} Deck;

static int by_lightness(const void *x, const void *y) {
    const int32_t *a = x, *b = y;
    return (a[0] > b[0]) - (a[0] < b[0]);
}

static int32_t rows[MOST_SWATCHES][3];

/* The deck of the first rows, in rising lightness. */
static void take_rows(Deck *deck, size_t size) {
    qsort(rows, size, sizeof rows[0], by_lightness);
    deck->size = size;
    for (size_t i = 0; i < size; i++) {
        deck->l[i] = rows[i][0];
        deck->a[i] = rows[i][1];
        deck->b[i] = rows[i][2];
        deck->swatch[i] = (Sample){(float)(rows[i][0] / 1e4), (float)(rows[i][1] / 1e4), (float)(rows[i][2] / 1e4)};
    }
}

/* Swatches spread over L from 0 to 100, a and b from -100 to 100. */
static void fill(Deck *deck, size_t size) {
    for (size_t i = 0; i < size; i++) {
        rows[i][0] = random_grid(0, 1000000);
        rows[i][1] = random_grid(-1000000, 1000000);
        rows[i][2] = random_grid(-1000000, 1000000);
    }
    take_rows(deck, size);
}

/* Swatches around a few colours, within 4 of one of them in L, a and b. */
static void fill_clusters(Deck *deck, size_t size) {
    int32_t centre[CENTRES][3];
    for (int i = 0; i < CENTRES; i++) {
        centre[i][0] = random_grid(100000, 900000);
        centre[i][1] = random_grid(-800000, 800000);
        centre[i][2] = random_grid(-800000, 800000);
    }
    for (size_t i = 0; i < size; i++)
        for (int x = 0; x < 3; x++) rows[i][x] = centre[i % CENTRES][x] + random_grid(-40000, 40000);
    take_rows(deck, size);
}

static size_t search(const Deck *deck, const Sample *r, float tolerance, uint16_t *places) {
    size_t count;
    lq_search(deck->l, deck->size, deck->a, deck->size, deck->b, deck->size, r->l, r->a, r->b, 1, 1, 1, tolerance,
              places, MOST_SWATCHES, &count);
    return count;
}

static size_t scan(const Deck *deck, const Sample *r, float tolerance, uint16_t *places, Method method) {
    size_t count = 0;
    for (size_t i = 0; i < deck->size; i++)
        if (method(&deck->swatch[i], r) <= tolerance) places[count++] = (uint16_t)i;
    return count;
}

typedef struct {
    Deck deck;
    Sample readings[READINGS];
} Searched;

/* A deck, and readings near swatches of it. */
static void draw(Searched *s, size_t size, void (*filled)(Deck *, size_t)) {
    filled(&s->deck, size);
    for (int i = 0; i < READINGS; i++) s->readings[i] = near(s->deck.swatch[next_random() % s->deck.size], 20000);
}

/* The matches of so many searches, Lahsufiq's or scans. */
static size_t matches_of(int m, const Searched *s, float tolerance, int searches) {
    static uint16_t places[MOST_SWATCHES];
    size_t count = 0;
    for (int i = 0; i < searches; i++) {
        const Sample *r = &s->readings[i % READINGS];
        count += m == 0 ? search(&s->deck, r, tolerance, places) : scan(&s->deck, r, tolerance, places, CIEDE2000[m]);
    }
    return count;
}

/* Prints a row; gives the time of Lahsufiq. */
static double searches_of(const Searched *s, float tolerance) {
    double times[METHODS][ROUNDS], medians[METHODS];
    size_t matches[METHODS] = {0};
    /* small decks are searched more often, so that a round is long enough to be timed */
    int searches = READINGS * (int)(MOST_SWATCHES / s->deck.size);
    for (int round = 0; round < ROUNDS; round++)
        for (int m = 0; m < METHODS; m++) {
            double began = processor_seconds();
            matches[m] = matches_of(m, s, tolerance, searches);
            times[m][round] = (processor_seconds() - began) / searches;
        }
    for (int m = 0; m < METHODS; m++) medians[m] = median(times[m]);
    printf("| %zu | %.1f | %.2f |", s->deck.size, tolerance, (double)matches[0] / searches);
    row(medians, 1e6, 2, 3);
    for (int m = 1; m < METHODS; m++)
        if (matches[m] != matches[0])
            fprintf(stderr, "bench: %s finds %zu matches, not %zu\n", NAME[m], matches[m], matches[0]);
    return medians[0];
}

enum { SIZES = 4, TOLERANCES = 4 };

/* No swatch matches at tolerance 0: it shows what every search takes, above all the test of the deck. */
static const float TOLERANCE[TOLERANCES] = {0, 0.5f, 2, 5};

static void print_growth(const size_t size[SIZES], double times[SIZES][TOLERANCES]) {
    static const int STEP[][2] = {{0, 1}, {1, 2}, {2, 3}, {1, 3}};
    enum { STEPS = sizeof STEP / sizeof STEP[0] };
    printf("\nHow many times as long a search of a larger deck takes\n\n| Tolerance |");
    for (int i = 0; i < STEPS; i++) {
        size_t from = size[STEP[i][0]], to = size[STEP[i][1]];
        printf(" %zu to %zu, %zu times as many |", from, to, to / from);
    }
    printf("\n|---|");
    for (int i = 0; i < STEPS; i++) printf("---|");
    for (int t = 0; t < TOLERANCES; t++) {
        printf("\n| %.1f |", TOLERANCE[t]);
        for (int i = 0; i < STEPS; i++) printf(" %.1f |", times[STEP[i][1]][t] / times[STEP[i][0]][t]);
    }
    printf("\n");
}

static void bench_searches(void) {
    static const size_t SIZE[SIZES] = {16, 256, 1024, 4096};
    static Searched spread[SIZES], clustered;
    double times[SIZES][TOLERANCES];
    draw(&spread[0], SIZE[0], fill);
    draw(&spread[1], SIZE[1], fill);
    draw(&spread[3], SIZE[3], fill);
    /* the newer decks from a seed of their own, so that the random data of the others do not change */
    uint64_t others = state;
    state = 1024;
    draw(&spread[2], SIZE[2], fill);
    draw(&clustered, MOST_SWATCHES, fill_clusters);
    state = others;

    printf("One search, microseconds, beside a scan of the whole deck (ratio: Lahsufiq's time to the scan's)\n\n");
    head("| Swatches | Tolerance | Matches |");
    for (int s = 0; s < SIZES; s++)
        for (int t = 0; t < TOLERANCES; t++) times[s][t] = searches_of(&spread[s], TOLERANCE[t]);
    print_growth(SIZE, times);
    printf("\nOne search of a deck whose swatches lie around %d colours, microseconds, beside a scan\n\n", CENTRES);
    head("| Swatches | Tolerance | Matches |");
    for (int t = 0; t < TOLERANCES; t++) searches_of(&clustered, TOLERANCE[t]);
    printf("\n");
}

/* --- the text program --- */

/* Random lines in a file of their own, whose name replaces the pattern. */
static void write_lines(char *file) {
    int written = mkstemp(file);
    FILE *lines = written < 0 ? NULL : fdopen(written, "w");
    if (!lines) {
        perror(file);
        exit(1);
    }
    for (int i = 0; i < LINES; i++) {
        Sample s1 = random_sample(), s2 = near(s1, 200000);
        fprintf(lines, "%.4f %.4f %.4f %.4f %.4f %.4f\n", s1.l, s1.a, s1.b, s2.l, s2.a, s2.b);
    }
    fclose(lines);
}

/* Starts a program that reads the file and writes to the descriptor. */
static pid_t start(const char *program, const char *file, int out) {
    pid_t child = fork();
    if (child != 0) return child;
    dup2(open(file, O_RDONLY), 0);
    dup2(out, 1);
    execl(program, program, (char *)NULL);
    perror(program);
    _exit(127);
}

/* Waits for a program's end; its user and system time. */
static double seconds_of(pid_t child, const char *program) {
    int status;
    struct rusage used;
    if (wait4(child, &status, 0, &used) != child || status != 0) {
        fprintf(stderr, "bench: %s failed\n", program);
        exit(1);
    }
    return (double)used.ru_utime.tv_sec + 1e-6 * (double)used.ru_utime.tv_usec + (double)used.ru_stime.tv_sec +
           1e-6 * (double)used.ru_stime.tv_usec;
}

/* What a program answers to the file, as a stream. */
static FILE *answers(const char *program, const char *file) {
    FILE *out = tmpfile();
    if (!out) {
        perror("tmpfile");
        exit(1);
    }
    seconds_of(start(program, file, fileno(out)), program);
    rewind(out);
    return out;
}

/* How far the first figures of another program's lines lie from those of pairs, at most; infinite where a
 * line is no line of figures. */
static double apart(const char *program, const char *other, const char *file, int figures) {
    FILE *found = answers(program, file), *beside = answers(other, file);
    char line[2][256];
    double most = 0;
    for (int i = 0; fgets(line[0], 256, found); i++) {
        if (!fgets(line[1], 256, beside)) most = INFINITY;
        char *x = line[0], *y = line[1], *after[2];
        for (int f = 0; i > 0 && f < figures; f++, x = after[0], y = after[1]) {
            double difference = strtod(x, &after[0]) - strtod(y, &after[1]);
            most = after[0] == x || after[1] == y ? INFINITY : fmax(most, fabs(difference));
        }
    }
    if (fgets(line[1], 256, beside)) most = INFINITY;
    fclose(found);
    fclose(beside);
    return most;
}

/* The programs: pairs, and bench/pairs.c in plain double and with LittleCMS. */
static void bench_program(char *program[METHODS]) {
    static const int SAME_FIGURES[3] = {6, 6, 3};
    char file[] = "/tmp/lahsufiq-bench-XXXXXX";
    double times[METHODS][ROUNDS], medians[METHODS];
    write_lines(file);
    int nowhere = open("/dev/null", O_WRONLY);
    for (int round = 0; round < ROUNDS; round++)
        for (int m = 0; m < METHODS; m++) times[m][round] = seconds_of(start(program[m], file, nowhere), program[m]);
    for (int m = 0; m < METHODS; m++) medians[m] = median(times[m]);
    printf("The program pairs, seconds, beside bench/pairs.c: fgets, strtod, printf (ratio: Lahsufiq's time to the "
           "other's)\n\n");
    head("| Lines |");
    printf("| %d |", LINES);
    row(medians, 1, 3, 2);
    printf("\npairs answers %.0f lines a second, %.0f nanoseconds a line", LINES / medians[0],
           1e9 * medians[0] / LINES);
    for (int m = 1; m < METHODS; m++)
        printf("\n\nThe first %d figures of these lines: %s deviates by at most %.6f", SAME_FIGURES[m], NAME[m],
               apart(program[0], program[m], file, SAME_FIGURES[m]));
    printf("\n\n");
    close(nowhere);
    unlink(file);
}

/* --- deck files --- */

enum { WRITING, READING, COPYING, JOBS };
enum { HEAD_BYTES = 7, SWATCH_BYTES = 12, MOST_BYTES = HEAD_BYTES + SWATCH_BYTES * MOST_SWATCHES };

static uint8_t written[MOST_BYTES], copied[MOST_BYTES];

/* Copies are made through this, so that the compiler cannot leave them out. */
static void *(*volatile copy)(void *, const void *, size_t) = memcpy;

/* Does one job once; the room is always that of the largest deck. Gives 0 where it is not refused. */
static uint32_t file_job(int job, const Deck *deck, Deck *again) {
    size_t bytes = HEAD_BYTES + SWATCH_BYTES * deck->size, length;
    switch (job) {
    case WRITING:
        return lq_deck_write(deck->l, deck->size, deck->a, deck->size, deck->b, deck->size, written, MOST_BYTES,
                             &length);
    case READING:
        return lq_deck_read(written, bytes, again->l, MOST_SWATCHES, again->a, MOST_SWATCHES, again->b, MOST_SWATCHES,
                            &again->size);
    default:
        copy(copied, written, bytes);
        return 0;
    }
}

static bool same_deck(const Deck *x, const Deck *y) {
    size_t bytes = x->size * sizeof x->l[0];
    return x->size == y->size && !memcmp(x->l, y->l, bytes) && !memcmp(x->a, y->a, bytes) && !memcmp(x->b, y->b, bytes);
}

/* The medians of the jobs on a deck. */
static void time_files(const Deck *deck, double medians[JOBS]) {
    static Deck again;
    double times[JOBS][ROUNDS];
    uint32_t refused = 0;
    /* small decks more often, so that a round is long enough to be timed */
    int repeats = (int)(FILES * (MOST_SWATCHES / deck->size));
    for (int round = 0; round < ROUNDS; round++)
        for (int job = 0; job < JOBS; job++) {
            double began = processor_seconds();
            for (int i = 0; i < repeats; i++) refused |= file_job(job, deck, &again);
            times[job][round] = (processor_seconds() - began) / repeats;
        }
    for (int job = 0; job < JOBS; job++) medians[job] = median(times[job]);
    if (refused || !same_deck(deck, &again))
        fprintf(stderr, "bench: a deck of %zu swatches is not read as it was written\n", deck->size);
}

static void bench_files(void) {
    static const size_t SIZE[] = {16, 256, 4096};
    static const char *JOB[JOBS] = {"writing", "reading", "memcpy"};
    static Deck deck;
    double times[3][JOBS];
    printf("One deck file, microseconds, beside memcpy of its bytes (ratio: Lahsufiq's time to memcpy's)\n\n");
    printf("| Swatches | Bytes | writing | reading | memcpy | writing to memcpy | reading to memcpy |\n");
    printf("|---|---|---|---|---|---|---|\n");
    for (int s = 0; s < 3; s++) {
        fill(&deck, SIZE[s]);
        time_files(&deck, times[s]);
        printf("| %zu | %zu |", deck.size, HEAD_BYTES + SWATCH_BYTES * deck.size);
        for (int job = 0; job < JOBS; job++) printf(" %.3f |", times[s][job] * 1e6);
        for (int job = 0; job < COPYING; job++) printf(" %.1f |", times[s][job] / times[s][COPYING]);
        printf("\n");
    }
    printf("\nHow a deck file's time grows with the deck (both steps are 16 times as many swatches)\n\n");
    printf("| | 16 to 256 swatches | 256 to 4096 |\n|---|---|---|\n");
    for (int job = 0; job < JOBS; job++)
        printf("| %s | %.1f times | %.1f times |\n", JOB[job], times[1][job] / times[0][job],
               times[2][job] / times[1][job]);
}

/* --- the lab's text --- */

enum { HEAD_LINES = 5, MOST_ROW = 41, MOST_TEXT = 256 + MOST_ROW * MOST_SWATCHES, IMPORTS = 40 };

typedef struct {
    size_t size;
    uint32_t code[MOST_SWATCHES];
    int32_t l[MOST_SWATCHES], a[MOST_SWATCHES], b[MOST_SWATCHES];
} Imported;

typedef size_t (*Importer)(const char *text, size_t length, Imported *to);

/* Each gives the number of swatches, or SIZE_MAX for a refused text. */
static size_t import_proved(const char *text, size_t length, Imported *to) {
    uint32_t refusal = lq_import((const uint8_t *)text, length, to->code, MOST_SWATCHES, to->l, MOST_SWATCHES, to->a,
                                 MOST_SWATCHES, to->b, MOST_SWATCHES, &to->size);
    return refusal ? SIZE_MAX : to->size;
}

typedef struct {
    uint32_t code;
    int32_t lab[3];
    int row;
} Record;

static int by_lightness_then_row(const void *x, const void *y) {
    const Record *a = x, *b = y;
    return a->lab[0] != b->lab[0] ? (a->lab[0] > b->lab[0]) - (a->lab[0] < b->lab[0]) : a->row - b->row;
}

/* The next line without its newline, in `line`; NULL where there is none, or where it is too long. */
static const char *next_line(const char *text, const char *end, char line[128]) {
    const char *newline = memchr(text, '\n', (size_t)(end - text));
    if (!newline || newline - text > 127) return NULL;
    memcpy(line, text, (size_t)(newline - text));
    line[newline - text] = 0;
    return newline + 1;
}

/* The same text as one would read it: lines, strcmp, strtoul, strtod, qsort. It believes more than the
 * library does, as such programs do: fields of any form that strtod takes, spaces of any number. */
static size_t import_plain(const char *text, size_t length, Imported *to) {
    static const char *NAMES[4] = {"SAMPLE_ID", "LAB_L", "LAB_A", "LAB_B"};
    static Record records[MOST_SWATCHES];
    const char *end = text + length;
    char line[128];
    int field[4];
    size_t count = 0, sets;
    if (!(text = next_line(text, end, line)) || strcmp(line, "BEGIN_DATA_FORMAT")) return SIZE_MAX;
    if (!(text = next_line(text, end, line))) return SIZE_MAX;
    char *word = strtok(line, " ");
    for (int i = 0; i < 4; i++, word = strtok(NULL, " ")) {
        field[i] = 0;
        while (word && field[i] < 4 && strcmp(word, NAMES[field[i]])) field[i]++;
        if (!word || field[i] == 4) return SIZE_MAX;
    }
    if (!(text = next_line(text, end, line)) || strcmp(line, "END_DATA_FORMAT")) return SIZE_MAX;
    if (!(text = next_line(text, end, line)) || strncmp(line, "NUMBER_OF_SETS ", 15)) return SIZE_MAX;
    sets = strtoul(line + 15, NULL, 10);
    if (!(text = next_line(text, end, line)) || strcmp(line, "BEGIN_DATA")) return SIZE_MAX;
    for (;;) {
        if (!(text = next_line(text, end, line))) return SIZE_MAX;
        if (!strcmp(line, "END_DATA")) break;
        if (count == MOST_SWATCHES) return SIZE_MAX;
        Record *record = &records[count];
        char *at = line, *after;
        for (int i = 0; i < 4; i++, at = after) {
            if (field[i] == 0) {
                unsigned long code = strtoul(at, &after, 10);
                if (code > UINT32_MAX) return SIZE_MAX;
                record->code = (uint32_t)code;
            } else {
                double x = strtod(at, &after);
                if (field[i] == 1 ? !(x >= 0 && x <= 100) : !(fabs(x) <= 128)) return SIZE_MAX;
                record->lab[field[i] - 1] = (int32_t)lrint(x * 1e4);
            }
            if (after == at) return SIZE_MAX;
        }
        if (*at) return SIZE_MAX;
        record->row = (int)count++;
    }
    if (text != end || count != sets) return SIZE_MAX;
    qsort(records, count, sizeof records[0], by_lightness_then_row);
    for (size_t i = 0; i < count; i++) {
        to->code[i] = records[i].code;
        to->l[i] = records[i].lab[0];
        to->a[i] = records[i].lab[1];
        to->b[i] = records[i].lab[2];
    }
    return to->size = count;
}

/* A text of so many rows in no order. */
static size_t lab_text(char text[MOST_TEXT], size_t rows) {
    size_t length = (size_t)sprintf(text,
                                    "BEGIN_DATA_FORMAT\nSAMPLE_ID LAB_L LAB_A LAB_B\nEND_DATA_FORMAT\n"
                                    "NUMBER_OF_SETS %zu\nBEGIN_DATA\n",
                                    rows);
    for (size_t i = 0; i < rows; i++) {
        double l = random_grid(0, 1000000) / 1e4, a = random_grid(-1000000, 1000000) / 1e4,
               b = random_grid(-1000000, 1000000) / 1e4;
        length += (size_t)sprintf(text + length, "%u %.4f %.4f %.4f\n", (uint32_t)next_random(), l, a, b);
    }
    return length + (size_t)sprintf(text + length, "END_DATA\n");
}

static bool same_import(const Imported *x, const Imported *y) {
    size_t bytes = x->size * sizeof x->l[0];
    return x->size == y->size && !memcmp(x->code, y->code, bytes) && !memcmp(x->l, y->l, bytes) &&
           !memcmp(x->a, y->a, bytes) && !memcmp(x->b, y->b, bytes);
}

static void bench_imports(void) {
    static const size_t ROWS[] = {16, 256, 4096};
    static const Importer IMPORTER[2] = {import_proved, import_plain};
    static char text[MOST_TEXT];
    static Imported imported[2];
    printf("\nOne lab text, lines a second, beside strtod and qsort (ratio: Lahsufiq's time to the other's)\n\n");
    printf("| Rows | Bytes | Lahsufiq | strtod and qsort | to strtod and qsort |\n|---|---|---|---|---|\n");
    for (int s = 0; s < 3; s++) {
        size_t length = lab_text(text, ROWS[s]), lines = ROWS[s] + HEAD_LINES + 1;
        double times[2][ROUNDS], medians[2];
        /* small texts more often, so that a round is long enough to be timed */
        int repeats = (int)(IMPORTS * MOST_SWATCHES / ROWS[s]);
        for (int round = 0; round < ROUNDS; round++)
            for (int m = 0; m < 2; m++) {
                double began = processor_seconds();
                size_t count = 0;
                for (int i = 0; i < repeats; i++) count += IMPORTER[m](text, length, &imported[m]);
                times[m][round] = (processor_seconds() - began) / repeats;
                if (count != ROWS[s] * (size_t)repeats) fprintf(stderr, "bench: a lab text is refused\n");
            }
        for (int m = 0; m < 2; m++) medians[m] = median(times[m]);
        if (!same_import(&imported[0], &imported[1])) fprintf(stderr, "bench: two imports of a lab text differ\n");
        printf("| %zu | %zu | %.0f | %.0f | %.2f |\n", ROWS[s], length, (double)lines / medians[0],
               (double)lines / medians[1], medians[0] / medians[1]);
    }
}

int main(int count, char **arguments) {
    bench_pairs();
    bench_searches();
    if (count > METHODS) bench_program(arguments + 1);
    /* last, and in this order, so that the random data of the others do not change */
    bench_files();
    bench_imports();
    return 0;
}
