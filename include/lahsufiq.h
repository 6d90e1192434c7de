/* Lahsufiq: proved colour differences. Link with crates/lahsufiq/out/liblahsufiq.a, which `rt lib` in
 * crates/lahsufiq writes.
 *
 * Every call returns a refusal number, 0 for an answer:
 *   1  L, a or b of a sample is not a number or infinite
 *   2  L below 0 or above 100
 *   3  a or b below -128 or above 128
 *   4  a weight is not a number, below 0.5 or above 10
 *   5  the tolerance is not a number, below 0 or above 100
 *   6  deck columns of unequal length, or more than 4,096 swatches
 *   7  a swatch outside the limits, or lightness falls from one place to the next
 *   8  more matches than the list has room for
 *  10  a deck file's mark is wrong or incomplete
 *  11  its version is not 1 or incomplete
 *  12  its length is not 7 + 12 x count, or the count is incomplete
 *  13  a list has too little room for the file or for the swatches
 *  14  in the lab's text a keyword or a name is missing or unknown, or anything else is wrong outside the rows
 *  15  a row of it is not four fields of the right form
 *  16  its number of rows is not NUMBER_OF_SETS
 * The first that applies, in the order sample 1, sample 2, weights, tolerance, file (10, 11, 12), text (14,
 * 15, 16), deck (6, 7), room. A float is held to its limits at its exact value, and then rounded to the nearest whole
 * number of 1/10,000, a half to the even one. Sample 1 is the standard, in lq_cie94 where the
 * caller says so. Results come through the pointers; on a refusal each is 0, and a list keeps its contents.
 * lq_ciede2000_many refuses pair by pair and returns 0 itself.
 * No pointer may be null, not even that of a list of length 0, and what is written may not overlap any
 * other argument.
 */
#ifndef LAHSUFIQ_H
#define LAHSUFIQ_H

#include <stdbool.h>
#include <stddef.h>
#include <stdint.h>

#ifdef __cplusplus
extern "C" {
#endif

/* CIE76: refusals 1 to 3. */
uint32_t lq_cie76(float l1, float a1, float b1, float l2, float a2, float b2, double *difference);

/* CIE94 with the weights kL, kC, kH. `textile` takes the constants for textiles, 0.048 and 0.014, for those
 * of graphic arts, 0.045 and 0.015; the weights stay as given (textiles are usually judged with kL = 2).
 * `standard` says that sample 1 is a standard, whose chroma then weighs; without one the root of both
 * chromas' product does, and the difference is the same with the samples exchanged. Refusals 1 to 4. */
uint32_t lq_cie94(float l1, float a1, float b1, float l2, float a2, float b2, float kl, float kc, float kh,
                  bool textile, bool standard, double *difference);

/* CIEDE2000: refusals 1 to 4. */
uint32_t lq_ciede2000(float l1, float a1, float b1, float l2, float a2, float b2, float kl, float kc, float kh,
                      double *difference);

/* CIEDE2000 of many pairs, as a night's log holds them: the colours are L, a and b one after the other, and the
 * lengths count floats, so that pair k is the floats 3 k, 3 k + 1 and 3 k + 2 of both lists. As many pairs are
 * answered as every list holds whole, the least of standards_len / 3, samples_len / 3, differences_len and
 * refusals_len; `*pairs` is their number, and entries past them keep their contents. `differences[k]` and
 * `refusals[k]` are what lq_ciede2000 gives of pair k: its difference and 0, or 0 and a refusal of 1 to 4. One
 * pair's refusal touches no other, and the call itself always returns 0. Tables and weights are made ready once
 * for all pairs, so that a log takes less time than a call a pair. */
uint32_t lq_ciede2000_many(const float *standards, size_t standards_len, const float *samples, size_t samples_len,
                           float kl, float kc, float kh, double *differences, size_t differences_len,
                           uint8_t *refusals, size_t refusals_len, size_t *pairs);

/* The figures of CIEDE2000 as whole numbers: C1, a1', b1', C1', h1, C2, a2', b2', C2', h2, Z, far
 * (1 or 0), H, mean hue, T, SL, SC, SH, R, l, c, h, CIEDE2000. Chroma, a', b' and H in 10^-7, hues in
 * 10^-6 degree, Z, T, SL, SC, SH and R in 10^-9, l, c, h and CIEDE2000 in 10^-6. Refusals 1 to 4. */
uint32_t lq_figures(float l1, float a1, float b1, float l2, float a2, float b2, float kl, float kc, float kh,
                    int64_t figures[23]);

/* CIEDE2000, and 1 where it is at most the tolerance, else 0: refusals 1 to 5. */
uint32_t lq_verdict(float l1, float a1, float b1, float l2, float a2, float b2, float kl, float kc, float kh,
                    float tolerance, double *difference, uint8_t *within);

/* The places, counted from 0, of the swatches of a deck whose CIEDE2000 difference from the reading
 * (rl, ra, rb) is at most the tolerance, in rising order at the front of `places`; entries past them
 * keep their contents. The deck is three columns in whole numbers of 1/10,000, sorted by lightness:
 * L from 0 to 1,000,000, a and b from -1,280,000 to 1,280,000. Swatches are sample 1, the reading is
 * sample 2. `*count` is the number of matches; with refusal 8 the number of entries needed; else 0.
 * Refusals 1 to 8, the reading's first. */
uint32_t lq_search(const int32_t *l, size_t l_len, const int32_t *a, size_t a_len, const int32_t *b, size_t b_len,
                   float rl, float ra, float rb, float kl, float kc, float kh, float tolerance,
                   uint16_t *places, size_t room, size_t *count);

/* Writes a deck, three columns as in lq_search, to the front of `file`: the bytes FAN, a 16-bit version
 * (1), a 16-bit count, then for each swatch L, a and b as signed 32-bit numbers, all low byte first. The
 * file has 7 + 12 x count bytes, 49,159 at most; bytes of the room past them keep their contents.
 * `*length` is the length of the file. Refusals 6, 7 and 13. */
uint32_t lq_deck_write(const int32_t *l, size_t l_len, const int32_t *a, size_t a_len, const int32_t *b, size_t b_len,
                       uint8_t *file, size_t room, size_t *length);

/* Reads a deck from the `length` bytes of a file, which have to be the whole file, to the front of three
 * columns, each with room for all swatches; entries past them keep their contents. `*count` is the number
 * of swatches. The columns then hold a deck that lq_search accepts, and lq_deck_write gives the same bytes
 * again. Refusals 10, 11, 12, then 6 and 7, then 13. */
uint32_t lq_deck_read(const uint8_t *file, size_t length, int32_t *l, size_t l_room, int32_t *a, size_t a_room,
                      int32_t *b, size_t b_room, size_t *count);

/* Imports the colour lab's text, of CGATS form, from its `length` bytes, which have to be the whole text:
 *
 *     BEGIN_DATA_FORMAT
 *     SAMPLE_ID LAB_L LAB_A LAB_B         (the four names in any order)
 *     END_DATA_FORMAT
 *     NUMBER_OF_SETS 2                    (one to five digits)
 *     BEGIN_DATA
 *     4711 52.5 -3.25 17.0625             (a row: four fields in the order of the names)
 *     4712 48.125 0 -1.5
 *     END_DATA
 *
 * Each line is ended by a newline, one space between words. SAMPLE_ID is one to ten digits, at most
 * 4,294,967,295; the others are decimals, an optional minus, one to three digits, and optionally a point
 * and one to four digits, exact in 1/10,000. The swatches stand at the front of four columns in rising
 * lightness, those of equal lightness in the order of their rows; each column needs room for all, and
 * entries past them keep their contents. `*count` is the number of swatches. The columns l, a and b then
 * hold a deck that lq_search accepts. The call takes some 390 KiB of stack. Refusals 14, 15, 16, then 6 and
 * 7, then 13. */
uint32_t lq_import(const uint8_t *text, size_t length, uint32_t *code, size_t code_room, int32_t *l, size_t l_room,
                   int32_t *a, size_t a_room, int32_t *b, size_t b_room, size_t *count);

#ifdef __cplusplus
}
#endif

#endif
