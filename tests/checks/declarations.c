/* Compiled, not run: the header's declarations must be these, or the compiler sees a conflict. */
#include "lahsufiq.h"

/* Each must be declared by the header. */
void *declared[] = {(void *)lq_cie76,   (void *)lq_cie94,  (void *)lq_ciede2000,  (void *)lq_figures,
                    (void *)lq_verdict, (void *)lq_search, (void *)lq_deck_write, (void *)lq_deck_read,
                    (void *)lq_import,  (void *)lq_ciede2000_many};

#include <stdbool.h>
#include <stddef.h>
#include <stdint.h>

uint32_t lq_cie76(float, float, float, float, float, float, double *);
uint32_t lq_cie94(float, float, float, float, float, float, float, float, float, bool, bool, double *);
uint32_t lq_ciede2000(float, float, float, float, float, float, float, float, float, double *);
uint32_t lq_ciede2000_many(const float *, size_t, const float *, size_t, float, float, float, double *, size_t, uint8_t *,
                           size_t, size_t *);
uint32_t lq_figures(float, float, float, float, float, float, float, float, float, int64_t[23]);
uint32_t lq_verdict(float, float, float, float, float, float, float, float, float, float, double *, uint8_t *);
uint32_t lq_search(const int32_t *, size_t, const int32_t *, size_t, const int32_t *, size_t, float, float, float, float,
                   float, float, float, uint16_t *, size_t, size_t *);
uint32_t lq_deck_write(const int32_t *, size_t, const int32_t *, size_t, const int32_t *, size_t, uint8_t *, size_t,
                       size_t *);
uint32_t lq_deck_read(const uint8_t *, size_t, int32_t *, size_t, int32_t *, size_t, int32_t *, size_t, size_t *);
uint32_t lq_import(const uint8_t *, size_t, uint32_t *, size_t, int32_t *, size_t, int32_t *, size_t, int32_t *, size_t,
                   size_t *);
