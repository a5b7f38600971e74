/* The steps of document 01 in plain C, without its checks: the measure for what proof costs in speed. */
#ifndef PLAIN_H
#define PLAIN_H

#include <stddef.h>
#include <stdint.h>

#ifdef __cplusplus
extern "C" {
#endif

struct plain_matrix {
    uint32_t p;
    size_t n;
    const uint32_t *starts, *columns, *values;
};

struct plain_verdict {
    int solved; /* otherwise singular */
    size_t degree, passes, applications;
};

/* out = Av */
void plain_product(const struct plain_matrix *a, const uint32_t *v, uint32_t *out);

/* out = (transposed A)v */
void plain_transposed(const struct plain_matrix *a, const uint32_t *v, uint32_t *out);

/* out = g(A)v for g of degree at most `degree`; v is kept; power has n places. */
void plain_apply(const struct plain_matrix *a, const uint32_t *g, size_t degree, const uint32_t *v,
                 uint32_t *out, uint32_t *power);

/* The shortest recurrence of s: its degree, with f in f[0 .. degree]. f has count + 1 places, work 4 count
 * + 8. */
size_t plain_recurrence(uint32_t p, const uint32_t *s, size_t count, uint32_t *f, uint32_t *work);

/* words holds `vectors` vectors of n words; x has n places, f n + 1, work 16n + 16. */
struct plain_verdict plain_solve(const struct plain_matrix *a, const uint32_t *b, const uint32_t *words,
                                 size_t vectors, uint32_t *x, uint32_t *f, uint32_t *work);

#ifdef __cplusplus
}
#endif
#endif
