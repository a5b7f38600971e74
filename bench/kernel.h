/* g(A)v in C with the arithmetic of our own row product: what it costs where a compiler of C has it inlined. */
#ifndef KERNEL_H
#define KERNEL_H

#include "plain.h"

#ifdef __cplusplus
extern "C" {
#endif

/* out = g(A)v for g of degree at most `degree`; v is kept; power has n places. */
void kernel_apply(const struct plain_matrix *a, const uint32_t *g, size_t degree, const uint32_t *v,
                  uint32_t *out, uint32_t *power);

/* The compiler that made it. */
const char *kernel_compiler(void);

#ifdef __cplusplus
}
#endif
#endif
