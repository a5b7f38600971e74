#include "kernel.h"


#ifdef __clang__
#define COMPILER "clang " __clang_version__
#else
#define COMPILER "gcc " __VERSION__
#endif

const char *kernel_compiler(void) { return COMPILER; }

/* A modulus with what its remainders are taken by. */
struct modulus {
    uint32_t p;
    uint64_t reciprocal; /* (2^64 - 1) / p */
    uint64_t weight;     /* 2^64 mod p */
};

static inline struct modulus modulus_of(uint32_t p) {
    uint64_t reciprocal = UINT64_MAX / p;
    return (struct modulus){p, reciprocal, UINT64_MAX - reciprocal * p + 1};
}

/* x mod p, after Barrett: the quotient is right or one too small. The last p is taken off by arithmetic, as in
 * the library: clang makes a branch of a comparison, and no processor foresees it. */
static inline uint32_t remainder_of(struct modulus m, uint64_t x) {
    uint64_t quotient = (uint64_t)((unsigned __int128)m.reciprocal * x >> 64);
    uint64_t rest = x - quotient * m.p - m.p;
    return (uint32_t)(rest + (rest >> 63) * m.p);
}

/* out = c x + Av: four products fit a word, a row's sum stands in two and is reduced once. */
static void step(struct modulus m, uint32_t c, const uint32_t *x, const struct plain_matrix *a,
                 const uint32_t *v, uint32_t *restrict out) {
    const uint32_t *starts = a->starts, *columns = a->columns, *values = a->values;
#define ENTRY(k) ((uint64_t)values[k] * v[columns[k]])
    for (size_t i = 0, n = a->n; i < n; i++) {
        size_t k = starts[i], to = starts[i + 1], middle = to - (to - k) % 4;
        uint64_t low = (uint64_t)c * x[i], high = 0, word;
        for (; k < middle; k += 4) {
            word = ENTRY(k) + ENTRY(k + 1) + ENTRY(k + 2) + ENTRY(k + 3);
            low += word;
            high += low < word;
        }
        for (; k < to; k++) {
            word = ENTRY(k);
            low += word;
            high += low < word;
        }
        word = high * m.weight;
        low += word;
        out[i] = remainder_of(m, low + (low < word) * m.weight);
    }
#undef ENTRY
}

void kernel_apply(const struct plain_matrix *a, const uint32_t *g, size_t degree, const uint32_t *v,
                  uint32_t *out, uint32_t *power) {
    struct modulus m = modulus_of(a->p);
    /* by turns between the two slices, so that nothing is copied and the last step lands in out: as ours does */
    uint32_t *from = degree % 2 ? power : out, *to = degree % 2 ? out : power;
    for (size_t i = 0; i < a->n; i++)
        from[i] = remainder_of(m, (uint64_t)g[degree] * v[i]);
    while (degree-- > 0) {
        step(m, g[degree], v, a, from, to);
        uint32_t *next = from;
        from = to;
        to = next;
    }
}
