#include "plain.h"

#include <string.h>

static uint32_t times(uint32_t p, uint32_t a, uint32_t b) { return (uint32_t)((uint64_t)a * b % p); }

static uint32_t inverse(uint32_t p, uint32_t a) {
    uint32_t power = a, result = 1;
    for (uint32_t e = p - 2; e != 0; e >>= 1) {
        if (e & 1)
            result = times(p, result, power);
        power = times(p, power, power);
    }
    return result;
}

/* sum + a b, kept below 2^63 without a division: a b < 2^62, and p 2^32 exceeds a b. */
static uint64_t add_product(uint32_t p, uint64_t sum, uint32_t a, uint32_t b) {
    sum += (uint64_t)a * b;
    return sum >> 63 ? sum - ((uint64_t)p << 32) : sum;
}

/* out = Av + c w. The terms of Horner's rule are fused, so that each row has one division. */
static void product_plus(const struct plain_matrix *a, const uint32_t *v, uint32_t c, const uint32_t *w,
                         uint32_t *out) {
    for (size_t i = 0; i < a->n; i++) {
        uint64_t sum = (uint64_t)c * w[i];
        for (uint32_t k = a->starts[i]; k < a->starts[i + 1]; k++)
            sum = add_product(a->p, sum, a->values[k], v[a->columns[k]]);
        out[i] = (uint32_t)(sum % a->p);
    }
}

void plain_product(const struct plain_matrix *a, const uint32_t *v, uint32_t *out) {
    product_plus(a, v, 0, v, out);
}

void plain_transposed(const struct plain_matrix *a, const uint32_t *v, uint32_t *out) {
    memset(out, 0, a->n * sizeof *out);
    for (size_t i = 0; i < a->n; i++)
        for (uint32_t k = a->starts[i]; k < a->starts[i + 1]; k++) {
            uint32_t *place = &out[a->columns[k]];
            *place = (uint32_t)((*place + (uint64_t)a->values[k] * v[i]) % a->p);
        }
}

static uint32_t dot(uint32_t p, const uint32_t *u, const uint32_t *v, size_t n) {
    uint64_t sum = 0;
    for (size_t i = 0; i < n; i++)
        sum = add_product(p, sum, u[i], v[i]);
    return (uint32_t)(sum % p);
}

/* v += c u. The quotient of c u[i] by p is off by at most 1 when it is taken from c / p (Shoup). */
static void add_multiple(uint32_t p, uint32_t c, const uint32_t *u, size_t n, uint32_t *v) {
    uint64_t ratio = ((uint64_t)c << 32) / p;
    for (size_t i = 0; i < n; i++) {
        uint64_t rest = (uint64_t)c * u[i] - (ratio * u[i] >> 32) * p; /* below 2p */
        uint64_t sum = v[i] + (rest >= p ? rest - p : rest);
        v[i] = (uint32_t)(sum >= p ? sum - p : sum);
    }
}

void plain_apply(const struct plain_matrix *a, const uint32_t *g, size_t degree, const uint32_t *v,
                 uint32_t *out, uint32_t *power) {
    for (size_t i = 0; i < a->n; i++)
        out[i] = times(a->p, g[degree], v[i]);
    while (degree-- > 0) {
        memcpy(power, out, a->n * sizeof *out);
        product_plus(a, power, g[degree], v, out);
    }
}

size_t plain_recurrence(uint32_t p, const uint32_t *s, size_t count, uint32_t *f, uint32_t *work) {
    uint32_t *q = work, *t = work + count + 2, *next = work + 2 * (count + 2),
             *reversed = work + 3 * (count + 2);
    size_t length = 0, q_degree = 0, t_degree = 0, shift = 0; /* the paper's t is z^shift t here */
    uint32_t e = 1;
    q[0] = 1;
    t[0] = 0;
    for (size_t i = 0; i < count; i++)
        reversed[count - 1 - i] = s[i]; /* so that the discrepancy is a dot product of rising places */
    for (size_t r = 1; r <= count; r++) {
        uint32_t d = dot(p, q, reversed + (count - r), q_degree + 1);
        shift++;
        if (d == 0)
            continue;
        uint32_t c = p - times(p, d, inverse(p, e));
        size_t top = t_degree + shift, degree = q_degree > top ? q_degree : top;
        memcpy(next, q, (q_degree + 1) * sizeof *q);
        memset(next + q_degree + 1, 0, (degree - q_degree) * sizeof *q);
        add_multiple(p, c, t, t_degree + 1, next + shift);
        if (2 * length < r) {
            uint32_t *old = t;
            t = q;
            t_degree = q_degree;
            q = next;
            next = old;
            shift = 0;
            length = r - length;
            e = d;
        } else {
            uint32_t *old = q;
            q = next;
            next = old;
        }
        q_degree = degree;
        while (q_degree > 0 && q[q_degree] == 0)
            q_degree--;
    }
    for (size_t i = 0; i <= length; i++)
        f[i] = length - i <= q_degree ? q[length - i] : 0;
    return length;
}

static int is_zero(const uint32_t *v, size_t n) {
    for (size_t i = 0; i < n; i++)
        if (v[i] != 0)
            return 0;
    return 1;
}

/* F becomes F f; scratch has degree + t + 1 places. */
static void multiply(uint32_t p, uint32_t *F, size_t degree, const uint32_t *f, size_t t, uint32_t *scratch) {
    memset(scratch, 0, (degree + t + 1) * sizeof *scratch);
    for (size_t i = 0; i <= degree; i++)
        add_multiple(p, F[i], f, t + 1, scratch + i);
    memcpy(F, scratch, (degree + t + 1) * sizeof *F);
}

struct plain_verdict plain_solve(const struct plain_matrix *a, const uint32_t *b, const uint32_t *words,
                                 size_t vectors, uint32_t *x, uint32_t *f, uint32_t *work) {
    size_t n = a->n;
    uint32_t p = a->p;
    uint32_t *r = work, *power = r + n, *other = power + n, *u = other + n;
    uint32_t *terms = u + n, *factor = terms + 2 * n,
             *rest = factor + 2 * n + 1; /* 8n + 8 of the rest are used */
    struct plain_verdict verdict = {1, 0, 0, 0};
    memcpy(r, b, n * sizeof *r);
    memset(f, 0, (n + 1) * sizeof *f);
    f[0] = 1;
    while (!is_zero(r, n)) {
        size_t left = n - verdict.degree, unit = verdict.passes - vectors;
        if (verdict.passes < vectors)
            for (size_t i = 0; i < n; i++)
                u[i] = words[verdict.passes * n + i] % p;
        memcpy(power, r, n * sizeof *r);
        for (size_t k = 0; k < 2 * left; k++) {
            if (k > 0) {
                uint32_t *old = power;
                plain_product(a, power, other);
                power = other;
                other = old;
            }
            terms[k] = verdict.passes < vectors ? dot(p, u, power, n) : power[unit];
        }
        size_t t = plain_recurrence(p, terms, 2 * left, factor, rest);
        plain_apply(a, factor, t, r, other, power);
        memcpy(r, other, n * sizeof *r);
        multiply(p, f, verdict.degree, factor, t, rest);
        verdict.degree += t;
        verdict.passes++;
        verdict.applications += 2 * left - 1 + t;
    }
    memset(x, 0, n * sizeof *x);
    if (verdict.degree == 0)
        return verdict;
    plain_apply(a, f + 1, verdict.degree - 1, b, x, power);
    verdict.applications += verdict.degree - 1;
    verdict.solved = f[0] != 0;
    if (verdict.solved) {
        uint32_t c = p - inverse(p, f[0]);
        for (size_t i = 0; i < n; i++)
            x[i] = times(p, c, x[i]);
    }
    return verdict;
}
