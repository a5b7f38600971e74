/* filzeur.h: the C border of Filzeur, a proved Wiedemann solver modulo primes. For C99 and C++; x86-64.
 *
 * Every slice is a pointer and a length in elements. A matrix A of size n (0 to 4,096) is three slices: n + 1 row
 * starts, then columns (from 0, rising strictly within a row) and values (1 to p - 1), one each per entry, at most
 * 65,536. Row i holds the entries from starts[i] up to but not including starts[i + 1]. Size 0, a system with nothing
 * left, is one start, which is 0, and no entries. Polynomials are coefficients, lowest power first.
 *
 * A system also holds scales, one for each column: n numbers from 1 to p - 1, the diagonal of a matrix X; or none,
 * which is the same as n ones. The solver takes them, and system texts have them; every other call is about A itself.
 *
 * Refusals. Each call makes its checks in the order of their numbers, except that 13 comes after 10 and before 11, and
 * answers the number of the first that turns its input down, 0 if none does. A refusal leaves every other field of the
 * answer 0 and every lent slice as it was. So any numbers may stand in the slices, and they may have any length; a call
 * ends and does nothing undefined. The comment of a call lists its checks, in their order.
 *
 * Entries multiplied. A product with A multiplies each of its entries once, also with an element that is 0, and every
 * call that makes products with A answers in `multiplied` how many entries they multiplied together: entries for each.
 *
 * What the proof takes on trust from the caller, as any C function does: a pointer leads to as many elements as its
 * length says, is not null and is aligned, also where the length is 0; a slice that is written overlaps no other slice
 * of the same call; no other thread touches the slices meanwhile. Calls share no state: threads may call at the same
 * time.
 */
#ifndef FILZEUR_H
#define FILZEUR_H

#include <stddef.h>
#include <stdint.h>

/* Raised whenever a signature, a struct or the meaning of one changes. A header without it is version 1; the bill came
 * with 2, size 0 with 3, the entries multiplied with 4, the window with 5, the scales with 6. */
#define FILZEUR_VERSION 6

#ifdef __cplusplus
extern "C" {
#endif

/* Bounds that a caller sizes its slices by. */
enum {
    FILZEUR_MAX_SIZE = 4096,     /* n */
    FILZEUR_MAX_ENTRIES = 65536, /* of a matrix */
    FILZEUR_MAX_LIST = 8192,     /* elements of a recurrence's list */
    FILZEUR_MAX_VECTORS = 64,    /* R, the vectors of random words */
    FILZEUR_MAX_WINDOW = 64,
    FILZEUR_MAX_TEXT = 2097152,  /* bytes of a system text */
    FILZEUR_CALL_TEXT = 26624,   /* bytes of a system text that filzeur_text takes */
    FILZEUR_CALL_ANSWER = 7168   /* bytes that filzeur_text wants for its answer */
};

/* The refusals.
 *  1  the text call got more than 26,624 bytes
 *  2  the text exceeds 2,097,152 bytes or breaks the line forms or their order of letters
 *  3  p is not a prime from 2 to 2,147,483,647
 *  4  n is not 0 to 4,096, or the starts are empty
 *  5  starts don't begin at 0, fall, or don't end at the entry count; columns and values differ in length; there are
 *     over 65,536 entries; the header's count isn't that of the `a` lines; or the number of scales or `s` lines is
 *     neither 0 nor n
 *  6  a row or column is out of range or out of order, `s` and `b` lines included; or there are `s` lines and all of
 *     their values are 1
 *  7  a scale, or the value of an entry or of an `s` or `b` line, is 0 or at least p
 *  8  a vector, list or polynomial that is read has a length other than stated
 *  9  an element of one, or an operand of a field operation, is at least p
 * 10  the words are not a multiple of n, or more than 64 * n, or there are words and no rows
 * 11  a slice to be written is not as long as stated (the writer: shorter than its text; the text call: also n over 128
 *     or over 1,024 entries)
 * 12  the inverse of 0 is wanted
 * 13  the window is above 64 (after 10, before 11)
 */

struct filzeur_element {
    uint32_t refusal;
    uint32_t value;
};

struct filzeur_written {
    uint32_t refusal;
    uint64_t multiplied; /* entries of A; 0 where refused */
};

struct filzeur_degree {
    uint32_t refusal;
    uint32_t degree;
};

enum { FILZEUR_SOLVED = 1, FILZEUR_SINGULAR = 2 };

struct filzeur_verdict {
    uint32_t refusal;
    uint32_t kind; /* FILZEUR_SOLVED or FILZEUR_SINGULAR; 0 where refused */
    uint64_t degree;
    uint64_t passes;
    uint64_t applications; /* products with A that the run made */
    uint64_t multiplied;   /* entries of A in these: applications * entries; 0 where refused */
};

struct filzeur_yes {
    uint32_t refusal;
    uint32_t yes;        /* 1 or 0 */
    uint64_t multiplied; /* entries of A; 0 where refused */
};

struct filzeur_system {
    uint32_t refusal;
    uint32_t modulus;
    uint32_t size;
    uint32_t entries;
};

struct filzeur_length {
    uint32_t refusal;
    uint32_t length;
};

/* ---- The field of p elements, 0 to p - 1 ---- */

/* 0 where p makes a field. Refusals: 3. */
uint32_t filzeur_field(uint32_t p);

/* a + b, a - b and a * b modulo p. Refusals: 3; 9 (a or b). */
struct filzeur_element filzeur_sum(uint32_t p, uint32_t a, uint32_t b);
struct filzeur_element filzeur_difference(uint32_t p, uint32_t a, uint32_t b);
struct filzeur_element filzeur_product_of(uint32_t p, uint32_t a, uint32_t b);

/* The element whose product with a is 1. Refusals: 3; 9 (a); 12. */
struct filzeur_element filzeur_inverse(uint32_t p, uint32_t a);

/* ---- Products ---- */

/* out = Av; multiplied = entries. Refusals: 3 to 7; 8 (v: n elements); 9 (v); 11 (out: exactly n places). */
struct filzeur_written filzeur_product(uint32_t p, const uint32_t *starts, size_t starts_length,
                                       const uint32_t *columns, size_t columns_length, const uint32_t *values,
                                       size_t values_length, const uint32_t *v, size_t v_length, uint32_t *out,
                                       size_t out_length);

/* out = the transpose of A times v; multiplied = entries. Refusals and lengths: those of filzeur_product. */
struct filzeur_written filzeur_transposed(uint32_t p, const uint32_t *starts, size_t starts_length,
                                          const uint32_t *columns, size_t columns_length, const uint32_t *values,
                                          size_t values_length, const uint32_t *v, size_t v_length, uint32_t *out,
                                          size_t out_length);

/* out = g(A)v, the sum of g[i] times the i-th power of A times v; multiplied = (g_length - 1) * entries.
 * Refusals: 3 to 7; 8 (v: n elements; g: 1 to n + 1); 9 (v, g); 11 (out: exactly n places; work: at least 2 * n). */
struct filzeur_written filzeur_apply(uint32_t p, const uint32_t *starts, size_t starts_length, const uint32_t *columns,
                                     size_t columns_length, const uint32_t *values, size_t values_length,
                                     const uint32_t *g, size_t g_length, const uint32_t *v, size_t v_length,
                                     uint32_t *out, size_t out_length, uint32_t *work, size_t work_length);

/* ---- The shortest recurrence ---- */

/* The least degree L of a monic f that recurs on the list s of N elements; polynomial = f, then zeros.
 * Refusals: 3; 8 (s: at most 8,192 elements); 9 (s); 11 (polynomial: exactly N + 1 places; work: at least
 * 4 * N + 8). */
struct filzeur_degree filzeur_recurrence(uint32_t p, const uint32_t *s, size_t s_length, uint32_t *polynomial,
                                         size_t polynomial_length, uint32_t *work, size_t work_length);

/* ---- The solver ---- */

/* Solves Ax = b, or shows that A is singular. words: R vectors of n random words each, R from 0 to 64, any 32-bit
 * numbers; they and the window sway passes, applications and multiplied only.
 * scales: none, or n of them, 1 to p - 1. The run is on B = AX, which is A with each column times its scale (A itself
 * where there are none), and what it finds is multiplied by X for the answer: f and the kind speak of B, the vector of
 * A itself. Other scales may take other passes and give another f; where A is singular, another kind and vector too.
 * polynomial = the monic f of least degree with f(B)b = 0, then zeros. Solved: b is a combination of Bb, B(Bb), ..,
 * and vector = x with Ax = b. Singular: vector = w, not zero, with Aw = 0; Ax = b may have solutions all the same.
 * b = 0, as that of size 0, is solved by x = 0 with f = 1 and no pass.
 * bill: three numbers for each pass, in their order: left (n less the degree found before the pass), the pass's degree t
 * and its applications, 2 * left - 1 + t where the window (below) does not change them. The verdict's applications are
 * the sum of the passes' and degree - 1 for the close (0 for degree 0). The bill takes as many whole passes as it has
 * room for, and its other places stay as they were: an empty one wants none, 3 * (R + n) places hold every pass of a
 * run. No length of it is refused.
 * window: 0 to 64; 0 is no window. Otherwise a pass tests, once, whether it can end before its 2 * left terms: after
 * the first term i below 2 * left where its recurrence g, of the terms so far, has a degree L of at least 1 and the
 * last `window` discrepancies were all 0, that is, each of these terms was as the recurrence before it foretold.
 * If g(B) takes what the passes before have left of b to zero, the pass ends with g, at i - 1 + L applications. If not,
 * it goes on to all of its terms and costs L more, 2 * left - 1 + t + L.
 * Refusals: 3 to 7; 8 (b: n elements); 9 (b); 10 (words); 13 (window); 11 (vector: exactly n places; polynomial:
 * exactly n + 1; work: at least 16 * n + 16). */
struct filzeur_verdict filzeur_solve(uint32_t p, const uint32_t *starts, size_t starts_length, const uint32_t *columns,
                                     size_t columns_length, const uint32_t *values, size_t values_length,
                                     const uint32_t *scales, size_t scales_length, const uint32_t *b, size_t b_length,
                                     const uint32_t *words, size_t words_length, uint32_t window, uint32_t *vector,
                                     size_t vector_length, uint32_t *polynomial, size_t polynomial_length,
                                     uint32_t *bill, size_t bill_length, uint32_t *work, size_t work_length);

/* ---- Checks of answers that anyone offers ---- */

/* Whether Ax = b; multiplied = entries, whatever x is. Refusals: 3 to 7; 8 (x and b: n elements each); 9 (x, b). */
struct filzeur_yes filzeur_takes(uint32_t p, const uint32_t *starts, size_t starts_length, const uint32_t *columns,
                                 size_t columns_length, const uint32_t *values, size_t values_length, const uint32_t *x,
                                 size_t x_length, const uint32_t *b, size_t b_length);

/* Whether w is not zero and Aw = 0; the empty w is zero; multiplied = entries, also where w is zero.
 * Refusals: 3 to 7; 8 (w: n elements); 9 (w). */
struct filzeur_yes filzeur_is_null(uint32_t p, const uint32_t *starts, size_t starts_length, const uint32_t *columns,
                                   size_t columns_length, const uint32_t *values, size_t values_length,
                                   const uint32_t *w, size_t w_length);

/* ---- System texts ---- */

/* Reads a system text into the leading places of the slices and leaves the rest of them as it was; right = b; scales =
 * the values of the `s` lines, or n ones where there are no such lines.
 * Refusals: 2 to 7; 11 (starts: at least n + 1 places; columns and values: at least entries; scales and right: at least
 * n). A text has at least 8 bytes for each entry, so text_length / 8 places for columns and for values are always
 * enough. */
struct filzeur_system filzeur_read(const uint8_t *text, size_t text_length, uint32_t *starts, size_t starts_length,
                                   uint32_t *columns, size_t columns_length, uint32_t *values, size_t values_length,
                                   uint32_t *scales, size_t scales_length, uint32_t *right, size_t right_length);

/* Writes the text of a system and answers its length; the bytes after it stay. scales: none, or n of them, 1 to p - 1;
 * the text has `s` lines exactly if one of them isn't 1.
 * Refusals: 3 to 7; 8 (b: n elements); 9 (b); 11 (text: at least as long as what is written; 33 + 23 * entries + 36 * n
 * bytes are always enough). */
struct filzeur_length filzeur_write(uint32_t p, const uint32_t *starts, size_t starts_length, const uint32_t *columns,
                                    size_t columns_length, const uint32_t *values, size_t values_length,
                                    const uint32_t *scales, size_t scales_length, const uint32_t *b, size_t b_length,
                                    uint8_t *text, size_t text_length);

/* The text call: a system text in, the answer's text out, with the text's scales, without random words or a window. The
 * answer's first line is `answer`, kind, D, passes, applications and entries multiplied. Answers the length of the
 * answer's text, always above 18, or the refusal's number; the bytes after the answer stay.
 * Refusals: 1 to 7; 11 (n over 128, or over 1,024 entries; answer: at least 7,168 bytes). */
uint64_t filzeur_text(const uint8_t *text, size_t text_length, uint8_t *answer, size_t answer_length);

#ifdef __cplusplus
}
#endif

#endif
