/* filzeur.h from plain C99: document 01's diag(2,3) through the number call, with a bill and without, a run with every
 * window, runs with scales and their texts, its first case through the text call, the entries multiplied by every call
 * that makes products, and a system with nothing left through every call. */
#include "../filzeur.h"

#include <stdio.h>
#include <string.h>

#if FILZEUR_VERSION < 6
#error "the bill came with version 2, size 0 with 3, entries multiplied with 4, the window with 5, the scales with 6"
#endif

/* An empty slice has a pointer all the same, here to a place that stays as it was. */
#define NO(array) array, 0

static int solves(void) {
    const uint32_t starts[] = {0, 1, 2}, columns[] = {0, 1}, values[] = {2, 3}, b[] = {1, 1}, words[] = {1, 1};
    uint32_t x[2], f[3], bill[9] = {0}, work[48];
    struct filzeur_verdict verdict =
        filzeur_solve(7, starts, 3, columns, 2, values, 2, NO(b), b, 2, words, 2, 0, x, 2, f, 3, bill, 9, work, 48);
    struct filzeur_verdict unbilled =
        filzeur_solve(7, starts, 3, columns, 2, values, 2, NO(b), b, 2, words, 2, 0, x, 2, f, 3, bill, 0, work, 48);
    return verdict.refusal == 0 && verdict.kind == FILZEUR_SOLVED && verdict.degree == 2 && verdict.passes == 1 &&
           verdict.applications == 6 && verdict.multiplied == 12 && x[0] == 4 && x[1] == 5 && f[0] == 6 && f[1] == 2 &&
           f[2] == 1 && bill[0] == 2 && bill[1] == 2 && bill[2] == 5 && bill[3] == 0 && unbilled.refusal == 0 &&
           unbilled.applications == 6 && unbilled.multiplied == 12 &&
           filzeur_takes(7, starts, 3, columns, 2, values, 2, x, 2, b, 2).yes == 1;
}

/* diag(2,3,4) with b = (1,0,0): its terms are foretold from the third on, so a window of up to 3 ends its pass. */
static int ends_early(void) {
    const uint32_t starts[] = {0, 1, 2, 3}, columns[] = {0, 1, 2}, values[] = {2, 3, 4}, b[] = {1, 0, 0}, words[] = {0};
    uint32_t x[3], f[4], bill[3], work[64], window;
    for (window = 0; window <= FILZEUR_MAX_WINDOW + 1; window++) {
        const uint64_t applications = window >= 1 && window <= 3 ? 2 + window : 6;
        struct filzeur_verdict verdict;
        x[0] = bill[2] = 9;
        verdict = filzeur_solve(7, starts, 4, columns, 3, values, 3, NO(b), b, 3, words, 0, window, x, 3, f, 4, bill, 3,
                                work, 64);
        if (window > FILZEUR_MAX_WINDOW)
            return verdict.refusal == 13 && verdict.applications == 0 && x[0] == 9 && bill[2] == 9;
        if (verdict.refusal != 0 || verdict.kind != FILZEUR_SOLVED || verdict.applications != applications ||
            verdict.multiplied != 3 * applications || x[0] != 4 || x[1] != 0 || f[0] != 5 || f[1] != 1 || f[2] != 0 ||
            bill[0] != 3 || bill[1] != 1 || bill[2] != applications)
            return 0;
    }
    return 0;
}

/* diag(2,3) with the scales 2, 6 is 4 times the unit matrix, so f = z - 4 and one pass is enough; x is that of
 * diag(2,3). The matrix of ones with the scales 1, 6 has the rows 1, 6, which take b = (1,1) to zero; w = (1,6) is X
 * times it. Scales of the wrong number, and a scale 0 or 7, are refused. */
#define TWO 7, starts, 3, columns, 2, values, 2
#define FOUR 7, full, 3, both, 4, ones, 4
#define REST b, 2, NO(b), 0, x, 2, f, 3, bill, 6, work, 48

static int scaled(void) {
    const uint32_t starts[] = {0, 1, 2}, columns[] = {0, 1}, values[] = {2, 3}, b[] = {1, 1}, scales[] = {2, 6, 1};
    const uint32_t full[] = {0, 2, 4}, both[] = {0, 1, 0, 1}, ones[] = {1, 1, 1, 1}, other[] = {1, 6};
    const uint32_t zero[] = {0, 6}, large[] = {1, 7};
    uint32_t x[] = {9, 9}, f[] = {9, 9, 9}, bill[] = {9, 9, 9, 9, 9, 9}, work[48] = {9};
    struct filzeur_verdict verdict;
    if (filzeur_solve(TWO, scales, 1, REST).refusal != 5 || filzeur_solve(TWO, scales, 3, REST).refusal != 5 ||
        filzeur_solve(TWO, zero, 2, REST).refusal != 7 || filzeur_solve(TWO, large, 2, REST).refusal != 7 ||
        x[0] != 9 || x[1] != 9 || f[0] != 9 || bill[0] != 9 || work[0] != 9)
        return 0;
    verdict = filzeur_solve(TWO, scales, 2, REST);
    if (verdict.refusal != 0 || verdict.kind != FILZEUR_SOLVED || verdict.degree != 1 || verdict.passes != 1 ||
        verdict.applications != 4 || verdict.multiplied != 8 || x[0] != 4 || x[1] != 5 || f[0] != 3 || f[1] != 1 ||
        f[2] != 0 || bill[0] != 2 || bill[1] != 1 || bill[2] != 4 || bill[3] != 9 ||
        filzeur_takes(TWO, x, 2, b, 2).yes != 1)
        return 0;
    verdict = filzeur_solve(FOUR, ones, 2, REST);
    if (verdict.refusal != 0 || verdict.kind != FILZEUR_SOLVED || x[0] != 4 || x[1] != 4)
        return 0;
    verdict = filzeur_solve(FOUR, other, 2, REST);
    return verdict.refusal == 0 && verdict.kind == FILZEUR_SINGULAR && verdict.applications == 4 &&
           verdict.multiplied == 16 && x[0] == 1 && x[1] == 6 && f[0] == 0 && f[1] == 1 &&
           filzeur_is_null(FOUR, x, 2).yes == 1;
}

/* A text with scales, read, written and answered; a slice of scales that is too short; ones, which are read where there
 * are no `s` lines, written as none, and refused as such lines. */
static int scaled_text(void) {
    const char *text = "system\t7\t2\t2\na\t1\t1\t2\na\t2\t2\t3\ns\t1\t2\ns\t2\t6\nb\t1\t1\nb\t2\t1\nend\n";
    const char *unscaled = "system\t7\t2\t2\na\t1\t1\t2\na\t2\t2\t3\nb\t1\t1\nb\t2\t1\nend\n";
    const char *refused = "system\t7\t2\t0\ns\t1\t1\ns\t2\t1\nend\n";
    const char *wanted =
        "answer\tsolved\t1\t1\t4\t8\npass\t1\t2\t1\t4\nclose\t0\nf\t0\t3\nf\t1\t1\nx\t1\t4\nx\t2\t5\nend\n";
    uint32_t starts[3], columns[2], values[2], scales[] = {9, 9, 9}, right[2];
    uint8_t written[64], answer[FILZEUR_CALL_ANSWER];
    struct filzeur_system system;
    if (filzeur_read((const uint8_t *)text, strlen(text), starts, 3, columns, 2, values, 2, scales, 1, right, 2)
                .refusal != 11 ||
        filzeur_read((const uint8_t *)refused, strlen(refused), starts, 3, columns, 2, values, 2, scales, 3, right, 2)
                .refusal != 6 ||
        scales[0] != 9)
        return 0;
    system = filzeur_read((const uint8_t *)text, strlen(text), starts, 3, columns, 2, values, 2, scales, 3, right, 2);
    if (system.refusal != 0 || system.size != 2 || system.entries != 2 || scales[0] != 2 || scales[1] != 6 ||
        scales[2] != 9 || right[0] != 1 ||
        filzeur_write(TWO, scales, 2, right, 2, written, 64).length != strlen(text) ||
        memcmp(written, text, strlen(text)) != 0 || filzeur_write(TWO, scales, 1, right, 2, written, 64).refusal != 5 ||
        filzeur_write(TWO, scales + 1, 2, right, 2, written, 64).refusal != 7 ||
        filzeur_write(TWO, NO(scales), right, 2, written, 64).length != strlen(unscaled) ||
        memcmp(written, unscaled, strlen(unscaled)) != 0)
        return 0;
    system = filzeur_read((const uint8_t *)unscaled, strlen(unscaled), starts, 3, columns, 2, values, 2, scales, 2,
                          right, 2);
    return system.refusal == 0 && scales[0] == 1 && scales[1] == 1 && scales[2] == 9 &&
           filzeur_write(TWO, scales, 2, right, 2, written, 64).length == strlen(unscaled) &&
           filzeur_text((const uint8_t *)text, strlen(text), answer, sizeof answer) == strlen(wanted) &&
           memcmp(answer, wanted, strlen(wanted)) == 0;
}

static int answers(void) {
    const char *text = "system\t7\t2\t3\na\t1\t1\t2\na\t1\t2\t1\na\t2\t2\t3\nb\t1\t1\nb\t2\t1\nend\n";
    const char *wanted =
        "answer\tsolved\t1\t1\t4\t12\npass\t1\t2\t1\t4\nclose\t0\nf\t0\t4\nf\t1\t1\nx\t1\t5\nx\t2\t5\nend\n";
    uint8_t answer[FILZEUR_CALL_ANSWER];
    uint64_t length = filzeur_text((const uint8_t *)text, strlen(text), answer, sizeof answer);
    return length == strlen(wanted) && memcmp(answer, wanted, length) == 0;
}

/* Each call with four entries, one of its rows empty, on a vector with zeros and on zero; then each refused, where 0 is
 * answered. */
#define A 7, starts, 4, columns, 4, values, 4
#define OUT out, 3
#define WORK work, 64

static int wrote(struct filzeur_written answer, uint32_t refusal, uint64_t multiplied) {
    return answer.refusal == refusal && answer.multiplied == multiplied;
}

static int said(struct filzeur_yes answer, uint32_t refusal, uint32_t yes, uint64_t multiplied) {
    return answer.refusal == refusal && answer.yes == yes && answer.multiplied == multiplied;
}

static int ran(struct filzeur_verdict answer, uint32_t refusal, uint64_t applications, uint64_t multiplied) {
    return answer.refusal == refusal && answer.applications == applications && answer.multiplied == multiplied;
}

static int multiplies(void) {
    const uint32_t starts[] = {0, 3, 3, 4}, columns[] = {0, 1, 2, 1}, values[] = {2, 1, 5, 3}, zero[] = {0, 0, 0};
    const uint32_t v[] = {1, 0, 6}, image[] = {4, 0, 0}, w[] = {1, 0, 1}, large[] = {7, 0, 0}, g[] = {3, 0, 6, 1};
    uint32_t out[3], f[4], bill[9], work[64];
    return wrote(filzeur_product(A, v, 3, OUT), 0, 4) && wrote(filzeur_product(A, zero, 3, OUT), 0, 4) &&
           wrote(filzeur_transposed(A, v, 3, OUT), 0, 4) && wrote(filzeur_transposed(A, zero, 3, OUT), 0, 4) &&
           wrote(filzeur_apply(A, g, 1, v, 3, OUT, WORK), 0, 0) &&
           wrote(filzeur_apply(A, g, 4, v, 3, OUT, WORK), 0, 12) &&
           wrote(filzeur_apply(A, g, 2, zero, 3, OUT, WORK), 0, 4) && said(filzeur_takes(A, v, 3, image, 3), 0, 1, 4) &&
           said(filzeur_takes(A, v, 3, zero, 3), 0, 0, 4) && said(filzeur_takes(A, zero, 3, zero, 3), 0, 1, 4) &&
           said(filzeur_is_null(A, w, 3), 0, 1, 4) && said(filzeur_is_null(A, v, 3), 0, 0, 4) &&
           said(filzeur_is_null(A, zero, 3), 0, 0, 4) &&
           ran(filzeur_solve(A, NO(v), image, 3, v, 0, 0, OUT, f, 4, bill, 9, WORK), 0, 6, 24) &&
           ran(filzeur_solve(A, NO(v), image, 3, v, 0, 2, OUT, f, 4, bill, 9, WORK), 0, 4, 16) &&
           ran(filzeur_solve(A, NO(v), zero, 3, v, 3, 2, OUT, f, 4, bill, 9, WORK), 0, 0, 0) &&

           wrote(filzeur_product(A, v, 2, OUT), 8, 0) && wrote(filzeur_transposed(A, large, 3, OUT), 9, 0) &&
           wrote(filzeur_product(A, v, 3, out, 2), 11, 0) && wrote(filzeur_transposed(A, v, 3, out, 2), 11, 0) &&
           wrote(filzeur_apply(A, g, 0, v, 3, OUT, WORK), 8, 0) &&
           wrote(filzeur_apply(A, g, 4, v, 3, OUT, work, 5), 11, 0) &&
           said(filzeur_takes(A, v, 3, image, 2), 8, 0, 0) && said(filzeur_takes(A, v, 3, large, 3), 9, 0, 0) &&
           said(filzeur_is_null(A, w, 2), 8, 0, 0) && said(filzeur_is_null(A, large, 3), 9, 0, 0) &&
           ran(filzeur_solve(A, NO(v), image, 3, v, 2, 65, OUT, f, 4, bill, 9, work, 63), 10, 0, 0) &&
           ran(filzeur_solve(A, NO(v), image, 3, v, 3, 65, OUT, f, 4, bill, 9, work, 63), 13, 0, 0) &&
           ran(filzeur_solve(A, NO(v), image, 3, v, 3, 64, OUT, f, 4, bill, 9, work, 63), 11, 0, 0);
}

/* Size 0. */
#define NOTHING 7, starts, 1, NO(none), NO(none)

static int nothing_left(void) {
    const uint32_t starts[] = {0}, none[] = {9}, g[] = {6, 1}, words[] = {1};
    uint32_t out[] = {9}, f[] = {9, 9}, bill[] = {9, 9, 9}, work[17], i;
    uint32_t read_starts[] = {9, 9}, columns[] = {9}, values[] = {9}, scales[] = {9}, right[] = {9};
    const char *text = "system\t7\t0\t0\nend\n";
    const char *wanted = "answer\tsolved\t0\t0\t0\t0\nclose\t0\nf\t0\t1\nend\n";
    uint8_t written[18], answer[FILZEUR_CALL_ANSWER + 1];
    struct filzeur_verdict verdict, refused;
    struct filzeur_system system;
    for (i = 0; i < 17; i++)
        work[i] = 9;
    memset(written, 9, sizeof written);
    memset(answer, 9, sizeof answer);

    if (!wrote(filzeur_product(NOTHING, NO(none), NO(out)), 0, 0) ||
        !wrote(filzeur_transposed(NOTHING, NO(none), NO(out)), 0, 0) ||
        !wrote(filzeur_apply(NOTHING, g, 1, NO(none), NO(out), NO(work)), 0, 0) ||
        !wrote(filzeur_apply(NOTHING, g, 2, NO(none), NO(out), NO(work)), 8, 0) ||
        !said(filzeur_takes(NOTHING, NO(none), NO(none)), 0, 1, 0) ||
        !said(filzeur_is_null(NOTHING, NO(none)), 0, 0, 0) || out[0] != 9 || work[0] != 9)
        return 0;

    refused = filzeur_solve(NOTHING, NO(none), NO(none), words, 1, 0, NO(out), f, 1, bill, 3, work, 16);
    if (refused.refusal != 10 || f[0] != 9 || work[0] != 9)
        return 0;
    refused = filzeur_solve(NOTHING, words, 1, NO(none), NO(words), 0, NO(out), f, 1, bill, 3, work, 16);
    if (refused.refusal != 5 || f[0] != 9 || work[0] != 9)
        return 0;
    verdict = filzeur_solve(NOTHING, NO(none), NO(none), NO(words), 1, NO(out), f, 1, bill, 3, work, 16);
    if (verdict.refusal != 0 || verdict.kind != FILZEUR_SOLVED || verdict.degree != 0 || verdict.passes != 0 ||
        verdict.applications != 0 || verdict.multiplied != 0 || out[0] != 9 || f[0] != 1 || f[1] != 9 || bill[0] != 9 ||
        bill[1] != 9 || bill[2] != 9 || work[16] != 9)
        return 0;

    system = filzeur_read((const uint8_t *)text, strlen(text), read_starts, 1, NO(columns), NO(values), NO(scales),
                          NO(right));
    if (system.refusal != 0 || system.modulus != 7 || system.size != 0 || system.entries != 0 || read_starts[0] != 0 ||
        read_starts[1] != 9 || columns[0] != 9 || values[0] != 9 || scales[0] != 9 || right[0] != 9)
        return 0;
    return filzeur_write(NOTHING, NO(none), NO(none), written, 17).length == 17 && memcmp(written, text, 17) == 0 &&
           written[17] == 9 &&
           filzeur_text((const uint8_t *)text, strlen(text), answer, FILZEUR_CALL_ANSWER) == strlen(wanted) &&
           memcmp(answer, wanted, strlen(wanted)) == 0 && answer[strlen(wanted)] == 9 &&
           answer[FILZEUR_CALL_ANSWER] == 9;
}

int main(void) {
    int passed = solves() && ends_early() && scaled() && scaled_text() && answers() && multiplies() && nothing_left() &&
                 filzeur_field(2147483647) == 0 && filzeur_field(2147483646) == 3;
    printf("c99: %s\n", passed ? "passed" : "FAILED");
    return passed ? 0 : 1;
}
