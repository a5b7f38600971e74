/* Every slice that a test lends passes here on its way to the library: its pointer is not null and is aligned, also
 * where the length is 0. The library trusts that, and neither it nor the sanitizers would say otherwise. The linker
 * puts these functions before the library's (--wrap). */
#include "../filzeur.h"

#include <stdio.h>
#include <stdlib.h>

static void *held(const char *name, const void *slice, size_t alignment) {
    if (slice == NULL || (uintptr_t)slice % alignment != 0) {
        fprintf(stderr, "border: the pointer of %s is null or not aligned\n", name);
        abort();
    }
    return (void *)slice;
}

#define READS(type, name) const type *name, size_t name##_length
#define WRITES(type, name) type *name, size_t name##_length
#define LENT(name) held(#name, name, sizeof *name), name##_length
#define READS_MATRIX READS(uint32_t, starts), READS(uint32_t, columns), READS(uint32_t, values)
#define LENT_MATRIX LENT(starts), LENT(columns), LENT(values)
#define WRAP(result, name, parameters, arguments)                                                                      \
    extern __typeof__(name) __real_##name, __wrap_##name;                                                              \
    result __wrap_##name parameters {                                                                                  \
        return __real_##name arguments;                                                                                \
    }

WRAP(struct filzeur_written, filzeur_product, (uint32_t p, READS_MATRIX, READS(uint32_t, v), WRITES(uint32_t, out)),
     (p, LENT_MATRIX, LENT(v), LENT(out)))

WRAP(struct filzeur_written, filzeur_transposed, (uint32_t p, READS_MATRIX, READS(uint32_t, v), WRITES(uint32_t, out)),
     (p, LENT_MATRIX, LENT(v), LENT(out)))

WRAP(struct filzeur_written, filzeur_apply,
     (uint32_t p, READS_MATRIX, READS(uint32_t, g), READS(uint32_t, v), WRITES(uint32_t, out), WRITES(uint32_t, work)),
     (p, LENT_MATRIX, LENT(g), LENT(v), LENT(out), LENT(work)))

WRAP(struct filzeur_degree, filzeur_recurrence,
     (uint32_t p, READS(uint32_t, s), WRITES(uint32_t, polynomial), WRITES(uint32_t, work)),
     (p, LENT(s), LENT(polynomial), LENT(work)))

WRAP(struct filzeur_verdict, filzeur_solve,
     (uint32_t p, READS_MATRIX, READS(uint32_t, scales), READS(uint32_t, b), READS(uint32_t, words), uint32_t window,
      WRITES(uint32_t, vector), WRITES(uint32_t, polynomial), WRITES(uint32_t, bill), WRITES(uint32_t, work)),
     (p, LENT_MATRIX, LENT(scales), LENT(b), LENT(words), window, LENT(vector), LENT(polynomial), LENT(bill),
      LENT(work)))

WRAP(struct filzeur_yes, filzeur_takes, (uint32_t p, READS_MATRIX, READS(uint32_t, x), READS(uint32_t, b)),
     (p, LENT_MATRIX, LENT(x), LENT(b)))

WRAP(struct filzeur_yes, filzeur_is_null, (uint32_t p, READS_MATRIX, READS(uint32_t, w)), (p, LENT_MATRIX, LENT(w)))

WRAP(struct filzeur_system, filzeur_read,
     (READS(uint8_t, text), WRITES(uint32_t, starts), WRITES(uint32_t, columns), WRITES(uint32_t, values),
      WRITES(uint32_t, scales), WRITES(uint32_t, right)),
     (LENT(text), LENT(starts), LENT(columns), LENT(values), LENT(scales), LENT(right)))

WRAP(struct filzeur_length, filzeur_write,
     (uint32_t p, READS_MATRIX, READS(uint32_t, scales), READS(uint32_t, b), WRITES(uint8_t, text)),
     (p, LENT_MATRIX, LENT(scales), LENT(b), LENT(text)))

WRAP(uint64_t, filzeur_text, (READS(uint8_t, text), WRITES(uint8_t, answer)), (LENT(text), LENT(answer)))
