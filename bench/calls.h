// The calls of the C border that are timed, each made on one case. turns.cpp has the calls of two libraries
// beside each other, so only calls.cpp is built on filzeur.h: where the border moves, it tells the versions
// apart, and a call that a version lacks is null.
#ifndef CALLS_H
#define CALLS_H

#include "contestants.h"

// A system with what the calls read beside it, and room for what they write.
struct Case {
    Case(const System &system, const Vector &given, const Vector &list)
        : s(system), v(given), terms(list), out(s.n), vector(s.n), f(s.n + 1),
          bill(3 * (s.n + s.words.size() / s.n)), work(16 * s.n + 16), generator(terms.size() + 1),
          recurrence_work(4 * terms.size() + 8), answer(8192, ' ') {}

    const System &s;
    const Vector &v, &terms;
    std::string text; // the system's, from Calls::write
    Vector out, vector, f, bill, work, generator, recurrence_work;
    std::string answer; // the text call's
    struct Numbers {
        uint64_t refusal, kind, degree, passes, applications, multiplied, length;
    } numbers{}; // of the last call
};

struct Calls {
    int version; // FILZEUR_VERSION of the header
    void (*field)(Case &);
    void (*inverses)(Case &); // of the elements of v, each a call
    void (*product)(Case &);
    void (*transposed)(Case &);
    void (*apply)(Case &);
    void (*recurrence)(Case &);
    void (*solve)(Case &);
    void (*write)(Case &);
    void (*text)(Case &);
};

extern "C" const Calls our_calls;

#endif
