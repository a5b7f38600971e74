// The C of kernel.c in the place of a library's g(A)v, for turns.cpp.
#include "calls.h"
#include "kernel.h"

namespace {

void apply(Case &c) {
    const System &s = c.s;
    plain_matrix a{s.p, s.n, s.starts.data(), s.columns.data(), s.values.data()};
    kernel_apply(&a, s.g.data(), s.g.size() - 1, c.v.data(), c.out.data(), c.work.data());
    c.numbers = {};
}

} // namespace

// As a library of version 3, which counts no entries.
extern "C" const Calls our_calls{3,     nullptr, nullptr, nullptr, nullptr,
                                 apply, nullptr, nullptr, nullptr, nullptr};
