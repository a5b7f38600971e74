#include "calls.h"
#include "../host/filzeur.h"

namespace {

uint8_t *bytes(std::string &text) { return reinterpret_cast<uint8_t *>(text.data()); }

// The pointer of an empty vector may be null, and a slice's may not.
[[maybe_unused]] const uint32_t *place(const Vector &v) {
    static const uint32_t nowhere = 0;
    return v.empty() ? &nowhere : v.data();
}

void refused(Case &c, uint32_t refusal) { c.numbers = {refusal, 0, 0, 0, 0, 0, 0}; }

void field(Case &c) { refused(c, filzeur_field(c.s.p)); }

void inverses(Case &c) {
    refused(c, 0);
    for (size_t i = 0; i < c.v.size(); i++) {
        filzeur_element answer = filzeur_inverse(c.s.p, c.v[i]);
        c.out[i] = answer.value;
        c.numbers.refusal |= answer.refusal;
    }
}

// What a product answers: before version 4 the refusal alone.
#if FILZEUR_VERSION >= 4
void written(Case &c, filzeur_written answer) {
    c.numbers = {answer.refusal, 0, 0, 0, 0, answer.multiplied, 0};
}
#else
void written(Case &c, uint32_t refusal) { refused(c, refusal); }
#endif

void product(Case &c) {
    const System &s = c.s;
    written(c, filzeur_product(s.p, s.starts.data(), s.starts.size(), s.columns.data(), s.columns.size(),
                               s.values.data(), s.values.size(), c.v.data(), c.v.size(), c.out.data(),
                               c.out.size()));
}

void transposed(Case &c) {
    const System &s = c.s;
    written(c, filzeur_transposed(s.p, s.starts.data(), s.starts.size(), s.columns.data(), s.columns.size(),
                                  s.values.data(), s.values.size(), c.v.data(), c.v.size(), c.out.data(),
                                  c.out.size()));
}

void apply(Case &c) {
    const System &s = c.s;
    written(c, filzeur_apply(s.p, s.starts.data(), s.starts.size(), s.columns.data(), s.columns.size(),
                             s.values.data(), s.values.size(), s.g.data(), s.g.size(), c.v.data(), c.v.size(),
                             c.out.data(), c.out.size(), c.work.data(), c.work.size()));
}

void recurrence(Case &c) {
    filzeur_degree answer =
        filzeur_recurrence(c.s.p, c.terms.data(), c.terms.size(), c.generator.data(), c.generator.size(),
                           c.recurrence_work.data(), c.recurrence_work.size());
    c.numbers = {answer.refusal, 0, answer.degree, 0, 0, 0, 0};
}

void solve(Case &c) {
    const System &s = c.s;
    filzeur_verdict answer = filzeur_solve(
        s.p, s.starts.data(), s.starts.size(), s.columns.data(), s.columns.size(), s.values.data(),
        s.values.size(),
#if FILZEUR_VERSION >= 6
        place(s.scales), s.scales.size(),
#endif
        s.b.data(), s.b.size(), s.words.data(), s.words.size(),
#if FILZEUR_VERSION >= 5
        s.window,
#endif
        c.vector.data(), c.vector.size(), c.f.data(), c.f.size(),
#if FILZEUR_VERSION >= 2
        c.bill.data(), c.bill.size(),
#endif
        c.work.data(), c.work.size());
    uint64_t multiplied = 0;
#if FILZEUR_VERSION >= 4
    multiplied = answer.multiplied;
#endif
    c.numbers = {answer.refusal,      answer.kind, answer.degree, answer.passes,
                 answer.applications, multiplied,  0};
}

void write(Case &c) {
    const System &s = c.s;
    c.text.resize(33 + 23 * s.columns.size() + 36 * s.n);
    filzeur_length answer = filzeur_write(s.p, s.starts.data(), s.starts.size(), s.columns.data(),
                                          s.columns.size(), s.values.data(), s.values.size(),
#if FILZEUR_VERSION >= 6
                                          place(s.scales), s.scales.size(),
#endif
                                          s.b.data(), s.b.size(), bytes(c.text), c.text.size());
    c.text.resize(answer.length);
    c.numbers = {answer.refusal, 0, 0, 0, 0, 0, answer.length};
}

void text(Case &c) {
    uint64_t answer = filzeur_text(bytes(c.text), c.text.size(), bytes(c.answer), c.answer.size());
    bool taken = answer > 18;
    c.numbers = {taken ? 0 : answer, 0, 0, 0, 0, 0, taken ? answer : 0};
}

} // namespace

#ifndef FILZEUR_VERSION
#define FILZEUR_VERSION 1
#endif

extern "C" const Calls our_calls{FILZEUR_VERSION, field, inverses, product, transposed, apply,
                                 recurrence,      solve, write,    text};
