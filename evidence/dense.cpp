// What dense elimination says of compare.py's `solve` lines: by a few lines of our own, or by FLINT
// (-DWITH_FLINT).
//
// The Krylov vectors are b, Ab, A²b, .., with AX for A where there are scales. For each line: D (the rank of b,
// .., Aⁿb), the rank of Ab, .., Aⁿb, and the monic f of degree D with f(A)b = 0; or `skipped` where that would
// cost more than the argument (n × D × D).
#include "line.h"

#include <iostream>
#include <optional>

#ifdef WITH_FLINT
#include <flint/nmod_mat.h>
#endif

using second::Vector;

namespace {

struct Report {
    size_t degree, shifted;
    Vector f;
};

#ifndef WITH_FLINT
// Vectors so far in echelon form, each with the combination of Krylov vectors that it is. None of it is
// shared with a recurrence: rank and dependence by elimination only.
class Echelon {
  public:
    explicit Echelon(uint32_t modulus) : p(modulus) {}

    size_t rank() const { return rows.size(); }

    // The combination of the vectors so far, and of v with 1, that is zero; nothing if v is independent of
    // them.
    std::optional<Vector> add(Vector v) {
        Vector combination(added++ + 1);
        combination.back() = 1;
        for (const Row &row : rows) {
            uint32_t c = v[row.pivot];
            if (c == 0)
                continue;
            reduce(v, c, row.vector);
            reduce(combination, c, row.combination);
        }
        size_t pivot = 0;
        while (pivot < v.size() && v[pivot] == 0)
            pivot++;
        if (pivot == v.size())
            return combination;
        uint32_t inverse = second::invert(p, v[pivot]);
        for (Vector *part : {&v, &combination})
            for (uint32_t &element : *part)
                element = static_cast<uint32_t>(uint64_t{element} * inverse % p);
        rows.push_back({pivot, v, combination});
        return {};
    }

  private:
    struct Row {
        size_t pivot;
        Vector vector, combination;
    };

    void reduce(Vector &v, uint32_t c, const Vector &w) const {
        for (size_t i = 0; i < w.size(); i++)
            v[i] = static_cast<uint32_t>((v[i] + uint64_t{p - c} * w[i]) % p);
    }

    uint32_t p;
    size_t added = 0;
    std::vector<Row> rows;
};

std::optional<Report> examine(const second::System &s, double budget) {
    size_t n = s.rows.size();
    Echelon all(s.p), shifted(s.p);
    Vector v = s.b;
    std::optional<Vector> f;
    while (!(f = all.add(v))) {
        if (double(n) * all.rank() * all.rank() > budget)
            return {};
        v = second::times(s, v);
        shifted.add(v);
    }
    // v is the D-th: those after it depend on Ab, .., A^D b, which are all in `shifted`.
    return Report{all.rank(), shifted.rank(), *f};
}
#else
// The matrix whose columns are Aᶠb, .., A^(f + columns - 1) b.
void krylov(nmod_mat_t result, const second::System &s, size_t first, size_t columns) {
    nmod_mat_init(result, static_cast<slong>(s.rows.size()), static_cast<slong>(columns), s.p);
    Vector v = s.b;
    for (size_t k = 0; k < first + columns; k++, v = second::times(s, v))
        for (size_t i = 0; k >= first && i < v.size(); i++)
            nmod_mat_entry(result, i, k - first) = v[i];
}

std::optional<Report> examine(const second::System &s, double budget) {
    size_t n = s.rows.size();
    if (double(n) * n * n > budget)
        return {};
    nmod_mat_t all, shifted;
    krylov(all, s, 0, n + 1);
    krylov(shifted, s, 1, n);
    Report report{static_cast<size_t>(nmod_mat_rank(all)), static_cast<size_t>(nmod_mat_rank(shifted)), {1}};
    nmod_mat_clear(all);
    nmod_mat_clear(shifted);
    if (report.degree > 0) {
        nmod_mat_t basis, next, x;
        krylov(basis, s, 0, report.degree);
        krylov(next, s, report.degree, 1);
        nmod_mat_init(x, static_cast<slong>(report.degree), 1, s.p);
        if (!nmod_mat_can_solve(x, basis, next))
            return Report{0, 0, {}}; // can't be: the rank says that the vector depends on the others
        report.f.clear();
        for (size_t i = 0; i < report.degree; i++)
            report.f.push_back(second::subtract(s.p, 0, static_cast<uint32_t>(nmod_mat_entry(x, i, 0))));
        report.f.push_back(1);
        nmod_mat_clear(basis);
        nmod_mat_clear(next);
        nmod_mat_clear(x);
    }
    return report;
}
#endif

} // namespace

int main(int argc, char **argv) {
    double budget = argc > 1 ? std::stod(argv[1]) : 1e9;
    std::string text;
    while (std::getline(std::cin, text)) {
        Line line(text);
        std::optional<Report> report = examine(second::scaled(line.system), budget);
        if (!report) {
            std::cout << "skipped" << std::endl;
            continue;
        }
        std::cout << report->degree << ' ' << report->shifted;
        for (uint32_t coefficient : report->f)
            std::cout << ' ' << coefficient;
        std::cout << std::endl;
    }
}
