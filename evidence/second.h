// A second implementation of document 01's solver, made to be different from the first: terms by the
// transposed matrix, recurrences by Euclid's algorithm, where a pass may end early (document 02, request (v))
// from its quotients, 128-bit sums; scales (request (vi)) by making AX, entry by entry. It assumes a system
// and a window that are accepted.
#ifndef SECOND_H
#define SECOND_H

#include <algorithm>
#include <cstdint>
#include <utility>
#include <vector>

namespace second {

using Vector = std::vector<uint32_t>;
using Polynomial = std::vector<uint32_t>; // lowest power first, no zeros at the end; empty is 0

struct System {
    uint32_t p;
    std::vector<std::vector<std::pair<uint32_t, uint32_t>>>
        rows; // (column, value), both as document 01 has them
    Vector b;
    Vector scales = {}; // of the columns; none stand for ones
};

struct Pass {
    uint64_t left, degree, applications;
};

struct Answer {
    bool solved;
    Polynomial f;
    Vector vector;
    std::vector<Pass> bill;
    uint64_t applications, multiplied;
};

inline uint32_t multiply(uint32_t p, uint64_t a, uint64_t b) { return static_cast<uint32_t>(a * b % p); }

inline uint32_t subtract(uint32_t p, uint32_t a, uint32_t b) { return a >= b ? a - b : a + (p - b); }

// By Euclid's algorithm, not by a power.
inline uint32_t invert(uint32_t p, uint32_t a) {
    int64_t r0 = p, r1 = a, c0 = 0, c1 = 1;
    while (r1 != 0) {
        int64_t quotient = r0 / r1;
        r0 = std::exchange(r1, r0 - quotient * r1);
        c0 = std::exchange(c1, c0 - quotient * c1);
    }
    return static_cast<uint32_t>(c0 < 0 ? c0 + p : c0);
}

// Raises the counter at each entry that it multiplies.
inline Vector times(const System &s, const Vector &v, uint64_t &multiplied) {
    Vector result;
    for (const auto &row : s.rows) {
        unsigned __int128 sum = 0;
        for (auto [column, value] : row) {
            sum += uint64_t{value} * v[column];
            multiplied++;
        }
        result.push_back(static_cast<uint32_t>(sum % s.p));
    }
    return result;
}

// For those who don't count.
inline Vector times(const System &s, const Vector &v) {
    uint64_t multiplied = 0;
    return times(s, v, multiplied);
}

// AX in A's place, and no scales.
inline System scaled(System s) {
    if (!s.scales.empty())
        for (auto &row : s.rows)
            for (auto &[column, value] : row)
                value = multiply(s.p, value, s.scales[column]);
    s.scales.clear();
    return s;
}

inline System transpose(const System &s) {
    System result{s.p, std::vector<std::vector<std::pair<uint32_t, uint32_t>>>(s.rows.size()), s.b};
    for (uint32_t row = 0; row < s.rows.size(); row++)
        for (auto [column, value] : s.rows[row])
            result.rows[column].push_back({row, value});
    return result;
}

inline uint32_t dot(uint32_t p, const Vector &u, const Vector &v) {
    unsigned __int128 sum = 0;
    for (size_t i = 0; i < u.size(); i++)
        sum += uint64_t{u[i]} * v[i];
    return static_cast<uint32_t>(sum % p);
}

inline void trim(Polynomial &f) {
    while (!f.empty() && f.back() == 0)
        f.pop_back();
}

// a -= c z^shift b
inline void subtract_shifted(uint32_t p, Polynomial &a, uint32_t c, size_t shift, const Polynomial &b) {
    a.resize(std::max(a.size(), b.size() + shift));
    for (size_t i = 0; i < b.size(); i++)
        a[i + shift] = subtract(p, a[i + shift], multiply(p, c, b[i]));
    trim(a);
}

inline Polynomial monic(uint32_t p, Polynomial f) {
    uint32_t inverse = invert(p, f.back());
    for (uint32_t &coefficient : f)
        coefficient = multiply(p, coefficient, inverse);
    return f;
}

// Where a pass works f(A)r out before its last term, and with which f; term 0: nowhere.
struct Test {
    size_t term;
    Polynomial f;
};

// The shortest recurrence of 2 × half terms that has a degree of at most half: with S = s[0] z^(N-1) + .. +
// s[N-1], the cofactor of S at the first remainder of degree below half in Euclid's algorithm on z^N and S,
// made monic.
//
// The algorithm also has what the first terms alone give. A quotient that brings the cofactor's degree to L
// has its coefficient of z^k settled by term 2L - k, and until then document 01's steps hold it to be 0: so
// the discrepancies that are not 0 are those of the terms where a coefficient is not 0, and the cofactor as
// it stands between two of these, made monic, is the f of all terms in between. The test is due `window`
// terms after the first of them that is followed by so many zeros, before the last term; L is above 0 there.
inline Polynomial recurrence(uint32_t p, const Vector &terms, size_t half, size_t window, Test &test) {
    Polynomial r0(terms.size() + 1), r1(terms.rbegin(), terms.rend()), c0, c1{1};
    size_t changed = 0; // the last term so far whose discrepancy is not 0
    auto until = [&](size_t next, const Polynomial &cofactor) {
        if (window > 0 && test.term == 0 && changed > 0 && changed + window < next)
            test = {changed + window, monic(p, cofactor)};
        changed = next;
    };
    r0.back() = 1;
    trim(r1);
    while (r1.size() > half) {
        uint32_t inverse = invert(p, r1.back());
        size_t degree = c1.size() - 1 + r0.size() - r1.size();
        for (bool first = true; r0.size() >= r1.size(); first = false) {
            uint32_t c = multiply(p, r0.back(), inverse);
            size_t shift = r0.size() - r1.size();
            until(2 * degree - shift, first ? c1 : c0);
            subtract_shifted(p, r0, c, shift, r1);
            subtract_shifted(p, c0, c, shift, c1);
        }
        std::swap(r0, r1);
        std::swap(c0, c1);
    }
    until(terms.size(), c1);
    return monic(p, c1);
}

inline Polynomial multiply(uint32_t p, const Polynomial &f, const Polynomial &g) {
    Polynomial result(f.size() + g.size() - 1);
    for (size_t k = 0; k < result.size(); k++) {
        unsigned __int128 sum = 0;
        for (size_t i = k < g.size() ? 0 : k - g.size() + 1; i < f.size() && i <= k; i++)
            sum += uint64_t{f[i]} * g[k - i];
        result[k] = static_cast<uint32_t>(sum % p);
    }
    return result;
}

inline bool is_zero(const Vector &v) {
    return std::all_of(v.begin(), v.end(), [](uint32_t element) { return element == 0; });
}

// Counts each product with the matrix as it is made, and each entry in it.
class Run {
  public:
    explicit Run(const System &system) : s(scaled(system)), t(transpose(s)), scales(system.scales) {}

    Answer operator()(const Vector &words, size_t window = 0) {
        size_t n = s.rows.size();
        Answer answer{true, {1}, Vector(n), {}, 0, 0};
        Vector r = s.b;
        while (!is_zero(r)) {
            size_t left = n - (answer.f.size() - 1);
            uint64_t before = count.made;
            Polynomial f = pass(projection(words, answer.bill.size()), r, left, window);
            answer.f = multiply(s.p, answer.f, f);
            answer.bill.push_back({left, f.size() - 1, count.made - before});
        }
        if (answer.f.size() > 1) {
            answer.vector = apply(Polynomial(answer.f.begin() + 1, answer.f.end()), s.b);
            answer.solved = answer.f[0] != 0;
            uint32_t factor = answer.solved ? subtract(s.p, 0, invert(s.p, answer.f[0])) : 1;
            for (uint32_t &element : answer.vector)
                element = multiply(s.p, element, factor);
            for (size_t i = 0; i < scales.size(); i++)
                answer.vector[i] = multiply(s.p, answer.vector[i], scales[i]);
        }
        answer.applications = count.made;
        answer.multiplied = count.multiplied;
        return answer;
    }

  private:
    // A pass is made where r is not zero, so n is at least 1.
    Vector projection(const Vector &words, size_t pass) const {
        size_t n = s.rows.size(), vectors = words.size() / n;
        Vector u(n);
        for (size_t i = 0; i < n; i++)
            u[i] = pass < vectors ? words[pass * n + i] % s.p : i == pass - vectors;
        return u;
    }
    // The f of a pass, with which r is changed. All terms are made, and those that a pass that ends early has
    // no use for are taken off the count again.
    Polynomial pass(Vector u, Vector &r, size_t left, size_t window) {
        Vector terms{dot(s.p, u, r)};
        std::vector<Count> after{count};
        while (terms.size() < 2 * left) {
            u = times(t, u, count.multiplied);
            count.made++;
            terms.push_back(dot(s.p, u, r));
            after.push_back(count);
        }
        Test test{};
        Polynomial f = recurrence(s.p, terms, left, window, test);
        if (test.term > 0) {
            Vector tested = apply(test.f, r);
            if (is_zero(tested)) {
                count.made -= after.back().made - after[test.term - 1].made;
                count.multiplied -= after.back().multiplied - after[test.term - 1].multiplied;
                r = tested;
                return test.f;
            }
        }
        r = apply(f, r);
        return f;
    }
    Vector apply(const Polynomial &g, const Vector &v) {
        Vector power = v, result(v.size());
        for (size_t i = 0; i < g.size(); i++) {
            if (i > 0) {
                power = times(s, power, count.multiplied);
                count.made++;
            }
            for (size_t k = 0; k < v.size(); k++)
                result[k] = static_cast<uint32_t>((result[k] + uint64_t{g[i]} * power[k]) % s.p);
        }
        return result;
    }

    struct Count {
        uint64_t made = 0, multiplied = 0;
    };

    System s, t; // AX, and its transpose
    Vector scales;
    Count count;
};

} // namespace second
#endif
