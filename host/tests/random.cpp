// Random systems on the C++ calls, held to the definitions by plain loops and dense elimination, with no line shared
// with the library.
//
//     random [SEED]
#include "check.hpp"
#include "../filzeur.hpp"

#include <cstdlib>
#include <functional>
#include <random>
#include <set>
#include <sstream>

namespace {

using filzeur::Kind;
using filzeur::Polynomial;
using filzeur::System;
using filzeur::Vector;
using tests::check;
using Rows = std::vector<Vector>;

std::mt19937 generator;

std::uint32_t below(std::uint32_t bound) {
    return std::uint32_t(generator() % bound);
}

Vector elements(std::uint32_t p, std::size_t count) {
    Vector v(count);
    for (auto &element : v)
        element = below(p);
    return v;
}

// ---- The definitions, densely ----

Rows dense(const System &system) {
    const auto &a = system.matrix;
    Rows rows(a.size(), Vector(a.size()));
    for (std::size_t i = 0; i < a.size(); ++i)
        for (auto k = a.starts[i]; k < a.starts[i + 1]; ++k)
            rows[i][a.columns[k]] = a.values[k];
    return rows;
}

Rows transpose(const Rows &rows) {
    Rows result(rows.size(), Vector(rows.size()));
    for (std::size_t i = 0; i < rows.size(); ++i)
        for (std::size_t j = 0; j < rows.size(); ++j)
            result[j][i] = rows[i][j];
    return result;
}

std::uint32_t times(std::uint64_t p, std::uint64_t a, std::uint64_t b) {
    return std::uint32_t(a * b % p);
}

Vector times(std::uint32_t p, const Rows &rows, const Vector &v) {
    Vector result(rows.size());
    for (std::size_t i = 0; i < rows.size(); ++i)
        for (std::size_t j = 0; j < v.size(); ++j)
            result[i] = std::uint32_t((std::uint64_t{result[i]} + times(p, rows[i][j], v[j])) % p);
    return result;
}

std::uint32_t inverse(std::uint32_t p, std::uint32_t a) {
    std::uint32_t result = 1 % p;
    for (std::uint32_t exponent = p - 2; exponent != 0; exponent >>= 1, a = times(p, a, a))
        if (exponent & 1)
            result = times(p, result, a);
    return result;
}

std::size_t rank(std::uint32_t p, Rows rows) {
    std::size_t found = 0, width = rows.empty() ? 0 : rows[0].size();
    for (std::size_t column = 0; column < width && found < rows.size(); ++column) {
        auto pivot = std::find_if(rows.begin() + std::ptrdiff_t(found), rows.end(),
                                  [&](const Vector &row) { return row[column] != 0; });
        if (pivot == rows.end())
            continue;
        std::swap(*pivot, rows[found]);
        auto scale = inverse(p, rows[found][column]);
        for (std::size_t i = found + 1; i < rows.size(); ++i) {
            auto factor = times(p, rows[i][column], scale);
            for (std::size_t j = column; j < width; ++j)
                rows[i][j] = std::uint32_t((std::uint64_t{rows[i][j]} + p - times(p, factor, rows[found][j])) % p);
        }
        ++found;
    }
    return found;
}

// b, Ab, .., the n-th power of A times b
Rows krylov(std::uint32_t p, const Rows &rows, const Vector &b) {
    Rows powers{b};
    for (std::size_t i = 0; i < rows.size(); ++i)
        powers.push_back(times(p, rows, powers.back()));
    return powers;
}

// Whether some monic polynomial of this degree recurs on s: whether its equations have a solution.
bool some_recurs(std::uint32_t p, const Vector &s, std::size_t degree) {
    Rows left, both;
    for (std::size_t j = 0; j + degree < s.size(); ++j) {
        auto from = s.begin() + std::ptrdiff_t(j), to = from + std::ptrdiff_t(degree);
        left.emplace_back(from, to);
        both.emplace_back(from, to + 1);
    }
    return rank(p, left) == rank(p, both);
}

bool recurs(std::uint32_t p, const filzeur::Polynomial &f, const Vector &s) {
    for (std::size_t j = 0; j + f.size() <= s.size(); ++j) {
        std::uint64_t sum = 0;
        for (std::size_t i = 0; i < f.size(); ++i)
            sum += times(p, f[i], s[i + j]);
        if (sum % p != 0)
            return false;
    }
    return !f.empty() && f.back() == 1;
}

// ---- Systems ----

// None, ones, or numbers from 1 to p - 1
Vector draw_scales(std::uint32_t p, std::size_t size) {
    auto sort = below(4);
    if (sort == 0)
        return {};
    Vector scales(size, 1);
    if (sort > 1)
        for (auto &scale : scales)
            scale = 1 + below(p - 1);
    return scales;
}

// AX, entry by entry, in a system without scales
System unscaled(const System &system) {
    System result{system.field, system.matrix, system.right};
    for (std::size_t k = 0; k < result.matrix.values.size() && !system.scales.empty(); ++k)
        result.matrix.values[k] =
            times(system.field.p, result.matrix.values[k], system.scales[result.matrix.columns[k]]);
    return result;
}

// Xv
Vector scaled(const System &system, Vector v) {
    for (std::size_t j = 0; j < system.scales.size(); ++j)
        v[j] = times(system.field.p, v[j], system.scales[j]);
    return v;
}

// Few entries to a row and small moduli: singular systems and restarts are common then.
System draw_system(std::size_t size, std::uint32_t per_row) {
    static const std::uint32_t primes[] = {2, 2, 3, 3, 5, 7, 251, 65537, 2147483629, 2147483647};
    std::uint32_t p = primes[below(std::size(primes))];
    System system{{p}, {{0}, {}, {}}, {}};
    for (std::size_t i = 0; i < size; ++i) {
        std::set<std::uint32_t> columns;
        for (std::uint32_t k = below(per_row + 1); k != 0; --k)
            columns.insert(below(std::uint32_t(size)));
        for (auto column : columns) {
            system.matrix.columns.push_back(column);
            system.matrix.values.push_back(1 + below(p - 1));
        }
        system.matrix.starts.push_back(std::uint32_t(system.matrix.columns.size()));
    }
    system.right = elements(p, size);
    for (auto &element : system.right)
        if (below(3) == 0)
            element = 0;
    system.scales = draw_scales(p, size);
    return system;
}

// Random words, words that are all 0 modulo p, or unit vectors
std::vector<std::uint32_t> draw_words(std::uint32_t p, std::size_t size, std::size_t vectors) {
    std::vector<std::uint32_t> words(vectors * size);
    if (words.empty())
        return words;
    switch (below(3)) {
    case 0:
        for (auto &word : words)
            word = p;
        break;
    case 1:
        for (std::size_t j = 0; j < vectors; ++j)
            words[j * size + below(std::uint32_t(size))] = 1;
        break;
    default:
        for (auto &word : words)
            word = std::uint32_t(generator());
    }
    return words;
}

std::uint32_t draw_window() {
    static const std::uint32_t windows[] = {0, 0, 1, 1, 2, 2, 3, 5, 64};
    return windows[below(std::size(windows))];
}

// ---- What is tested ----

// The entries of the dense matrix
std::uint64_t entries_of(const Rows &rows) {
    std::uint64_t count = 0;
    for (const auto &row : rows)
        count += std::uint64_t(row.size()) - std::uint64_t(std::count(row.begin(), row.end(), 0u));
    return count;
}

// A call multiplies each entry once for each product that it makes, whatever the vector holds.
void entries(const System &system, const Vector &v, const Polynomial &g) {
    auto once = entries_of(dense(system));
    const auto &[field, a, b] = system;
    check(filzeur::product(field, a, v).multiplied() == once, "product's entries");
    check(filzeur::transposed(field, a, v).multiplied() == once, "transposed's entries");
    check(filzeur::apply(field, a, g, v).multiplied() == (g.size() - 1) * once, "apply's entries");
    check(filzeur::takes(field, a, v, b).multiplied() == once, "takes's entries");
    check(filzeur::is_null(field, a, v).multiplied() == once, "is_null's entries");
}

void products(const System &system) {
    auto p = system.field.p;
    auto rows = dense(system);
    auto v = elements(p, rows.size()), g = elements(p, 1 + below(std::uint32_t(rows.size()) + 1));
    check(filzeur::product(system.field, system.matrix, v).value() == times(p, rows, v), "product");
    check(filzeur::transposed(system.field, system.matrix, v).value() == times(p, transpose(rows), v), "transposed");
    Vector sum(rows.size());
    auto powers = krylov(p, rows, v);
    for (std::size_t i = 0; i < g.size(); ++i)
        for (std::size_t k = 0; k < sum.size(); ++k)
            sum[k] = std::uint32_t((std::uint64_t{sum[k]} + times(p, g[i], powers[i][k])) % p);
    check(filzeur::apply(system.field, system.matrix, g, v).value() == sum, "apply");
    check(filzeur::takes(system.field, system.matrix, v, times(p, rows, v)).value(), "takes says yes");
    check(filzeur::takes(system.field, system.matrix, v, system.right).value() == (times(p, rows, v) == system.right),
          "takes");
    const Vector zero(rows.size());
    check(filzeur::is_null(system.field, system.matrix, v).value() == (v != zero && times(p, rows, v) == zero),
          "is_null");
    entries(system, v, g);
    entries(system, zero, {1});
}

void text(const System &system) {
    auto written = filzeur::write_system(system).value();
    auto read = filzeur::read_system(written);
    check(read.ok() && read.value() == system, "written and read");
    bool ones = std::all_of(system.scales.begin(), system.scales.end(), [](auto scale) { return scale == 1; });
    check(read.value().scales == (ones ? Vector{} : system.scales), "scales written and read, ones as none");
    auto letters = std::size_t(std::count(written.begin(), written.end(), 's')); // two of them in `system`
    check(letters == 2 + read.value().scales.size(), "s lines exactly if some scale isn't 1");

    // One byte changed: refused, or a system whose text is exactly these bytes.
    static const std::string marks = "0123456789\t\nabsx";
    for (int i = 0; i < 8; ++i) {
        auto changed = written;
        changed[below(std::uint32_t(changed.size()))] = marks[below(std::uint32_t(marks.size()))];
        auto found = filzeur::read_system(changed);
        if (found.ok())
            check(filzeur::write_system(found.value()).value() == changed, "accepted and written again");
        else
            check(found.refusal().number >= 2 && found.refusal().number <= 7, "a text's refusal");
    }
}

// Whether a pass can cost so much: all of its terms and f(A)r; or, with a window, less by the terms after a test that
// ended it, which comes after as many terms as its degree and the window together, or more by the degree of one that
// failed.
bool costs(const filzeur::Pass &pass, std::uint32_t window) {
    std::uint64_t all = 2 * pass.left - 1 + pass.degree;
    if (pass.applications == all)
        return true;
    if (pass.applications > all)
        return window >= 1 && pass.applications <= all + pass.degree && window < 2 * pass.left;
    return window >= 1 && pass.degree >= 1 && pass.applications >= 2 * pass.degree + window - 1;
}

// A pass for each projection that was used, left falling from n by their degrees; with the close they make up the
// applications.
void bill(std::size_t n, const filzeur::Answer &answer, std::uint32_t window = 0) {
    std::uint64_t left = n, sum = answer.degree == 0 ? 0 : answer.degree - 1;
    check(answer.bill.size() == answer.passes, "the bill has every pass");
    for (const auto &pass : answer.bill) {
        check(pass.left == left && costs(pass, window), "a pass on the bill");
        left -= pass.degree;
        sum += pass.applications;
    }
    check(left == n - answer.degree && sum == answer.applications, "the bill adds up");
}

Vector numbers_of(const std::vector<filzeur::Pass> &bill) {
    Vector all;
    for (const auto &[left, degree, applications] : bill)
        for (auto number : {left, degree, applications})
            all.push_back(std::uint32_t(number));
    return all;
}

// A bill of any length, by the C call: whole passes only, and what stands behind them stays; all of it where refused.
void bill_lengths(const System &system, const std::vector<std::uint32_t> &words, std::uint32_t window) {
    auto n = system.matrix.size();
    auto run = filzeur::solve_with(system, {words, window}).value();
    auto all = numbers_of(run.bill);
    for (std::size_t places : {std::size_t{0}, std::size_t{1}, std::size_t{2}, std::size_t{3}, std::size_t{5},
                               all.size(), all.size() + 1, all.size() + 2, all.size() + 3, 3 * (n + 64)}) {
        Vector f(n + 1), work(16 * n + 16);
        tests::Slice<std::uint32_t> vector(n), bill(places, 4294967295);
        auto solve = [&](std::size_t work_length) {
            using filzeur::detail::place;
            return filzeur::detail::with(filzeur_solve, system.field, system.matrix, place(system.scales),
                                         system.scales.size(), place(system.right), n, place(words), words.size(),
                                         window, vector.data(), n, f.data(), n + 1, bill.data(), places, work.data(),
                                         work_length);
        };
        auto refused = solve(work.size() - 1);
        check(refused.refusal == 11 && refused.multiplied == 0 && bill.untouched(), "a refused call's bill");
        auto verdict = solve(work.size());
        check(verdict.refusal == 0 && verdict.passes == run.passes && verdict.applications == run.applications &&
                  verdict.multiplied == run.multiplied && vector.ends_as(run.vector),
              "the same run for every bill");
        auto billed = std::ptrdiff_t(std::min(places - places % 3, all.size()));
        check(bill.ends_as(Vector(all.begin(), all.begin() + billed)), "whole passes on a bill");
    }
}

// Code from before the bill: six initialisers, six names bound, and passes is their number. Code from before the
// entries multiplied: seven initialisers, functions of the types that they had, and results made of a value alone.
void earlier_code() {
    filzeur::Answer answer{Kind::solved, 1, 2, 7, {0, 5}, {4, 1}};
    std::uint64_t passes = answer.passes;
    check(passes == 2 && answer.bill.empty() && answer.multiplied == 0, "an answer made without a bill");
    filzeur::Answer billed{Kind::solved, 1, 1, 4, {5, 5}, {4, 1}, {{2, 1, 4}}};
    check(billed.bill.size() == 1 && billed.multiplied == 0, "an answer made with a bill");
    const auto &[kind, degree, number, applications, vector, polynomial] = answer;
    check(kind == Kind::solved && degree == 1 && number == 2 && applications == 7 && &vector == &answer.vector &&
              polynomial == Polynomial{4, 1},
          "six names of an answer");
    auto [k, d, n, a, x, f] = filzeur::solve({{7}, {{0, 1, 2}, {0, 1}, {2, 3}}, {1, 1}}).value();
    check(k == Kind::solved && d == 2 && n == 2 && a == 7 && x == Vector{4, 5} && f == Polynomial{6, 2, 1},
          "six names of a run");
    auto &[k2, d2, n2, a2, x2, f2] = answer;
    k2 = Kind::singular, d2 = n2 = a2 = 0, x2 = f2 = {};
    check(answer.kind == Kind::singular && answer.passes == 0 && answer.vector.empty(), "six names, written through");

    using filzeur::Field, filzeur::Matrix, filzeur::Result;
    Result<Vector> (*product)(const Field &, const Matrix &, const Vector &) = filzeur::product;
    Result<Vector> (*transposed)(const Field &, const Matrix &, const Vector &) = filzeur::transposed;
    Result<Vector> (*apply)(const Field &, const Matrix &, const Polynomial &, const Vector &) = filzeur::apply;
    Result<filzeur::Answer> (*solve)(const System &, const std::vector<std::uint32_t> &) = filzeur::solve;
    Result<bool> (*takes)(const Field &, const Matrix &, const Vector &, const Vector &) = filzeur::takes;
    Result<bool> (*is_null)(const Field &, const Matrix &, const Vector &) = filzeur::is_null;
    const Matrix diagonal{{0, 1, 2}, {0, 1}, {2, 3}};
    check(product({7}, diagonal, {1, 1}).value() == Vector{2, 3} &&
              transposed({7}, diagonal, {1, 1}).value() == Vector{2, 3} &&
              apply({7}, diagonal, {0, 1}, {1, 1}).value() == Vector{2, 3} &&
              solve({{7}, diagonal, {1, 1}}, {}).value().vector == Vector{4, 5} &&
              takes({7}, diagonal, {4, 5}, {1, 1}).value() && !is_null({7}, diagonal, {4, 5}).value(),
          "functions of the types that they had");
    Result<Vector> made = Vector{1, 2}, braced{{1, 2}}, refused = filzeur::Refusal{8};
    Result<bool> yes = true, no{false};
    check(made.value() == Vector{1, 2} && braced.value() == Vector{1, 2} && refused.refusal().number == 8 &&
              yes.value() && !no.value() && made.multiplied() + refused.multiplied() + yes.multiplied() == 0,
          "results of a value alone, or of a refusal");
}

// Code from before the scales: three initialisers and three names of a system, and options of words and a window.
void earlier_systems() {
    System system{{7}, {{0, 1, 2}, {0, 1}, {2, 3}}, {1, 1}};
    check(system.scales.empty(), "a system made without scales");
    const auto &[field, matrix, right] = system;
    check(field.p == 7 && &matrix == &system.matrix && right == Vector{1, 1}, "three names of a system");
    auto [f, m, r] = filzeur::read_system("system\t7\t1\t1\na\t1\t1\t2\ns\t1\t3\nb\t1\t4\nend\n").value();
    check(f.p == 7 && m.values == Vector{2} && r == Vector{4}, "three names of what was read");
    auto &[f2, m2, r2] = system;
    f2.p = 11, m2.values = {4, 5}, r2 = {6, 7};
    check(system == System{{11}, {{0, 1, 2}, {0, 1}, {4, 5}}, {6, 7}}, "three names, written through");
    check(filzeur::solve_with(system, {{}, 1}).ok() && filzeur::solve_with(system, {{1, 1}}).ok(), "earlier options");
}

// What turns into a vector of words
struct Generator {
    operator std::vector<std::uint32_t>() const { return {1, 1}; }
};

// Code from before the window: every way to give words, or none; the number of passes tells which arrived. Then options.
void words_and_options() {
    using filzeur::solve, filzeur::solve_with, filzeur::Options;
    const filzeur::Matrix diagonal{{0, 1, 2}, {0, 1}, {2, 3}};
    const System two{{7}, diagonal, {1, 1}};
    const std::vector<std::uint32_t> words{1, 1};
    check(solve(two).value().passes == 2 && solve(two, {}).value().passes == 2 &&
              solve({{7}, diagonal, {1, 1}}, {}).value().passes == 2,
          "no words, as before");
    check(solve(two, {0, 0}).value().passes == 3 && solve(two, {1, 1}).value().passes == 1 &&
              solve(two, words).value().passes == 1 && solve(two, Vector(2)).value().passes == 3 &&
              solve(two, {words.begin(), words.end()}).value().passes == 1 &&
              solve(two, Generator{}).value().passes == 1 && solve(two, {1}).refusal().number == 10,
          "words, as they were given before");
    auto handed = &filzeur::solve;
    const std::function<filzeur::Result<filzeur::Answer>(const System &, const Vector &)> held = filzeur::solve;
    check(handed(two, words).value().passes == 1 && held(two, {}).value().passes == 2, "solve, handed on");
    Options options;
    check(options.words.empty() && options.window == 0 && solve_with(two, options).value().applications == 7 &&
              solve_with(two, Options{words}).value().applications == 6,
          "options without a window");
    options.window = 1;
    check(solve_with(two, options).value().applications == 8 &&
              solve_with(two, Options{{}, 64}).value().applications == 7 &&
              solve_with({{7}, diagonal, {1, 1}}, Options{words, 1}).value().applications == 6 &&
              solve_with(two, Options{{}, 65}).refusal().number == 13 &&
              solve_with(two, Options{{1}, 65}).refusal().number == 10,
          "options with a window");
}

// The same verdict, counts and bill, and the second's vector is X times that of the first.
bool same_run(const filzeur::Answer &on_ax, const filzeur::Answer &run, const System &system) {
    return run.kind == on_ax.kind && run.degree == on_ax.degree && run.passes == on_ax.passes &&
           run.applications == on_ax.applications && run.multiplied == on_ax.multiplied &&
           run.polynomial == on_ax.polynomial && numbers_of(run.bill) == numbers_of(on_ax.bill) &&
           run.vector == scaled(system, on_ax.vector);
}

// The third condition: the verdict by dense elimination, with AX in A's place, and the same verdict for all words and
// windows; x and w are held to A itself.
void solver(const System &system) {
    auto p = system.field.p;
    const auto ax = unscaled(system);
    const System a{system.field, system.matrix, system.right};
    auto rows = dense(ax);
    auto n = rows.size();
    const Vector zero(n);
    auto powers = krylov(p, rows, system.right);
    auto degree = rank(p, powers);
    bool in_the_span = rank(p, {powers.begin() + 1, powers.end()}) == degree;
    auto first = filzeur::solve(system).value();
    check(first.degree == degree, "the least degree");
    check(first.kind == (in_the_span ? Kind::solved : Kind::singular), "solved exactly if b is in the span");
    check(first.polynomial.size() == degree + 1 && first.polynomial.back() == 1, "f is monic, of that degree");
    check(filzeur::apply(ax.field, ax.matrix, first.polynomial, ax.right).value() == zero, "f(AX)b = 0");
    auto image = times(p, dense(system), first.vector);
    check(in_the_span ? image == system.right : image == zero && first.vector != zero, "the answer multiplies out");
    auto yes = in_the_span ? filzeur::takes(system.field, system.matrix, first.vector, system.right)
                           : filzeur::is_null(system.field, system.matrix, first.vector);
    check(yes.value(), "the library says so too");

    for (std::size_t vectors : {std::size_t{0}, std::size_t{1}, std::size_t{1 + below(6)}, std::size_t{64}}) {
        std::uint32_t window = draw_window();
        auto words = draw_words(p, n, vectors);
        auto again = filzeur::solve_with(system, {words, window}).value();
        check(again.kind == first.kind && again.vector == first.vector && again.polynomial == first.polynomial,
              "the same verdict for other words and windows");
        check(same_run(filzeur::solve_with(ax, {words, window}).value(), again, system), "the run on AX");
        check(same_run(again, filzeur::solve_with(a, {words, window, system.scales}).value(), a),
              "the same scales as an option");
        check(again.passes <= vectors + n, "passes at most R + n");
        bill(n, again, window);
        check(again.multiplied == again.applications * entries_of(rows), "a run's entries");
        if (system.right == zero)
            check(again.passes == 0 && again.applications == 0, "nothing counted for b = 0");
        if (again.passes == 1 && window == 0)
            check(again.applications == 2 * n - 1 + 2 * degree - 1, "applications of one pass");
    }
}

// The text call gives what the solver gives without words.
void text_call(const System &system) {
    auto run = filzeur::solve(system).value();
    bool solved = run.kind == Kind::solved;
    std::ostringstream text;
    text << "answer\t" << (solved ? "solved" : "singular") << '\t' << run.degree << '\t' << run.passes << '\t'
         << run.applications << '\t' << run.multiplied << '\n';
    for (std::size_t i = 0; i < run.bill.size(); ++i)
        text << "pass\t" << i + 1 << '\t' << run.bill[i].left << '\t' << run.bill[i].degree << '\t'
             << run.bill[i].applications << '\n';
    text << "close\t" << (run.degree == 0 ? 0 : run.degree - 1) << '\n';
    for (std::size_t i = 0; i < run.polynomial.size(); ++i)
        text << "f\t" << i << '\t' << run.polynomial[i] << '\n';
    for (std::size_t i = 0; i < run.vector.size(); ++i)
        text << (solved ? "x\t" : "w\t") << i + 1 << '\t' << run.vector[i] << '\n';
    text << "end\n";
    check(filzeur::answer_text(filzeur::write_system(system).value()).value() == text.str(), "the text call");
}

void recurrences() {
    static const std::uint32_t primes[] = {2, 3, 7, 2147483647};
    filzeur::Field field{primes[below(std::size(primes))]};
    auto s = elements(field.p, below(13));
    auto f = filzeur::recurrence(field, s).value();
    check(recurs(field.p, f, s), "recurs");
    check(f.size() == 1 || !some_recurs(field.p, s, f.size() - 2), "the shortest");
}

// The largest systems, so that every slice that the header sizes is met at its full length.
void largest() {
    const std::uint32_t n = FILZEUR_MAX_SIZE, per_row = FILZEUR_MAX_ENTRIES / n, p = 2147483647;
    System system{{p}, {{0}, {}, {}}, Vector(n, p - 1)};
    for (std::uint32_t i = 0; i < n; ++i) {
        for (std::uint32_t k = 0; k < per_row; ++k) {
            system.matrix.columns.push_back(n - per_row + k); // the widest numerals
            system.matrix.values.push_back(p - 1 - below(1000));
        }
        system.matrix.starts.push_back(std::uint32_t(system.matrix.columns.size()));
    }
    auto written = filzeur::write_system(system);
    check(written.ok() && filzeur::read_system(written.value()).value() == system, "the largest system's text");
    auto padded = written.value() + std::string(FILZEUR_MAX_TEXT, '\n');
    check(filzeur::read_system(padded).refusal().number == 2, "a text that is too long");
    system.scales = Vector(n, p - 1);
    written = filzeur::write_system(system);
    check(written.ok() && filzeur::read_system(written.value()).value() == system, "the largest text with scales");
    check(filzeur::write_system({{p}, {Vector(n + 1), {}, {}}, system.right, system.scales}).ok(),
          "the largest text with scales and no entries");
    system.scales.clear();

    // A of rank 16: few terms decide, though the slices are the longest.
    auto answer = filzeur::solve(system, draw_words(p, n, 1)).value();
    check(answer.degree <= per_row + 1, "the degree of a matrix of rank 16");
    bill(n, answer);
    check(answer.multiplied == answer.applications * FILZEUR_MAX_ENTRIES, "the entries of the largest run");
    auto early = filzeur::solve_with(system, {draw_words(p, n, 1), FILZEUR_MAX_WINDOW}).value();
    check(early.vector == answer.vector && early.polynomial == answer.polynomial, "the largest run with a window");
    bill(n, early, FILZEUR_MAX_WINDOW);
    auto yes = answer.kind == Kind::solved ? filzeur::takes(system.field, system.matrix, answer.vector, system.right)
                                           : filzeur::is_null(system.field, system.matrix, answer.vector);
    check(yes.value() && yes.multiplied() == FILZEUR_MAX_ENTRIES, "the largest answer multiplies out");

    for (std::uint32_t i = 0; i < n; ++i)
        system.scales.push_back(1 + below(p - 1));
    auto words = draw_words(p, n, 1);
    auto by_scales = filzeur::solve(system, words).value();
    check(same_run(filzeur::solve(unscaled(system), words).value(), by_scales, system), "the largest run with scales");
    yes = by_scales.kind == Kind::solved ? filzeur::takes(system.field, system.matrix, by_scales.vector, system.right)
                                         : filzeur::is_null(system.field, system.matrix, by_scales.vector);
    check(yes.value(), "the largest answer with scales multiplies out");

    auto s = elements(p, FILZEUR_MAX_LIST);
    check(filzeur::recurrence({p}, s).value().size() == FILZEUR_MAX_LIST / 2 + 1, "the longest list");

    system.matrix.starts.push_back(system.matrix.starts.back());
    check(filzeur::solve(system).refusal().number == 4, "4,097 rows");
    check(filzeur::write_system(system).refusal().number == 4, "4,097 rows, written");
    s.push_back(0);
    check(filzeur::recurrence({p}, s).refusal().number == 8, "8,193 elements");
}

void refusals() {
    std::set<std::string> meanings;
    for (std::uint32_t number = 0; number <= 14; ++number)
        meanings.insert(filzeur::Refusal{number}.meaning());
    check(meanings.size() == 15, "each refusal has a meaning of its own");
    check(filzeur::Refusal{13}.meaning() == std::string("the window is above 64"), "the meaning of 13");
    // Two faults: the lower number, whichever argument has it
    const filzeur::Matrix u{{0, 1, 1}, {1}, {1}};
    check(filzeur::product({7}, u, {7, 0, 0}).refusal().number == 8, "v too long, and an element 7");
    check(filzeur::transposed({7}, u, {7}).refusal().number == 8, "v too short, and an element 7");
    check(filzeur::apply({7}, u, {1, 1, 1, 1}, {7, 0}).refusal().number == 8, "g too long, and v has an element 7");
    check(filzeur::apply({7}, u, {7}, {0}).refusal().number == 8, "v too short, and g has an element 7");
    check(filzeur::takes({7}, u, {7, 0}, {0}).refusal().number == 8, "b too short, and x has an element 7");
    check(filzeur::takes({7}, u, {0, 0}, {0, 7}).refusal().number == 9, "b has an element 7");
    check(filzeur::is_null({7}, u, {7}).refusal().number == 8, "w too short, and an element 7");
    check(filzeur::solve({{6}, u, {7}}, {1}).refusal().number == 3, "a composite modulus, and all else wrong too");
    check(filzeur::solve({{7}, u, {1, 0}}, Vector(1000000)).refusal().number == 10, "far too many words");
    check(filzeur::read_system("system\t7\t1\t0\nb\t0\t7\nend\n").refusal().number == 6, "b row 0, and value 7");
    // Nothing at all, in every place
    check(filzeur::solve({{7}, {}, {}}).refusal().number == 4, "no starts");
    check(filzeur::solve({{7}, {}, {}}, {1, 2}).refusal().number == 4, "no starts, and words");
    check(filzeur::write_system({{7}, {}, {}}).refusal().number == 4, "no starts, written");
    check(filzeur::product({7}, {}, {}).refusal().number == 4, "no starts, multiplied");
    check(filzeur::apply({7}, {{0, 0}, {}, {}}, {}, {1}).refusal().number == 8, "no polynomial");
    check(filzeur::read_system({}).refusal().number == 2, "no text");
    check(filzeur::answer_text({}).refusal().number == 2, "no text, in the text call");
    check(filzeur::recurrence({7}, {}).value() == filzeur::Polynomial{1}, "the empty list");
}

// Scales that make one pass of two, and a singular verdict of a solved one; the system's own, and those of a run.
void scales() {
    using filzeur::solve, filzeur::solve_with;
    const filzeur::Matrix diagonal{{0, 1, 2}, {0, 1}, {2, 3}}, ones{{0, 2, 4}, {0, 1, 0, 1}, {1, 1, 1, 1}};
    const System plain{{7}, diagonal, {1, 1}}, own{{7}, diagonal, {1, 1}, {2, 6}};
    auto one = solve(own).value();
    check(solve(plain).value().passes == 2 && one.passes == 1 && one.kind == Kind::solved &&
              one.polynomial == Polynomial{3, 1} && one.vector == Vector{4, 5} && one.applications == 4 &&
              one.multiplied == 8,
          "diag(2,3) with the scales 2, 6");
    check(solve_with(plain, {{}, 0, {2, 6}}).value().passes == 1 && solve_with(own, {}).value().passes == 1 &&
              solve_with(own, {{}, 0, {1, 1}}).value().passes == 2 &&
              solve_with(own, {{}, 1, {6, 6}}).value().polynomial == Polynomial{6, 5, 1} &&
              solve({{7}, diagonal, {1, 1}, {1, 1}}).value().polynomial == solve(plain).value().polynomial,
          "the scales of a run before those of the system");
    auto w = solve({{7}, ones, {1, 1}, {1, 6}}).value();
    check(solve({{7}, ones, {1, 1}}).value().kind == Kind::solved && w.kind == Kind::singular &&
              w.vector == Vector{1, 6} && filzeur::is_null({7}, ones, w.vector).value(),
          "singular with the scales 1, 6");

    check(!(own == plain) && own == System{{7}, diagonal, {1, 1}, {2, 6}}, "systems with scales");
    check(plain == System{{7}, diagonal, {1, 1}, {1, 1}} && System{{7}, diagonal, {1, 1}, {1, 1}} == plain,
          "two ones and no scales");
    check(!(plain == System{{7}, diagonal, {1, 1}, {1}}), "one 1 and no scales");

    const std::string head = "system\t7\t2\t2\na\t1\t1\t2\na\t2\t2\t3\n", tail = "b\t1\t1\nb\t2\t1\nend\n";
    const std::string text = head + "s\t1\t2\ns\t2\t6\n" + tail;
    check(filzeur::write_system(own).value() == text && filzeur::read_system(text).value() == own &&
              filzeur::read_system(text).value().scales == own.scales,
          "s lines, written and read");
    check(filzeur::write_system({{7}, diagonal, {1, 1}, {1, 1}}).value() == head + tail &&
              filzeur::read_system(head + tail).value().scales.empty(),
          "ones, written and read as no scales");
    check(filzeur::answer_text(text).value() ==
              "answer\tsolved\t1\t1\t4\t8\npass\t1\t2\t1\t4\nclose\t0\nf\t0\t3\nf\t1\t1\nx\t1\t4\nx\t2\t5\nend\n",
          "s lines in the text call");
}

// What a call makes of scales that it refuses: nothing, in any slice.
void scales_refused() {
    using filzeur::detail::place, filzeur::detail::with;
    const filzeur::Matrix diagonal{{0, 1, 2}, {0, 1}, {2, 3}}, outside{{0, 1, 2}, {0, 2}, {2, 3}},
        zero{{0, 1, 2}, {0, 1}, {2, 0}}, nothing;
    struct {
        const filzeur::Matrix &a;
        Vector scales, b;
        std::uint32_t p, refusal;
        const char *what;
    } cases[] = {
        {diagonal, {1}, {1, 1}, 7, 5, "one scale"},
        {diagonal, {0, 1, 1}, {1, 1}, 7, 5, "three scales, one of them 0 (7)"},
        {outside, {1}, {1, 1}, 7, 5, "one scale, and a column out of range (6)"},
        {outside, {0, 7}, {1, 1}, 7, 6, "scales 0 and 7 (7), and a column out of range"},
        {diagonal, {0, 1}, {1}, 7, 7, "a scale 0, and b too short (8)"},
        {diagonal, {1, 7}, {1, 7}, 7, 7, "a scale 7, and an element 7 (9)"},
        {diagonal, {4294967295, 1}, {1, 1}, 7, 7, "the largest scale"},
        {zero, {1, 1}, {1, 1}, 7, 7, "good scales, and a value 0"},
        {diagonal, {1, 6}, {1}, 7, 8, "good scales, and b too short"},
        {diagonal, {1}, {1, 1}, 6, 3, "one scale, and a composite modulus"},
        {nothing, {1}, {}, 7, 4, "one scale, and no starts"},
    };
    for (const auto &[a, scales, b, p, refusal, what] : cases) {
        tests::Slice<std::uint32_t> vector(2), f(3), bill(6), work(48);
        tests::Slice<std::uint8_t> text(100);
        auto run = with(filzeur_solve, filzeur::Field{p}, a, place(scales), scales.size(), place(b), b.size(), place(b),
                        std::size_t{0}, 0u, vector.data(), vector.size(), f.data(), f.size(), bill.data(), bill.size(),
                        work.data(), work.size());
        auto written = with(filzeur_write, filzeur::Field{p}, a, place(scales), scales.size(), place(b), b.size(),
                            text.data(), text.size());
        check(run.refusal == refusal && run.kind == 0 && run.applications == 0 && vector.untouched() && f.untouched() &&
                  bill.untouched() && work.untouched(),
              std::string(what) + ", solved");
        check(written.refusal == refusal && written.length == 0 && text.untouched(), std::string(what) + ", written");
        check(filzeur::solve({{p}, a, b, scales}).refusal().number == refusal &&
                  filzeur::solve_with({{p}, a, b}, {{}, 0, scales}).refusal().number == refusal &&
                  filzeur::write_system({{p}, a, b, scales}).refusal().number == refusal,
              std::string(what) + ", C++");
    }
    check(filzeur::solve_with({{7}, diagonal, {1, 1}, {1}}, {{}, 0, {2, 6}}).ok() &&
              filzeur::solve_with({{7}, diagonal, {1, 1}, {2, 6}}, {{}, 0, {1}}).refusal().number == 5,
          "only the scales of the run are looked at");
}

// Texts with `s` lines that are refused, and slices of scales that are too short or too long.
void scale_lines() {
    struct {
        const char *text;
        std::size_t places; // for scales
        std::uint32_t refusal;
    } cases[] = {
        {"system\t7\t2\t0\nb\t1\t1\ns\t1\t2\ns\t2\t1\nend\n", 2, 2},    // after a b line
        {"system\t7\t2\t1\ns\t1\t2\ns\t2\t1\na\t1\t1\t1\nend\n", 2, 2}, // before an a line
        {"s\t1\t2\nsystem\t7\t1\t0\nend\n", 2, 2},                      // before the header
        {"system\t7\t1\t0\ns\t1\nend\n", 2, 2},                         // one number
        {"system\t7\t1\t0\ns\t1\t2\t3\nend\n", 2, 2},                   // three
        {"system\t7\t1\t0\ns\t1\t02\nend\n", 2, 2},                     // a leading zero
        {"system\t6\t2\t0\ns\t1\t2\nend\n", 2, 3},                      // one of two, and a composite modulus
        {"system\t7\t2\t0\ns\t1\t2\nend\n", 2, 5},                      // one of two
        {"system\t7\t1\t0\ns\t1\t2\ns\t2\t2\nend\n", 2, 5},             // two of one, the second out of range
        {"system\t7\t0\t0\ns\t1\t2\nend\n", 2, 5},                      // one of none
        {"system\t7\t2\t0\ns\t2\t2\ns\t1\t1\nend\n", 2, 6},             // out of order
        {"system\t7\t2\t0\ns\t1\t2\ns\t1\t1\nend\n", 2, 6},             // twice the same
        {"system\t7\t2\t0\ns\t0\t2\ns\t1\t7\nend\n", 2, 6},             // place 0, and value 7
        {"system\t7\t2\t0\ns\t1\t2\ns\t3\t1\nend\n", 2, 6},             // place 3
        {"system\t7\t2\t0\ns\t1\t1\ns\t2\t1\nend\n", 2, 6},             // ones
        {"system\t2\t1\t0\ns\t1\t1\nend\n", 2, 6},                      // ones, since p is 2
        {"system\t7\t2\t0\ns\t1\t1\ns\t2\t1\nb\t1\t7\nend\n", 2, 6},    // ones, and a b line's value 7
        {"system\t7\t2\t0\ns\t1\t0\ns\t2\t1\nend\n", 1, 7},             // value 0, and a slice too short
        {"system\t7\t2\t0\ns\t1\t1\ns\t2\t7\nend\n", 2, 7},             // value 7
        {"system\t2\t1\t0\ns\t1\t2\nend\n", 2, 7},                      // value 2 of p = 2
        {"system\t7\t2\t0\ns\t1\t2\ns\t2\t1\nend\n", 1, 11},
        {"system\t7\t2\t0\nend\n", 1, 11},
    };
    for (const auto &[text, places, refusal] : cases) {
        tests::Slice<std::uint32_t> starts(3), columns(1), values(1), scales(places), right(2);
        const std::string bytes(text);
        auto read = filzeur_read(filzeur::detail::bytes(bytes), bytes.size(), starts.data(), starts.size(),
                                 columns.data(), columns.size(), values.data(), values.size(), scales.data(),
                                 scales.size(), right.data(), right.size());
        check(read.refusal == refusal && read.size == 0 && starts.untouched() && columns.untouched() &&
                  values.untouched() && scales.untouched() && right.untouched(),
              bytes + "refused with " + std::to_string(read.refusal));
        if (refusal == 11)
            continue;
        check(filzeur::read_system(bytes).refusal().number == refusal &&
                  filzeur::answer_text(bytes).refusal().number == refusal,
              bytes + "refused, C++");
    }
    for (bool lines : {false, true}) {
        tests::Slice<std::uint32_t> starts(3), columns(1), values(1), scales(4), right(2);
        const std::string text = std::string("system\t7\t2\t0\n") + (lines ? "s\t1\t1\ns\t2\t3\n" : "") + "end\n";
        auto read = filzeur_read(filzeur::detail::bytes(text), text.size(), starts.data(), starts.size(),
                                 columns.data(), columns.size(), values.data(), values.size(), scales.data(),
                                 scales.size(), right.data(), right.size());
        check(read.refusal == 0 && scales.ends_as(Vector{1, lines ? 3u : 1u}), "scales in a longer slice");
    }
    auto length = std::size_t{FILZEUR_CALL_TEXT};
    check(filzeur::answer_text(std::string(length, 'x')).refusal().number == 2 &&
              filzeur::answer_text(std::string(length + 1, 'x')).refusal().number == 1 && length == 26624,
          "26,624 bytes, and one more");
}

// The number beside each refusal, of calls that make no product, of a matrix without entries and of the empty sum.
void nothing_multiplied() {
    const filzeur::Matrix u{{0, 1, 1}, {1}, {1}}, none{{0, 0, 0}, {}, {}};
    const System system{{7}, u, {0, 1}};
    check(filzeur::product({7}, u, {7, 0}).multiplied() == 0 && filzeur::transposed({6}, u, {1, 0}).multiplied() == 0 &&
              filzeur::apply({7}, u, {}, {1, 0}).multiplied() == 0 &&
              filzeur::takes({7}, u, {1}, {1, 0}).multiplied() == 0 &&
              filzeur::is_null({7}, u, {7, 0}).multiplied() == 0 && filzeur::solve(system, {1}).multiplied() == 0,
          "nothing multiplied beside a refusal");
    check(filzeur::read_system("system\t7\t1\t1\na\t1\t1\t1\nend\n").multiplied() == 0 &&
              filzeur::write_system(system).multiplied() == 0 && filzeur::recurrence({7}, {1, 2}).multiplied() == 0 &&
              filzeur::Field{7}.product(2, 3).multiplied() == 0,
          "nothing multiplied without a product");
    check(filzeur::apply({7}, u, {3}, {1, 2}).multiplied() == 0 && filzeur::apply({7}, u, {0}, {1, 2}).ok(),
          "nothing multiplied for one coefficient");
    auto singular = filzeur::solve({{7}, none, {0, 3}});
    check(filzeur::product({7}, none, {1, 2}).multiplied() == 0 &&
              filzeur::is_null({7}, none, {1, 2}).multiplied() == 0 && singular.value().applications == 7 &&
              singular.value().multiplied == 0 && singular.multiplied() == 0,
          "nothing multiplied without entries");
    auto run = filzeur::solve(system);
    check(run.value().applications == 6 && run.value().multiplied == 6 && run.multiplied() == 6,
          "one entry, six times");
    check(filzeur::is_null({7}, u, {0, 0}).multiplied() == 1 &&
              filzeur::takes({7}, u, {0, 0}, {1, 0}).multiplied() == 1,
          "a zero vector offered");
}

// Size 0 in every call, and what is refused there.
void nothing_left() {
    const filzeur::Matrix a{{0}, {}, {}};
    const System system{{7}, a, {}};
    const std::string text = "system\t7\t0\t0\nend\n";
    auto answer = filzeur::solve(system).value();
    check(answer.kind == Kind::solved && answer.degree == 0 && answer.passes == 0 && answer.applications == 0 &&
              answer.vector.empty() && answer.polynomial == Polynomial{1} && answer.bill.empty(),
          "size 0 is solved");
    check(filzeur::product({7}, a, {}).value().empty() && filzeur::transposed({7}, a, {}).value().empty() &&
              filzeur::apply({7}, a, {6}, {}).value().empty(),
          "size 0, multiplied");
    check(answer.multiplied == 0 && filzeur::product({7}, a, {}).multiplied() == 0 &&
              filzeur::takes({7}, a, {}, {}).multiplied() == 0 && filzeur::is_null({7}, a, {}).multiplied() == 0,
          "size 0, no entries");
    check(filzeur::takes({7}, a, {}, {}).value(), "size 0, Ax = b");
    check(!filzeur::is_null({7}, a, {}).value(), "the empty vector is zero");
    check(filzeur::write_system(system).value() == text && filzeur::read_system(text).value() == system,
          "size 0, written and read");
    check(filzeur::answer_text(text).value() == "answer\tsolved\t0\t0\t0\t0\nclose\t0\nf\t0\t1\nend\n",
          "size 0, in the text call");

    check(filzeur::solve({{6}, a, {}}).refusal().number == 3, "size 0, and a composite modulus");
    check(filzeur::solve({{7}, {{1}, {}, {}}, {}}).refusal().number == 5, "size 0, and its start is 1");
    check(filzeur::solve({{7}, {{0}, {0}, {1}}, {}}).refusal().number == 5, "size 0, and an entry");
    check(filzeur::solve({{7}, a, {0}}, {1}).refusal().number == 8, "size 0, and b has an element");
    check(filzeur::solve({{7}, a, {}, {1}}, {1}).refusal().number == 5, "size 0, and a scale and a word");
    check(filzeur::write_system({{7}, a, {}, {1}}).refusal().number == 5, "size 0, and a scale, written");
    check(filzeur::solve(system, {1}).refusal().number == 10, "size 0, and a word");
    check(filzeur::solve(system, Vector(64)).refusal().number == 10, "size 0, and 64 words");
    check(filzeur::product({7}, a, {0}).refusal().number == 8, "size 0, and v has an element");
    check(filzeur::transposed({7}, a, {0}).refusal().number == 8, "size 0, and v has an element, transposed");
    check(filzeur::apply({7}, a, {}, {}).refusal().number == 8, "size 0, and no polynomial");
    check(filzeur::apply({7}, a, {1, 1}, {}).refusal().number == 8, "size 0, and two coefficients");
    check(filzeur::apply({7}, a, {7}, {}).refusal().number == 9, "size 0, and a coefficient 7");
    check(filzeur::takes({7}, a, {}, {0}).refusal().number == 8, "size 0, and b has an element, taken");
    check(filzeur::is_null({7}, a, {1}).refusal().number == 8, "size 0, and w has an element");
    check(filzeur::write_system({{7}, a, {0}}).refusal().number == 8, "size 0, and b has an element, written");
    check(filzeur::read_system("system\t7\t0\t1\nend\n").refusal().number == 5, "size 0, and a count of 1");
    check(filzeur::read_system("system\t7\t0\t1\na\t1\t1\t1\nend\n").refusal().number == 6, "size 0, and an a line");
    check(filzeur::answer_text("system\t7\t0\t0\nb\t1\t1\nend\n").refusal().number == 6, "size 0, and a b line");
}

} // namespace

int main(int argc, char **argv) {
    std::uint32_t seed = argc == 2 ? std::uint32_t(std::strtoul(argv[1], nullptr, 10)) : 1;
    generator.seed(seed);
    for (int i = 0; i < 600; ++i) {
        auto system = draw_system(i % 8 == 1 ? 0 : 1 + below(i % 10 == 0 ? 30 : 9), 1 + below(4));
        products(system);
        text(system);
        solver(system);
        bill_lengths(system, draw_words(system.field.p, system.matrix.size(), below(4)), draw_window());
        text_call(system);
        recurrences();
    }
    earlier_code();
    earlier_systems();
    words_and_options();
    refusals();
    scales();
    scales_refused();
    scale_lines();
    nothing_multiplied();
    nothing_left();
    largest();
    return tests::report("random");
}
