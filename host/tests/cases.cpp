// The cases of evidence/cases.txt, which an independent program worked out from the papers alone, on every C call: what
// it answers, and what each lent slice holds in the end. Where the slices have the stated lengths the C++ call is held
// to the same case.
//
//     cases FILE
#include "check.hpp"
#include "../filzeur.hpp"

#include <array>
#include <cctype>
#include <fstream>
#include <functional>
#include <map>

namespace {

using filzeur::Matrix;
using tests::check;
using Numbers = std::vector<std::uint32_t>;
using Lent = tests::Slice<std::uint32_t>;
using Bytes = tests::Slice<std::uint8_t>;

// ---- The file's notation ----

bool has(const std::string &line, const std::string &key) {
    return line.find(key) != std::string::npos;
}

// The numbers that stand, parted by single blanks, after the last place where the key stands; none for "(none)".
Numbers numbers(const std::string &line, const std::string &key) {
    Numbers found;
    std::size_t at = line.rfind(key);
    if (at == std::string::npos)
        return found;
    at += key.size();
    while (at < line.size() && std::isdigit(static_cast<unsigned char>(line[at]))) {
        std::size_t digits = 0;
        found.push_back(static_cast<std::uint32_t>(std::stoull(line.substr(at), &digits)));
        at += digits + (line[at + digits] == ' ' ? 1 : 0);
    }
    return found;
}

std::uint32_t number(const std::string &line, const std::string &key, std::uint32_t otherwise = 0) {
    auto found = numbers(line, key);
    return found.empty() ? otherwise : found[0];
}

// "128 times 4294967295", or the numbers themselves.
Numbers words_of(const std::string &line, const std::string &key) {
    auto found = numbers(line, key);
    return has(line, " times ") ? Numbers(found[0], number(line, " times ")) : found;
}

std::uint32_t refusal_of(const std::string &line) {
    return number(line, "-> refused ");
}

Matrix matrix_of(const std::string &line) {
    return {numbers(line, "starts "), numbers(line, "columns "), numbers(line, "values ")};
}

// What stands between the first quotes, with \t, \n and \r put back.
std::string text_of(const std::string &line) {
    std::string text;
    std::size_t from = line.find('"') + 1;
    for (std::size_t at = from; at < line.size() && line[at] != '"'; ++at) {
        if (line[at] != '\\') {
            text += line[at];
            continue;
        }
        ++at;
        text += line[at] == 't' ? '\t' : line[at] == 'n' ? '\n' : '\r';
    }
    return text;
}

// "7,167" after the key
std::size_t grouped(const std::string &line, const std::string &key, std::size_t otherwise) {
    std::size_t at = line.find(key), value = 0;
    if (at == std::string::npos)
        return otherwise;
    for (at += key.size(); std::isdigit(static_cast<unsigned char>(line[at])) || line[at] == ','; ++at)
        if (line[at] != ',')
            value = 10 * value + std::size_t(line[at] - '0');
    return value;
}

const std::uint8_t *bytes(const std::string &text) {
    return reinterpret_cast<const std::uint8_t *>(text.c_str());
}

template <class Call, class... Rest> auto on(Call call, std::uint32_t p, const Matrix &a, Rest... rest) {
    return filzeur::detail::with(call, filzeur::Field{p}, a, rest...);
}

const std::uint32_t *place(const Numbers &v) {
    return filzeur::detail::place(v);
}

Numbers padded(Numbers leading, std::size_t places) {
    leading.resize(places);
    return leading;
}

// ---- Sections 1 and 7: the solver ----

// Whether the bill's first passes are these numbers, three each.
bool begins_with(const std::vector<filzeur::Pass> &bill, const Numbers &leading) {
    Numbers all;
    for (const auto &[left, degree, applications] : bill)
        for (auto number : {left, degree, applications})
            all.push_back(static_cast<std::uint32_t>(number));
    return leading.size() <= all.size() && std::equal(leading.begin(), leading.end(), all.begin());
}

struct Run {
    std::uint32_t p;
    Matrix a;
    Numbers scales, b, words;
    std::uint32_t window;
    std::uint32_t vector, polynomial, bill, work; // lengths
};

void solver_case(const std::string &what, const Run &run, const std::string &expected) {
    Lent vector(run.vector), polynomial(run.polynomial), bill(run.bill), work(run.work);
    auto verdict = on(filzeur_solve, run.p, run.a, place(run.scales), run.scales.size(), place(run.b), run.b.size(),
                      place(run.words), run.words.size(), run.window, vector.data(), vector.size(), polynomial.data(),
                      polynomial.size(), bill.data(), bill.size(), work.data(), work.size());
    auto answer = run.window == 0 ? filzeur::solve({{run.p}, run.a, run.b, run.scales}, run.words)
                                  : filzeur::solve_with({{run.p}, run.a, run.b}, {run.words, run.window, run.scales});
    std::uint32_t refusal = refusal_of(expected);
    check(verdict.refusal == refusal, what + ", refusal " + std::to_string(verdict.refusal));
    check(work.margins_untouched(), what + ", around the work slice");
    if (refusal != 0) {
        check(verdict.kind == 0 && verdict.degree == 0 && verdict.passes == 0 && verdict.applications == 0 &&
                  verdict.multiplied == 0,
              what + ", no other answer");
        check(vector.untouched() && polynomial.untouched() && bill.untouched() && work.untouched(), what + ", slices");
        if (refusal != 11) // the C++ call's own slices are right
            check(answer.refusal().number == refusal && answer.multiplied() == 0, what + ", C++ refusal");
        return;
    }
    auto found = numbers(expected, has(expected, "x = ") ? "x = " : has(expected, "w = ") ? "w = " : "vector ");
    auto f = numbers(expected, has(expected, "slice = ") ? "slice = " : "polynomial ");
    auto billed = numbers(expected, has(expected, "bill = ") ? "bill = " : "bill ");
    std::uint64_t degree = number(expected, "D = "), passes = number(expected, "passes = "),
                  applications = number(expected, "applications = "), multiplied = number(expected, "multiplied = ");
    std::uint32_t kind = has(expected, "-> solved") ? FILZEUR_SOLVED : FILZEUR_SINGULAR;
    check(verdict.kind == kind && verdict.degree == degree && verdict.passes == passes &&
              verdict.applications == applications && has(expected, "multiplied = ") &&
              verdict.multiplied == multiplied,
          what + ", verdict");
    check(vector.ends_as(found) && polynomial.ends_as(f) && bill.ends_as(billed), what + ", slices");

    check(answer.ok(), what + ", C++ answer");
    if (!answer.ok())
        return;
    const auto &value = answer.value();
    check(value.kind == filzeur::Kind{kind} && value.degree == degree && value.passes == passes &&
              value.applications == applications && value.multiplied == multiplied &&
              answer.multiplied() == multiplied && value.vector == found && padded(value.polynomial, f.size()) == f &&
              value.polynomial.size() == degree + 1,
          what + ", C++ answer's fields");
    billed.resize(3 * std::min<std::size_t>(passes, billed.size() / 3));
    check(value.bill.size() == passes && begins_with(value.bill, billed), what + ", C++ answer's bill");
}

void system_case(const std::vector<std::string> &lines) {
    Matrix a = matrix_of(lines[1]);
    auto n = static_cast<std::uint32_t>(a.size());
    auto words = numbers(lines[2], "words = ");
    auto passes = (n == 0 ? 0 : static_cast<std::uint32_t>(words.size()) / n) + n; // at most
    auto window = number(lines[2], "; window = ");
    Run run{number(lines[1], "p = "),
            a,
            numbers(lines[2], "; scales = "),
            numbers(lines[2], " b = "),
            words,
            window,
            n,
            n + 1,
            3 * passes,
            16 * n + 16};
    solver_case(lines[0], run, lines[3]);
}

void refusal_case(const std::vector<std::string> &lines) {
    const auto &line = lines[0];
    Run run{number(line, "p = "),       matrix_of(line),
            numbers(line, "; scales "), numbers(line, "; b "),
            words_of(line, "; words "), number(line, "; window "),
            number(line, "; vector "),  number(line, ", polynomial "),
            number(line, ", bill "),    number(line, ", work ")};
    solver_case(line, run, lines[1]);
}

// ---- Section 2: recurrences ----

void recurrence_case(const std::vector<std::string> &lines) {
    const auto &line = lines[0];
    filzeur::Field field{number(line, "p = ")};
    auto s = has(line, "8193 zeros") ? Numbers(8193) : numbers(line, " s = ");
    auto n = static_cast<std::uint32_t>(s.size());
    Lent polynomial(number(line, "polynomial slice of ", n + 1)), work(number(line, "work slice of ", 4 * n + 8));
    auto [refusal, degree] =
        filzeur_recurrence(field.p, place(s), s.size(), polynomial.data(), polynomial.size(), work.data(), work.size());
    auto answer = filzeur::recurrence(field, s);
    check(refusal == refusal_of(line), line + ", refusal " + std::to_string(refusal));
    check(work.margins_untouched(), line + ", around the work slice");
    if (refusal != 0) {
        check(degree == 0 && polynomial.untouched() && work.untouched(), line + ", slices");
        if (refusal != 11)
            check(answer.refusal().number == refusal, line + ", C++ refusal");
        return;
    }
    auto f = numbers(line, "slice = ");
    check(degree == number(line, "L = ") && polynomial.ends_as(f), line);
    check(answer.ok() && answer.value().size() == degree + 1u && padded(answer.value(), n + 1u) == f, line + ", C++");
}

// ---- Section 3: products and checks ----

void offered_case(const std::string &line) {
    const Matrix u = has(line, "starts ") ? matrix_of(line) : Matrix{{0, 1, 1}, {1}, {1}}; // "A = 0 1 / 0 0"
    check(has(line, "starts ") || has(line, "A = 0 1 / 0 0"), line + ", its matrix");
    filzeur::Field field{number(line, "p = ")};
    bool offered_x = has(line, "check Ax = b");
    auto x = numbers(line, ", x = "), b = numbers(line, ", b = "), w = numbers(line, ", w = ");
    auto [refusal, yes, multiplied] = offered_x ? on(filzeur_takes, field.p, u, place(x), x.size(), place(b), b.size())
                                                : on(filzeur_is_null, field.p, u, place(w), w.size());
    check(refusal == refusal_of(line) && yes == (has(line, "-> True") ? 1u : 0u), line);
    check(has(line, "multiplied = ") == (refusal == 0) && multiplied == number(line, "multiplied = "),
          line + ", entries");
    auto answer = offered_x ? filzeur::takes(field, u, x, b) : filzeur::is_null(field, u, w);
    check(refusal == 0 ? answer.ok() && answer.value() == has(line, "-> True") : answer.refusal().number == refusal,
          line + ", C++");
    check(answer.multiplied() == multiplied, line + ", C++ entries");
}

void product_case(const std::vector<std::string> &lines) {
    const auto &line = lines[0];
    if (line.rfind("3.c", 0) == 0)
        return offered_case(line);
    filzeur::Field field{number(line, "p = ")};
    Matrix a = matrix_of(line);
    auto v = numbers(line, ", v = "), g = numbers(line, ", g = ");
    auto n = static_cast<std::uint32_t>(a.size());
    Lent out(number(line, "out of ", n)), work(number(line, "work slice of ", 2 * n));
    bool polynomial = has(line, " g(A)v"), transposed = has(line, " transposed product");
    auto [refusal, multiplied] = polynomial ? on(filzeur_apply, field.p, a, place(g), g.size(), place(v), v.size(),
                                                 out.data(), out.size(), work.data(), work.size())
                                            : on(transposed ? filzeur_transposed : filzeur_product, field.p, a,
                                                 place(v), v.size(), out.data(), out.size());
    auto answer = polynomial   ? filzeur::apply(field, a, g, v)
                  : transposed ? filzeur::transposed(field, a, v)
                               : filzeur::product(field, a, v);
    check(refusal == refusal_of(line), line + ", refusal " + std::to_string(refusal));
    check(has(line, "multiplied = ") == (refusal == 0) && multiplied == number(line, "multiplied = "),
          line + ", entries");
    check(work.margins_untouched(), line + ", around the work slice");
    if (refusal != 0) {
        check(out.untouched() && work.untouched(), line + ", slices");
        if (refusal != 11)
            check(answer.refusal().number == refusal && answer.multiplied() == 0, line + ", C++ refusal");
        return;
    }
    auto image = numbers(line, "-> ");
    check(out.ends_as(image), line);
    check(answer.ok() && answer.value() == image && answer.multiplied() == multiplied, line + ", C++");
}

// ---- Section 4: the reader ----

void reader_case(const std::vector<std::string> &lines) {
    const auto &line = lines[0], &expected = lines[1];
    auto text = text_of(line);
    auto lengths = has(line, "lent lengths ") ? numbers(line, "lent lengths ") : Numbers{5, 4, 4, 4, 4};
    Lent starts(lengths.at(0)), columns(lengths.at(1)), values(lengths.at(2)), scales(lengths.at(3)),
        right(lengths.at(4));
    auto read = filzeur_read(bytes(text), text.size(), starts.data(), starts.size(), columns.data(), columns.size(),
                             values.data(), values.size(), scales.data(), scales.size(), right.data(), right.size());
    auto system = filzeur::read_system(text);
    check(read.refusal == refusal_of(expected), line + ", refusal " + std::to_string(read.refusal));
    if (read.refusal != 0) {
        check(read.modulus == 0 && read.size == 0 && read.entries == 0, line + ", no other answer");
        check(starts.untouched() && columns.untouched() && values.untouched() && scales.untouched() &&
                  right.untouched(),
              line + ", slices");
        if (read.refusal != 11)
            check(system.refusal().number == read.refusal, line + ", C++ refusal");
        return;
    }
    check(read.modulus == number(expected, "p = ") && read.size == number(expected, " n = ") &&
              read.entries == number(expected, "entries = "),
          line + ", counts");
    check(starts.ends_as(numbers(expected, "starts ")) && columns.ends_as(numbers(expected, "columns ")) &&
              values.ends_as(numbers(expected, "values ")) && scales.ends_as(numbers(expected, "; scales ")) &&
              right.ends_as(numbers(expected, "; b ")),
          line + ", slices");
    auto again = system.ok() ? filzeur::write_system(system.value()) : filzeur::Refusal{0};
    check(again.ok() && again.value() == text, line + ", C++, written again");
}

// ---- Section 5: the text call ----

void text_case(const std::vector<std::string> &lines) {
    const auto &line = lines[0], &expected = lines.size() > 1 ? lines[1] : lines[0];
    auto text = has(line, " bytes \"x\"") ? std::string(grouped(line, " ", 0), 'x') : text_of(line);
    Bytes answer(grouped(line, "answer slice of ", FILZEUR_CALL_ANSWER));
    std::uint64_t number = filzeur_text(bytes(text), text.size(), answer.data(), answer.size());
    auto again = filzeur::answer_text(text);
    if (std::uint32_t refusal = refusal_of(expected)) {
        check(number == refusal && answer.untouched(), line);
        if (answer.size() == FILZEUR_CALL_ANSWER)
            check(again.refusal().number == refusal, line + ", C++");
        return;
    }
    check(number == ::number(expected, "-> ") && answer.ends_as(text_of(expected)), line);
    check(again.ok() && again.value() == text_of(expected), line + ", C++");
}

// ---- Section 6: the writer ----

void writer_run(const std::string &what, const filzeur::System &system, std::uint32_t places, std::uint32_t refusal,
                std::uint32_t length, const std::string &text) {
    Bytes out(places, '.');
    auto written = on(filzeur_write, system.field.p, system.matrix, place(system.scales), system.scales.size(),
                      place(system.right), system.right.size(), out.data(), out.size());
    check(written.refusal == refusal && written.length == length && out.ends_as(text), what);
    auto again = filzeur::write_system(system);
    if (refusal != 11)
        check(refusal == 0 ? again.ok() && again.value() == text.substr(0, length) : again.refusal().number == refusal,
              what + ", C++");
}

void writer_case(const std::vector<std::string> &lines) {
    const auto &line = lines[0];
    filzeur::System system{{number(line, "p = ")}, matrix_of(line), numbers(line, "; b "), numbers(line, "; scales ")};
    if (has(line, "diag(2,3)"))
        system = {system.field, {{0, 1, 2}, {0, 1}, {2, 3}}, numbers(line, ", b = "), numbers(line, ", scales = ")};
    std::uint32_t places = number(line, "out of ");
    if (lines.size() == 1)
        return writer_run(line, system, places, refusal_of(line), 0, "");
    writer_run(line, system, places, 0, number(lines[1], "-> "), text_of(lines[1]));
    writer_run(line + " short", system, number(lines[2], "out of "), refusal_of(lines[2]), 0, "");
}

// ---- Section 8: the field ----

void field_case(const std::vector<std::string> &lines) {
    const auto &line = lines[0];
    std::uint32_t refusal = refusal_of(line), value = refusal == 0 ? number(line, "-> ") : 0;
    if (line.rfind("field(", 0) == 0) {
        auto p = number(line, "field(");
        auto made = filzeur::Field::of(p);
        check(filzeur_field(p) == refusal && made.refusal().number == refusal && (!made.ok() || made.value().p == p),
              line);
        return;
    }
    auto operands = numbers(line, "p="); // p, a and perhaps b
    operands.resize(3);
    auto [p, a, b] = std::array<std::uint32_t, 3>{operands[0], operands[1], operands[2]};
    filzeur::Field field{p};
    auto [raw, wrapped] = line.rfind("sum", 0) == 0 ? std::pair{filzeur_sum(p, a, b), field.sum(a, b)}
                          : line.rfind("difference", 0) == 0
                              ? std::pair{filzeur_difference(p, a, b), field.difference(a, b)}
                          : line.rfind("product", 0) == 0 ? std::pair{filzeur_product_of(p, a, b), field.product(a, b)}
                                                          : std::pair{filzeur_inverse(p, a), field.inverse(a)};
    check(raw.refusal == refusal && raw.value == value, line);
    check(wrapped.refusal().number == refusal && (!wrapped.ok() || wrapped.value() == value), line + ", C++");
}

// A section: its test, and how many cases it has at least, so that a change of the notation cannot empty it.
struct Section {
    std::function<void(const std::vector<std::string> &)> run;
    std::size_t least;
};

const std::map<char, Section> sections = {
    {'1', {system_case, 53}}, {'2', {recurrence_case, 15}}, {'3', {product_case, 51}}, {'4', {reader_case, 78}},
    {'5', {text_case, 33}},   {'6', {writer_case, 26}},     {'7', {refusal_case, 94}}, {'8', {field_case, 14}},
};

} // namespace

int main(int argc, char **argv) {
    std::ifstream file(argc == 2 ? argv[1] : "");
    // A case is a line and the indented lines after it.
    std::map<char, std::vector<std::vector<std::string>>> cases;
    char section = ' ';
    for (std::string line; std::getline(file, line);) {
        if (line.rfind("=== ", 0) == 0)
            section = line[4];
        else if (section == ' ' || line.empty())
            continue;
        else if (line[0] == ' ')
            cases[section].back().push_back(line);
        else
            cases[section].push_back({line});
    }
    for (const auto &[name, part] : sections) {
        check(cases[name].size() >= part.least, std::string("the file has all cases of section ") + name);
        for (const auto &lines : cases[name])
            part.run(lines);
    }
    return tests::report("cases");
}
