// filzeur.hpp: Filzeur for C++17 and later, header only, over the C calls of filzeur.h.
//
//   Refusal              why a call turned its input down: a number, 1 to 13, and its meaning in words
//   Result<T>            a T or a Refusal, and how many entries of the matrix were multiplied
//   Field                the field of p elements: sum, difference, product, inverse
//   Matrix, System       a sparse square matrix; a field, a matrix, a right side and perhaps scales
//   Options              what a run of the solver may be given beside its system: random words, a window, scales
//   Answer, Pass         what a run of the solver found; one line of its bill
//   product, transposed, apply, recurrence, solve, solve_with, takes, is_null
//   read_system, write_system, answer_text
//
// A call here sizes the slices that the C call writes, so 11 never comes back (but from answer_text, for a system that
// is too large for the text call). The value types check nothing: the library does, in every call. Nothing here throws
// on bad input, and nothing that is thrown can cross the C border, since the library calls nothing back. What can throw
// is std::vector, when memory runs out, and Result::value, when there is none.
#ifndef FILZEUR_HPP
#define FILZEUR_HPP

#include "filzeur.h"

#include <algorithm>
#include <cstddef>
#include <cstdint>
#include <iterator>
#include <string>
#include <string_view>
#include <tuple>
#include <type_traits>
#include <utility>
#include <variant>
#include <vector>

namespace filzeur {

using Element = std::uint32_t;
using Vector = std::vector<Element>;
using Polynomial = std::vector<Element>; // lowest power first

struct Refusal {
    std::uint32_t number;

    const char *meaning() const {
        static constexpr const char *meanings[] = {
            "nothing was refused",
            "the text call or program got more than 26,624 bytes",
            "the text exceeds 2,097,152 bytes or breaks the line forms or their order of letters",
            "the modulus is not a prime from 2 to 2,147,483,647",
            "the size n is not 0 to 4,096, or the starts are empty",
            ("the starts don't begin at 0, fall, or don't end at the entry count; columns and values differ in length; "
             "there are over 65,536 entries; the header's count isn't that of the a lines; or the number of scales or "
             "s lines is neither 0 nor n"),
            ("a row or column is out of range or out of order (s and b lines included), or there are s lines and all "
             "of their values are 1"),
            "a scale, or the value of an entry or of an s or b line, is 0 or at least the modulus",
            "a vector, list or polynomial that is read has a length other than stated",
            "an element of a vector, list or polynomial, or an operand, is at least the modulus",
            "the words are not a multiple of n, or more than 64 n, or there are words and no rows",
            "a slice to be written is not as long as stated, or the text call got n over 128 or over 1,024 entries",
            "the inverse of 0 is wanted",
            "the window is above 64",
        };
        return number < std::size(meanings) ? meanings[number] : "no refusal has this number";
    }
};

// A T, or the refusal; refusal() has number 0 where there is a T. No conversion to bool: of a Result<bool> it would be
// read as the answer.
template <class T> class [[nodiscard]] Result {
  public:
    Result(T value) : held(std::move(value)) {}
    Result(T value, std::uint64_t multiplied) : held(std::move(value)), entries(multiplied) {}
    Result(Refusal refusal) : held(refusal) {}

    bool ok() const { return std::holds_alternative<T>(held); }
    const T &value() const & { return std::get<T>(held); }
    T value() && { return std::get<T>(std::move(held)); }
    Refusal refusal() const { return ok() ? Refusal{0} : std::get<Refusal>(held); }
    // How many entries of the matrix the call multiplied: product, transposed, apply, solve, takes and is_null tell it.
    // 0 of every other call (answer_text has it in its text), and beside a refusal.
    std::uint64_t multiplied() const { return entries; }

  private:
    std::variant<T, Refusal> held;
    std::uint64_t entries = 0;
};

namespace detail {

template <class T> Result<T> result(std::uint32_t refusal, T value, std::uint64_t multiplied = 0) {
    if (refusal != 0)
        return Refusal{refusal};
    return {std::move(value), multiplied};
}

// The pointer of an empty vector may be null, and a slice's may not.
inline const Element *place(const Vector &v) {
    static const Element nowhere = 0;
    return v.empty() ? &nowhere : v.data();
}

inline const std::uint8_t *bytes(std::string_view text) {
    return reinterpret_cast<const std::uint8_t *>(text.empty() ? "" : text.data());
}

// A slice to be written, which is never made empty: see place.
template <class T> struct Lent {
    explicit Lent(std::size_t places) : length(places), held(places + 1) {}

    T *data() { return held.data(); }
    std::size_t size() const { return length; }
    std::vector<T> leading(std::size_t count) && {
        held.resize(count);
        held.shrink_to_fit();
        return std::move(held);
    }

  private:
    std::size_t length;
    std::vector<T> held;
};

} // namespace detail

// A record that holds p. Whoever makes one up from a p that is not a prime is refused (3) by the call that gets it.
struct Field {
    std::uint32_t p;

    static Result<Field> of(std::uint32_t p) { return detail::result(filzeur_field(p), Field{p}); }

    Result<Element> sum(Element a, Element b) const { return element(filzeur_sum(p, a, b)); }
    Result<Element> difference(Element a, Element b) const { return element(filzeur_difference(p, a, b)); }
    Result<Element> product(Element a, Element b) const { return element(filzeur_product_of(p, a, b)); }
    Result<Element> inverse(Element a) const { return element(filzeur_inverse(p, a)); }

    bool operator==(const Field &other) const { return p == other.p; }

  private:
    static Result<Element> element(filzeur_element e) { return detail::result(e.refusal, e.value); }
};

// Row i holds the entries from starts[i] up to but not including starts[i + 1]; columns count from 0. The matrix of
// size 0 has one start, which is 0; one without starts is refused (4).
struct Matrix {
    std::vector<std::uint32_t> starts, columns;
    Vector values;

    std::size_t size() const { return starts.empty() ? 0 : starts.size() - 1; }

    bool operator==(const Matrix &other) const {
        return starts == other.starts && columns == other.columns && values == other.values;
    }
};

struct System {
    Field field;
    Matrix matrix;
    Vector right;       // b
    Vector scales = {}; // of the columns, 1 to p - 1, as filzeur.h has them; none are the same as n ones

    bool operator==(const System &other) const {
        return field == other.field && matrix == other.matrix && right == other.right &&
               (scales == other.scales || (unscaled() && other.unscaled()));
    }

  private:
    bool unscaled() const { return scales.empty() || scales == Vector(matrix.size(), 1); }
};

// What a run is given beside its system. Words and window don't change its verdict; scales may, as filzeur.h says.
struct Options {
    std::vector<std::uint32_t> words = {}; // R vectors of n random words each, one after the other, R from 0 to 64
    std::uint32_t window = 0;              // 0 to 64, as filzeur.h has it: above 0, a pass may end early
    Vector scales = {};                    // for this run, in the place of the system's own; none: the system's own
};

enum class Kind : std::uint32_t { solved = FILZEUR_SOLVED, singular = FILZEUR_SINGULAR };

// One projection's part of a run: n less the degree found before it, the degree that it finds, its products with A.
struct Pass {
    std::uint64_t left, degree, applications;
};

struct Answer {
    Kind kind;
    std::uint64_t degree, passes, applications;
    Vector vector;         // x with Ax = b, or w with Aw = 0, as the kind says
    Polynomial polynomial; // f, monic, of that degree
    // The passes in their order. Their applications, and degree - 1 for the close (0 for degree 0), make up those of
    // the run.
    std::vector<Pass> bill = {};
    std::uint64_t multiplied = 0; // entries of A, in all applications
};

// Structured bindings have the names that stand before the bill of an Answer and before the scales of a System: code
// that binds six, or three, is older than these.
namespace detail {
template <class A> auto before_bill(A &a) {
    return std::tie(a.kind, a.degree, a.passes, a.applications, a.vector, a.polynomial);
}
template <class S> auto before_scales(S &s) {
    return std::tie(s.field, s.matrix, s.right);
}
} // namespace detail

template <std::size_t I> auto &get(Answer &a) { return std::get<I>(detail::before_bill(a)); }
template <std::size_t I> const auto &get(const Answer &a) { return std::get<I>(detail::before_bill(a)); }
template <std::size_t I> auto &&get(Answer &&a) { return std::move(get<I>(a)); }
template <std::size_t I> auto &get(System &s) { return std::get<I>(detail::before_scales(s)); }
template <std::size_t I> const auto &get(const System &s) { return std::get<I>(detail::before_scales(s)); }
template <std::size_t I> auto &&get(System &&s) { return std::move(get<I>(s)); }

} // namespace filzeur

template <> struct std::tuple_size<filzeur::Answer> : std::integral_constant<std::size_t, 6> {};
template <std::size_t I> struct std::tuple_element<I, filzeur::Answer> {
    using type = std::remove_reference_t<decltype(filzeur::get<I>(std::declval<filzeur::Answer &>()))>;
};
template <> struct std::tuple_size<filzeur::System> : std::integral_constant<std::size_t, 3> {};
template <std::size_t I> struct std::tuple_element<I, filzeur::System> {
    using type = std::remove_reference_t<decltype(filzeur::get<I>(std::declval<filzeur::System &>()))>;
};

namespace filzeur {

namespace detail {

inline std::vector<Pass> passes(const Element *bill, std::size_t count) {
    std::vector<Pass> found(count);
    for (auto &[left, degree, applications] : found) {
        left = *bill++;
        degree = *bill++;
        applications = *bill++;
    }
    return found;
}

// Calls a C function on p, the matrix's three slices, and what follows.
template <class Call, class... Rest> auto with(Call call, const Field &field, const Matrix &a, Rest... rest) {
    return call(field.p, place(a.starts), a.starts.size(), place(a.columns), a.columns.size(), place(a.values),
                a.values.size(), rest...);
}

} // namespace detail

// Av
inline Result<Vector> product(const Field &field, const Matrix &a, const Vector &v) {
    detail::Lent<Element> out(a.size());
    auto [refusal, multiplied] =
        detail::with(filzeur_product, field, a, detail::place(v), v.size(), out.data(), out.size());
    return detail::result(refusal, std::move(out).leading(a.size()), multiplied);
}

// The transpose of A times v
inline Result<Vector> transposed(const Field &field, const Matrix &a, const Vector &v) {
    detail::Lent<Element> out(a.size());
    auto [refusal, multiplied] =
        detail::with(filzeur_transposed, field, a, detail::place(v), v.size(), out.data(), out.size());
    return detail::result(refusal, std::move(out).leading(a.size()), multiplied);
}

// g(A)v
inline Result<Vector> apply(const Field &field, const Matrix &a, const Polynomial &g, const Vector &v) {
    detail::Lent<Element> out(a.size()), work(2 * a.size());
    auto [refusal, multiplied] = detail::with(filzeur_apply, field, a, detail::place(g), g.size(), detail::place(v),
                                              v.size(), out.data(), out.size(), work.data(), work.size());
    return detail::result(refusal, std::move(out).leading(a.size()), multiplied);
}

// The monic polynomial of the list's shortest recurrence: L + 1 coefficients.
inline Result<Polynomial> recurrence(const Field &field, const Vector &list) {
    detail::Lent<Element> polynomial(list.size() + 1), work(4 * list.size() + 8);
    auto [refusal, degree] = filzeur_recurrence(field.p, detail::place(list), list.size(), polynomial.data(),
                                                polynomial.size(), work.data(), work.size());
    return detail::result(refusal, std::move(polynomial).leading(std::size_t(degree) + 1));
}

namespace detail {

inline Result<Answer> run(const System &system, const std::vector<std::uint32_t> &words, std::uint32_t window,
                          const Vector &scales) {
    const auto &[field, a, b] = system;
    // R, which is 0 for size 0; more than 64 vectors are refused, so the bill needs no room for them.
    std::size_t vectors = a.size() == 0 ? 0 : words.size() / a.size();
    std::size_t passes = std::min<std::size_t>(FILZEUR_MAX_VECTORS, vectors) + a.size();
    Lent<Element> vector(a.size()), polynomial(a.size() + 1), bill(3 * passes), work(16 * a.size() + 16);
    auto verdict =
        with(filzeur_solve, field, a, place(scales), scales.size(), place(b), b.size(), place(words), words.size(),
             window, vector.data(), vector.size(), polynomial.data(), polynomial.size(), bill.data(), bill.size(),
             work.data(), work.size());
    return result(verdict.refusal,
                  Answer{Kind{verdict.kind}, verdict.degree, verdict.passes, verdict.applications,
                         std::move(vector).leading(a.size()), std::move(polynomial).leading(verdict.degree + 1),
                         detail::passes(bill.data(), verdict.passes), verdict.multiplied},
                  verdict.multiplied);
}

} // namespace detail

// words: R vectors of n random words each, one after the other, R from 0 to 64. The verdict does not depend on them.
inline Result<Answer> solve(const System &system, const std::vector<std::uint32_t> &words = {}) {
    return detail::run(system, words, 0, system.scales);
}

// A name of its own: a second `solve` would leave code that hands the first one on, as to std::async, in doubt which.
inline Result<Answer> solve_with(const System &system, const Options &options) {
    return detail::run(system, options.words, options.window,
                       options.scales.empty() ? system.scales : options.scales);
}

// Whether Ax = b
inline Result<bool> takes(const Field &field, const Matrix &a, const Vector &x, const Vector &b) {
    auto [refusal, yes, multiplied] =
        detail::with(filzeur_takes, field, a, detail::place(x), x.size(), detail::place(b), b.size());
    return detail::result(refusal, yes == 1, multiplied);
}

// Whether w is not zero and Aw = 0
inline Result<bool> is_null(const Field &field, const Matrix &a, const Vector &w) {
    auto [refusal, yes, multiplied] = detail::with(filzeur_is_null, field, a, detail::place(w), w.size());
    return detail::result(refusal, yes == 1, multiplied);
}

// The system has no scales where the text has none.
inline Result<System> read_system(std::string_view text) {
    // An `a` line has at least 8 bytes, so a text that passes the checks has no more entries than this.
    std::size_t entries = std::min<std::size_t>(FILZEUR_MAX_ENTRIES, text.size() / 8);
    detail::Lent<std::uint32_t> starts(FILZEUR_MAX_SIZE + 1), columns(entries);
    detail::Lent<Element> values(entries), scales(FILZEUR_MAX_SIZE), right(FILZEUR_MAX_SIZE);
    auto read = filzeur_read(detail::bytes(text), text.size(), starts.data(), starts.size(), columns.data(),
                             columns.size(), values.data(), values.size(), scales.data(), scales.size(), right.data(),
                             right.size());
    // Ones are no `s` lines: with these they would have been refused.
    bool ones = std::all_of(scales.data(), scales.data() + read.size, [](Element scale) { return scale == 1; });
    return detail::result(
        read.refusal, System{Field{read.modulus},
                             Matrix{std::move(starts).leading(std::size_t(read.size) + 1),
                                    std::move(columns).leading(read.entries), std::move(values).leading(read.entries)},
                             std::move(right).leading(read.size), std::move(scales).leading(ones ? 0 : read.size)});
}

inline Result<std::string> write_system(const System &system) {
    const auto &[field, a, b] = system;
    // The longest lines: 29 bytes for the header, 23 for an entry, 18 for a scale and for an element of b, 4 for the
    // end. What is over the bounds is refused before the text's length is looked at.
    std::size_t entries = std::min<std::size_t>(FILZEUR_MAX_ENTRIES, a.values.size());
    std::size_t size = std::min<std::size_t>(FILZEUR_MAX_SIZE, a.size());
    detail::Lent<std::uint8_t> text(33 + 23 * entries + 36 * size);
    auto [refusal, length] = detail::with(filzeur_write, field, a, detail::place(system.scales), system.scales.size(),
                                          detail::place(b), b.size(), text.data(), text.size());
    return detail::result(refusal, std::string(text.data(), text.data() + length));
}

// The text call: the answer's text of a system text of at most 128 rows, 1,024 entries and 26,624 bytes.
inline Result<std::string> answer_text(std::string_view text) {
    detail::Lent<std::uint8_t> answer(FILZEUR_CALL_ANSWER);
    std::uint64_t number = filzeur_text(detail::bytes(text), text.size(), answer.data(), answer.size());
    if (number <= 18) // an answer is always longer
        return Refusal{static_cast<std::uint32_t>(number)};
    return std::string(answer.data(), answer.data() + number);
}

} // namespace filzeur

#endif
