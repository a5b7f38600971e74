// LinBox: its sparse product, its Berlekamp-Massey (MasseyDomain) and its Wiedemann solver with default
// settings. The field is Givaro::Modular<int64_t>, the fastest of those that hold a 31-bit prime. Its default
// sparse matrix and its compressed rows (CSR) are two contestants, since neither is always faster.
#include <linbox/linbox-config.h>

#include <linbox/algorithms/blackbox-container.h>
#include <linbox/algorithms/massey-domain.h>
#include <linbox/algorithms/wiedemann.h>
#include <linbox/matrix/sparse-matrix.h>
#include <linbox/ring/modular.h>

#include "contestants.h"

namespace {

using Field = Givaro::Modular<int64_t>;
using Dense = LinBox::DenseVector<Field>;

// A list as the sequence that MasseyDomain wants.
class List {
  public:
    using const_iterator = std::vector<Field::Element>::const_iterator;
    List(const Field &field, const Vector &terms) : over(field), elements(terms.begin(), terms.end()) {}
    const Field &field() const { return over; }
    long size() const { return static_cast<long>(elements.size()); }
    const_iterator begin() const { return elements.begin(); }

  private:
    const Field &over;
    std::vector<Field::Element> elements;
};

template <class Matrix> class LinBoxes : public Contestant {
  public:
    LinBoxes(const System &s, const Vector &given, const Vector &terms)
        : field(s.p), a(field, s.n, s.n), v(field, s.n), b(field, s.n), x(field, s.n), out(field, s.n),
          certificate(field, s.n), list(field, terms), generator(field), domain(field),
          g(s.g.begin(), s.g.end()) {
        for (size_t i = 0; i < s.n; i++) {
            for (uint32_t k = s.starts[i]; k < s.starts[i + 1]; k++)
                a.setEntry(i, s.columns[k], static_cast<Field::Element>(s.values[k]));
            v[i] = given[i];
            b[i] = s.b[i];
        }
        a.finalize();
    }

    bool has_product() const override { return true; }
    void product() override { a.apply(out, v); }
    // As WiedemannSolver does it.
    void horner() override {
        domain.mul(x, v, g.back());
        for (size_t i = g.size() - 1; i-- > 0;) {
            a.apply(out, x);
            domain.axpy(x, g[i], v, out);
        }
    }
    bool has_recurrence() const override { return std::is_same_v<Matrix, LinBox::SparseMatrix<Field>>; }
    void recurrence() override {
        // All terms are to be used, so nothing ends early.
        LinBox::MasseyDomain<Field, List> massey(&list, field, list.size() + 1);
        size_t rank = 0;
        massey.minpoly(generator, rank, false);
    }
    Vector polynomial() override { return Vector(generator.begin(), generator.end()); }
    void solve() override {
        LinBox::WiedemannSolver<Field> solver(field);
        try {
            static const char *const names[] = {"OK", "FAILED", "SINGULAR", "INCONSISTENT",
                                                "BAD_PRECONDITIONER"};
            status = names[solver.solve(a, x, b, certificate)];
        } catch (LinBox::LinboxError &) {
            status = "error";
        }
    }
    Verdict verdict() override { return {status, status == "OK" ? Vector(x.begin(), x.end()) : Vector()}; }

  protected:
    Field field;
    Matrix a;
    Dense v, b, x, out, certificate;
    List list;
    Dense generator;
    LinBox::VectorDomain<Field> domain;
    std::vector<Field::Element> g;
    std::string status;
};

// WiedemannSolver ends early by itself: solveNonsingular (wiedemann.inl) takes the polynomial of A, and
// MasseyDomain stops where that has stayed of one degree for EARLY_TERM_THRESHOLD steps (massey-domain.h; 10 by
// default, methods.h: earlyTerminationThreshold). But its sequence is that of a random vector in the place of b,
// so that the degree is A's. Here the same parts are put together for the sequence of b, with our window; then
// Horner's rule and the check of Ax = b as in solveNonsingular.
template <class Matrix> class OfB : public LinBoxes<Matrix> {
  public:
    OfB(const System &s, const Vector &given, const Vector &terms)
        : LinBoxes<Matrix>(s, given, terms), u(this->field, s.n) {
        for (size_t i = 0; i < s.n; i++)
            u[i] = s.words[i] % s.p;
    }

    void solve() override {
        const Field &field = this->field;
        Dense &f = this->generator, &x = this->x, &out = this->out;
        using Sequence = LinBox::BlackboxContainer<Field, Matrix>;
        Sequence terms(&this->a, field, u, this->b);
        LinBox::MasseyDomain<Field, Sequence> massey(&terms, field, 20);
        size_t rank = 0;
        massey.minpoly(f, rank);
        this->status = "SINGULAR";
        if (field.isZero(f[0]))
            return;
        for (size_t i = 1; i < f.size(); i++)
            field.negin(field.divin(f[i], f[0]));
        this->domain.mul(x, this->b, f[f.size() - 1]);
        for (size_t i = f.size() - 1; --i > 0;) {
            this->a.apply(out, x);
            this->domain.axpy(x, f[i], this->b, out);
        }
        this->a.apply(out, x);
        this->status = this->domain.areEqual(out, this->b) ? "OK" : "FAILED";
    }

  private:
    Dense u;
};

using Default = LinBox::SparseMatrix<Field>;
using Rows = LinBox::SparseMatrix<Field, LinBox::SparseMatrixFormat::CSR>;

} // namespace

std::unique_ptr<Contestant> make_linbox(const System &s, const Vector &v, const Vector &terms) {
    return std::make_unique<LinBoxes<Default>>(s, v, terms);
}

std::unique_ptr<Contestant> make_linbox_rows(const System &s, const Vector &v, const Vector &terms) {
    return std::make_unique<LinBoxes<Rows>>(s, v, terms);
}

std::unique_ptr<Contestant> make_linbox_of_b(const System &s, const Vector &v, const Vector &terms) {
    return std::make_unique<OfB<Default>>(s, v, terms);
}

std::unique_ptr<Contestant> make_linbox_of_b_rows(const System &s, const Vector &v, const Vector &terms) {
    return std::make_unique<OfB<Rows>>(s, v, terms);
}
