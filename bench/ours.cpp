// Ours, by its calls on numbers and by its text call, and the plain C program of the same steps.
#include "calls.h"
#include "contestants.h"
#include "plain.h"
#include "systems.h"

#include <sstream>

namespace {

class Ours : public Contestant {
  public:
    Ours(const System &s, const Vector &v, const Vector &terms) : c(s, v, terms) {}

    bool has_product() const override { return true; }
    void product() override { our_calls.product(c); }
    void horner() override { our_calls.apply(c); }
    bool has_recurrence() const override { return true; }
    void recurrence() override { our_calls.recurrence(c); }
    Vector polynomial() override {
        return Vector(c.generator.begin(), c.generator.begin() + c.numbers.degree + 1);
    }
    void solve() override { our_calls.solve(c); }
    Verdict verdict() override {
        if (c.numbers.refusal != 0)
            return {"refused, " + std::to_string(c.numbers.refusal), {}};
        return {c.numbers.kind == 1 ? "solved" : "singular", c.vector};
    }
    uint64_t applications() const override { return c.numbers.applications; }

  private:
    Case c;
};

struct WithWindow {
    explicit WithWindow(const System &system) : given(system) { given.window = 20; }
    System given;
};

class Windowed : WithWindow, public Ours {
  public:
    Windowed(const System &s, const Vector &v, const Vector &terms) : WithWindow(s), Ours(given, v, terms) {}
};

struct WithScales {
    explicit WithScales(const System &system) : given(system) {
        Random random(system.p);
        given.scales = some_scales(random, given.n, given.p);
    }
    System given;
};

class Scaled : WithScales, public Ours {
  public:
    Scaled(const System &s, const Vector &v, const Vector &terms) : WithScales(s), Ours(given, v, terms) {}
};

class Text : public Contestant {
  public:
    Text(const System &s, const Vector &v, const Vector &terms) : c(s, v, terms) { our_calls.write(c); }

    void solve() override { our_calls.text(c); }
    Verdict verdict() override {
        if (c.numbers.refusal != 0)
            return {"refused, " + std::to_string(c.numbers.refusal), {}};
        Verdict said{"", Vector(c.s.n)};
        std::istringstream lines(c.answer.substr(0, c.numbers.length));
        for (std::string line; std::getline(lines, line);) {
            std::istringstream fields(line);
            std::string letter;
            size_t place = 0;
            fields >> letter;
            if (letter == "answer")
                fields >> said.words;
            if (letter == "x" || letter == "w")
                fields >> place >> said.x.at(place - 1);
        }
        return said;
    }

  private:
    Case c;
};

class Plain : public Contestant {
  public:
    Plain(const System &system, const Vector &given, const Vector &list)
        : s(system), v(given), terms(list), a{s.p, s.n, s.starts.data(), s.columns.data(), s.values.data()},
          out(s.n), vector(s.n), f(s.n + 1), work(16 * s.n + 16), generator(terms.size() + 1),
          recurrence_work(4 * terms.size() + 8) {}

    bool has_product() const override { return true; }
    void product() override { plain_product(&a, v.data(), out.data()); }
    void horner() override { plain_apply(&a, s.g.data(), s.g.size() - 1, v.data(), out.data(), work.data()); }
    bool has_recurrence() const override { return true; }
    void recurrence() override {
        degree = plain_recurrence(s.p, terms.data(), terms.size(), generator.data(), recurrence_work.data());
    }
    Vector polynomial() override { return Vector(generator.begin(), generator.begin() + degree + 1); }
    void solve() override {
        answer = plain_solve(&a, s.b.data(), s.words.data(), s.words.size() / s.n, vector.data(), f.data(),
                             work.data());
    }
    Verdict verdict() override { return {answer.solved ? "solved" : "singular", vector}; }

  private:
    const System &s;
    const Vector &v, &terms;
    plain_matrix a;
    Vector out, vector, f, work, generator, recurrence_work;
    size_t degree = 0;
    plain_verdict answer{};
};

} // namespace

std::unique_ptr<Contestant> make_ours(const System &s, const Vector &v, const Vector &terms) {
    return std::make_unique<Ours>(s, v, terms);
}

std::unique_ptr<Contestant> make_windowed(const System &s, const Vector &v, const Vector &terms) {
    return std::make_unique<Windowed>(s, v, terms);
}

std::unique_ptr<Contestant> make_scaled(const System &s, const Vector &v, const Vector &terms) {
    return std::make_unique<Scaled>(s, v, terms);
}

std::unique_ptr<Contestant> make_text(const System &s, const Vector &v, const Vector &terms) {
    return std::make_unique<Text>(s, v, terms);
}

std::unique_ptr<Contestant> make_plain(const System &s, const Vector &v, const Vector &terms) {
    return std::make_unique<Plain>(s, v, terms);
}
