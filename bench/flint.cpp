// FLINT's dense solve. The dense matrix is made beforehand, and only the solve is timed.
#include <flint/nmod_mat.h>

#include "contestants.h"

namespace {

class Flint : public Contestant {
  public:
    explicit Flint(const System &s) {
        slong n = static_cast<slong>(s.n);
        nmod_mat_init(a, n, n, s.p);
        nmod_mat_init(b, n, 1, s.p);
        nmod_mat_init(x, n, 1, s.p);
        for (size_t i = 0; i < s.n; i++) {
            for (uint32_t k = s.starts[i]; k < s.starts[i + 1]; k++)
                nmod_mat_entry(a, i, s.columns[k]) = s.values[k];
            nmod_mat_entry(b, i, 0) = s.b[i];
        }
    }
    ~Flint() override {
        nmod_mat_clear(a);
        nmod_mat_clear(b);
        nmod_mat_clear(x);
    }

    // The second call is for singular matrices, where the first gives up.
    void solve() override { found = nmod_mat_solve(x, a, b) != 0 || nmod_mat_can_solve(x, a, b) != 0; }
    Verdict verdict() override {
        if (!found)
            return {"no solution", {}};
        Vector result;
        for (slong i = 0; i < nmod_mat_nrows(x); i++)
            result.push_back(static_cast<uint32_t>(nmod_mat_entry(x, i, 0)));
        return {"solved", result};
    }

  private:
    nmod_mat_t a, b, x;
    bool found = false;
};

} // namespace

std::unique_ptr<Contestant> make_flint(const System &s, const Vector &, const Vector &) {
    return std::make_unique<Flint>(s);
}
