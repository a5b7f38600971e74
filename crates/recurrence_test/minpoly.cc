// NTL's minimal polynomials of sequences: reads p, the number of terms (an even number) and the terms, again and again, and writes the
// degree and the coefficients, lowest power first. Built by vectors.py.
#include <NTL/lzz_pX.h>
#include <cstdio>

int main() {
    long p, count;
    while (std::scanf("%ld %ld", &p, &count) == 2) {
        NTL::zz_p::init(p);
        NTL::vec_zz_p s;
        s.SetLength(count);
        for (long i = 0; i < count; i++) {
            long x;
            if (std::scanf("%ld", &x) != 1) return 1;
            s[i] = NTL::to_zz_p(x);
        }
        NTL::zz_pX f;
        NTL::MinPolySeq(f, s, count / 2);
        std::printf("%ld", NTL::deg(f));
        for (long i = 0; i <= NTL::deg(f); i++) std::printf(" %ld", NTL::rep(NTL::coeff(f, i)));
        std::printf("\n");
    }
}
