// What the tests share: a counter of checks, and slices that show what was written and what was not.
#ifndef FILZEUR_TESTS_CHECK_HPP
#define FILZEUR_TESTS_CHECK_HPP

#include <algorithm>
#include <cstddef>
#include <cstdio>
#include <string>
#include <vector>

namespace tests {

inline std::size_t passed = 0, failed = 0;

inline void check(bool holds, const std::string &what) {
    (holds ? passed : failed)++;
    if (!holds)
        std::fprintf(stderr, "FAILED: %s\n", what.c_str());
}

inline int report(const char *name) {
    std::printf("%s: %zu checks passed, %zu failed\n", name, passed, failed);
    return failed == 0 ? 0 : 1;
}

// A lent slice that holds one number everywhere before the call, between two margins that no call may write: the
// library itself is not built with the sanitizers, so they would not see it.
template <class T> class Slice {
  public:
    explicit Slice(std::size_t places, T before = 9)
        : places(places), before(before), held(places + 2 * margin, before) {}

    T *data() { return held.data() + margin; }
    std::size_t size() const { return places; }

    // Whether the slice ends as `leading` and then the places as they were.
    template <class Leading> bool ends_as(const Leading &leading) const {
        auto inside = held.begin() + margin;
        return leading.size() <= places && std::equal(leading.begin(), leading.end(), inside) &&
               all_before(held.begin(), inside) && all_before(inside + std::ptrdiff_t(leading.size()), held.end());
    }
    bool untouched() const { return ends_as(std::vector<T>{}); }
    bool margins_untouched() const {
        return all_before(held.begin(), held.begin() + margin) && all_before(held.end() - margin, held.end());
    }

  private:
    static constexpr std::ptrdiff_t margin = 8;
    std::size_t places;
    T before;
    std::vector<T> held;

    template <class Place> bool all_before(Place from, Place to) const {
        return std::all_of(from, to, [&](T place) { return place == before; });
    }
};

} // namespace tests

#endif
