// What bench.cpp runs beside one another. Each contestant fits the same small class; the parts that it does
// not have answer "no", and are left out of the tables.
#ifndef CONTESTANTS_H
#define CONTESTANTS_H

#include <cstddef>
#include <cstdint>
#include <memory>
#include <new>
#include <string>
#include <vector>

// Every vector begins at a page. Where malloc puts two of 4,096 elements, one lies 16 bytes after the other
// modulo 4,096, and stores into one hold up loads of the other that have nothing to do with them: up to a third
// of a product's time, by the luck of the heap.
template <class T> struct Paged {
    using value_type = T;
    static constexpr std::align_val_t page{4096};
    Paged() = default;
    template <class U> Paged(const Paged<U> &) {}
    T *allocate(size_t count) { return static_cast<T *>(operator new(count * sizeof(T), page)); }
    void deallocate(T *first, size_t) { operator delete(first, page); }
    bool operator==(const Paged &) const { return true; }
    bool operator!=(const Paged &) const { return false; }
};

using Vector = std::vector<uint32_t, Paged<uint32_t>>;

struct System {
    uint32_t p;
    size_t n;
    Vector starts, columns, values; // document 01's three slices
    Vector b;
    Vector words; // random words for one projection
    Vector g;     // a polynomial of degree Contestant::products
    uint32_t window = 0;
    Vector scales = {}; // none, or n
};

// What a contestant says of a system.
struct Verdict {
    std::string words;
    Vector x; // the vector that it gives, empty if none
};

// Prepared for one system: its own form of the matrix and room for the results. Only the calls below are
// timed.
class Contestant {
  public:
    virtual ~Contestant() = default;
    // One product, v into a vector of its own; and `products` of them by Horner's rule, as a solver makes
    // them: ours checks its input once for each call.
    static constexpr size_t products = 64;
    virtual bool has_product() const { return false; }
    virtual void product() {}
    virtual void horner() {}
    // One recurrence, of the terms that it was prepared with.
    virtual bool has_recurrence() const { return false; }
    virtual void recurrence() {}
    virtual Vector polynomial() { return {}; } // of the last recurrence, lowest power first
    // A whole solve.
    virtual void solve() {}
    virtual Verdict verdict() { return {}; }            // of the last solve
    virtual uint64_t applications() const { return 0; } // its products with the matrix, if they are told
};

using Maker = std::unique_ptr<Contestant> (*)(const System &system, const Vector &v, const Vector &terms);

std::unique_ptr<Contestant> make_ours(const System &, const Vector &, const Vector &);
std::unique_ptr<Contestant> make_windowed(const System &, const Vector &, const Vector &); // a window of 20
std::unique_ptr<Contestant> make_scaled(const System &, const Vector &, const Vector &); // with random scales
std::unique_ptr<Contestant> make_text(const System &, const Vector &, const Vector &); // by the text call
std::unique_ptr<Contestant> make_plain(const System &, const Vector &, const Vector &);
std::unique_ptr<Contestant> make_linbox(const System &, const Vector &, const Vector &);
std::unique_ptr<Contestant> make_linbox_rows(const System &, const Vector &, const Vector &);
std::unique_ptr<Contestant> make_linbox_of_b(const System &, const Vector &, const Vector &); // a window of 20
std::unique_ptr<Contestant> make_linbox_of_b_rows(const System &, const Vector &, const Vector &);
std::unique_ptr<Contestant> make_flint(const System &, const Vector &, const Vector &);

#endif
