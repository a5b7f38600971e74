// A slice as a careless host would see it: it ends at a page that may not be touched, so a read or a write
// beyond its end stops the process, though the library is compiled without sanitizers. What stands before it
// is looked at later.
#ifndef LENT_H
#define LENT_H

#include <sys/mman.h>
#include <unistd.h>

#include <algorithm>
#include <cstdint>
#include <cstdlib>
#include <cstring>
#include <vector>

template <class T> class Lent {
  public:
    explicit Lent(std::vector<T> contents) : before(std::move(contents)) {
        size_t page = static_cast<size_t>(sysconf(_SC_PAGESIZE)), bytes = before.size() * sizeof(T);
        used = (bytes / page + 1) * page;
        total = used + page;
        void *place = mmap(nullptr, total, PROT_READ | PROT_WRITE, MAP_PRIVATE | MAP_ANONYMOUS, -1, 0);
        if (place == MAP_FAILED)
            abort();
        base = static_cast<uint8_t *>(place);
        if (mprotect(base + used, page, PROT_NONE) != 0)
            abort();
        margin = used - bytes;
        memset(base, pattern, margin);
        if (bytes > 0)
            memcpy(base + margin, before.data(), bytes);
    }
    Lent(const Lent &) = delete;
    ~Lent() { munmap(base, total); }

    T *data() { return reinterpret_cast<T *>(base + margin); }
    size_t size() const { return before.size(); }
    const T *begin() const { return reinterpret_cast<const T *>(base + margin); }
    const T *end() const { return begin() + size(); }

    // Do the contents from `first` on stand as they were lent?
    bool kept(size_t first = 0) const { return std::equal(begin() + first, end(), before.begin() + first); }
    // Is what stands before the slice as it was?
    bool within() const {
        return std::all_of(base, base + margin, [](uint8_t byte) { return byte == pattern; });
    }

  private:
    static constexpr uint8_t pattern = 0xa5;
    std::vector<T> before;
    uint8_t *base;
    size_t used, total, margin;
};

#endif
