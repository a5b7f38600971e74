#include "systems.h"
#include "plain.h"

#include <algorithm>

uint32_t below(Random &random, uint32_t bound) { return static_cast<uint32_t>(random() % bound); }

Vector some_vector(Random &random, size_t n, uint32_t p) {
    Vector v(n);
    for (uint32_t &element : v)
        element = below(random, p);
    return v;
}

Vector some_scales(Random &random, size_t n, uint32_t p) {
    Vector scales = some_vector(random, n, p - 1);
    for (uint32_t &scale : scales)
        scale++;
    return scales;
}

Vector times(const System &s, const Vector &v) {
    Vector result(s.n);
    plain_matrix a{s.p, s.n, s.starts.data(), s.columns.data(), s.values.data()};
    plain_product(&a, v.data(), result.data());
    return result;
}

System some_system(Random &random, size_t n, size_t k, uint32_t p, bool diagonal) {
    System s{p, n, {0}, {}, {}, {}, {}, some_vector(random, Contestant::products + 1, p)};
    for (size_t i = 0; i < n; i++) {
        Vector row;
        if (diagonal)
            row.push_back(static_cast<uint32_t>(i));
        while (row.size() < k) {
            uint32_t column = below(random, static_cast<uint32_t>(n));
            if (std::find(row.begin(), row.end(), column) == row.end())
                row.push_back(column);
        }
        std::sort(row.begin(), row.end());
        s.columns.insert(s.columns.end(), row.begin(), row.end());
        s.starts.push_back(static_cast<uint32_t>(s.columns.size()));
    }
    for (size_t i = 0; i < s.columns.size(); i++)
        s.values.push_back(1 + below(random, p - 1));
    s.b = times(s, some_vector(random, n, p));
    for (size_t i = 0; i < n; i++)
        s.words.push_back(static_cast<uint32_t>(random()));
    return s;
}

System short_system(Random &random, size_t n, size_t k, uint32_t p, size_t degree) {
    System first = some_system(random, degree, k, p, true), second = some_system(random, n - degree, k, p, true);
    Vector place(n); // where row and column i go
    for (size_t i = 0; i < n; i++)
        place[i] = static_cast<uint32_t>(i);
    std::shuffle(place.begin(), place.end(), random);
    std::vector<std::vector<std::pair<uint32_t, uint32_t>>> rows(n); // column, value
    for (size_t i = 0; i < n; i++) {
        const System &block = i < degree ? first : second;
        size_t from = i < degree ? 0 : degree;
        for (uint32_t e = block.starts[i - from]; e < block.starts[i - from + 1]; e++)
            rows[place[i]].push_back({place[from + block.columns[e]], block.values[e]});
    }
    System s{p, n, {0}, {}, {}, Vector(n), {}, first.g};
    for (auto &row : rows) {
        std::sort(row.begin(), row.end());
        for (auto [column, value] : row) {
            s.columns.push_back(column);
            s.values.push_back(value);
        }
        s.starts.push_back(static_cast<uint32_t>(s.columns.size()));
    }
    for (size_t i = 0; i < degree; i++)
        s.b[place[i]] = first.b[i];
    for (size_t i = 0; i < n; i++)
        s.words.push_back(static_cast<uint32_t>(random()));
    return s;
}

Vector first_terms(const System &s) {
    Vector terms, v = s.b;
    for (size_t i = 0; i < 2 * s.n; i++, v = times(s, v)) {
        unsigned __int128 sum = 0;
        for (size_t k = 0; k < s.n; k++)
            sum += uint64_t{s.words[k] % s.p} * v[k];
        terms.push_back(static_cast<uint32_t>(sum % s.p));
    }
    return terms;
}
