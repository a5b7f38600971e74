// Runs libraries by turns on the same slices, old, new, old, new .., and prints the least time of each call.
//
//   turns [--rounds N] [--seconds S] [--quick] [--only TEXT] OLD.so,.. NEW.so,..
//                                                     a table: all rows of the benchmark that are ours, or those with TEXT
//   turns --kernel [--rounds N] OURS.so,.. C.so,..                    our row product beside C: lines for report.py
//
// A library is given several times over, with its code at other places modulo 64 bytes, and the least time of
// them counts: where a loop happens to lie is a tenth of its time, and says nothing about it. Each place has at
// least N turns on a row, and each row at least S seconds.
#include "calls.h"
#include "systems.h"

#include <dlfcn.h>

#include <algorithm>
#include <chrono>
#include <cstdio>
#include <cstdlib>
#include <cstring>
#include <limits>
#include <sstream>
#include <tuple>

namespace {

int rounds = 3;
double least_seconds = 1;
bool quick = false;
std::string only; // rows whose name has it

// ---- libraries

struct Library {
    std::string name;
    std::vector<const Calls *> places;
    double best = 0;
};

Library open_all(const std::string &name, const std::string &files) {
    Library library{name, {}};
    std::istringstream list(files);
    for (std::string file; std::getline(list, file, ',');) {
        void *handle = dlopen(file.c_str(), RTLD_NOW | RTLD_LOCAL);
        void *calls = handle ? dlsym(handle, "our_calls") : nullptr;
        if (!calls) {
            fprintf(stderr, "%s\n", dlerror());
            exit(2);
        }
        library.places.push_back(static_cast<const Calls *>(calls));
        if (void *compiler = dlsym(handle, "kernel_compiler"))
            library.name = reinterpret_cast<const char *(*)()>(compiler)();
    }
    return library;
}

// ---- time

double now() {
    return std::chrono::duration<double>(std::chrono::steady_clock::now().time_since_epoch()).count();
}

using Call = void (*Calls::*)(Case &);

double turn(void (*call)(Case &), Case &c, int repeats) {
    double begin = now();
    for (int i = 0; i < repeats; i++)
        call(c);
    return (now() - begin) / repeats;
}

// Fills in the least time of one call in each library.
void race(std::vector<Library> &libraries, Call call, Case &c) {
    double once = turn(libraries[0].places[0]->*call, c, 1);
    int repeats = static_cast<int>(std::clamp(3e-4 / once, 1.0, 1e5)); // a turn of about 0.3 ms, or one call
    for (Library &library : libraries)
        library.best = std::numeric_limits<double>::infinity();
    double begin = now();
    for (int round = 0; round < rounds || (!quick && now() - begin < least_seconds); round++)
        for (size_t place = 0; place < libraries[0].places.size(); place++)
            for (Library &library : libraries)
                library.best = std::min(library.best, turn(library.places[place]->*call, c, repeats));
}

// The answer's text without the entries multiplied, the sixth field of its first line from version 4 on.
std::string uncounted(std::string text) {
    size_t end = std::min(text.find('\n'), text.size()), tab = 0;
    for (int field = 1; field < 6; field++)
        tab = std::min(text.find('\t', tab + 1), end);
    return text.erase(tab, end - tab);
}

// What a call leaves where nothing was there before, as far as both versions have it: the bill and the answer's
// text from 2 on, the entries multiplied from 4 on.
auto left_by(void (*call)(Case &), Case &c, int version) {
    for (Vector *slice : {&c.out, &c.vector, &c.f, &c.bill, &c.generator})
        std::fill(slice->begin(), slice->end(), 0);
    call(c);
    const Case::Numbers &n = c.numbers;
    bool billed = version >= 2, counted = version >= 4;
    std::string answer = c.answer.substr(0, billed ? n.length : 0);
    return std::make_tuple(c.out, c.vector, c.f, c.generator, billed ? c.bill : Vector(),
                           counted ? answer : uncounted(answer), n.refusal, n.kind, n.degree, n.passes,
                           n.applications, counted ? n.multiplied : 0);
}

// Whether the two leave the same.
bool same(const std::vector<Library> &libraries, Call call, Case &c) {
    const Calls &one = *libraries[0].places[0], &other = *libraries[1].places[0];
    int version = std::min(one.version, other.version);
    auto first = left_by(one.*call, c, version);
    return left_by(other.*call, c, version) == first;
}

// ---- the table

std::string grouped(size_t number) {
    std::string digits = std::to_string(number);
    for (size_t i = digits.size(); i > 3; i -= 3)
        digits.insert(i - 3, ",");
    return digits;
}

std::string shown(double seconds) {
    char text[40];
    if (seconds < 1e-6)
        snprintf(text, sizeof text, "%.1f ns", 1e9 * seconds);
    else if (seconds < 1e-3)
        snprintf(text, sizeof text, "%.2f µs", 1e6 * seconds);
    else
        snprintf(text, sizeof text, "%.3f ms", 1e3 * seconds);
    return text;
}

double largest = 0;
std::string largest_row;

void row(std::vector<Library> &libraries, const std::string &name, Call call, Case &c) {
    if (name.find(only) == std::string::npos)
        return;
    int needed = !c.s.scales.empty() ? 6 : c.s.window > 0 ? 5 : 1; // the version that can make the call
    for (const Library &library : libraries)
        if (!(library.places[0]->*call) || library.places[0]->version < needed) {
            fprintf(stderr, "%s: the %s library has no such call\n", name.c_str(), library.name.c_str());
            return;
        }
    if (!same(libraries, call, c))
        fprintf(stderr, "%s: the results are not the same\n", name.c_str());
    if (c.numbers.refusal != 0)
        fprintf(stderr, "%s: refused with %d\n", name.c_str(), static_cast<int>(c.numbers.refusal));
    race(libraries, call, c);
    double ratio = libraries[1].best / libraries[0].best;
    printf("| %s | %s | %s | %.3f |\n", name.c_str(), shown(libraries[0].best).c_str(),
           shown(libraries[1].best).c_str(), ratio);
    fflush(stdout);
    if (ratio > largest)
        largest = ratio, largest_row = name;
}

std::string size(size_t n, size_t k, uint32_t p) {
    return ", " + grouped(n) + " × " + grouped(k) + ", p = " + grouped(p);
}

void compare(std::vector<Library> &libraries) {
    const std::pair<size_t, size_t> sizes[] = {{1000, 10}, {2000, 16}, {4096, 4}, {4096, 16}};
    const std::pair<size_t, size_t> small[] = {{8, 3}, {32, 5}, {128, 8}};
    printf("| row | old | new | new / old |\n|---|---:|---:|---:|\n");
    for (uint32_t p : {251u, 2147483647u}) {
        Random random(p);
        System s = some_system(random, 1, 1, p, true);
        Case c(s, s.b, s.b);
        row(libraries, "making a field, p = " + grouped(p), &Calls::field, c);
    }
    // All inverses of a field, or as many evenly spread: modulo 251 a library from landing 16 on has a table.
    for (uint32_t p : {241u, 251u, 2147483647u}) {
        size_t n = std::min<size_t>(p - 1, 250);
        Random random(p);
        System s = some_system(random, n, 1, p, true);
        Vector elements(n);
        for (size_t i = 0; i < n; i++)
            elements[i] = (p - 1) / n * i + 1;
        Case c(s, elements, s.b);
        row(libraries, grouped(n) + " inverses, p = " + grouped(p), &Calls::inverses, c);
    }
    for (auto [n, k] : small)
        for (uint32_t p : {251u, 2147483647u}) {
            Random random(n * 1000 + k + p);
            System s = some_system(random, n, k, p, true);
            Vector terms = first_terms(s);
            s.words.clear();
            Case c(s, s.b, terms);
            libraries[0].places[0]->write(c);
            row(libraries, "small, recurrence" + size(n, k, p), &Calls::recurrence, c);
            row(libraries, "small, number call" + size(n, k, p), &Calls::solve, c);
            row(libraries, "small, text call" + size(n, k, p), &Calls::text, c);
        }
    for (auto [n, k] : sizes)
        for (uint32_t p : {101u, 251u, 65537u, 2147483647u}) {
            Random random(n * 1000 + k + p);
            size_t rows = quick ? n / 10 : n;
            System s = some_system(random, rows, k, p, true);
            Vector v = some_vector(random, rows, p), terms = first_terms(s);
            Case c(s, v, terms);
            row(libraries, "product" + size(rows, k, p), &Calls::product, c);
            row(libraries, "transposed product" + size(rows, k, p), &Calls::transposed, c);
            row(libraries, "g(A)v, 64 products" + size(rows, k, p), &Calls::apply, c);
            row(libraries, "recurrence" + size(rows, k, p), &Calls::recurrence, c);
            row(libraries, "solve" + size(rows, k, p), &Calls::solve, c);
            // L becomes n at term n, if that is not 0, and stays; a later term changes at most one coefficient of q.
            std::fill_n(terms.begin(), rows - 1, 0);
            row(libraries, "recurrence, zeros first" + size(rows, k, p), &Calls::recurrence, c);
        }
    for (uint32_t p : {101u, 65537u, 2147483647u}) {
        size_t n = quick ? 400 : 4096, k = 16;
        Random random(n * 1000 + k + p);
        System s = short_system(random, n, k, p, n / 10);
        Case c(s, s.b, s.b);
        row(libraries, "solve, f of degree n / 10" + size(n, k, p), &Calls::solve, c);
        s.window = 20;
        row(libraries, "solve, f of degree n / 10, window 20" + size(n, k, p), &Calls::solve, c);
        System scaled = some_system(random, n, k, p, true);
        scaled.scales = some_scales(random, n, p);
        Case by_scales(scaled, scaled.b, scaled.b);
        row(libraries, "solve, scales" + size(n, k, p), &Calls::solve, by_scales);
    }
    printf("\nlargest ratio %.3f: %s\n", largest, largest_row.c_str());
}

// With 256 products the checks of our input don't show.
void beside_c(std::vector<Library> &libraries) {
    const uint32_t p = 2147483647;
    for (size_t k : {4, 16}) {
        size_t n = quick ? 400 : 4096;
        Random random(n * 1000 + k + p);
        System s = some_system(random, n, k, p, true);
        s.g = some_vector(random, 257, p);
        Vector v = some_vector(random, n, p);
        Case c(s, v, v);
        if (!same(libraries, &Calls::apply, c))
            fprintf(stderr, "%zu × %zu: the results are not the same\n", n, k);
        race(libraries, &Calls::apply, c);
        for (const Library &library : libraries)
            printf("kernel\t%zu\t%zu\t%u\t%s\t%.12f\t%d\t\t\n", n, k, p, library.name.c_str(),
                   library.best / 256, rounds);
    }
}

} // namespace

int main(int count, char **words) {
    bool kernel = false;
    std::vector<std::string> files;
    for (int i = 1; i < count; i++) {
        if (strcmp(words[i], "--quick") == 0)
            quick = true;
        else if (strcmp(words[i], "--kernel") == 0)
            kernel = true, rounds = 150, least_seconds = 0;
        else if (strcmp(words[i], "--rounds") == 0 && i + 1 < count)
            rounds = atoi(words[++i]);
        else if (strcmp(words[i], "--seconds") == 0 && i + 1 < count)
            least_seconds = atof(words[++i]);
        else if (strcmp(words[i], "--only") == 0 && i + 1 < count)
            only = words[++i];
        else
            files.push_back(words[i]);
    }
    if (files.size() != 2) {
        fprintf(stderr, "usage: turns [--kernel] [--rounds N] [--seconds S] [--quick] [--only TEXT] FILE,.. FILE,..\n");
        return 2;
    }
    if (quick)
        rounds = 1;
    std::vector<Library> libraries = {open_all(kernel ? "Filzeur" : "old", files[0]),
                                      open_all(kernel ? "C" : "new", files[1])};
    if (kernel)
        beside_c(libraries);
    else
        compare(libraries);
}
