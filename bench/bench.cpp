// Times the contestants beside one another in one process, and prints what report.py makes tables of.
//
//   bench [--rounds N] [--seconds S] [--only PART,..] [--quick]
//
// In each round every contestant has its turn, so that a slow minute of the machine meets all of them; the
// least time of N rounds counts. A contestant that has used S seconds on one row sits out the later rounds.
// The parts are memory, sizes, window, scales, growth, small and verdicts.
// --quick is for a look at whether all works: small sizes, one round.
#include "contestants.h"
#include "systems.h"

#include <sys/resource.h>
#include <sys/wait.h>
#include <unistd.h>

#include <algorithm>
#include <chrono>
#include <cstdio>
#include <cstring>
#include <functional>
#include <limits>

namespace {

int rounds = 5;
double most_seconds = 30;
bool quick = false;

struct Entrant {
    const char *name;
    Maker make;
};

using Entrants = std::vector<Entrant>;

const Entrants entrants = {
    {"Filzeur", make_ours},      {"plain C", make_plain},
#ifdef WITH_LINBOX
    {"LinBox", make_linbox},     {"LinBox CSR", make_linbox_rows},
#endif
#ifdef WITH_FLINT
    {"FLINT dense", make_flint},
#endif
};

// ---- time

double now() {
    return std::chrono::duration<double>(std::chrono::steady_clock::now().time_since_epoch()).count();
}

struct Runner {
    const char *name;
    std::unique_ptr<Contestant> contestant;
    double best = std::numeric_limits<double>::infinity(), used = 0;
    int turns = 0;
};

std::vector<Runner> prepare(const Entrants &entrants, const System &s, const Vector &v, const Vector &terms) {
    std::vector<Runner> runners;
    for (const Entrant &entrant : entrants)
        runners.push_back({entrant.name, entrant.make(s, v, terms)});
    return runners;
}

// Fills in the least time of one call of `action`, which is made `repeats` times in a turn.
void race(std::vector<Runner> &runners, int rounds, int repeats,
          const std::function<bool(const Contestant &)> &enters,
          const std::function<void(Contestant &)> &action) {
    for (Runner &runner : runners)
        runner.best = std::numeric_limits<double>::infinity(), runner.used = 0, runner.turns = 0;
    for (int round = 0; round < rounds; round++)
        for (Runner &runner : runners) {
            if (!enters(*runner.contestant) || runner.used > most_seconds)
                continue;
            double begin = now();
            for (int i = 0; i < repeats; i++)
                action(*runner.contestant);
            double took = now() - begin;
            runner.best = std::min(runner.best, took / repeats);
            runner.used += took;
            runner.turns++;
        }
}

// ---- what a verdict is worth

std::string truth(const System &s, const Verdict &verdict) {
    if (verdict.x.empty())
        return "";
    Vector image = times(s, verdict.x);
    bool zero = std::all_of(image.begin(), image.end(), [](uint32_t element) { return element == 0; });
    bool null = zero && std::any_of(verdict.x.begin(), verdict.x.end(), [](uint32_t e) { return e != 0; });
    if (verdict.words == "singular")
        return null ? "Aw = 0" : "Aw is not 0";
    return image == s.b ? "Ax = b" : "Ax is not b";
}

void print_times(const char *what, const System &s, const std::vector<Runner> &runners, bool solved) {
    for (const Runner &runner : runners) {
        if (runner.turns == 0)
            continue;
        Verdict verdict = solved ? runner.contestant->verdict() : Verdict{};
        printf("%s\t%zu\t%zu\t%u\t%s\t%.9f\t%d\t%s\t%s\n", what, s.n, s.columns.size() / s.n, s.p,
               runner.name, runner.best, runner.turns, verdict.words.c_str(), truth(s, verdict).c_str());
    }
    fflush(stdout);
}

void time_all(const char *solve_label, size_t n, size_t k, uint32_t p, bool parts) {
    fprintf(stderr, "%s: %zu rows of %zu entries, p = %u\n", solve_label, n, k, p);
    Random random(n * 1000 + k + p);
    System s = some_system(random, n, k, p, true);
    Vector v = some_vector(random, n, p), terms = first_terms(s);
    std::vector<Runner> runners = prepare(entrants, s, v, terms);
    if (parts) {
        int repeats = static_cast<int>(4000000 / s.columns.size()) + 1; // some milliseconds
        race(
            runners, rounds, repeats, [](const Contestant &c) { return c.has_product(); },
            [](Contestant &c) { c.product(); });
        print_times("product", s, runners, false);
        repeats = repeats / static_cast<int>(Contestant::products) + 1;
        race(
            runners, rounds, repeats, [](const Contestant &c) { return c.has_product(); },
            [](Contestant &c) { c.horner(); });
        print_times("horner", s, runners, false);
        race(
            runners, rounds, 1, [](const Contestant &c) { return c.has_recurrence(); },
            [](Contestant &c) { c.recurrence(); });
        print_times("recurrence", s, runners, false);
        Vector first = runners[0].contestant->polynomial();
        for (Runner &runner : runners)
            if (runner.contestant->has_recurrence() && runner.contestant->polynomial() != first)
                fprintf(stderr, "  %s has another recurrence than %s\n", runner.name, runners[0].name);
    }
    race(
        runners, rounds, 1, [](const Contestant &) { return true; }, [](Contestant &c) { c.solve(); });
    print_times(solve_label, s, runners, true);
}

// What a window of 20 saves where f is of degree n / 10, and what it costs where f is of degree n, so that no
// test is ever due.
void time_window(size_t n, size_t k, uint32_t p) {
    const Entrants ours = {{"Filzeur", make_ours}, {"Filzeur, window 20", make_windowed}};
    const Entrants all = {
        ours[0],
        ours[1],
#ifdef WITH_LINBOX
        {"LinBox", make_linbox},
        {"LinBox CSR", make_linbox_rows},
        {"LinBox of b", make_linbox_of_b},
        {"LinBox of b, CSR", make_linbox_of_b_rows},
#endif
    };
    fprintf(stderr, "window: %zu rows of %zu entries, p = %u\n", n, k, p);
    Random random(n * 1000 + k + p);
    for (bool full : {false, true}) {
        System s = full ? some_system(random, n, k, p, true) : short_system(random, n, k, p, n / 10);
        std::vector<Runner> runners = prepare(full ? ours : all, s, s.b, {});
        race(
            runners, rounds, 1, [](const Contestant &) { return true; }, [](Contestant &c) { c.solve(); });
        print_times(full ? "full" : "short", s, runners, true);
    }
}

// What random scales cost: the same system with and without them. The ratio means something if both runs make
// about as many products, so it is said where they don't.
void time_scales(size_t n, size_t k, uint32_t p) {
    fprintf(stderr, "scales: %zu rows of %zu entries, p = %u\n", n, k, p);
    const Entrants ours = {{"Filzeur", make_ours}, {"Filzeur, scales", make_scaled}};
    Random random(n * 1000 + k + p);
    System s = some_system(random, n, k, p, true);
    std::vector<Runner> runners = prepare(ours, s, s.b, {});
    race(
        runners, rounds, 1, [](const Contestant &) { return true; }, [](Contestant &c) { c.solve(); });
    print_times("scales", s, runners, true);
    uint64_t without = runners[0].contestant->applications(), with = runners[1].contestant->applications();
    if (with > without + without / 100 || without > with + with / 100)
        fprintf(stderr, "  %zu products without scales, %zu with them\n", static_cast<size_t>(without),
                static_cast<size_t>(with));
}

// A system as the text call has them, without random words, through the number call and the text call.
void time_small(size_t n, size_t k, uint32_t p) {
    fprintf(stderr, "small: %zu rows of %zu entries, p = %u\n", n, k, p);
    const Entrants callers = {{"number call", make_ours}, {"text call", make_text}, {"plain C", make_plain}};
    Random random(n * 1000 + k + p);
    System s = some_system(random, n, k, p, true);
    s.words.clear();
    std::vector<Runner> runners = prepare(callers, s, s.b, {});
    race(
        runners, quick ? 1 : 400, static_cast<int>(2048 / (n * n)) + 1, // at most a millisecond
        [](const Contestant &) { return true; }, [](Contestant &c) { c.solve(); });
    print_times("small", s, runners, true);
}

// ---- memory

size_t peak_bytes() {
    rusage usage;
    getrusage(RUSAGE_SELF, &usage);
    return static_cast<size_t>(usage.ru_maxrss) * 1024;
}

// A child process for each contestant, so that none profits from memory that another gave back. A small solve
// comes first, and brings the program's own pages in.
void weigh(size_t n, size_t k, uint32_t p) {
    Random random(n);
    System s = some_system(random, n, k, p, true), small = some_system(random, 64, 4, p, true);
    // starts, columns, values, b, words, vector, polynomial, bill and work, as lent to our solver
    size_t bill = 3 * (n + s.words.size() / n);
    size_t lent = 4 * ((n + 1) + 2 * s.columns.size() + n + s.words.size() + n + (n + 1) + bill + 16 * n + 16);
    printf("lent\t%zu\t%zu\t%u\t\t%zu\n", n, k, p, lent);
    for (const Entrant &entrant : entrants) {
        fflush(stdout);
        pid_t child = fork();
        if (child == 0) {
            entrant.make(small, small.b, {})->solve();
            std::unique_ptr<Contestant> contestant = entrant.make(s, s.b, {});
            size_t prepared = peak_bytes();
            contestant->solve();
            printf("memory\t%zu\t%zu\t%u\t%s\t%zu\n", n, k, p, entrant.name, peak_bytes() - prepared);
            fflush(stdout);
            _exit(0);
        }
        waitpid(child, nullptr, 0);
    }
}

// ---- what each says

void ask_all(const char *label, const System &s) {
    std::vector<Runner> runners = prepare(entrants, s, s.b, {});
    for (Runner &runner : runners) {
        runner.contestant->solve();
        Verdict verdict = runner.contestant->verdict();
        printf("says\t%s\t%u\t%s\t%s\t%s\n", label, s.p, runner.name, verdict.words.c_str(),
               truth(s, verdict).c_str());
        fflush(stdout);
    }
}

void hear_all(size_t n, int systems, uint32_t p) {
    char label[100];
    for (int i = 0; i < systems; i++) {
        fprintf(stderr, "verdicts: %d of %d\n", i + 1, systems);
        Random random(i);
        System s = some_system(random, n, 4, p, true);
        snprintf(label, sizeof label, "%zu rows of 4 entries, b = Ay", n);
        ask_all(label, s);

        // LinBox takes minutes for a singular system of 4,096 rows.
        size_t small = std::min<size_t>(n, 500);
        s = some_system(random, small, 4, p, false);
        snprintf(label, sizeof label, "%zu rows of 4 entries, singular, b = Ay", small);
        ask_all(label, s);

        // A row twice, with two right sides: no x meets both.
        for (uint32_t modulus : {p, 2147483647u}) {
            s = some_system(random, small, 8, modulus, true);
            std::copy_n(s.columns.begin(), 8, s.columns.begin() + 8);
            std::copy_n(s.values.begin(), 8, s.values.begin() + 8);
            s.b[1] = (s.b[0] + 1) % s.p;
            snprintf(label, sizeof label, "%zu rows of 8 entries, inconsistent", small);
            ask_all(label, s);
        }
    }
}

} // namespace

int main(int count, char **words) {
    std::string only;
    auto wanted = [&only](const char *part) { return only.empty() || only.find(part) != std::string::npos; };
    for (int i = 1; i < count; i++) {
        if (strcmp(words[i], "--quick") == 0)
            quick = true;
        else if (strcmp(words[i], "--rounds") == 0 && i + 1 < count)
            rounds = atoi(words[++i]);
        else if (strcmp(words[i], "--seconds") == 0 && i + 1 < count)
            most_seconds = atof(words[++i]);
        else if (strcmp(words[i], "--only") == 0 && i + 1 < count)
            only = words[++i];
        else {
            fprintf(stderr, "usage: bench [--rounds N] [--seconds S] [--only PART,..] [--quick]\n");
            return 2;
        }
    }
    const uint32_t primes[] = {101, 65537, 2147483647};
    const std::pair<size_t, size_t> sizes[] = {{1000, 10}, {2000, 16}, {4096, 4}, {4096, 16}};
    const std::pair<size_t, size_t> small[] = {{8, 3}, {32, 5}, {128, 8}}; // the text call takes up to 128
    if (quick)
        rounds = 1;
    size_t divisor = quick ? 10 : 1; // of the number of rows

    if (wanted("memory"))
        for (size_t n : {1024, 2048, 4096})
            weigh(n / divisor, 16, 2147483647);
    if (wanted("sizes"))
        for (auto [n, k] : sizes)
            for (uint32_t p : primes)
                time_all("solve", n / divisor, k, p, true);
    if (wanted("window"))
        for (uint32_t p : primes)
            time_window(4096 / divisor, 16, p);
    if (wanted("scales"))
        for (uint32_t p : primes)
            time_scales(4096 / divisor, 16, p);
    if (wanted("growth"))
        for (size_t n : {1024, 2048, 4096})
            time_all("growth", n / divisor, 16, 2147483647, false);
    if (wanted("small"))
        for (auto [n, k] : small)
            for (uint32_t p : {251u, 2147483647u})
                time_small(n, k, p);
    if (wanted("verdicts"))
        hear_all(4096 / divisor, quick ? 2 : 5, 101);
}
