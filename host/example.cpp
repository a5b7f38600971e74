// An example host: reads a system text of any accepted size, solves it with random words, multiplies the answer out.
//
//     example [-r R] [-w W] [-s] [FILE]
//
// R vectors of random words are drawn, 0 to 64, 1 if not said; the window is W, 0 to 64, 0 if not said; with -s the run
// has random scales in the place of the text's own; the text comes from FILE or from standard input.
// Standard output gets the answer's text in the form of the text call, or `refused` and the number; standard error a
// summary. Exit status: 0 answered, 1 refused, 2 bad usage, or input or output that failed, 3 the answer does not
// multiply out.
#include "filzeur.hpp"

#include <cinttypes>
#include <cstdio>
#include <cstdlib>
#include <fstream>
#include <iostream>
#include <optional>
#include <random>

namespace {

using filzeur::Kind;

const char *name(Kind kind) {
    return kind == Kind::solved ? "solved" : "singular";
}

int failed(const char *which, const char *what) {
    std::fprintf(stderr, "example: %s%s\n", which, what);
    return 2;
}

// One byte more than the longest text is enough for the reader to refuse, and an endless input is not stored.
std::string read_all(std::istream &in) {
    std::string text(FILZEUR_MAX_TEXT + 1, '\0');
    in.read(text.data(), static_cast<std::streamsize>(text.size()));
    text.resize(static_cast<std::size_t>(in.gcount()));
    return text;
}

std::optional<std::uint32_t> number_of(const char *word, unsigned long most) {
    char *end = nullptr;
    unsigned long number = std::strtoul(word, &end, 10);
    if (*word < '0' || *word > '9' || *end != '\0' || number > most)
        return std::nullopt;
    return static_cast<std::uint32_t>(number);
}

std::vector<std::uint32_t> draw(std::size_t count, std::uint32_t least, std::uint32_t most) {
    std::random_device generator; // the system's own
    std::uniform_int_distribution<std::uint32_t> one_of(least, most);
    std::vector<std::uint32_t> drawn(count);
    for (auto &number : drawn)
        number = one_of(generator);
    return drawn;
}

// Av by the definition, without the library: the second opinion. Scales have no part in it: the answer is A's.
filzeur::Vector plain_product(const filzeur::System &system, const filzeur::Vector &v) {
    const auto &a = system.matrix;
    filzeur::Vector out(a.size());
    for (std::size_t row = 0; row < a.size(); ++row) {
        std::uint64_t sum = 0;
        for (std::size_t k = a.starts[row]; k < a.starts[row + 1]; ++k)
            sum = (sum + std::uint64_t{a.values[k]} * v[a.columns[k]]) % system.field.p;
        out[row] = static_cast<filzeur::Element>(sum);
    }
    return out;
}

bool library_agrees(const filzeur::System &system, const filzeur::Answer &answer) {
    auto yes = answer.kind == Kind::solved ? filzeur::takes(system.field, system.matrix, answer.vector, system.right)
                                           : filzeur::is_null(system.field, system.matrix, answer.vector);
    return yes.ok() && yes.value();
}

bool plain_loop_agrees(const filzeur::System &system, const filzeur::Answer &answer) {
    const filzeur::Vector zero(system.matrix.size());
    auto image = plain_product(system, answer.vector);
    return answer.kind == Kind::solved ? image == system.right : image == zero && answer.vector != zero;
}

void print(const filzeur::Answer &answer) {
    std::printf("answer\t%s\t%" PRIu64 "\t%" PRIu64 "\t%" PRIu64 "\t%" PRIu64 "\n", name(answer.kind), answer.degree,
                answer.passes, answer.applications, answer.multiplied);
    for (std::size_t i = 0; i < answer.bill.size(); ++i)
        std::printf("pass\t%zu\t%" PRIu64 "\t%" PRIu64 "\t%" PRIu64 "\n", i + 1, answer.bill[i].left,
                    answer.bill[i].degree, answer.bill[i].applications);
    std::printf("close\t%" PRIu64 "\n", answer.degree == 0 ? 0 : answer.degree - 1);
    for (std::size_t i = 0; i < answer.polynomial.size(); ++i)
        std::printf("f\t%zu\t%" PRIu32 "\n", i, answer.polynomial[i]);
    for (std::size_t i = 0; i < answer.vector.size(); ++i)
        std::printf("%c\t%zu\t%" PRIu32 "\n", answer.kind == Kind::solved ? 'x' : 'w', i + 1, answer.vector[i]);
    std::printf("end\n");
}

int refused(filzeur::Refusal refusal) {
    std::printf("refused\t%" PRIu32 "\n", refusal.number);
    std::fprintf(stderr, "refused %" PRIu32 ": %s\n", refusal.number, refusal.meaning());
    return 1;
}

int answer(std::string_view text, std::uint32_t vectors, std::uint32_t window, bool scaled) {
    auto system = filzeur::read_system(text);
    if (!system.ok())
        return refused(system.refusal());

    std::size_t size = system.value().matrix.size();
    filzeur::Options options{draw(vectors * size, 0, 4294967295), window};
    if (scaled)
        options.scales = draw(size, 1, system.value().field.p - 1);
    auto run = filzeur::solve_with(system.value(), options);
    if (!run.ok())
        return refused(run.refusal());
    const auto &found = run.value();

    if (!library_agrees(system.value(), found) || !plain_loop_agrees(system.value(), found)) {
        std::fprintf(stderr, "example: the answer does not multiply out\n");
        return 3;
    }
    print(found);
    std::fprintf(stderr,
                 "%s: degree %" PRIu64 ", passes %" PRIu64 ", applications %" PRIu64 ", entries multiplied %" PRIu64
                 ", %s scales; %s by the library's check and by a plain loop\n",
                 name(found.kind), found.degree, found.passes, found.applications, found.multiplied,
                 scaled                          ? "random"
                 : system.value().scales.empty() ? "no"
                                                 : "the text's",
                 found.kind == Kind::solved ? "Ax = b" : "Aw = 0");
    return 0;
}

} // namespace

int main(int argc, char **argv) {
    const char *usage = " example [-r R] [-w W] [-s] [FILE]";
    std::uint32_t vectors = 1, window = 0;
    bool scaled = false;
    int next = 1;
    for (; next < argc && argv[next][0] == '-'; ++next) {
        const std::string_view option = argv[next];
        if (option == "-s") {
            scaled = true;
            continue;
        }
        bool words = option == "-r";
        if ((!words && option != "-w") || ++next == argc)
            return failed("usage:", usage);
        auto number = number_of(argv[next], words ? FILZEUR_MAX_VECTORS : FILZEUR_MAX_WINDOW);
        if (!number)
            return failed(option.data(), " takes a number from 0 to 64");
        (words ? vectors : window) = *number;
    }
    if (argc - next > 1)
        return failed("usage:", usage);

    std::string text;
    if (next < argc) {
        std::ifstream file(argv[next], std::ios::binary);
        if (!file)
            return failed(argv[next], " cannot be opened");
        text = read_all(file);
        if (file.bad())
            return failed(argv[next], " cannot be read");
    } else {
        text = read_all(std::cin);
        if (std::cin.bad())
            return failed("standard input", " cannot be read");
    }

    int status = answer(text, vectors, window, scaled);
    // A full disk must not look like an answer.
    if (std::fflush(stdout) != 0 || std::ferror(stdout) != 0)
        return failed("the answer", " cannot be written");
    return status;
}
