// Calls the static library as a C++ host does: one call for each line of standard input, its answer on one
// line of standard output. compare.py and calls.py write the lines.
//
// A line is the call's name, the numbers and slices that it reads, in their order (a slice is its length, then
// the elements), and the lengths of the slices that it writes. Those are filled with noise before the call,
// since no answer may depend on what they held. An answer is the returned numbers, then each written slice but the work slice
// (the length, then the elements); a slice that may keep places stands among the numbers, without those.
// `harm` before an answer says that a slice was changed that had to stay.
#include "../host/filzeur.h"
#include "lent.h"

#include <iostream>
#include <map>
#include <memory>
#include <random>
#include <sstream>
#include <string>

namespace {

using Words = Lent<uint32_t>;
using Bytes = Lent<uint8_t>;

std::mt19937 noise;

// The slices of one call, and its line.
class Call {
  public:
    explicit Call(const std::string &line) : in(line) {}

    uint32_t number() {
        uint32_t value = 0;
        in >> value;
        return value;
    }
    template <class T = uint32_t> Lent<T> &reads() {
        std::vector<T> contents(number());
        for (T &element : contents)
            element = static_cast<T>(number());
        return keep<T>(contents, lent<T>(read_words, read_bytes));
    }
    template <class T = uint32_t> Lent<T> &writes() {
        std::vector<T> contents(number());
        for (T &element : contents)
            element = static_cast<T>(noise());
        return keep<T>(contents, lent<T>(written_words, written_bytes));
    }
    // The slices that had to stay: those that are read, and after a refusal those that are written.
    bool harmed(bool refused) const {
        auto bad = [](const auto &slices, bool all) {
            return std::any_of(slices.begin(), slices.end(),
                               [=](const auto &s) { return !s->within() || (all && !s->kept()); });
        };
        return bad(read_words, true) || bad(read_bytes, true) || bad(written_words, refused) ||
               bad(written_bytes, refused);
    }

  private:
    template <class T> using Slices = std::vector<std::unique_ptr<Lent<T>>>;

    template <class T> static Slices<T> &lent(Slices<uint32_t> &words, Slices<uint8_t> &bytes) {
        if constexpr (sizeof(T) == 1)
            return bytes;
        else
            return words;
    }
    template <class T> static Lent<T> &keep(const std::vector<T> &contents, Slices<T> &slices) {
        slices.push_back(std::make_unique<Lent<T>>(contents));
        return *slices.back();
    }

    std::istringstream in;
    Slices<uint32_t> read_words, written_words;
    Slices<uint8_t> read_bytes, written_bytes;
};

struct Matrix {
    Words &starts, &columns, &values;
    explicit Matrix(Call &call) : starts(call.reads()), columns(call.reads()), values(call.reads()) {}
};

// Spells a slice, or a matrix's three, as the C functions take it.
#define S(slice) (slice).data(), (slice).size()
#define M(matrix) S((matrix).starts), S((matrix).columns), S((matrix).values)

void answer(const Call &call, uint32_t refusal, const std::vector<uint64_t> &numbers,
            const std::vector<Words *> &slices = {}) {
    std::string line = call.harmed(refusal != 0) ? "harm " : "";
    line += std::to_string(refusal);
    for (uint64_t number : numbers)
        line += ' ' + std::to_string(number);
    for (const Words *slice : slices) {
        line += ' ' + std::to_string(slice->size());
        for (uint32_t element : *slice)
            line += ' ' + std::to_string(element);
    }
    std::cout << line << '\n';
}

void answer_bytes(const Call &call, uint32_t refusal, uint64_t length, const Bytes &bytes) {
    std::string line = call.harmed(refusal != 0) ? "harm " : "";
    line += std::to_string(refusal) + ' ' + std::to_string(length);
    // The bytes after the text have to stay.
    if (!bytes.kept(refusal != 0 ? 0 : std::min<size_t>(length, bytes.size())))
        line = "harm " + line;
    for (size_t i = 0; refusal == 0 && i < length; i++)
        line += ' ' + std::to_string(bytes.begin()[i]);
    std::cout << line << '\n';
}

void field(Call &call) { answer(call, filzeur_field(call.number()), {}); }

template <filzeur_element (*function)(uint32_t, uint32_t, uint32_t)> void operation(Call &call) {
    uint32_t p = call.number(), a = call.number(), b = call.number();
    filzeur_element e = function(p, a, b);
    answer(call, e.refusal, {e.value});
}

void inverse(Call &call) {
    uint32_t p = call.number(), a = call.number();
    filzeur_element e = filzeur_inverse(p, a);
    answer(call, e.refusal, {e.value});
}

template <decltype(filzeur_product) *function> void product(Call &call) {
    uint32_t p = call.number();
    Matrix a(call);
    Words &v = call.reads(), &out = call.writes();
    filzeur_written w = function(p, M(a), S(v), S(out));
    answer(call, w.refusal, {w.multiplied}, {&out});
}

void apply(Call &call) {
    uint32_t p = call.number();
    Matrix a(call);
    Words &g = call.reads(), &v = call.reads(), &out = call.writes(), &work = call.writes();
    filzeur_written w = filzeur_apply(p, M(a), S(g), S(v), S(out), S(work));
    answer(call, w.refusal, {w.multiplied}, {&out});
}

void recurrence(Call &call) {
    uint32_t p = call.number();
    Words &s = call.reads(), &polynomial = call.writes(), &work = call.writes();
    filzeur_degree d = filzeur_recurrence(p, S(s), S(polynomial), S(work));
    answer(call, d.refusal, {d.degree}, {&polynomial});
}

// The bill holds whole passes, and the places after them stay.
void solve(Call &call) {
    uint32_t p = call.number();
    Matrix a(call);
    Words &scales = call.reads(), &b = call.reads(), &words = call.reads();
    uint32_t window = call.number();
    Words &vector = call.writes(), &polynomial = call.writes(), &bill = call.writes(), &work = call.writes();
    filzeur_verdict v = filzeur_solve(p, M(a), S(scales), S(b), S(words), window, S(vector), S(polynomial),
                                      S(bill), S(work));
    size_t billed = 3 * std::min<size_t>(v.passes, bill.size() / 3);
    std::vector<uint64_t> numbers{v.kind, v.degree, v.passes, v.applications, v.multiplied, billed};
    numbers.insert(numbers.end(), bill.begin(), bill.begin() + billed);
    if (!bill.kept(billed))
        std::cout << "harm ";
    answer(call, v.refusal, numbers, {&vector, &polynomial});
}

void takes(Call &call) {
    uint32_t p = call.number();
    Matrix a(call);
    Words &x = call.reads(), &b = call.reads();
    filzeur_yes y = filzeur_takes(p, M(a), S(x), S(b));
    answer(call, y.refusal, {y.yes, y.multiplied});
}

void is_null(Call &call) {
    uint32_t p = call.number();
    Matrix a(call);
    Words &w = call.reads();
    filzeur_yes y = filzeur_is_null(p, M(a), S(w));
    answer(call, y.refusal, {y.yes, y.multiplied});
}

// The reader leaves the rest of its slices, so the answer holds only what it fills.
void read(Call &call) {
    Bytes &text = call.reads<uint8_t>();
    Words &starts = call.writes(), &columns = call.writes(), &values = call.writes(), &scales = call.writes(),
          &right = call.writes();
    filzeur_system s = filzeur_read(S(text), S(starts), S(columns), S(values), S(scales), S(right));
    std::vector<uint64_t> numbers{s.modulus, s.size, s.entries};
    if (s.refusal == 0) {
        numbers.insert(numbers.end(), starts.begin(), starts.begin() + s.size + 1);
        numbers.insert(numbers.end(), columns.begin(), columns.begin() + s.entries);
        numbers.insert(numbers.end(), values.begin(), values.begin() + s.entries);
        numbers.insert(numbers.end(), scales.begin(), scales.begin() + s.size);
        numbers.insert(numbers.end(), right.begin(), right.begin() + s.size);
        if (!starts.kept(s.size + 1) || !columns.kept(s.entries) || !values.kept(s.entries) ||
            !scales.kept(s.size) || !right.kept(s.size))
            std::cout << "harm ";
    }
    answer(call, s.refusal, numbers);
}

void write(Call &call) {
    uint32_t p = call.number();
    Matrix a(call);
    Words &scales = call.reads(), &b = call.reads();
    Bytes &text = call.writes<uint8_t>();
    filzeur_length l = filzeur_write(p, M(a), S(scales), S(b), S(text));
    answer_bytes(call, l.refusal, l.length, text);
}

// A returned number above 18 is a length.
void text(Call &call) {
    Bytes &system = call.reads<uint8_t>(), &answer = call.writes<uint8_t>();
    uint64_t number = filzeur_text(S(system), S(answer));
    bool refused = number <= 18;
    answer_bytes(call, refused ? static_cast<uint32_t>(number) : 0, refused ? 0 : number, answer);
}

const std::map<std::string, void (*)(Call &)> calls{
    {"field", field},
    {"sum", operation<filzeur_sum>},
    {"difference", operation<filzeur_difference>},
    {"product_of", operation<filzeur_product_of>},
    {"inverse", inverse},
    {"product", product<filzeur_product>},
    {"transposed", product<filzeur_transposed>},
    {"apply", apply},
    {"recurrence", recurrence},
    {"solve", solve},
    {"takes", takes},
    {"is_null", is_null},
    {"read", read},
    {"write", write},
    {"text", text},
};

} // namespace

int main() {
    std::string line;
    while (std::getline(std::cin, line)) {
        size_t end = line.find(' ');
        auto found = calls.find(line.substr(0, end));
        if (found == calls.end()) {
            std::cerr << "driver: no call " << line.substr(0, end) << '\n';
            return 2;
        }
        Call call(line.substr(end));
        found->second(call);
        std::cout.flush(); // so that the answers before a crash are there
    }
}
