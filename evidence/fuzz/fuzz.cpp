// libFuzzer on the exported text call. The library has no instrumentation of its own, so two things make up
// for it: slices that end at a forbidden page (lent.h) catch what the sanitizers can't see, and an oracle
// written anew here is instrumented, so that its coverage leads the fuzzer to the texts that matter. Both
// must give the same bytes.
#include "../../host/filzeur.h"
#include "../lent.h"
#include "../second.h"

#include <cstdio>
#include <optional>
#include <string>
#include <string_view>

namespace {

constexpr size_t answer_bytes = 7168;

// ---- the oracle: document 01's text call, by a reader that takes the text apart line by line

using Fields = std::vector<std::string_view>;

Fields split(std::string_view text, char separator) {
    Fields fields;
    for (size_t end; (end = text.find(separator)) != text.npos; text.remove_prefix(end + 1))
        fields.push_back(text.substr(0, end));
    fields.push_back(text);
    return fields;
}

std::optional<uint32_t> numeral(std::string_view digits) {
    if (digits.empty() || digits.size() > 10 || (digits.size() > 1 && digits[0] == '0'))
        return {};
    uint64_t value = 0;
    for (char digit : digits) {
        if (digit < '0' || digit > '9')
            return {};
        value = 10 * value + static_cast<uint64_t>(digit - '0');
    }
    if (value > UINT32_MAX)
        return {};
    return static_cast<uint32_t>(value);
}

// The numbers of a line, if it is `word` and `count` numerals.
std::optional<std::vector<uint32_t>> numbers(std::string_view line, std::string_view word, size_t count) {
    Fields fields = split(line, '\t');
    if (fields.size() != count + 1 || fields[0] != word)
        return {};
    std::vector<uint32_t> result;
    for (size_t i = 1; i <= count; i++) {
        std::optional<uint32_t> number = numeral(fields[i]);
        if (!number)
            return {};
        result.push_back(*number);
    }
    return result;
}

bool is_prime(uint32_t p) {
    if (p < 2 || p > 2147483647)
        return false;
    for (uint64_t d = 2; d * d <= p; d++)
        if (p % d == 0)
            return false;
    return true;
}

struct Text {
    std::vector<uint32_t> head;
    std::vector<std::vector<uint32_t>> a, s, b;
};

// Nothing if check 2 turns the text down.
std::optional<Text> parse(std::string_view text) {
    if (text.empty() || text.back() != '\n')
        return {};
    text.remove_suffix(1);
    Fields lines = split(text, '\n');
    Text result;
    auto head = numbers(lines[0], "system", 3);
    if (!head || lines.size() < 2 || lines.back() != "end")
        return {};
    result.head = *head;
    for (size_t i = 1; i + 1 < lines.size(); i++) {
        if (auto entry = numbers(lines[i], "a", 3); entry && result.s.empty() && result.b.empty())
            result.a.push_back(*entry);
        else if (auto scale = numbers(lines[i], "s", 2); scale && result.b.empty())
            result.s.push_back(*scale);
        else if (auto element = numbers(lines[i], "b", 2))
            result.b.push_back(*element);
        else
            return {};
    }
    return result;
}

// Is row, or row and then column, out of range or out of order?
bool disordered(const std::vector<std::vector<uint32_t>> &lines, size_t places, uint32_t n) {
    std::vector<uint32_t> before;
    for (const auto &line : lines) {
        std::vector<uint32_t> place(line.begin(), line.begin() + static_cast<long>(places));
        for (uint32_t number : place)
            if (number < 1 || number > n)
                return true;
        if (place <= before)
            return true;
        before = place;
    }
    return false;
}

bool outside(const std::vector<std::vector<uint32_t>> &lines, uint32_t p) {
    return std::any_of(lines.begin(), lines.end(),
                       [p](const auto &line) { return line.back() == 0 || line.back() >= p; });
}

// Are there lines, and all of value 1?
bool all_ones(const std::vector<std::vector<uint32_t>> &lines) {
    return !lines.empty() &&
           std::all_of(lines.begin(), lines.end(), [](const auto &line) { return line.back() == 1; });
}

struct Expected {
    uint64_t number;
    std::string answer; // empty after a refusal
};

Expected oracle(std::string_view bytes, size_t answer_length) {
    if (bytes.size() > 26624)
        return {1, ""};
    std::optional<Text> text = parse(bytes);
    if (!text)
        return {2, ""};
    uint32_t p = text->head[0], n = text->head[1];
    if (!is_prime(p))
        return {3, ""};
    if (n > 4096)
        return {4, ""};
    if (text->head[2] != text->a.size() || text->a.size() > 65536)
        return {5, ""};
    if (!text->s.empty() && text->s.size() != n)
        return {5, ""};
    if (disordered(text->a, 2, n) || disordered(text->s, 1, n) || disordered(text->b, 1, n) ||
        all_ones(text->s))
        return {6, ""};
    if (outside(text->a, p) || outside(text->s, p) || outside(text->b, p))
        return {7, ""};
    if (n > 128 || text->a.size() > 1024 || answer_length < answer_bytes)
        return {11, ""};

    second::System system{p, {}, second::Vector(n)};
    system.rows.resize(n);
    for (const auto &entry : text->a)
        system.rows[entry[0] - 1].push_back({entry[1] - 1, entry[2]});
    for (const auto &scale : text->s)
        system.scales.push_back(scale[1]);
    for (const auto &element : text->b)
        system.b[element[0] - 1] = element[1];
    second::Answer solved = second::Run(system)({});

    std::string answer;
    auto line = [&](const char *words, std::initializer_list<uint64_t> numbers) {
        answer += words;
        for (uint64_t number : numbers)
            answer += '\t' + std::to_string(number);
        answer += '\n';
    };
    size_t degree = solved.f.size() - 1, pass = 0;
    line(solved.solved ? "answer\tsolved" : "answer\tsingular",
         {degree, solved.bill.size(), solved.applications, solved.multiplied});
    for (auto [left, t, applications] : solved.bill)
        line("pass", {++pass, left, t, applications});
    line("close", {degree == 0 ? 0 : degree - 1});
    for (size_t i = 0; i <= degree; i++)
        line("f", {i, solved.f[i]});
    for (size_t i = 0; i < n; i++)
        line(solved.solved ? "x" : "w", {i + 1, solved.vector[i]});
    line("end", {});
    return {answer.size(), answer};
}

// ---- the call, and what it must leave alone

void fail(const char *what) {
    fprintf(stderr, "filzeur_text: %s\n", what);
    abort();
}

void hold(const std::vector<uint8_t> &bytes, size_t answer_length) {
    Lent<uint8_t> text(bytes), answer(std::vector<uint8_t>(answer_length, 0x5c));
    uint64_t number = filzeur_text(text.data(), text.size(), answer.data(), answer.size());
    Expected expected = oracle({reinterpret_cast<const char *>(bytes.data()), bytes.size()}, answer_length);
    if (number != expected.number)
        fail("another number than the oracle's");
    if (!std::equal(expected.answer.begin(), expected.answer.end(), answer.begin(),
                    [](char a, uint8_t b) { return static_cast<uint8_t>(a) == b; }))
        fail("another answer than the oracle's");
    if (!text.kept() || !text.within())
        fail("the text has changed");
    if (!answer.kept(expected.answer.size()) || !answer.within())
        fail("bytes beside the answer have changed");
}

} // namespace

extern "C" int LLVMFuzzerTestOneInput(const uint8_t *data, size_t size) {
    std::vector<uint8_t> bytes(data, data + size);
    hold(bytes, answer_bytes);
    hold(bytes, answer_bytes - 1); // too short: 11 at most
    return 0;
}
