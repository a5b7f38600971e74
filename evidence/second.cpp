// Answers compare.py's `solve` lines as driver.cpp does, by the second implementation.
#include "second.h"
#include "line.h"

#include <iostream>

static void print(const second::Vector &slice, size_t length) {
    std::cout << ' ' << length;
    for (size_t i = 0; i < length; i++)
        std::cout << ' ' << (i < slice.size() ? slice[i] : 0);
}

int main() {
    std::string text;
    while (std::getline(std::cin, text)) {
        Line line(text);
        size_t n = line.system.rows.size();
        second::Answer answer = second::Run(line.system)(line.words, line.window);
        std::cout << "0 " << (answer.solved ? 1 : 2) << ' ' << answer.f.size() - 1 << ' '
                  << answer.bill.size() << ' ' << answer.applications << ' ' << answer.multiplied << ' '
                  << 3 * answer.bill.size();
        for (auto [left, degree, applications] : answer.bill)
            std::cout << ' ' << left << ' ' << degree << ' ' << applications;
        print(answer.vector, n);
        print(answer.f, n + 1);
        std::cout << std::endl;
    }
}
