// Reads one of compare.py's `solve` lines: the name, p, then each slice as its length and its elements, and the
// window.
#ifndef LINE_H
#define LINE_H

#include "second.h"

#include <sstream>
#include <string>

struct Line {
    second::System system;
    second::Vector words;
    size_t window;

    explicit Line(const std::string &text) {
        std::istringstream in(text.substr(text.find(' ')));
        auto number = [&] {
            uint32_t value = 0;
            in >> value;
            return value;
        };
        auto slice = [&] {
            second::Vector result(number());
            for (uint32_t &element : result)
                element = number();
            return result;
        };
        system.p = number();
        second::Vector starts = slice(), columns = slice(), values = slice();
        system.scales = slice();
        system.rows.resize(starts.size() - 1);
        for (size_t row = 0; row + 1 < starts.size(); row++)
            for (uint32_t k = starts[row]; k < starts[row + 1]; k++)
                system.rows[row].push_back({columns[k], values[k]});
        system.b = slice();
        words = slice();
        window = number();
    }
};

#endif
