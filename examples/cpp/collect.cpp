// A collector in C++ over libmooringeye: reads the lines of `collect`, and prints what it prints.
//
//   collect < LINES > ROWS
#include "mooringeye.hpp"

#include <iostream>
#include <string>

namespace {

// The next line with its newline, which the last one may not have; empty at the end of the input.
std::string next_line() {
    std::string line;
    return std::getline(std::cin, line) ? line + '\n' : std::string();
}

mooringeye::bytes bytes_of(const std::string &text) {
    return {reinterpret_cast<const uint8_t *>(text.data()), text.size()};
}

} // namespace

int main() {
    uint8_t level = mooringeye::first_line(bytes_of(next_line())).first;
    if (level > 2) {
        std::cout << "BAD" << std::endl;
        return 0;
    }
    mooringeye::collector collector;
    for (std::string line = next_line(); !line.empty(); line = next_line()) {
        std::cout << collector.lines(level, bytes_of(line), 1).text;
    }
    mooringeye::totals t = collector.totals();
    std::cout << "RECEIVED " << t.received << " KEPT " << t.kept << " COPIES " << t.copies << " LOOSE " << t.loose
              << " DAMAGED " << t.damaged << " LATE " << t.late << std::endl;
    return std::cout ? 0 : 1;
}
