// Lines of a descriptor, as they come. A line has at most LONGEST bytes, so memory stays small whatever is read.

#pragma once

#include <optional>
#include <string>
#include <vector>

// The bytes of a line, and of a board, at most.
constexpr size_t LONGEST = 1 << 18;

class Input {
public:
    explicit Input(int descriptor) : descriptor(descriptor), room(1 << 16) {}

    // The next line with its end, if it has one; none after the last. Throws Failure.
    std::optional<std::string> next();

    // The next line, which stays; empty after the last. Throws Failure.
    const std::string &peek();

    // How many lines were taken.
    size_t number() const { return count; }

private:
    bool fill();
    std::optional<std::string> read_line();

    int descriptor;
    std::vector<char> room;
    size_t begin = 0, end = 0, count = 0;
    std::optional<std::string> peeked;
};
