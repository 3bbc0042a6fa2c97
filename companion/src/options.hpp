// What the words of the command line ask for.

#pragma once

#include <cstddef>
#include <limits>
#include <optional>
#include <vector>

#include "reader.hpp"
#include "rules.hpp"

struct Options {
    std::vector<Rule> rules;
    size_t boards = std::numeric_limits<size_t>::max();
    bool has_numbers = false, has_tricks = false;

    Wanted wanted() const;
};

// Reads the words; what was asked for instead, such as help, is written, and none given. Throws Failure.
std::optional<Options> read_options(int count, char **words);
