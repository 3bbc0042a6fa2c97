// What a board has to make to be kept.

#pragma once

#include <optional>
#include <string>
#include <vector>

#include "solver.hpp"

// Some declarer takes from `least` to `most` tricks; with `is_each` every one of them.
struct Rule {
    int strain;
    std::vector<int> declarers;
    int least, most;
    bool is_each;
    // The words that it was written in.
    std::string told = "";
};

// How rules are written, as a person is told it.
extern const char *const CONTRACT_FORM;
extern const char *const TRICKS_FORM;

// The rules that some declarer makes a contract, that none does, and of tricks; none for a text that is no such rule.
std::optional<Rule> read_makes(const std::string &text);
std::optional<Rule> read_beaten(const std::string &text);
std::optional<Rule> read_tricks(const std::string &text);

// Whether no deal can meet both: what one asks of some declarer the other excludes for each.
bool exclude(const Rule &one, const Rule &other);

bool meets(const Rule &rule, Solver &solver);
