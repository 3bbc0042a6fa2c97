#include "rules.hpp"

#include <algorithm>
#include <map>
#include <regex>

namespace {

constexpr int BOOK = 6, ALL = 13;
const std::map<std::string, int> STRAIN_WORDS = {{"S", 0}, {"H", 1}, {"D", 2}, {"C", 3}, {"N", 4}, {"NT", 4}};
const std::map<std::string, std::vector<int>> DECLARER_WORDS = {
    {"N", {0}}, {"E", {1}}, {"S", {2}}, {"W", {3}}, {"NS", {0, 2}}, {"EW", {1, 3}}};

} // namespace

const char *const CONTRACT_FORM = "write a level 1 to 7, C, D, H, S, N or NT, -, and N, E, S, W, NS or EW: 4S-NS";
const char *const TRICKS_FORM =
    "write C, D, H, S, N or NT, -, N, E, S, W, NS or EW, then =, >= or <= and 0 to 13: S-N=10";

std::optional<Rule> read_makes(const std::string &text) {
    static const std::regex form("([1-7])(C|D|H|S|NT?)-(N|E|S|W|NS|EW)");
    std::smatch part;
    if (!std::regex_match(text, part, form))
        return std::nullopt;
    return Rule{STRAIN_WORDS.at(part[2]), DECLARER_WORDS.at(part[3]), BOOK + std::stoi(part[1]), ALL, false};
}

std::optional<Rule> read_beaten(const std::string &text) {
    auto rule = read_makes(text);
    if (rule)
        *rule = Rule{rule->strain, rule->declarers, 0, rule->least - 1, true};
    return rule;
}

std::optional<Rule> read_tricks(const std::string &text) {
    static const std::regex form("(C|D|H|S|NT?)-(N|E|S|W|NS|EW)(=|>=|<=)([0-9]|1[0-3])");
    std::smatch part;
    if (!std::regex_match(text, part, form))
        return std::nullopt;
    const int tricks = std::stoi(part[4]);
    const int least = part[3] == "<=" ? 0 : tricks, most = part[3] == ">=" ? ALL : tricks;
    return Rule{STRAIN_WORDS.at(part[1]), DECLARER_WORDS.at(part[2]), least, most, false};
}

bool exclude(const Rule &one, const Rule &other) {
    const auto is_of_other = [&](int declarer) {
        return std::count(other.declarers.begin(), other.declarers.end(), declarer) > 0;
    };
    return !one.is_each && other.is_each && one.strain == other.strain && one.least > other.most &&
           std::all_of(one.declarers.begin(), one.declarers.end(), is_of_other);
}

bool meets(const Rule &rule, Solver &solver) {
    const auto is_met = [&](int declarer) {
        return solver.takes(rule.strain, declarer, rule.least) && !solver.takes(rule.strain, declarer, rule.most + 1);
    };
    const auto first = rule.declarers.begin(), last = rule.declarers.end();
    return rule.is_each ? std::all_of(first, last, is_met) : std::any_of(first, last, is_met);
}
