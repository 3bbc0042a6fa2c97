#include "options.hpp"

#include <charconv>
#include <cstdint>
#include <string>

#include <getopt.h>

#include "failure.hpp"
#include "output.hpp"

namespace {

constexpr uint64_t MOST_BOARDS = uint64_t(1) << 40;
const std::string USAGE = R"(usage: deals-tricks [--boards M] < BOARDS > TRICKS
       deals-tricks [--makes C].. [--beaten C].. [--tricks T].. [--boards M] [--add] [--numbers] < BOARDS > KEPT

Reads boards in PBN or JSON, as `deals make` writes them, and writes a line for each deal: the tricks that North, South,
East and West make as declarers, each in notrump, spades, hearts, diamonds and clubs, as a digit from 0 to d (13); then,
where the board has a dealer and a vulnerability, the side and the score of par, and its contract; then the deal.

    97b8997b892624426244 NS 450 4H-NS+1 N:72.AT64.75.AT872 AK985.85.A6.Q654 QJ43.Q732.QT3.K9 T6.KJ9.KJ9842.J3

With rules it writes the boards that meet all of them, as it read them:

    --makes 4S-NS     a contract that some declarer of N, E, S, W, NS or EW makes; notrump is NT or N
    --beaten 3NT-NS   a contract that none of them makes
    --tricks S-N=10   some declarer takes so many tricks; >=10 and <=10: at least, at most
    --boards M        ends after M boards
    --add             adds tricks and par to boards that have none
    --numbers         writes the numbers of the candidates alone, for `deals pick`; the boards have to be JSON;
                      with --add the board's line of tricks comes after its number, for `deals pick --tricks`
    --help, --version

Exit status: 0; 1 if a deal can't be read, it isn't PBN or JSON, or the input fails; 2 for words that can't be read;
4 if the output fails, 5 out of memory, 6 if a thread can't be started.
)";

enum Code { MAKES = 256, BEATEN, TRICKS, BOARDS, NUMBERS, ADD };
const option LONG_OPTIONS[] = {
    {"makes", required_argument, nullptr, MAKES},   {"beaten", required_argument, nullptr, BEATEN},
    {"tricks", required_argument, nullptr, TRICKS}, {"boards", required_argument, nullptr, BOARDS},
    {"numbers", no_argument, nullptr, NUMBERS},     {"add", no_argument, nullptr, ADD},
    {"help", no_argument, nullptr, 'h'},            {"version", no_argument, nullptr, 'V'},
    {nullptr, 0, nullptr, 0},
};

Failure refusal(const std::string &what, const std::string &advice) {
    return {WORDS, what + "\n  " + advice};
}

Rule rule_of(const char *name, std::optional<Rule> rule, const char *form) {
    if (!rule)
        throw refusal(std::string("--") + name + " " + optarg + ": can't be read", form);
    rule->told = std::string("--") + name + " " + optarg;
    return std::move(*rule);
}

void check_together(const std::vector<Rule> &rules) {
    for (const Rule &one : rules)
        for (const Rule &other : rules)
            if (exclude(one, other))
                throw refusal(one.told + " and " + other.told + ": no board meets both", "leave one of them out");
}

size_t boards_of(const std::string &text) {
    uint64_t number = 0;
    const auto [end, error] = std::from_chars(text.data(), text.data() + text.size(), number);
    if (error != std::errc() || end != text.data() + text.size() || number < 1 || number > MOST_BOARDS)
        throw refusal("--boards " + text + ": can't be read", "write 1 to " + std::to_string(MOST_BOARDS));
    return number;
}

void take(int code, Options &options) {
    if (code == MAKES)
        options.rules.push_back(rule_of("makes", read_makes(optarg), CONTRACT_FORM));
    else if (code == BEATEN)
        options.rules.push_back(rule_of("beaten", read_beaten(optarg), CONTRACT_FORM));
    else if (code == TRICKS)
        options.rules.push_back(rule_of("tricks", read_tricks(optarg), TRICKS_FORM));
    else if (code == BOARDS)
        options.boards = boards_of(optarg);
    else if (code == NUMBERS)
        options.has_numbers = true;
    else if (code == ADD)
        options.has_tricks = true;
    else
        // getopt_long has told what it is.
        throw Failure{WORDS, "--help lists the options"};
}

} // namespace

Wanted Options::wanted() const {
    if (has_numbers)
        return Wanted::number;
    return rules.empty() && !has_tricks ? Wanted::tricks : Wanted::text;
}

std::optional<Options> read_options(int count, char **words) {
    Options options;
    for (int code; (code = getopt_long(count, words, "hV", LONG_OPTIONS, nullptr)) != -1;) {
        if (code == 'h' || code == 'V') {
            write_out(code == 'h' ? USAGE : std::string("deals-tricks " VERSION "\n"));
            return std::nullopt;
        }
        take(code, options);
    }
    check_together(options.rules);
    if (optind < count)
        throw refusal(std::string(words[optind]) + ": no option",
                      "boards come from its input: for those of a file write deals-tricks < FILE");
    return options;
}
