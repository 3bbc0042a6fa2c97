// What libdds says of one board. It is asked only for what is needed: whether a declarer takes ten tricks costs a small
// part of how many.

#pragma once

#include <array>
#include <optional>
#include <string>

#include <dds/dll.h>

#include "board.hpp"

// The solver's numbers of the seats and the strains, in the order in which a table has them: North, South, East, West;
// notrump, spades, hearts, diamonds, clubs.
constexpr std::array<int, DDS_HANDS> DECLARERS = {0, 2, 1, 3};
constexpr std::array<int, DDS_STRAINS> STRAINS = {4, 0, 1, 2, 3};

// How many of these threads may ask at once.
int begin_solving(int threads);

// A board on one of the solver's threads, and what is known of it. Throws Failure.
class Solver {
public:
    Solver(const ddTableDeal &cards, int thread) : cards(cards), thread(thread) {}

    // Whether the declarer takes that many tricks.
    bool takes(int strain, int declarer, int tricks);

    // The tricks of each declarer in each strain.
    ddTableResults table();

private:
    struct Range {
        int least = 0, most = 13;
    };

    int defence(int strain, int declarer, int target) const;

    const ddTableDeal &cards;
    int thread;
    std::array<std::array<Range, DDS_HANDS>, DDS_STRAINS> known{};
};

struct ParScore {
    std::string side, contracts;
    int score;
};

// Par by the board's dealer and vulnerability; none where one isn't known. Throws Failure.
std::optional<ParScore> par_of(const Board &board, ddTableResults table);
