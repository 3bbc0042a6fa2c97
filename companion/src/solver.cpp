#include "solver.hpp"

#include <algorithm>
#include <cstdlib>
#include <cstring>

#include "failure.hpp"

namespace {

constexpr int TRICKS = 13;
constexpr size_t LONGEST_CONTRACTS = 24;

void check(int code) {
    if (code == RETURN_NO_FAULT)
        return;
    std::array<char, 80> text{};
    ErrorMessage(code, text.data());
    throw Failure{INPUT, std::string("the solver says: ") + text.data()};
}

// The contracts of par, as many as a line has room for.
std::string contracts_of(const parResultsDealer &par) {
    std::string text;
    for (int i = 0; i < par.number && i < 10; i++) {
        const std::string next = (i ? "," : "") + std::string(par.contracts[i]);
        if (text.size() + next.size() > LONGEST_CONTRACTS)
            break;
        text += next;
    }
    return text;
}

} // namespace

int begin_solving(int threads) {
    SetMaxThreads(threads);
    DDSInfo info;
    GetDDSInfo(&info);
    return std::max(1, std::min(threads, info.noOfThreads));
}

// The tricks that the leader's side takes: all that it can for a target of -1; else the target, or fewer if it can't.
int Solver::defence(int strain, int declarer, int target) const {
    deal asked{};
    asked.trump = strain;
    asked.first = (declarer + 1) % DDS_HANDS;
    std::memcpy(asked.remainCards, cards.cards, sizeof asked.remainCards);
    futureTricks found{};
    check(SolveBoard(asked, target, 1, 1, &found, thread));
    return found.score[0];
}

bool Solver::takes(int strain, int declarer, int tricks) {
    Range &range = known[strain][declarer];
    if (range.least < tricks && tricks <= range.most) {
        const int target = TRICKS + 1 - tricks;
        if (defence(strain, declarer, target) < target)
            range.least = tricks;
        else
            range.most = tricks - 1;
    }
    return tricks <= range.least;
}

ddTableResults Solver::table() {
    ddTableResults table{};
    for (int strain = 0; strain < DDS_STRAINS; strain++)
        for (int seat = 0; seat < DDS_HANDS; seat++)
            table.resTable[strain][seat] = TRICKS - defence(strain, seat, -1);
    return table;
}

std::optional<ParScore> par_of(const Board &board, ddTableResults table) {
    if (!board.dealer || !board.vulnerable)
        return std::nullopt;
    parResultsDealer par{};
    check(DealerPar(&table, &par, *board.dealer, *board.vulnerable));
    return ParScore{par.score < 0 ? "EW" : "NS", contracts_of(par), std::abs(par.score)};
}
