// How fast libdds tells whether four spades makes by North or South, asked in several ways, by
// tests/others/speed.
//
// solving WAY < DEALS: the deals that make, and the boards for a second of processor time.
#include <dds/dll.h>

#include <algorithm>
#include <cstring>
#include <ctime>
#include <functional>
#include <iostream>
#include <map>
#include <string>
#include <vector>

using Deals = std::vector<ddTableDeal>;

constexpr int SPADES = 0, GAME = 10, DEFENCE = 14 - GAME;

static ddTableDeal read_deal(const std::string &line) {
    static const std::string ranks = "23456789TJQKA";
    ddTableDeal deal{};
    int hand = 0, suit = 0;
    for (char letter : line.substr(2)) {
        if (letter == ' ')
            hand++, suit = 0;
        else if (letter == '.')
            suit++;
        else
            deal.cards[hand][suit] |= 4u << ranks.find(letter);
    }
    return deal;
}

static deal asked(const ddTableDeal &cards, int declarer) {
    deal question{};
    question.trump = SPADES;
    question.first = (declarer + 1) % 4;
    std::memcpy(question.remainCards, cards.cards, sizeof question.remainCards);
    return question;
}

static int defence(const ddTableDeal &cards, int declarer, int target) {
    futureTricks found{};
    SolveBoard(asked(cards, declarer), target, 1, 1, &found, 0);
    return found.score[0];
}

static int one_by_one(const Deals &deals, int target, int least) {
    return int(std::count_if(deals.begin(), deals.end(), [&](const auto &cards) {
        return defence(cards, 0, target) < least || defence(cards, 2, target) < least;
    }));
}

// Batches of boards of the batch call, two for each deal.
static int in_batches(const Deals &deals, int target, size_t most) {
    static boards in;
    static solvedBoards out;
    int makes = 0;
    for (size_t at = 0; at < deals.size(); at += most) {
        const int count = int(std::min(most, deals.size() - at));
        in.noOfBoards = 2 * count;
        for (int board = 0; board < 2 * count; board++) {
            in.deals[board] = asked(deals[at + size_t(board) / 2], board % 2 * 2);
            in.target[board] = target;
            in.solutions[board] = in.mode[board] = 1;
        }
        SolveAllChunksBin(&in, &out, 1);
        for (int board = 0; board < 2 * count; board += 2)
            makes += std::min(out.solvedBoard[board].score[0], out.solvedBoard[board + 1].score[0]) < DEFENCE;
    }
    return makes;
}

// The tables of spades, or of all strains.
static int in_tables(const Deals &deals, bool is_whole, size_t most) {
    static ddTableDeals in;
    static ddTablesRes out;
    static allParResults par;
    int left_out[DDS_STRAINS] = {0, !is_whole, !is_whole, !is_whole, !is_whole}, makes = 0;
    for (size_t at = 0; at < deals.size(); at += most) {
        in.noOfTables = int(std::min(most, deals.size() - at));
        std::copy_n(deals.begin() + long(at), in.noOfTables, in.deals);
        CalcAllTables(&in, -1, left_out, &out, &par);
        for (int deal = 0; deal < in.noOfTables; deal++)
            makes += std::max(out.results[deal].resTable[SPADES][0], out.results[deal].resTable[SPADES][2]) >= GAME;
    }
    return makes;
}

int main(int count, char **words) {
    SetMaxThreads(1);
    const std::map<std::string, std::function<int(const Deals &)>> ways = {
        {"target", [](const Deals &deals) { return one_by_one(deals, DEFENCE, DEFENCE); }},
        {"exact", [](const Deals &deals) { return one_by_one(deals, -1, DEFENCE); }},
        {"batch-target", [](const Deals &deals) { return in_batches(deals, DEFENCE, 100); }},
        {"batch-exact", [](const Deals &deals) { return in_batches(deals, -1, 100); }},
        {"batch-spades", [](const Deals &deals) { return in_tables(deals, false, 40); }},
        {"batch-tables", [](const Deals &deals) { return in_tables(deals, true, 40); }},
    };
    const auto way = ways.find(count == 2 ? words[1] : "");
    if (way == ways.end())
        return 2;
    Deals deals;
    for (std::string line; std::getline(std::cin, line);)
        deals.push_back(read_deal(line));
    const clock_t began = clock();
    const int makes = way->second(deals);
    const double seconds = double(clock() - began) / CLOCKS_PER_SEC;
    std::cout << way->first << ": " << makes << " make, " << double(deals.size()) / seconds << " a second\n";
}
