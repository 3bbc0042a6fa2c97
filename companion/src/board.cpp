#include "board.hpp"

#include <map>

namespace {

constexpr int SEATS = DDS_HANDS;
const std::string SEAT_LETTERS = "NESW";
const std::string RANKS = "23456789TJQKA";

// The place of a letter in a text.
std::optional<int> place_of(char letter, const std::string &text) {
    const size_t found = text.find(letter);
    return found == std::string::npos ? std::nullopt : std::optional(int(found));
}

// Reads a card into the hand of a seat. False if a hand has it, or if it isn't one.
bool read_card(char letter, int suit, int seat, ddTableDeal &cards) {
    const auto rank = place_of(letter, RANKS);
    if (!rank)
        return false;
    const unsigned bit = 4u << *rank;
    for (const auto &hand : cards.cards)
        if (hand[suit] & bit)
            return false;
    cards.cards[seat][suit] |= bit;
    return true;
}

// Reads one hand, suits separated by dots, into the cards of a seat. False unless it has thirteen that nobody has.
bool read_hand(const std::string &hand, int seat, ddTableDeal &cards) {
    int suit = 0, count = 0;
    for (char letter : hand) {
        if (letter == '.' ? ++suit == DDS_SUITS : !read_card(letter, suit, seat, cards))
            return false;
        count += letter != '.';
    }
    return suit == DDS_SUITS - 1 && count == 13;
}

} // namespace

std::optional<ddTableDeal> read_deal(const std::string &value) {
    if (value.size() < 2 || value[1] != ':')
        return std::nullopt;
    const auto first = read_dealer(value.substr(0, 1));
    if (!first)
        return std::nullopt;
    ddTableDeal cards{};
    size_t at = 2;
    for (int turn = 0; turn < SEATS; turn++) {
        const size_t end = turn + 1 < SEATS ? value.find(' ', at) : value.size();
        if (end == std::string::npos || !read_hand(value.substr(at, end - at), (*first + turn) % SEATS, cards))
            return std::nullopt;
        at = end + 1;
    }
    return cards;
}

std::string deal_text(const ddTableDeal &cards) {
    std::string text;
    for (const auto &hand : cards.cards) {
        text += text.empty() ? "N:" : " ";
        for (int suit = 0; suit < DDS_SUITS; suit++) {
            text += suit > 0 ? "." : "";
            for (size_t rank = RANKS.size(); rank-- > 0;)
                if (hand[suit] & (4u << rank))
                    text += RANKS[rank];
        }
    }
    return text;
}

std::optional<int> read_dealer(const std::string &word) {
    return word.size() == 1 ? place_of(word[0], SEAT_LETTERS) : std::nullopt;
}

std::optional<int> read_vulnerable(const std::string &word) {
    static const std::map<std::string, int> words = {
        {"None", 0}, {"Love", 0}, {"-", 0}, {"All", 1}, {"Both", 1}, {"NS", 2}, {"EW", 3}};
    const auto found = words.find(word);
    return found == words.end() ? std::nullopt : std::optional(found->second);
}
