// A board, and how it is spelled in Portable Bridge Notation and in JSON alike.

#pragma once

#include <cstdint>
#include <optional>
#include <set>
#include <string>

#include <dds/dll.h>

enum class Form { pbn, json };

// Some bytes of a text.
struct Place {
    size_t at, length;
};

struct Board {
    Form form = Form::pbn;
    // The bytes as they were read. Without a deal they are a file's first lines, or the last ones with a fault.
    std::string text;
    bool is_faulty = false;
    std::optional<ddTableDeal> cards;
    // The solver's numbers; none where they aren't known.
    std::optional<int> dealer, vulnerable;
    // The number of the candidate, if the board has one.
    std::optional<uint64_t> number;
    // Where in the text tricks would be added, and whether it has some that can be read.
    size_t add_at = 0;
    bool has_tricks = false;
    // In PBN: the tags of tricks and par that it has, and where the tricks are that can't be read.
    std::set<std::string> tags;
    std::optional<Place> unread;
};

// The cards of a Deal value, all four hands of it (PBN 2.1, section 3.4.11).
std::optional<ddTableDeal> read_deal(const std::string &value);

// The same as `deals` writes it: from North on, each suit from the ace down.
std::string deal_text(const ddTableDeal &cards);

std::optional<int> read_dealer(const std::string &word);

// PBN 2.1, section 3.4.10.
std::optional<int> read_vulnerable(const std::string &word);
