// The boards of an input, one after another.

#pragma once

#include <memory>
#include <optional>

#include "board.hpp"
#include "input.hpp"

// What is needed of a board: its tricks alone, all of its bytes too, or its number.
enum class Wanted { tricks, text, number };

class Reader {
public:
    virtual ~Reader() = default;

    // The next board; none after the last. Throws Failure, after all boards before.
    virtual std::optional<Board> next() = 0;
};

// The reader of what the input has by its beginning: JSON if it is that of an object, and otherwise PBN.
std::unique_ptr<Reader> read_boards(Input &input, Wanted wanted);
