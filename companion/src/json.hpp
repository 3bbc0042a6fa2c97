// Boards in JSON, a line for each.

#pragma once

#include "reader.hpp"

class JsonReader : public Reader {
public:
    JsonReader(Input &input, Wanted wanted) : input(input), wanted(wanted) {}

    std::optional<Board> next() override;

private:
    Board read(std::string line) const;

    Input &input;
    Wanted wanted;
};
