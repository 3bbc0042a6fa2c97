// What is written of a board.

#pragma once

#include <string>

#include "board.hpp"
#include "solver.hpp"

// A line of tricks: the digits, and par where it is known.
std::string line_of(const Board &board, Solver &solver);

// The board with its tricks and par, as `deals make --tricks` writes them; as it is, if it has some already.
std::string with_tricks(const Board &board, Solver &solver);
