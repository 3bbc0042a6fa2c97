// Standard output, and the line of counts that a person sees on a terminal.

#pragma once

#include <chrono>
#include <cstddef>
#include <string>

// Writes all of a text. Throws Failure: with nothing to tell if the reader of a pipe is gone.
void write_out(const std::string &text);

// A line on standard error that is drawn anew, if that is a terminal. Nothing is drawn in the first second.
class Counts {
public:
    Counts();

    void draw(size_t boards, size_t kept);
    void wipe();

private:
    using Clock = std::chrono::steady_clock;

    bool is_terminal, is_drawn = false;
    Clock::time_point began = Clock::now();
};
