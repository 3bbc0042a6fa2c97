// How a run ends that can't go on. The statuses are those of `deals`, but for the input's.

#pragma once

#include <cerrno>
#include <cstring>
#include <string>

enum Status { DONE = 0, INPUT = 1, WORDS = 2, OUTPUT = 4, MEMORY = 5, THREAD = 6 };

// An empty text means that there is nothing to tell.
struct Failure {
    Status status;
    std::string text;
};

// A failure with the system's reason.
inline Failure system_failure(Status status, const std::string &what) {
    return {status, what + ": " + std::strerror(errno)};
}

// A failure that a line of the input causes.
inline Failure line_failure(size_t number, const std::string &what) {
    return {INPUT, "line " + std::to_string(number) + ": " + what};
}
