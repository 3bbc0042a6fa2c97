#include "output.hpp"

#include <cerrno>

#include <poll.h>
#include <unistd.h>

#include "failure.hpp"

namespace {

constexpr double FIRST_SECONDS = 1;

// Waits until an output that doesn't wait by itself takes more.
void wait_for_room() {
    pollfd out{STDOUT_FILENO, POLLOUT, 0};
    poll(&out, 1, -1);
}

void print(const std::string &text) {
    // What can't be shown isn't missed.
    [[maybe_unused]] const ssize_t length = write(STDERR_FILENO, text.data(), text.size());
}

// A number with commas.
std::string with_commas(size_t number) {
    std::string text = std::to_string(number);
    for (size_t digits = 3; digits < text.size(); digits += 4)
        text.insert(text.size() - digits, ",");
    return text;
}

} // namespace

void write_out(const std::string &text) {
    for (size_t at = 0; at < text.size();) {
        const ssize_t length = write(STDOUT_FILENO, text.data() + at, text.size() - at);
        if (length >= 0)
            at += size_t(length);
        else if (errno == EAGAIN)
            wait_for_room();
        else if (errno == EPIPE)
            throw Failure{OUTPUT, ""};
        else if (errno != EINTR)
            throw system_failure(OUTPUT, "output failed");
    }
}

Counts::Counts() : is_terminal(isatty(STDERR_FILENO)) {}

void Counts::draw(size_t boards, size_t kept) {
    const double seconds = std::chrono::duration<double>(Clock::now() - began).count();
    if (!is_terminal || seconds < FIRST_SECONDS)
        return;
    print("\r\x1b[?7l" + with_commas(boards) + " boards  " + with_commas(kept) + " kept  " +
          with_commas(size_t(double(boards) / seconds)) + "/s\x1b[K\x1b[?7h");
    is_drawn = true;
}

void Counts::wipe() {
    if (is_drawn)
        print("\r\x1b[K");
    is_drawn = false;
}
