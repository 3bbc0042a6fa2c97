#include "input.hpp"

#include <algorithm>
#include <utility>

#include <poll.h>
#include <unistd.h>

#include "failure.hpp"

namespace {

// Whether a read that failed may be tried again, once there is something where the input doesn't wait by itself.
bool is_passing(int descriptor) {
    pollfd input{descriptor, POLLIN, 0};
    if (errno == EAGAIN)
        poll(&input, 1, -1);
    return errno == EAGAIN || errno == EINTR;
}

} // namespace

// Reads more, and tells whether there was any.
bool Input::fill() {
    ssize_t length;
    do
        length = read(descriptor, room.data(), room.size());
    while (length < 0 && is_passing(descriptor));
    if (length < 0)
        throw system_failure(INPUT, "input failed");
    begin = 0;
    end = size_t(length);
    return length > 0;
}

std::optional<std::string> Input::read_line() {
    std::string line;
    while (begin < end || fill()) {
        const char *from = room.data() + begin, *last = room.data() + end;
        const char *feed = std::find(from, last, '\n');
        const bool is_whole = feed != last;
        line.append(from, feed + is_whole);
        begin = size_t(feed + is_whole - room.data());
        if (line.size() > LONGEST)
            throw line_failure(count + 1, "longer than " + std::to_string(LONGEST) + " bytes");
        if (is_whole)
            return line;
    }
    return line.empty() ? std::nullopt : std::optional(line);
}

std::optional<std::string> Input::next() {
    auto line = peeked ? std::exchange(peeked, std::nullopt) : read_line();
    count += line.has_value();
    return line;
}

const std::string &Input::peek() {
    static const std::string nothing;
    if (!peeked)
        peeked = read_line();
    return peeked ? *peeked : nothing;
}
