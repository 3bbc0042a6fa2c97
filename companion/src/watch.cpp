#include "watch.hpp"

#include <array>
#include <cstdlib>

#include <poll.h>
#include <sys/signalfd.h>
#include <unistd.h>

#include "failure.hpp"

namespace {

constexpr int DRAW_MILLISECONDS = 250;
constexpr std::array<int, 3> ENDING = {SIGINT, SIGTERM, SIGHUP};

// A signal that is ignored, as by nohup, stays so.
bool is_ignored(int signal) {
    struct sigaction action {};
    sigaction(signal, nullptr, &action);
    return action.sa_handler == SIG_IGN;
}

} // namespace

Watch::Watch() {
    std::signal(SIGPIPE, SIG_IGN);
    sigemptyset(&watched);
    for (int signal : ENDING)
        if (!is_ignored(signal))
            sigaddset(&watched, signal);
    pthread_sigmask(SIG_BLOCK, &watched, nullptr);
    signals = signalfd(-1, &watched, SFD_CLOEXEC);
    if (signals < 0)
        throw system_failure(THREAD, "thread not started");
}

void Watch::wait(Queue &queue) {
    const int milliseconds = isatty(STDERR_FILENO) ? DRAW_MILLISECONDS : -1;
    // Of the output only its end is awaited: the reader of a pipe that is gone, though nothing is written.
    std::array<pollfd, 3> events = {{{queue.bell(), POLLIN, 0}, {signals, POLLIN, 0}, {STDOUT_FILENO, 0, 0}}};
    while (!events[0].revents) {
        poll(events.data(), events.size(), milliseconds);
        if (events[1].revents)
            end_by_signal(queue);
        if (events[2].revents)
            queue.stop({OUTPUT, ""});
        else
            queue.show_counts();
    }
}

void Watch::end_by_signal(Queue &queue) {
    signalfd_siginfo signal{};
    const ssize_t length = read(signals, &signal, sizeof signal);
    const int number = length == sizeof signal ? int(signal.ssi_signo) : SIGTERM;
    queue.freeze();
    std::signal(number, SIG_DFL);
    pthread_sigmask(SIG_UNBLOCK, &watched, nullptr);
    raise(number);
    std::_Exit(128 + number);
}
