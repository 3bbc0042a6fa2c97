// deals-tricks: how many tricks each hand makes in each strain, and par, for the boards of its input; or the boards whose
// contracts make. It is a front end of the double dummy solver DDS by Bo Haglund and Soren Hein (Debian's libdds).
// Nothing of it is proved.
//
// One thread reads boards (reader.hpp), one for each core judges them (solver.hpp, rules.hpp, lines.hpp), and the first
// waits for the end (watch.hpp). They meet in the queue (queue.hpp).

#include <algorithm>
#include <cstdlib>
#include <exception>
#include <new>
#include <string>
#include <system_error>
#include <thread>
#include <utility>

#include <fcntl.h>
#include <unistd.h>

#include "failure.hpp"
#include "lines.hpp"
#include "options.hpp"
#include "queue.hpp"
#include "reader.hpp"
#include "rules.hpp"
#include "solver.hpp"
#include "watch.hpp"

namespace {

// What is written of a board; none where a rule isn't met. Who reads boards with tricks has to see the fault that ended
// them.
std::optional<std::string> judged(const Options &options, const Board &board, int thread) {
    if (!board.cards)
        return board.is_faulty && !options.has_tricks ? "" : board.text;
    Solver solver(*board.cards, thread);
    for (const Rule &rule : options.rules)
        if (!meets(rule, solver))
            return std::nullopt;
    if (options.has_numbers)
        return std::to_string(*board.number) + (options.has_tricks ? " " + line_of(board, solver) : "\n");
    if (options.has_tricks)
        return with_tricks(board, solver);
    return options.rules.empty() ? line_of(board, solver) : board.text;
}

// Puts the boards of the input into the queue.
void read_all(Queue &queue, Wanted wanted) {
    try {
        Input input(STDIN_FILENO);
        const auto reader = read_boards(input, wanted);
        for (auto board = reader->next(); board; board = reader->next())
            if (!queue.put(std::move(*board)))
                return;
        queue.close({DONE, ""});
    } catch (Failure &failure) {
        queue.close(std::move(failure));
    } catch (std::bad_alloc &) {
        queue.close({MEMORY, "out of memory"});
    }
}

// A closed descriptor would be taken by the next file that is opened.
void check_streams() {
    if (fcntl(STDIN_FILENO, F_GETFD) < 0)
        throw system_failure(INPUT, "input failed");
    if (fcntl(STDOUT_FILENO, F_GETFD) < 0)
        throw system_failure(OUTPUT, "output failed");
    if (fcntl(STDERR_FILENO, F_GETFD) < 0)
        open("/dev/null", O_WRONLY);
}

void tell(const std::string &text) {
    const std::string line = "deals-tricks: " + text + "\n";
    // Who can't be told isn't.
    [[maybe_unused]] const ssize_t length = write(STDERR_FILENO, line.data(), line.size());
}

// Starts what judges the boards and what reads them.
void start(Queue &queue, const Options &options) {
    const int threads = begin_solving(std::max(1u, std::thread::hardware_concurrency()));
    for (int thread = 0; thread < threads; thread++)
        std::thread([&queue, thread] { queue.work(thread); }).detach();
    std::thread([&queue, &options] { read_all(queue, options.wanted()); }).detach();
}

// What the threads use stays, since some may still be at work when the run has ended.
Failure run(const Options &options) {
    Watch watch;
    const auto judge = [&](const Board &board, int thread) { return judged(options, board, thread); };
    Queue &queue = *new Queue(judge, options.boards);
    if (isatty(STDIN_FILENO))
        tell("reads boards from the keyboard: for a file write deals-tricks < FILE");
    start(queue, options);
    watch.wait(queue);
    return queue.outcome();
}

Failure ended(int count, char **words) {
    check_streams();
    auto options = read_options(count, words);
    return options ? run(*new Options(std::move(*options))) : Failure{DONE, ""};
}

// Ends at once, whatever other threads do.
[[noreturn]] void leave(const Failure &failure) {
    if (!failure.text.empty())
        tell(failure.text);
    std::_Exit(failure.status);
}

// Nothing here calls exit(), and all exceptions are caught: libdds exits or throws where memory is refused, even when
// it is loaded. So both ways out are laid before libraries begin.
[[noreturn]] void end_without_memory() {
    static const char line[] = "deals-tricks: out of memory\n";
    [[maybe_unused]] const ssize_t length = write(STDERR_FILENO, line, sizeof line - 1);
    std::_Exit(MEMORY);
}

void before_libraries() {
    std::set_terminate(end_without_memory);
    std::atexit(end_without_memory);
}

[[gnu::section(".preinit_array"), gnu::used]] void (*const first_call)() = before_libraries;

} // namespace

int main(int count, char **words) {
    std::string name = "deals-tricks";
    words[0] = name.data();
    try {
        leave(ended(count, words));
    } catch (const Failure &failure) {
        leave(failure);
    } catch (const std::bad_alloc &) {
        leave({MEMORY, "out of memory"});
    } catch (const std::system_error &) {
        leave({THREAD, "thread not started"});
    }
}
