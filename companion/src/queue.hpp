// The boards that were read, from one reader through many workers to standard output, in order.
//
// A board is taken by the first worker that is free. Whoever finishes the oldest board writes what is said of it and of
// those after it that are done, so output comes in order and as soon as it can. All writing is done under the lock.

#pragma once

#include <condition_variable>
#include <cstddef>
#include <deque>
#include <functional>
#include <mutex>
#include <optional>
#include <string>

#include "board.hpp"
#include "failure.hpp"
#include "output.hpp"

class Queue {
public:
    // What is written of a board, by one of the threads; none where the board isn't kept.
    using Judge = std::function<std::optional<std::string>(const Board &, int thread)>;

    // Ends after this many boards that are kept.
    Queue(Judge judge, size_t most);

    // Waits while there are many. False if the run has ended.
    bool put(Board board);

    // Nothing is put any more; the failure ends the run after the boards that were put.
    void close(Failure ended);

    // Ends the run now, if it hasn't.
    void stop(Failure ended);

    // Judges one board after another until there is none.
    void work(int thread);

    // A descriptor that can be read once the run has ended, and then how it did.
    int bell() const { return event; }
    Failure outcome();

    // Draws the line of counts, unless it would have to wait.
    void show_counts();

    // Takes the lock for good, so that nothing is written any more; gives up if the output takes too long.
    void freeze();

private:
    struct Slot {
        Board board;
        bool is_done = false;
        std::optional<std::string> said;
    };

    bool has_room() const;
    Slot *take();
    void finish(Slot &slot, std::optional<std::string> said);
    void write_done();
    void end(Failure ended);

    Judge judge;
    size_t most, boards = 0, kept = 0;
    std::mutex mutex;
    std::condition_variable changed;
    // The boards that aren't written yet; the first `taken` of them have a worker.
    std::deque<Slot> slots;
    size_t taken = 0, bytes = 0;
    Counts counts;
    std::optional<Failure> closed, ended;
    int event;
};
