// What the first thread does while others work: it waits for the end of the run, and looks after signals, the reader of
// the output, and the line of counts.

#pragma once

#include <csignal>

#include "queue.hpp"

// From here on the signals that end a program are looked at between two boards. To be made before any thread.
class Watch {
public:
    Watch();

    // Waits until the run has ended.
    void wait(Queue &queue);

private:
    [[noreturn]] void end_by_signal(Queue &queue);

    sigset_t watched;
    int signals;
};
