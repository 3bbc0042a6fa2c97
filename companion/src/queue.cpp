#include "queue.hpp"

#include <chrono>
#include <new>
#include <thread>
#include <utility>

#include <sys/eventfd.h>
#include <unistd.h>

namespace {

// How many others a board that takes long holds up: their writing, and not their solving.
constexpr size_t MOST_BOARDS = 4096, MOST_BYTES = 16 << 20;
constexpr int FREEZE_TRIES = 100;
constexpr std::chrono::milliseconds FREEZE_WAIT{10};

} // namespace

Queue::Queue(Judge judge, size_t most) : judge(std::move(judge)), most(most), event(eventfd(0, EFD_CLOEXEC)) {
    if (event < 0)
        throw system_failure(THREAD, "thread not started");
}

bool Queue::has_room() const {
    return slots.size() < MOST_BOARDS && bytes < MOST_BYTES;
}

bool Queue::put(Board board) {
    std::unique_lock lock(mutex);
    changed.wait(lock, [&] { return has_room() || ended; });
    bytes += board.text.size();
    slots.push_back({std::move(board), false, std::nullopt});
    changed.notify_all();
    return !ended;
}

void Queue::close(Failure failure) {
    std::lock_guard lock(mutex);
    closed = std::move(failure);
    if (slots.empty())
        end(*closed);
    changed.notify_all();
}

void Queue::stop(Failure failure) {
    std::lock_guard lock(mutex);
    end(std::move(failure));
}

void Queue::end(Failure failure) {
    if (ended)
        return;
    counts.wipe();
    ended = std::move(failure);
    eventfd_write(event, 1);
    changed.notify_all();
}

Failure Queue::outcome() {
    std::lock_guard lock(mutex);
    return *ended;
}

void Queue::work(int thread) {
    try {
        while (Slot *slot = take())
            finish(*slot, judge(slot->board, thread));
    } catch (Failure &failure) {
        stop(std::move(failure));
    } catch (std::bad_alloc &) {
        stop({MEMORY, "out of memory"});
    }
}

Queue::Slot *Queue::take() {
    std::unique_lock lock(mutex);
    changed.wait(lock, [&] { return taken < slots.size() || closed || ended; });
    return taken == slots.size() || ended ? nullptr : &slots[taken++];
}

void Queue::finish(Slot &slot, std::optional<std::string> said) {
    std::lock_guard lock(mutex);
    slot.said = std::move(said);
    slot.is_done = true;
    if (&slot == &slots.front())
        write_done();
}

// Writes what is known of the oldest boards, at most up to the last that is wanted.
void Queue::write_done() {
    std::string text;
    while (!slots.empty() && slots.front().is_done && kept < most) {
        Slot &slot = slots.front();
        boards += slot.board.cards.has_value();
        kept += slot.board.cards.has_value() && slot.said;
        text += slot.said.value_or("");
        bytes -= slot.board.text.size();
        slots.pop_front();
        taken--;
    }
    if (ended)
        return;
    if (!text.empty())
        counts.wipe();
    write_out(text);
    if (kept == most)
        end({DONE, ""});
    else if (closed && slots.empty())
        end(*closed);
    changed.notify_all();
}

void Queue::show_counts() {
    const std::unique_lock lock(mutex, std::try_to_lock);
    if (lock && !ended)
        counts.draw(boards, kept);
}

void Queue::freeze() {
    for (int tries = 0; tries < FREEZE_TRIES; tries++) {
        if (mutex.try_lock()) {
            counts.wipe();
            return;
        }
        std::this_thread::sleep_for(FREEZE_WAIT);
    }
}
