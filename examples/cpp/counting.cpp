/* Threads that count under ranges, as examples/c/counting.c, in C++17. Each turn a thread holds two neighbouring cells of
   eight as a writer and adds 1 to both, or holds all of them as a reader and adds them up twice. Each turn is counted in
   a client word too. What is held is given back where the guard's scope ends, so there is no way out without it. What is
   printed is the same whatever the threads' schedule is. */
#include "gz_range.hpp"

#include <cstdint>
#include <cstdio>
#include <thread>
#include <vector>

namespace {

constexpr unsigned threads = 4, turns = 20000, cell_count = 8;

volatile uint64_t cells[cell_count]; // volatile, so that each reading is made

struct tally {
    unsigned refused = 0; // answers that were not DONE
    unsigned halves = 0;  // sums that changed while they were read
};

uint64_t sum() {
    uint64_t all = 0;
    for (const volatile uint64_t &cell : cells) all += cell;
    return all;
}

// Adds 1 to two cells. Whoever calls it shows that it holds them.
void add_to_both(const gz::write_range &held) {
    for (uint64_t cell = held.lo(); cell < held.hi(); cell++) cells[cell] = cells[cell] + 1;
}

void work(gz::seat seat, unsigned number, tally &mine) {
    for (unsigned turn = 0; turn < turns; turn++) {
        if (turn % 4 == 3) {
            auto held = seat.read(0, cell_count);
            if (!held) mine.refused++;
            if (sum() != sum()) mine.halves++;
        } else {
            uint64_t cell = (turn + number) % (cell_count - 1);
            auto held = seat.write(cell, cell + 2);
            if (held) add_to_both(*held);
            else mine.refused++;
        }
        if (!seat.add(0, 1)) mine.refused++;
    }
}

} // namespace

int main() {
    const uint64_t words[] = { 0 };
    auto table = gz::table::open(threads + 1, words);
    if (!table) return 1;
    auto mine = table->take_seat();
    if (!mine) return 1;

    std::vector<tally> tallies(threads);
    std::vector<std::thread> running;
    for (unsigned i = 0; i < threads; i++) {
        auto seat = table->take_seat();
        if (!seat) return 1;
        running.emplace_back(work, *std::move(seat), i, std::ref(tallies[i]));
    }
    for (std::thread &thread : running) thread.join();

    unsigned refused = 0, halves = 0;
    for (const tally &each : tallies) refused += each.refused, halves += each.halves;
    auto counted = mine->load(0);
    std::printf("calls that were refused: %u\n", refused);
    std::printf("sums that changed while they were read: %u\n", halves);
    std::printf("counted in the cells: %llu of %u\n", static_cast<unsigned long long>(sum()),
                threads * turns / 4 * 3 * 2);
    std::printf("counted in the client word: %llu of %u\n", static_cast<unsigned long long>(counted ? *counted : 0),
                threads * turns);
    return 0;
}
