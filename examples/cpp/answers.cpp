/* What the header for C++ answers where something is wrong: ends that bound no range, too many seats, a table or a seat
   that is closed or was moved from, a range that outlives its seat; how many tries a counted call made; what a moment
   and std's locks bring. None of it throws, but the constructor and the lock that are asked to. Each line is a call and
   its answer. */
#include "gz_range.hpp"

#include <chrono>
#include <condition_variable>
#include <cstdint>
#include <cstdio>
#include <mutex>
#include <sys/wait.h>
#include <thread>
#include <unistd.h>
#include <utility>
#include <vector>

namespace {

void show(const char *call, gz_range_answer answer) { std::printf("%s: %s\n", call, gz_range_text(answer)); }

template <class T> void show(const char *call, const gz::result<T> &result) { show(call, result.answer()); }

void openings() {
    show("no seat", gz::table::open(0));
    show("17 seats", gz::table::open(17));
    show("16 seats", gz::table::open(16));
    show("no region", gz::table::open_cut(2, 0, 16));
    show("17 regions", gz::table::open_cut(2, 17, 16));
    show("blocks of 2^63 numbers", gz::table::open_cut(2, 7, 63));
    show("7 regions", gz::table::open_cut(2, 7, 16));
    std::vector<uint64_t> many(GZ_RANGE_MOST_WORDS + 1);
    show("more words than there may be", gz::table::open(2, many));
#ifdef __cpp_exceptions
    try {
        gz::table table(17);
        std::puts("17 seats by the constructor: done");
    } catch (const gz::error &error) {
        std::printf("17 seats by the constructor, which throws: %s\n", error.what());
    }
#endif
}

void ranges(gz::seat &seat, gz::seat &other) {
    show("an empty range", seat.try_write(5, 5));
    show("a reversed range", seat.try_read(6, 5));
    show("to wait for a reversed range", seat.write(6, 5));
    show("an end above the highest", seat.try_write(0, static_cast<uint64_t>(GZ_RANGE_HIGHEST) + 1));
    show("no try", seat.try_write(0, 1, 0));
    auto held = seat.write(10, 20);
    show("10 to 20", held);
    show("a second range of the seat", seat.try_read(30, 40));
    auto refused = other.try_read(15, 16);
    std::printf("15 to 16 by another seat: %s; seat %u holds %llu to %llu%s\n", refused.text(),
                refused.error().busy.owner, static_cast<unsigned long long>(refused.error().busy.lo),
                static_cast<unsigned long long>(refused.error().busy.hi),
                refused.error().busy.writer ? " as a writer" : "");
    show("20 to 21 by another seat", other.try_write(20, 21));
    uint32_t made = 9;
    auto counted = other.try_read_counted(15, 16, 5, made);
    std::printf("15 to 16 again: %s; tries made: %u\n", counted.text(), made);
    counted = other.try_read_counted(20, 21, 5, made);
    std::printf("20 to 21 again: %s; tries made: %u\n", counted.text(), made);
    std::printf("a range beside it: %s; ", other.try_write_counted(30, 31, 5, made).text());
    std::printf("tries made: %u\n", made);
    counted->release();
    auto moved = std::move(held);
    show("given back after a move", moved->release());
    show("given back twice", moved->release());
    show("15 to 16 by another seat", other.try_read(15, 16));
    show("what the seat holds", seat.held());
}

void moments(gz::seat &seat, gz::seat &other) {
    using namespace std::chrono_literals;
    const auto past = std::chrono::steady_clock::now();
    show("until a moment that has passed", other.try_read_until(15, 16, past));
    {
        const auto held = seat.try_write_for(10, 20, 24h);
        std::printf("within a day: %s, from %llu on\n", held.text(), static_cast<unsigned long long>(held->lo()));
        show("15 to 16 until a moment that has passed", other.try_read_until(15, 16, past));
        const auto begun = std::chrono::steady_clock::now();
        show("15 to 16 for 20 ms", other.try_write_for(15, 16, 20ms));
        std::printf("that long it took: %s\n", std::chrono::steady_clock::now() - begun >= 20ms ? "yes" : "no");
        show("a reversed range for a day", other.try_write_for(6, 5, 24h));
    }
    show("15 to 16 by the clock of the day", other.try_write_until(15, 16, std::chrono::system_clock::now()));
}

void locks_of_std(gz::seat &seat, gz::seat &other) {
    using namespace std::chrono_literals;
    const auto says = [](const char *what, bool so) { std::printf("%s: %s\n", what, so ? "yes" : "no"); };
    gz::lockable_write pages(seat, 10, 20), others(other, 20, 30);
    gz::lockable_read inside(other, 15, 16);
    {
        std::scoped_lock both(pages, others);
        show("both are held", seat.held());
    }
    std::unique_lock lock(pages);
    says("a lock within it, tried", std::unique_lock(inside, std::try_to_lock).owns_lock());
    says("a lock within it, for a millisecond", std::unique_lock(inside, 1ms).owns_lock());
    says("a lock beside it", std::unique_lock(others, std::chrono::steady_clock::now()).owns_lock());
    bool told = false;
    std::condition_variable_any door;
    std::thread teller([&] {
        std::lock_guard held(inside);
        told = true;
        door.notify_one();
    });
    door.wait(lock, [&] { return told; });
    teller.join();
    says("a condition was waited for", told);
#ifdef __cpp_exceptions
    gz::seat none;
    gz::lockable_write closed(none, 0, 1), again(seat, 40, 50);
    for (gz::lockable_write *each : { &closed, &again }) {
        try {
            each->lock();
        } catch (const gz::error &error) {
            std::printf("a lock that throws: %s\n", error.what());
        }
    }
#endif
}

void client_words(gz::seat &seat) {
    uint64_t expected = 1;
    show("a store", seat.store(0, 7));
    show("an exchange of what isn't there", seat.exchange(0, expected, 9));
    std::printf("it was %llu\n", static_cast<unsigned long long>(expected));
    show("the same again", seat.exchange(0, expected, 9));
    auto before = seat.add(0, 1);
    std::printf("an addition finds %llu\n", static_cast<unsigned long long>(*before));
    show("a word that isn't there", seat.load(1));
}

void closed_seats(gz::seat &seat, gz::seat &other) {
    gz::seat taken = std::move(seat);
    show("a try by a seat that was moved from", seat.try_write(0, 1)); // NOLINT: it answers
    uint32_t made = 9;
    show("a counted try", seat.try_write_counted(0, 1, 5, made));
    std::printf("tries made: %u\n", made);
    show("its load", seat.load(0));
    show("its share", seat.share());
    show("its close", seat.close());
    auto held = taken.write(0, 10);
    gz::seat moved = std::move(taken);
    show("what a seat holds that was moved meanwhile", moved.held());
    show("its close", moved.close());
    show("the range that outlived it", held->release());
    show("0 to 10 by another seat", other.try_write(0, 10));
    moved = std::move(other);
    show("a seat that was assigned to", moved.try_write(0, 10));
    moved = gz::seat();
    show("a seat that was replaced by a closed one", moved.try_write(0, 10));
}

void looks(gz::seat &first, gz::seat &second) {
    gz_busy ranges[4];
    size_t found = 9;
    auto held = first.write(10, 20);
    show("a scan", second.scan(ranges, 4, found));
    if (found == 1) std::printf("it shows %u to %u\n", unsigned(ranges[0].lo), unsigned(ranges[0].hi));
    show("a scan without a place", second.scan(ranges, 0, found));
    show("a scan by a seat that holds a range", first.scan(ranges, 4, found));
    gz_range_counts counts = {};
    second.count_in(&counts);
    show("a try for 2 ms", second.try_write_for(15, 16, std::chrono::milliseconds(2)));
    held->release();
    show("a range that is free", second.write(15, 16));
    second.count_in(nullptr);
    second.set_spinning(true);
    show("one that isn't counted", second.write(15, 16));
    std::printf("each try but one was refused: %s, and a wait or a sleep was between two, but once: %s\n",
                counts.tries == counts.refused[GZ_RANGE_BUSY] + 1 ? "yes" : "no",
                counts.tries - counts.waits - counts.sleeps - 2 <= 1 ? "yes" : "no");
}

void closed_tables() {
    auto table = gz::table::open(2);
    gz::table moved = *std::move(table);
    show("a seat of a table that was moved from", table->take_seat());
    auto first = moved.take_seat();
    auto second = moved.take_seat();
    show("the last seat", second);
    show("one more", moved.take_seat());
    show("one more shared by a seat", first->share());
    second->close();
    show("one more when a seat was closed", first->share());
    auto closed = gz::table::open(2);
    auto early = closed->take_seat();
    show("a table's close", closed->close());
    show("a seat of a closed table", closed->take_seat());
    show("a try by a seat from before", early->try_write(0, 1));
    std::fflush(stdout);
    const pid_t child = fork();
    if (child == 0) {
        auto kept = early->write(0, 1);
        early->forget();
        const bool closed = early->try_write(0, 1).answer() == GZ_RANGE_IS_CLOSED;
        _exit(closed && kept->release() == GZ_RANGE_IS_CLOSED ? 0 : 1);
    }
    int status = 1;
    std::printf("a seat that a child forgot is closed there: %s\n",
                waitpid(child, &status, 0) == child && status == 0 ? "yes" : "no");
    show("a try by that seat in the parent", early->try_write(0, 1));
}

} // namespace

int main() {
    openings();
    const std::vector<uint64_t> words = { 0 };
    auto table = gz::table::open(2, words);
    auto first = table->take_seat(), second = table->take_seat();
    if (!first || !second) return 1;
    ranges(*first, *second);
    moments(*first, *second);
    locks_of_std(*first, *second);
    client_words(*first);
    looks(*first, *second);
    closed_seats(*first, *second);
    closed_tables();
    return 0;
}
