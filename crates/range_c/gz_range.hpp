/* The range lock of gz_range.h for C++17: the same calls, with objects that give back what they hold.

   A `table` is one lock. It hands out its seats one by one, a seat to each thread, and a seat holds one range at a time:
   a try or a wait gives a `write_range` or a `read_range`, whose end gives the range back. Nothing here throws but the
   constructor of a table and the calls of a lockable range, and those alone where exceptions are on.

       #include <gz_range.hpp>
       #include <cstdio>

       int main() {
           gz::result<gz::table> table = gz::table::open(2);
           if (!table) return 1;
           gz::result<gz::seat> first = table->take_seat(), second = table->take_seat();
           if (!first || !second) return 1;
           gz::result<gz::write_range> held = first->write(10, 20);
           gz::result<gz::read_range> other = second->try_read(15, 16);
           if (!other && other.answer() == GZ_RANGE_BUSY)
               std::printf("seat %u is in the way\n", other.error().busy.owner);
           return held ? 0 : 1;
       }

   It prints: seat 0 is in the way.

   What you may rely on beside what gz_range.h says of each call:
   - A table, a seat and a held range move and don't copy. What was moved from, closed or given back answers so to each
     call: IS_CLOSED of a seat or a table, HAS_NONE of a range. It may be assigned to again.
   - A range that outlives its seat holds nothing, and its end does nothing: the seat's end has given the range back. A
     seat may outlive its table, and a range may stay where it is while its seat moves.
   - To read a result that was refused ends the program by abort.

   What you owe, as in C: a seat and the range that it holds are used by one thread at a time, and so is a table; a
   signal handler makes no call, since C alone says which it may; in the forked child of a process that had threads none
   but forget() is made with what is from before the fork.

   The calls of the archive are proved; this header isn't. */
#ifndef GZ_RANGE_HPP
#define GZ_RANGE_HPP

#if __cplusplus < 201703L
#error "gz_range.hpp: the header is for C++17 and later, as by -std=c++17; gz_range.h is for C++11 too"
#endif

#include "gz_range.h"

#include <chrono>
#include <cstdio>
#include <cstdlib>
#include <new>
#include <optional>
#include <utility>

#ifdef __cpp_exceptions
#include <stdexcept>
#endif

namespace gz {

/* Why a call was refused: its answer, and after BUSY the range that was in the way; else busy is all 0. */
struct refusal {
    gz_range_answer answer = GZ_RANGE_DONE;
    gz_busy busy = {};

    [[nodiscard]] const char *text() const noexcept { return gz_range_text(answer); }
    [[nodiscard]] bool may_retry() const noexcept { return gz_range_may_retry(answer); }
};

#ifdef __cpp_exceptions
/* What the constructor of a table throws, and a lockable range that can't be held. */
class error : public std::runtime_error {
  public:
    explicit error(gz_range_answer answer) : std::runtime_error(gz_range_text(answer)), answer_(answer) {}
    [[nodiscard]] gz_range_answer answer() const noexcept { return answer_; }

  private:
    gz_range_answer answer_;
};
#endif

namespace detail {

/* The end of a program that reads what isn't there, or where exceptions are off, of one that would see one. */
[[noreturn]] inline void stop(const char *what, gz_range_answer answer) noexcept {
    std::fprintf(stderr, "gz_range: %s: %s\n", what, gz_range_text(answer));
    std::abort();
}

} // namespace detail

/* What a call gives, or why it was refused; as std::expected of C++23. A result that was moved from has what its value
   is after a move. */
template <class T> class [[nodiscard]] result {
  public:
    result(T value) noexcept : value_(std::move(value)) {}
    result(refusal why) noexcept : why_(why) {}
    result(gz_range_answer answer) noexcept : why_{ answer, {} } {}

    [[nodiscard]] bool has_value() const noexcept { return value_.has_value(); }
    explicit operator bool() const noexcept { return has_value(); }

    /* The value. Where there is none the program ends by abort, with the answer's text on standard error. */
    T &value() & noexcept { return checked(), *value_; }
    const T &value() const & noexcept { return checked(), *value_; }
    T &&value() && noexcept { return checked(), *std::move(value_); }
    T &operator*() & noexcept { return value(); }
    const T &operator*() const & noexcept { return value(); }
    T &&operator*() && noexcept { return std::move(*this).value(); }
    T *operator->() noexcept { return &value(); }
    const T *operator->() const noexcept { return &value(); }

    /* Why there is no value; the answer is DONE where there is one. */
    [[nodiscard]] const refusal &error() const noexcept { return why_; }
    [[nodiscard]] gz_range_answer answer() const noexcept { return why_.answer; }
    [[nodiscard]] const char *text() const noexcept { return why_.text(); }

  private:
    void checked() const noexcept {
        if (!value_) detail::stop("the result of a refused call was read", why_.answer);
    }

    std::optional<T> value_;
    refusal why_;
};

/* How many tries try_read and try_write make where no other number is given. The comment at gz_range_try says why more
   than one. */
constexpr uint32_t usual_tries = 4;

namespace detail {

/* A handle at a place of its own, since a handle isn't copied. It goes with its seat, or with the held range where that
   ends later. */
struct place {
    gz_range handle = GZ_RANGE_CLOSED;
    bool guarded = false; /* a held range names it */
    bool left = false;    /* its seat is gone */
};

} // namespace detail

class seat;
class table;
template <bool Writes> class lockable_range;

/* A range that is held, as a writer or as a reader. Its end gives the range back. */
template <bool Writes> class [[nodiscard]] held_range {
  public:
    held_range(held_range &&from) noexcept
        : place_(std::exchange(from.place_, nullptr)), lo_(from.lo_), hi_(from.hi_) {}
    held_range &operator=(held_range &&from) noexcept {
        if (this != &from) {
            release();
            place_ = std::exchange(from.place_, nullptr);
            lo_ = from.lo_;
            hi_ = from.hi_;
        }
        return *this;
    }
    ~held_range() { release(); }

    /* The ends that were asked for; they stay when the range is given back. */
    [[nodiscard]] uint64_t lo() const noexcept { return lo_; }
    [[nodiscard]] uint64_t hi() const noexcept { return hi_; }

    /* Gives the range back before its scope ends.
       DONE; HAS_NONE where it was given back or moved from; IS_CLOSED where its seat is gone, which gave it back. */
    gz_range_answer release() noexcept {
        detail::place *place = std::exchange(place_, nullptr);
        if (!place) return GZ_RANGE_HAS_NONE;
        place->guarded = false;
        if (!place->left) return gz_range_release(&place->handle);
        delete place;
        return GZ_RANGE_IS_CLOSED;
    }

  private:
    friend class seat;
    held_range(detail::place *place, uint64_t lo, uint64_t hi) noexcept : place_(place), lo_(lo), hi_(hi) {
        place->guarded = true;
    }

    detail::place *place_;
    uint64_t lo_, hi_;
};

using write_range = held_range<true>;
using read_range = held_range<false>;

/* A seat of a table: the right of one thread to hold one range at a time. A seat that wasn't taken from a table, or was
   moved from, is closed. Each call answers IS_CLOSED where it is. */
class seat {
  public:
    seat() noexcept = default;
    seat(seat &&from) noexcept
        : place_(std::exchange(from.place_, nullptr)), counts_(from.counts_), spinning_(from.spinning_) {}
    seat &operator=(seat &&from) noexcept {
        if (this != &from) {
            close();
            place_ = std::exchange(from.place_, nullptr);
            counts_ = from.counts_;
            spinning_ = from.spinning_;
        }
        return *this;
    }
    ~seat() { close(); }

    [[nodiscard]] bool is_open() const noexcept { return place_ != nullptr; }

    /* Each tries to hold the numbers from lo on and below hi, at most so many times: gz_range_try. */
    result<write_range> try_write(uint64_t lo, uint64_t hi, uint32_t tries = usual_tries) noexcept {
        return try_hold<true>(lo, hi, tries);
    }
    result<read_range> try_read(uint64_t lo, uint64_t hi, uint32_t tries = usual_tries) noexcept {
        return try_hold<false>(lo, hi, tries);
    }

    /* The same, and `made` is how many tries it made: gz_range_try_counted. 0 where the seat is closed. */
    result<write_range> try_write_counted(uint64_t lo, uint64_t hi, uint32_t tries, uint32_t &made) noexcept {
        return try_hold<true>(lo, hi, tries, made);
    }
    result<read_range> try_read_counted(uint64_t lo, uint64_t hi, uint32_t tries, uint32_t &made) noexcept {
        return try_hold<false>(lo, hi, tries, made);
    }

    /* Each holds them however long that takes, asleep after its first tries: gz_range_acquire. Callers of narrow ranges
       may keep out a caller of a wide one for as long as they come. */
    result<write_range> write(uint64_t lo, uint64_t hi) noexcept { return hold<true>(lo, hi); }
    result<read_range> read(uint64_t lo, uint64_t hi) noexcept { return hold<false>(lo, hi); }

    /* The same, for so long at most, or until a moment, as try_lock_for and try_lock_until of std::timed_mutex. Each
       tries at least once, and waits as gz_range_acquire_until does. Where the time is over the error says why the
       last try was refused. */
    template <class Rep, class Period>
    result<write_range> try_write_for(uint64_t lo, uint64_t hi, const std::chrono::duration<Rep, Period> &time) {
        return hold_until<true>(lo, hi, std::chrono::steady_clock::now() + time);
    }
    template <class Rep, class Period>
    result<read_range> try_read_for(uint64_t lo, uint64_t hi, const std::chrono::duration<Rep, Period> &time) {
        return hold_until<false>(lo, hi, std::chrono::steady_clock::now() + time);
    }
    template <class Clock, class Time>
    result<write_range> try_write_until(uint64_t lo, uint64_t hi, const std::chrono::time_point<Clock, Time> &moment) {
        return hold_until<true>(lo, hi, moment);
    }
    template <class Clock, class Time>
    result<read_range> try_read_until(uint64_t lo, uint64_t hi, const std::chrono::time_point<Clock, Time> &moment) {
        return hold_until<false>(lo, hi, moment);
    }

    /* What the seat holds, with its number: gz_range_held. HAS_NONE where it holds nothing; the number is then in the
       error's busy. */
    result<gz_busy> held() noexcept {
        gz_busy held = {};
        gz_range_answer answer = place_ ? gz_range_held(&place_->handle, &held) : GZ_RANGE_IS_CLOSED;
        if (answer != GZ_RANGE_DONE) return refusal{ answer, held };
        return held;
    }

    /* What the lists of the table show, in the first `found` of so many places: gz_range_scan. */
    gz_range_answer scan(gz_busy *ranges, size_t count, size_t &found) noexcept {
        found = 0;
        return place_ ? gz_range_scan(&place_->handle, ranges, count, &found) : GZ_RANGE_IS_CLOSED;
    }

    /* From now on what the seat's calls for a range meet is added to this, or to nothing: gz_range_counts. It has to be
       there as long as the seat is. */
    void count_in(gz_range_counts *counts) noexcept { counts_ = counts; }

    /* From now on write and read don't sleep, or do again: gz_range_acquire_spinning. */
    void set_spinning(bool spinning) noexcept { spinning_ = spinning; }

    /* One more seat of the same table, where one is free: gz_range_share. */
    result<seat> share() noexcept {
        if (!place_) return GZ_RANGE_IS_CLOSED;
        seat further(new (std::nothrow) detail::place);
        if (!further.place_) return GZ_RANGE_NO_MEMORY;
        gz_range_answer answer = gz_range_share(&place_->handle, &further.place_->handle);
        if (answer != GZ_RANGE_DONE) return answer;
        return further;
    }

    /* Each is one step on client word i, of gz_range_load and its neighbours. A seat that holds a range may step too. */
    result<uint64_t> load(uint32_t i) noexcept {
        uint64_t value = 0;
        gz_range_answer answer = place_ ? gz_range_load(&place_->handle, i, &value) : GZ_RANGE_IS_CLOSED;
        if (answer != GZ_RANGE_DONE) return answer;
        return value;
    }
    gz_range_answer store(uint32_t i, uint64_t value) noexcept {
        return place_ ? gz_range_store(&place_->handle, i, value) : GZ_RANGE_IS_CLOSED;
    }
    result<uint64_t> add(uint32_t i, uint64_t by) noexcept {
        uint64_t before = 0;
        gz_range_answer answer = place_ ? gz_range_add(&place_->handle, i, by, &before) : GZ_RANGE_IS_CLOSED;
        if (answer != GZ_RANGE_DONE) return answer;
        return before;
    }
    [[nodiscard]] gz_range_answer exchange(uint32_t i, uint64_t &expected, uint64_t value) noexcept {
        return place_ ? gz_range_exchange(&place_->handle, i, &expected, value) : GZ_RANGE_IS_CLOSED;
    }

    /* Gives back what the seat holds, and the seat: gz_range_close. */
    gz_range_answer close() noexcept {
        detail::place *place = std::exchange(place_, nullptr);
        if (!place) return GZ_RANGE_IS_CLOSED;
        gz_range_answer answer = gz_range_close(&place->handle);
        leave(place);
        return answer;
    }

    /* Is closed, and leaves its table alone: gz_range_forget, for the child after a fork. */
    void forget() noexcept {
        detail::place *place = std::exchange(place_, nullptr);
        if (!place) return;
        gz_range_forget(&place->handle);
        leave(place);
    }

  private:
    friend class table;
    template <bool> friend class lockable_range;
    explicit seat(detail::place *place) noexcept : place_(place) {}

    static void leave(detail::place *place) noexcept {
        if (place->guarded) place->left = true;
        else delete place;
    }

    template <bool Writes> result<held_range<Writes>> try_hold(uint64_t lo, uint64_t hi, uint32_t tries) noexcept {
        uint32_t made;
        return try_hold<Writes>(lo, hi, tries, made);
    }

    template <bool Writes>
    result<held_range<Writes>> try_hold(uint64_t lo, uint64_t hi, uint32_t tries, uint32_t &made) noexcept {
        made = 0;
        if (!place_) return GZ_RANGE_IS_CLOSED;
        refusal why;
        why.answer = gz_range_try_counted(&place_->handle, lo, hi, Writes, tries, &why.busy, &made);
        if (why.answer != GZ_RANGE_DONE) return why;
        return held_range<Writes>(place_, lo, hi);
    }

    template <bool Writes> result<held_range<Writes>> hold(uint64_t lo, uint64_t hi) noexcept {
        if (!place_) return GZ_RANGE_IS_CLOSED;
        gz_range_answer answer = spinning_ ? gz_range_acquire_spinning(&place_->handle, lo, hi, Writes, counts_)
                                           : gz_range_acquire_counted(&place_->handle, lo, hi, Writes, counts_);
        if (answer != GZ_RANGE_DONE) return answer;
        return held_range<Writes>(place_, lo, hi);
    }

    /* Of another clock than the steady one it asks again where that one's time is over, since the other may be set. */
    template <bool Writes, class Clock, class Time>
    result<held_range<Writes>> hold_until(uint64_t lo, uint64_t hi,
                                          const std::chrono::time_point<Clock, Time> &moment) {
        using steady = std::chrono::steady_clock;
        using std::chrono::nanoseconds;
        if (!place_) return GZ_RANGE_IS_CLOSED;
        for (;;) {
            const nanoseconds longest = std::chrono::hours(1);
            auto left = moment - Clock::now();
            nanoseconds time(0);
            if (left >= longest) time = longest;
            else if (left > left.zero()) time = std::chrono::duration_cast<nanoseconds>(left);
            const int64_t until = nanoseconds(steady::now().time_since_epoch() + time).count();
            const timespec end = { static_cast<time_t>(until / 1000000000), static_cast<long>(until % 1000000000) };
            refusal why;
            why.answer = gz_range_sleep_until(&place_->handle, lo, hi, Writes, &end, counts_, &why.busy);
            if (why.answer == GZ_RANGE_DONE) return held_range<Writes>(place_, lo, hi);
            if (!why.may_retry() || moment <= Clock::now()) return why;
        }
    }

    detail::place *place_ = nullptr;
    gz_range_counts *counts_ = nullptr;
    bool spinning_ = false;
};

/* One range of a seat as std's locks take it, Lockable and TimedLockable: unique_lock, scoped_lock, lock_guard and
   condition_variable_any work with it.

       gz::lockable_write first_pages(seat, 0, 16);
       std::scoped_lock held(first_pages);

   Its seat stays where it is as long as the lockable is used. Two that are locked at once, as by one scoped_lock, are of
   two seats, since a seat holds one range at a time; and if both are of one table, of ranges that aren't in conflict. A
   call that no later try would help, as of a closed seat, of ends that bound no range, or of a seat that holds
   another range, throws gz::error, or ends the program by abort where exceptions are off. */
template <bool Writes> class lockable_range {
  public:
    lockable_range(seat &by, uint64_t lo, uint64_t hi) noexcept : by_(by), lo_(lo), hi_(hi) {}
    lockable_range(const lockable_range &) = delete;
    lockable_range &operator=(const lockable_range &) = delete;

    void lock() { keep(by_.template hold<Writes>(lo_, hi_)); }
    [[nodiscard]] bool try_lock() { return keep(by_.template try_hold<Writes>(lo_, hi_, usual_tries)); }
    template <class Rep, class Period>
    [[nodiscard]] bool try_lock_for(const std::chrono::duration<Rep, Period> &time) {
        return try_lock_until(std::chrono::steady_clock::now() + time);
    }
    template <class Clock, class Time>
    [[nodiscard]] bool try_lock_until(const std::chrono::time_point<Clock, Time> &moment) {
        return keep(by_.template hold_until<Writes>(lo_, hi_, moment));
    }
    void unlock() noexcept { held_.reset(); }

  private:
    bool keep(result<held_range<Writes>> held) {
        if (held) held_.emplace(*std::move(held));
        else if (!held.error().may_retry()) refuse(held.answer());
        return held.has_value();
    }

    [[noreturn]] static void refuse(gz_range_answer answer) {
#ifdef __cpp_exceptions
        throw error(answer);
#else
        detail::stop("a range can't be locked", answer);
#endif
    }

    seat &by_;
    uint64_t lo_, hi_;
    std::optional<held_range<Writes>> held_;
};

using lockable_write = lockable_range<true>;
using lockable_read = lockable_range<false>;

/* Client words to open a table with: of an array, a std::vector or another row with data() and size(), or none. */
class words {
  public:
    words() noexcept = default;
    template <size_t N> words(const uint64_t (&all)[N]) noexcept : first_(all), count_(N) {}
    template <class Row, class = decltype(std::declval<const Row &>().data() == static_cast<const uint64_t *>(nullptr))>
    words(const Row &row) noexcept : first_(row.data()), count_(row.size()) {}

  private:
    friend class table;
    const uint64_t *first_ = nullptr;
    size_t count_ = 0;
};

/* A range lock, as it hands out its seats. It is used by one thread at a time, and may end before its seats: the lock
   itself is there as long as one seat is. A table that was moved from is closed. */
class table {
  public:
    /* Opens a table of so many seats, 1 to 16, whose client words begin as copies of these: gz_range_open. */
    static result<table> open(uint32_t seats, words begin = {}) noexcept {
        return open_by(begin, [seats](const uint64_t *first, size_t count, gz_range *handle) noexcept {
            return gz_range_open(seats, first, count, handle);
        });
    }

    /* The same over a cut into regions, 1 to 16, in blocks of 2^bits numbers: gz_range_open_cut. */
    static result<table> open_cut(uint32_t seats, uint32_t regions, uint32_t bits, words begin = {}) noexcept {
        return open_by(begin, [=](const uint64_t *first, size_t count, gz_range *handle) noexcept {
            return gz_range_open_cut(seats, regions, bits, first, count, handle);
        });
    }

#ifdef __cpp_exceptions
    /* Each opens a table as the call above does, and throws gz::error where that is refused. */
    explicit table(uint32_t seats, words begin = {}) : table(unwrapped(open(seats, begin))) {}
    table(uint32_t seats, uint32_t regions, uint32_t bits, words begin = {})
        : table(unwrapped(open_cut(seats, regions, bits, begin))) {}
#endif

    table(table &&from) noexcept : last_(std::move(from.last_)), took_last_(std::exchange(from.took_last_, false)) {}
    table &operator=(table &&from) noexcept {
        if (this != &from) {
            last_ = std::move(from.last_);
            took_last_ = std::exchange(from.took_last_, false);
        }
        return *this;
    }

    /* Hands out a seat that is free; the table's own one comes last. NONE_LEFT when they are out, IS_CLOSED of a closed
       table, NO_MEMORY. Where the table's own one is out, share() of any seat gives those that were closed since. */
    result<seat> take_seat() noexcept {
        if (!last_.is_open()) return took_last_ ? GZ_RANGE_NONE_LEFT : GZ_RANGE_IS_CLOSED;
        result<seat> shared = last_.share();
        if (shared || shared.answer() != GZ_RANGE_NONE_LEFT) return shared;
        took_last_ = true;
        return std::move(last_);
    }

    /* Gives up the seats that weren't taken; share() of a seat of the table still gives them. DONE, or IS_CLOSED where
       it is closed or has none. */
    gz_range_answer close() noexcept {
        took_last_ = false;
        return last_.close();
    }

    /* Is closed, and leaves the lock alone, as forget() of a seat does. */
    void forget() noexcept {
        took_last_ = false;
        last_.forget();
    }

  private:
    explicit table(seat last) noexcept : last_(std::move(last)) {}

    template <class Open> static result<table> open_by(words begin, Open open) noexcept {
        static const uint64_t none = 0;
        seat last(new (std::nothrow) detail::place);
        if (!last.place_) return GZ_RANGE_NO_MEMORY;
        gz_range_answer answer = open(begin.first_ ? begin.first_ : &none, begin.count_, &last.place_->handle);
        if (answer != GZ_RANGE_DONE) return answer;
        return table(std::move(last));
    }

#ifdef __cpp_exceptions
    static table unwrapped(result<table> opened) {
        if (!opened) throw error(opened.answer());
        return *std::move(opened);
    }
#endif

    seat last_; /* the one that all others are shared from, and that is taken last */
    bool took_last_ = false;
};

} // namespace gz

#endif
