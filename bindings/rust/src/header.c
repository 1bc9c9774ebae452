/* What gz_range.h has as C of its own, for Rust, which can't call a function that stands in a header alone. The asserts
   are that src/raw.rs has the header's numbers. */
#include <gz_range.h>

gz_range_answer gz_rust_acquire(gz_range *handle, uint64_t lo, uint64_t hi, bool writer, bool spinning,
                                gz_range_counts *counts);
gz_range_answer gz_rust_acquire_for(gz_range *handle, uint64_t lo, uint64_t hi, bool writer, uint64_t nanoseconds,
                                    gz_range_counts *counts, gz_busy *busy);
gz_range_answer gz_rust_release(gz_range *handle);
gz_range_answer gz_rust_close(gz_range *handle);
const char *gz_rust_text(gz_range_answer answer);

gz_range_answer gz_rust_acquire(gz_range *handle, uint64_t lo, uint64_t hi, bool writer, bool spinning,
                                gz_range_counts *counts) {
    if (spinning) return gz_range_acquire_spinning(handle, lo, hi, writer, counts);
    return gz_range_acquire_counted(handle, lo, hi, writer, counts);
}

/* The time is at most 10^18. */
gz_range_answer gz_rust_acquire_for(gz_range *handle, uint64_t lo, uint64_t hi, bool writer, uint64_t nanoseconds,
                                    gz_range_counts *counts, gz_busy *busy) {
    struct timespec end;
    clock_gettime(CLOCK_MONOTONIC, &end);
    nanoseconds += (uint64_t)end.tv_nsec;
    end.tv_sec += (time_t)(nanoseconds / 1000000000);
    end.tv_nsec = (long)(nanoseconds % 1000000000);
    return gz_range_sleep_until(handle, lo, hi, writer, &end, counts, busy);
}

/* With a look for callers that sleep, which the archive's own doesn't have. */
gz_range_answer gz_rust_release(gz_range *handle) { return gz_range_release(handle); }

gz_range_answer gz_rust_close(gz_range *handle) { return gz_range_close(handle); }

const char *gz_rust_text(gz_range_answer answer) { return gz_range_text(answer); }

#define SAME(name, number) _Static_assert(GZ_RANGE_##name == (number), "src/raw.rs has the number of " #name)
SAME(DONE, 0);
SAME(BUSY, 1);
SAME(AGAIN, 2);
SAME(LONG, 3);
SAME(NO_NODE, 4);
SAME(NOT_TRIED, 5);
SAME(BAD_RANGE, 6);
SAME(HAS_ONE, 7);
SAME(NO_MEMORY, 11);
SAME(BAD_SEATS, 12);
SAME(BAD_WORDS, 13);
SAME(NONE_LEFT, 14);
SAME(NO_WORD, 15);
SAME(OTHER, 16);
SAME(BAD_CUT, 17);
SAME(MOST_SEATS, 16);
SAME(MOST_WORDS, 1 << 20);
SAME(HIGHEST, 1ull << 62);
_Static_assert(sizeof(gz_range_counts) == 64, "src/raw.rs has the numbers of gz_range_counts");
