/* Eighteen tries and releases of one seat that meets nobody; then one in each region of a table of one seat and three
   regions, and one over all of them; and the same in a table of four seats, of which two have handles, with a call of
   mark before, between and behind them. The gate counts the locked instructions from
   one mark to the next in valgrind's trace: each step on a word of the lock is one, unless it is a load. It prints
   nothing. */
#include "gz_range.h"

static volatile int marks;

__attribute__((noinline)) void mark(void) { marks++; }

static bool hold(gz_range *handle, uint64_t lo, uint64_t hi) {
    gz_busy busy;
    mark();
    if (gz_range_try(handle, lo, hi, GZ_RANGE_WRITER, 1, &busy)) return false;
    mark();
    return !gz_range_release(handle);
}

static bool hold_each(gz_range *handle) {
    for (int region = 0; region < 3; region++)
        if (!hold(handle, 16 * region, 16 * region + 10)) return false;
    return hold(handle, 0, 48);
}

int main(void) {
    const uint64_t none = 0;
    gz_range one = GZ_RANGE_CLOSED, alone = GZ_RANGE_CLOSED, first = GZ_RANGE_CLOSED, second = GZ_RANGE_CLOSED;
    if (gz_range_open_plain(1, &one) || gz_range_open_cut(1, 3, 4, &none, 0, &alone)) return 1;
    if (gz_range_open_cut(4, 3, 4, &none, 0, &first) || gz_range_share(&first, &second)) return 1;
    for (int turn = 0; turn < 18; turn++)
        if (!hold(&one, 0, 10)) return 1;
    if (!hold_each(&alone) || !hold_each(&first)) return 1;
    mark();
    return gz_range_close(&one) || gz_range_close(&alone) || gz_range_close(&first) || gz_range_close(&second) ? 1 : 0;
}
