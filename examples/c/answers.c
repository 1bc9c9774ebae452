/* The names of all answers with their numbers and texts, as gz_range.h has them; then the answers that a call may give,
   met on one thread, and what is so after each. It prints one line for each call, with the number that the library
   answered and the name that the header gives it, so two names that change places there are noticed. */
#include "gz_range.h"

#include <inttypes.h>
#include <stdio.h>
#include <stdlib.h>

static const char *name_of(uint32_t answer) {
    switch (answer) {
    case GZ_RANGE_DONE: return "DONE";
    case GZ_RANGE_BUSY: return "BUSY";
    case GZ_RANGE_AGAIN: return "AGAIN";
    case GZ_RANGE_LONG: return "LONG";
    case GZ_RANGE_NO_NODE: return "NO_NODE";
    case GZ_RANGE_NOT_TRIED: return "NOT_TRIED";
    case GZ_RANGE_BAD_RANGE: return "BAD_RANGE";
    case GZ_RANGE_HAS_ONE: return "HAS_ONE";
    case GZ_RANGE_HAS_NONE: return "HAS_NONE";
    case GZ_RANGE_IS_CLOSED: return "IS_CLOSED";
    case GZ_RANGE_IS_OPEN: return "IS_OPEN";
    case GZ_RANGE_NO_MEMORY: return "NO_MEMORY";
    case GZ_RANGE_BAD_SEATS: return "BAD_SEATS";
    case GZ_RANGE_BAD_WORDS: return "BAD_WORDS";
    case GZ_RANGE_NONE_LEFT: return "NONE_LEFT";
    case GZ_RANGE_NO_WORD: return "NO_WORD";
    case GZ_RANGE_OTHER: return "OTHER";
    case GZ_RANGE_BAD_CUT: return "BAD_CUT";
    case GZ_RANGE_FULL: return "FULL";
    default: return "no answer";
    }
}

static void names(void) {
    for (uint32_t answer = 0; answer <= GZ_RANGE_FULL + 1; answer++)
        printf("%2u %-10s %s\n", answer, name_of(answer), gz_range_text((gz_range_answer)answer));
}

static void says(const char *call, uint32_t answer) { printf("%-44s %2u %s\n", call, answer, name_of(answer)); }

static void shows(const gz_busy *busy) {
    printf("    seat %u, %" PRIu64 " to %" PRIu64 ", %s\n", busy->owner, busy->lo, busy->hi,
           busy->writer ? "writer" : "reader");
}

/* What a handle holds, and the number of its seat. */
static void looks(const char *whose, gz_range *handle) {
    gz_busy held;
    says(whose, gz_range_held(handle, &held));
    shows(&held);
}

/* A call for a range, and how many tries it made. */
static void tries(const char *call, gz_range *handle, uint64_t lo, uint64_t hi, uint32_t most) {
    gz_busy busy;
    uint32_t made = 99;
    says(call, gz_range_try_counted(handle, lo, hi, GZ_RANGE_WRITER, most, &busy, &made));
    printf("    tries made: %u\n", made);
}

/* What a scan of the table's lists shows that has so many places. */
static void scans(const char *call, gz_range *handle, size_t places) {
    gz_busy ranges[8];
    size_t found = 99;
    says(call, gz_range_scan(handle, ranges, places, &found));
    printf("    ranges found: %zu\n", found);
    for (size_t i = 0; i < found; i++) shows(&ranges[i]);
}

static void closed_handles(void) {
    gz_range handle = GZ_RANGE_CLOSED, other = GZ_RANGE_CLOSED;
    gz_busy busy;
    uint64_t value = 5;
    says("share of a closed handle", gz_range_share(&handle, &other));
    says("try by a closed handle", gz_range_try(&handle, 0, 1, GZ_RANGE_WRITER, 1, &busy));
    tries("counted try by a closed handle", &handle, 0, 1, 3);
    says("acquire by a closed handle", gz_range_acquire(&handle, 0, 1, GZ_RANGE_WRITER));
    says("release by a closed handle", gz_range_release(&handle));
    looks("what a closed handle holds", &handle);
    scans("scan by a closed handle", &handle, 8);
    says("load by a closed handle", gz_range_load(&handle, 0, &value));
    says("store by a closed handle", gz_range_store(&handle, 0, 1));
    says("add by a closed handle", gz_range_add(&handle, 0, 1, &value));
    says("exchange by a closed handle", gz_range_exchange(&handle, 0, &value, 1));
    printf("    the value is %" PRIu64 " still\n", value);
    says("close of a closed handle", gz_range_close(&handle));
    says("try by it when it was closed once more", gz_range_try(&handle, 0, 1, GZ_RANGE_WRITER, 1, &busy));
}

static void openings(void) {
    const uint64_t words[1] = { 7 };
    gz_range handle = GZ_RANGE_CLOSED, other = GZ_RANGE_CLOSED, third = GZ_RANGE_CLOSED;
    uint64_t *many = calloc(GZ_RANGE_MOST_WORDS + 1, sizeof *many);
    if (!many) exit(1);
    says("open of no seat", gz_range_open(0, words, 1, &handle));
    says("open of 17 seats", gz_range_open(17, words, 1, &handle));
    says("open of 2^20 + 1 words", gz_range_open(2, many, GZ_RANGE_MOST_WORDS + 1, &handle));
    says("open of 2^20 words", gz_range_open(2, many, GZ_RANGE_MOST_WORDS, &handle));
    gz_range_close(&handle);
    says("open of no region", gz_range_open_cut(2, 0, 16, words, 1, &handle));
    says("open of 17 regions", gz_range_open_cut(2, 17, 16, words, 1, &handle));
    says("open of blocks of 2^63", gz_range_open_cut(2, 7, 63, words, 1, &handle));
    says("open of no seat in 7 regions", gz_range_open_cut(0, 7, 16, words, 1, &handle));
    says("open of 2 seats and no word", gz_range_open_plain(2, &handle));
    says("open of an open handle", gz_range_open(2, words, 0, &handle));
    says("share of the second seat", gz_range_share(&handle, &other));
    says("share into an open handle", gz_range_share(&handle, &other));
    says("share where none is left", gz_range_share(&handle, &third));
    says("share of a handle that was shared", gz_range_share(&other, &third));
    says("try by the handle that was shared", gz_range_try_plain(&other, 0, 9, GZ_RANGE_WRITER, 1));
    says("close of it while it holds a range", gz_range_close(&other));
    says("try by it when it is closed", gz_range_try_plain(&other, 0, 9, GZ_RANGE_WRITER, 1));
    says("share of a seat that was given back", gz_range_share(&handle, &third));
    looks("what it holds", &third);
    says("try of the range that was held", gz_range_try_plain(&handle, 0, 9, GZ_RANGE_WRITER, 1));
    says("close of the first handle", gz_range_close(&handle));
    says("share of its seat by the other one", gz_range_share(&third, &other));
    looks("what it holds", &other);
    says("share where none is left", gz_range_share(&third, &handle));
    gz_range_close(&third);
    says("store by the handle that is left", gz_range_store(&other, 0, 1));
    looks("what it holds", &other);
    gz_range_close(&other);
    free(many);
}

static void ranges(gz_range *a, gz_range *b) {
    gz_busy busy;
    says("try of no number", gz_range_try(a, 5, 5, GZ_RANGE_WRITER, 1, &busy));
    says("try above 2^62", gz_range_try(a, 5, (uint64_t)GZ_RANGE_HIGHEST + 1, GZ_RANGE_WRITER, 1, &busy));
    says("no try", gz_range_try(a, 5, 9, GZ_RANGE_WRITER, 0, &busy));
    says("release of nothing", gz_range_release(a));
    looks("what it holds", a);
    says("try of 5 to 9 as a writer", gz_range_try(a, 5, 9, GZ_RANGE_WRITER, 1, &busy));
    looks("what it holds", a);
    says("try while one is held", gz_range_try(a, 20, 30, GZ_RANGE_WRITER, 1, &busy));
    says("acquire while one is held", gz_range_acquire(a, 20, 30, GZ_RANGE_WRITER));
    says("another's try of 8 to 10 as a reader", gz_range_try(b, 8, 10, GZ_RANGE_READER, 3, &busy));
    shows(&busy);
    says("another's try of 9 to 10 as a writer", gz_range_try(b, 9, 10, GZ_RANGE_WRITER, 1, &busy));
    shows(&busy);
    says("release", gz_range_release(b));
    says("release", gz_range_release(a));
    says("try of 0 to 2^62 as a reader", gz_range_try(a, 0, GZ_RANGE_HIGHEST, GZ_RANGE_READER, 1, &busy));
    says("another's try of 3 to 4 as a reader", gz_range_try_plain(b, 3, 4, GZ_RANGE_READER, 1));
    looks("what the other one holds", b);
    says("release", gz_range_release(b));
    says("another's try of 3 to 4 as a writer", gz_range_try(b, 3, 4, GZ_RANGE_WRITER, 1, &busy));
    shows(&busy);
    tries("another's three tries of 3 to 4", b, 3, 4, 3);
    tries("another's no try of 3 to 4", b, 3, 4, 0);
    tries("another's tries of no number", b, 4, 4, 3);
    says("release", gz_range_release(a));
    tries("another's three tries of 3 to 4", b, 3, 4, 3);
    tries("another's tries while it holds that", b, 3, 4, 3);
    says("release", gz_range_release(b));
    says("acquire of 3 to 4 as a writer", gz_range_acquire(b, 3, 4, GZ_RANGE_WRITER));
}

/* Seven regions in blocks of 2^16 numbers: the first block is of one region and the next one of another. */
static void regions(void) {
    const uint64_t words[1] = { 7 };
    gz_range a = GZ_RANGE_CLOSED, b = GZ_RANGE_CLOSED;
    gz_busy busy;
    says("open of 7 regions", gz_range_open_cut(2, 7, 16, words, 1, &a));
    says("open of an open handle over a cut", gz_range_open_cut(2, 7, 16, words, 1, &a));
    says("share", gz_range_share(&a, &b));
    says("try of 5 to 9 as a writer", gz_range_try(&a, 5, 9, GZ_RANGE_WRITER, 1, &busy));
    says("another's try in the next region", gz_range_try(&b, 65536, 65540, GZ_RANGE_WRITER, 1, &busy));
    says("release", gz_range_release(&b));
    says("another's try of both as a reader", gz_range_try(&b, 0, 65540, GZ_RANGE_READER, 1, &busy));
    shows(&busy);
    says("release", gz_range_release(&a));
    says("another's try of both as a reader", gz_range_try(&b, 0, 65540, GZ_RANGE_READER, 1, &busy));
    says("try of 5 to 9 as a writer", gz_range_try(&a, 5, 9, GZ_RANGE_WRITER, 1, &busy));
    shows(&busy);
    says("close", gz_range_close(&a));
    says("close of the other", gz_range_close(&b));
}

/* Who has what, as a handle shows it that holds nothing. */
static void who_has_what(void) {
    const uint64_t words[1] = { 7 };
    gz_range a = GZ_RANGE_CLOSED, b = GZ_RANGE_CLOSED, c = GZ_RANGE_CLOSED;
    gz_busy busy, ranges[8];
    size_t found = 99;
    says("open of 3 seats over 2 regions", gz_range_open_cut(3, 2, 4, words, 1, &a));
    says("share", gz_range_share(&a, &b));
    says("share", gz_range_share(&a, &c));
    scans("scan where nothing is held", &c, 8);
    says("try of 5 to 9 as a writer", gz_range_try(&a, 5, 9, GZ_RANGE_WRITER, 1, &busy));
    says("another's try of 20 to 30 as a reader", gz_range_try(&b, 20, 30, GZ_RANGE_READER, 1, &busy));
    scans("scan", &c, 8);
    scans("scan with a place for each", &c, 2);
    scans("scan with one place", &c, 1);
    scans("scan with none", &c, 0);
    scans("scan by a handle that holds a range", &a, 8);
    says("scan with an open handle to put there", gz_range_scan_into(&c, b, ranges, 8, &found));
    printf("    ranges found: %zu\n", found);
    says("release", gz_range_release(&a));
    scans("scan when one was given back", &c, 8);
    says("try of 40 to 41 by the handle that scanned", gz_range_try(&c, 40, 41, GZ_RANGE_WRITER, 1, &busy));
    says("close", gz_range_close(&a));
    says("close", gz_range_close(&b));
    says("close", gz_range_close(&c));
}

/* What two handles meet, the second one for two milliseconds. */
static void counts_of(gz_range *a, gz_range *b) {
    gz_range_counts counts = { 0 };
    struct timespec moment = { 0, 0 };
    says("counted acquire", gz_range_acquire_counted(a, 0, 10, GZ_RANGE_WRITER, &counts));
    says("another's, until a moment that has passed",
         gz_range_acquire_until_counted(b, 3, 4, GZ_RANGE_WRITER, &moment, &counts));
    says("the same of no range", gz_range_acquire_until_counted(b, 4, 4, GZ_RANGE_WRITER, &moment, &counts));
    gz_range_count(&counts, GZ_RANGE_HAS_ONE);
    gz_range_count(NULL, GZ_RANGE_BUSY);
    printf("    tries %" PRIu64 ", refused as BUSY %" PRIu64 ", waits %" PRIu64 ", sleeps %" PRIu64 "\n", counts.tries,
           counts.refused[GZ_RANGE_BUSY], counts.waits, counts.sleeps);
    clock_gettime(CLOCK_MONOTONIC, &moment);
    moment.tv_sec += moment.tv_nsec >= 998000000;
    moment.tv_nsec = (moment.tv_nsec + 2000000) % 1000000000;
    says("another's, for 2 ms", gz_range_acquire_until_counted(b, 3, 4, GZ_RANGE_WRITER, &moment, &counts));
    printf("    each try but the first refused: %s; a wait or a sleep between two, but once: %s\n",
           counts.tries == counts.refused[GZ_RANGE_BUSY] + 1 ? "yes" : "no",
           counts.tries - counts.waits - counts.sleeps - 3 <= 1 ? "yes" : "no");
    says("release", gz_range_release(a));
}

static void words_of(gz_range *a) {
    uint64_t value = 0;
    says("load of word 1", gz_range_load(a, 1, &value));
    printf("    found %" PRIu64 "\n", value);
    says("load of word 2 of 2", gz_range_load(a, 2, &value));
    says("store of 2^64 - 1 in word 0", gz_range_store(a, 0, UINT64_MAX));
    says("store in word 2 of 2", gz_range_store(a, 2, 1));
    says("add of 3", gz_range_add(a, 0, 3, &value));
    printf("    found %" PRIu64 "\n", value);
    says("add to word 2 of 2", gz_range_add(a, 2, 3, &value));
    value = 4;
    says("exchange of 4", gz_range_exchange(a, 0, &value, 9));
    printf("    found %" PRIu64 "\n", value);
    says("exchange of what was found", gz_range_exchange(a, 0, &value, 9));
    printf("    found %" PRIu64 "\n", value);
    says("exchange in word 2 of 2", gz_range_exchange(a, 2, &value, 9));
    says("load of word 0", gz_range_load(a, 0, &value));
    printf("    found %" PRIu64 "\n", value);
}

/* A handle isn't put in the place of another one, or of itself, while it is open. */
static void endings(gz_range *a, gz_range *b) {
    gz_busy busy;
    says("end with an open handle to put there", gz_range_end(b, *a));
    looks("what it holds", b);
    says("end with itself to put there", gz_range_end(a, *a));
    says("try of what another holds", gz_range_try(a, 3, 4, GZ_RANGE_WRITER, 1, &busy));
    shows(&busy);
}

/* What a caller waits that looks six times. */
static void pauses(void) {
    uint32_t turns = 0;
    for (int i = 0; i < 6; i++) {
        bool longest = gz_range_pause(&turns);
        printf("    a pause, one of the longest: %s; the next is of %u turns\n", longest ? "yes" : "no", turns);
    }
}

int main(void) {
    const uint64_t words[2] = { 7, 8 };
    gz_range a = GZ_RANGE_CLOSED, b = GZ_RANGE_CLOSED;
    gz_busy busy;
    names();
    closed_handles();
    openings();
    regions();
    who_has_what();
    says("open", gz_range_open(2, words, 2, &a));
    says("share", gz_range_share(&a, &b));
    counts_of(&a, &b);
    ranges(&a, &b);
    words_of(&a);
    endings(&a, &b);
    pauses();
    says("close of the other", gz_range_close(&b));
    says("try of it when the other is closed", gz_range_try(&a, 3, 4, GZ_RANGE_WRITER, 1, &busy));
    says("close", gz_range_close(&a));
    says("close once more", gz_range_close(&a));
    return 0;
}
