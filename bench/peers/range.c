/* The range lock of this repository, by gz_range_acquire, with one list of all ranges, or with a list for each region of
   the slots. As many regions are asked for as suit the load; each is one block of slots. Where the header has
   gz_range_acquire_spinning, whose callers don't sleep, both stand here with it too. */
#include "gz_range.h"
#include "peer.h"

static gz_range handles[MOST_THREADS]; /* all 0, so each is closed */
static unsigned opened;

static void must_be_done(gz_range_answer answer) {
    if (answer == GZ_RANGE_DONE) return;
    fprintf(stderr, "the range lock: %s\n", gz_range_text(answer));
    exit(1);
}

static void share_all(unsigned threads) {
    opened = threads;
    for (unsigned i = 1; i < threads; i++) must_be_done(gz_range_share(&handles[0], &handles[i]));
}

static void open_list(unsigned threads, uint64_t slots, unsigned regions) {
    (void)slots, (void)regions;
    must_be_done(gz_range_open_plain(threads, &handles[0]));
    share_all(threads);
}

static void open_regions(unsigned threads, uint64_t slots, unsigned regions) {
    const uint64_t none = 0;
    unsigned bits = 0;
    while ((slots >> bits) > regions) bits++;
    must_be_done(gz_range_open_cut(threads, regions, bits, &none, 0, &handles[0]));
    share_all(threads);
}

static void take(unsigned thread, uint64_t lo, uint64_t hi, bool writer) {
    if (gz_range_acquire(&handles[thread], lo, hi, writer)) abort();
}

static void give_back(unsigned thread, uint64_t lo, uint64_t hi, bool writer) {
    (void)lo, (void)hi, (void)writer;
    gz_range_release(&handles[thread]);
}

static void close_all(void) {
    for (unsigned i = 0; i < opened; i++) gz_range_close(&handles[i]);
}

const peer range_list = { "range lock, one list", true, open_list, take, give_back, close_all };
const peer range_regions = { "range lock, regions", true, open_regions, take, give_back, close_all };

#ifdef HAS_SPINNING
static void take_spinning(unsigned thread, uint64_t lo, uint64_t hi, bool writer) {
    if (gz_range_acquire_spinning(&handles[thread], lo, hi, writer, NULL)) abort();
}

const peer spinning_list = { "spinning, one list", true, open_list, take_spinning, give_back, close_all };
const peer spinning_regions = { "spinning, regions", true, open_regions, take_spinning, give_back, close_all };
#endif
