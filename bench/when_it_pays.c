/* When a range lock pays: threads hold pages of 4096, drawn at random, while they work for a set time, without a pause
   between two holds. The work is a loop of multiplications, whose length is set once at the start, so it is processor
   time: with more threads than processors it takes longer by the clock.

       when_it_pays MILLISECONDS [anyway]       how long a round is

   It writes a line for each peer and load, separated by tabs: who holds what, threads, nanoseconds of work, the peer's
   name, thousand holds in a second of all threads together (the middle one of three rounds, the least and the greatest).
   Its status is as that of arrbench. The table of regions has 16, in blocks of 256 pages. */
#include "rounds.h"

#include <string.h>

static const peer *const peers[] = { &range_list, &range_regions, &one_mutex, &one_rwlock, &striped, &tree_shared,
                                     &fifo };
enum { PEERS = sizeof peers / sizeof *peers, PAGES = 4096, REGIONS = 16, DISTURBED = 75 };

static const struct mode {
    const char *name;
    unsigned readers, length;
} modes[] = { { "readers of a page", 100, 1 }, { "writers of a page", 0, 1 }, { "writers of 8 pages", 0, 8 } };
enum { MODES = sizeof modes / sizeof *modes };

static const unsigned counts[] = { 1, 2, 4, 16 }, works[] = { 0, 100, 300, 1000, 3000, 10000 };
enum { COUNTS = sizeof counts / sizeof *counts, WORKS = sizeof works / sizeof *works };

static void measure_one(const struct mode *mode, unsigned threads, unsigned work, double turns, long long nanoseconds) {
    load load = { .threads = threads, .slots = PAGES, .length = mode->length, .draw = SPAN, .readers = mode->readers,
                  .work = (uint64_t)(work * turns), .regions = REGIONS };
    outcome outcomes[PEERS];
    measure(peers, PEERS, &load, nanoseconds, outcomes);
    for (int p = 0; p < PEERS; p++)
        printf("%s\t%u\t%u\t%s\t%.1f\t%.1f\t%.1f\n", mode->name, threads, work, peers[p]->name, outcomes[p].rate / 1e3,
               outcomes[p].least_rate / 1e3, outcomes[p].most_rate / 1e3);
}

int main(int count, char **words) {
    long long nanoseconds = count >= 2 ? atoll(words[1]) * 1000000 : 0;
    bool anyway = count == 3 && strcmp(words[2], "anyway") == 0, disturbed = false;
    if (nanoseconds <= 0 || count > 2 + anyway) {
        fprintf(stderr, "usage: when_it_pays MILLISECONDS [anyway]\n");
        return 2;
    }
    bool looks = nanoseconds > 1000000;
    double turns = turns_each();
    for (int c = 0; c < COUNTS; c++) {
        if (looks && is_disturbed()) disturbed = true;
        if (disturbed && !anyway) return DISTURBED;
        for (int m = 0; m < MODES; m++)
            for (int w = 0; w < WORKS; w++) measure_one(&modes[m], counts[c], works[w], turns, nanoseconds);
    }
    return disturbed || (looks && is_disturbed()) ? DISTURBED : 0;
}
