/* The benchmark of the paper on range locks (Kogan, Dice and Issa, "Scalable range locks for scalable address spaces and
   beyond", EuroSys 2020), with our own peers: threads hold ranges of 256 slots, which lie on lines of memory of their
   own. A reader looks at each slot of its range and a writer adds 1 to each. Ranges are full, disjoint (each thread has
   its part) or random; of 100 turns 100, 60 or 0 are readers'; between two turns a thread makes 0 to 2,047 empty turns.

       arrbench MILLISECONDS [anyway]       how long a round is
       arrbench MILLISECONDS waits          the range lock and the mutex on 4 threads alone, whose waits long rounds show
       arrbench MILLISECONDS full|random    one list of the range lock on 4 threads alone, for a profile
       arrbench MILLISECONDS wide           a wide caller of 4096 slots beside seven writers of one slot, for 1 us each
       arrbench MILLISECONDS crowd          random ranges, for 1 us each, by threads twice and four times the processors

   It writes a line for each peer and load, separated by tabs: the kind of range, readers in 100, threads, the peer's
   name, million turns in a second (the middle one of three rounds), the least share of a thread in hundredths of an even
   one (of three rounds), the longest single wait in microseconds (of three rounds) and the mean one, and the turns of the
   slowest round and of the fastest. It ends with status
   1 where a peer didn't exclude. Where other work disturbs the machine it ends with status 75, at once, or behind all
   lines with a second word; rounds of 1 ms, to try the peers, are measured whatever disturbs them. Of `wide` the sixth
   to eighth column are of the wide caller: thousand turns in a second, the longest wait and the mean one. */
#define _GNU_SOURCE
#include "rounds.h"

#include <string.h>

static const peer *const peers[] = { &range_list,  &range_regions,  &one_mutex,    &one_rwlock, &striped, &rwlocks_16,
                                     &rwlocks_256, &tree_shared, &tree_exclusive, &fifo, &record_locks,
                                     &no_lock };
static const peer *const waiters[] = { &range_list, &range_regions,
#ifdef HAS_SPINNING
                                       &spinning_list, &spinning_regions,
#endif
                                       &one_mutex, &one_rwlock, &tree_shared, &fifo,
#ifdef HAS_ABSL
                                       &absl_btree,
#endif
#ifdef HAS_BOOST
                                       &interval_map,
#endif
};
enum { WAITING_PEERS = sizeof waiters / sizeof *waiters };
enum { PEERS = sizeof peers / sizeof *peers, WAITERS = 3, SLOTS = 256, BETWEEN = 2048, DISTURBED = 75 };

static const char *const kinds[] = { [FULL] = "full", [DISJOINT] = "disjoint", [RANDOM] = "random" };
static const unsigned counts[] = { 1, 2, 4, 16 }, readers[] = { 100, 60, 0 };

static void measure_one(unsigned count, draw draw, unsigned in_100, unsigned threads, long long nanoseconds) {
    load load = { .threads = threads, .slots = SLOTS, .draw = draw, .readers = in_100, .between = BETWEEN,
                  .regions = threads, .waits = true };
    outcome outcomes[PEERS];
    measure(peers, count, &load, nanoseconds, outcomes);
    for (unsigned p = 0; p < count; p++)
        printf("%s\t%u\t%u\t%s\t%.3f\t%.0f\t%.0f\t%.1f\t%.3f\t%.3f\n", kinds[draw], in_100, threads, peers[p]->name,
               outcomes[p].rate / 1e6, outcomes[p].least_share, outcomes[p].longest_wait / 1e3, outcomes[p].mean_wait / 1e3,
               outcomes[p].least_rate / 1e6, outcomes[p].most_rate / 1e6);
}

/* Peers beside each other where threads hold their ranges for a microsecond. */
static void measure_waiting(const char *kind, const load *load, long long nanoseconds) {
    outcome outcomes[WAITING_PEERS];
    measure(waiters, WAITING_PEERS, load, nanoseconds, outcomes);
    for (unsigned p = 0; p < WAITING_PEERS; p++) {
        const outcome *o = &outcomes[p];
        bool wide = load->draw == WIDE;
        printf("%s\t%u\t%u\t%s\t%.3f\t%.1f\t%.0f\t%.1f\t%.3f\t%.3f\n", kind, load->readers, load->threads, waiters[p]->name,
               o->rate / 1e6, wide ? o->first_rate / 1e3 : o->least_share, (wide ? o->first_longest : o->longest_wait) / 1e3,
               (wide ? o->first_mean : o->mean_wait) / 1e3, o->least_rate / 1e6, o->most_rate / 1e6);
    }
}

static void measure_wide(long long nanoseconds) {
    load load = { .threads = 8, .slots = MOST_SLOTS, .length = 1, .draw = WIDE, .work = (uint64_t)(1000 * turns_each()),
                  .regions = 8, .step = 64, .waits = true };
    measure_waiting("wide", &load, nanoseconds);
}

static void measure_crowd(long long nanoseconds) {
    cpu_set_t all;
    unsigned processors = sched_getaffinity(0, sizeof all, &all) == 0 ? (unsigned)CPU_COUNT(&all) : 1;
    double turns = turns_each();
    for (unsigned times = 2; times <= 4; times *= 2)
        for (unsigned r = 1; r < sizeof readers / sizeof *readers; r++) {
            unsigned threads = times * processors;
            if (threads > MOST_THREADS) {
                fprintf(stderr, "crowd: not with %u threads, which are more than a table has seats\n", threads);
                break;
            }
            load load = { .threads = threads, .slots = SLOTS, .draw = RANDOM, .readers = readers[r],
                          .work = (uint64_t)(1000 * turns), .regions = 4, .waits = true };
            measure_waiting("crowd", &load, nanoseconds);
        }
}

int main(int count, char **words) {
    long long nanoseconds = count >= 2 ? atoll(words[1]) * 1000000 : 0;
    bool anyway = count == 3 && strcmp(words[2], "anyway") == 0, disturbed = false;
    bool waits = count == 3 && strcmp(words[2], "waits") == 0;
    bool full = count == 3 && strcmp(words[2], kinds[FULL]) == 0, drawn = count == 3 && strcmp(words[2], kinds[RANDOM]) == 0;
    bool wide = count == 3 && strcmp(words[2], "wide") == 0, crowd = count == 3 && strcmp(words[2], "crowd") == 0;
    if (nanoseconds <= 0 || count > 2 + (anyway || waits || full || drawn || wide || crowd)) {
        fprintf(stderr, "usage: arrbench MILLISECONDS [anyway|waits|full|random|wide|crowd]\n");
        return 2;
    }
    if (full || drawn) {
        measure_one(1, full ? FULL : RANDOM, 60, 4, nanoseconds);
        return 0;
    }
    bool looks = nanoseconds > 1000000;
    if (wide || crowd) {
        if (wide) measure_wide(nanoseconds);
        else measure_crowd(nanoseconds);
        return looks && is_disturbed() ? DISTURBED : 0;
    }
    if (waits) {
        measure_one(WAITERS, FULL, 60, 4, nanoseconds);
        measure_one(WAITERS, RANDOM, 60, 4, nanoseconds);
        return looks && is_disturbed() ? DISTURBED : 0;
    }
    for (unsigned c = 0; c < sizeof counts / sizeof *counts; c++) {
        if (looks && is_disturbed()) disturbed = true;
        if (disturbed && !anyway) return DISTURBED;
        for (draw draw = FULL; draw <= RANDOM; draw++)
            for (unsigned r = 0; r < sizeof readers / sizeof *readers; r++)
                measure_one(PEERS, draw, readers[r], counts[c], nanoseconds);
    }
    return disturbed || (looks && is_disturbed()) ? DISTURBED : 0;
}
