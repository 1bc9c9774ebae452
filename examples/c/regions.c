/* Two threads over a table of seven regions. Each first holds a range of its own region, and gives it back only once
   the other one holds one too, so that both are held at once. Then each counts in its own cell under ranges of its
   region, and in both cells under ranges of both regions. What is printed is the same whatever their schedule is. */
#include "gz_range.h"

#include <inttypes.h>
#include <pthread.h>
#include <stdio.h>

enum { REGIONS = 7, BITS = 16, BLOCK = 1 << BITS, THREADS = 2, TURNS = 20000 };

static volatile uint64_t cells[THREADS]; /* volatile, so that each addition is made */

typedef struct worker {
    pthread_t thread;
    gz_range handle;
    unsigned number;
    unsigned failed; /* answers that were not DONE */
} worker;

static void hold_beside_the_other(worker *me, uint64_t lo) {
    uint64_t holding;
    if (gz_range_acquire(&me->handle, lo, lo + 10, GZ_RANGE_WRITER)) me->failed++;
    if (gz_range_add(&me->handle, 0, 1, &holding)) me->failed++;
    do {
        sched_yield();
        if (gz_range_load(&me->handle, 0, &holding)) me->failed++;
    } while (holding < THREADS && me->failed == 0);
    if (gz_range_release(&me->handle)) me->failed++;
}

static void *work(void *argument) {
    worker *me = argument;
    uint64_t lo = (uint64_t)me->number * BLOCK; /* the first block is of one region, the next one of another */
    hold_beside_the_other(me, lo);
    for (unsigned turn = 0; turn < TURNS; turn++) {
        bool both = turn % 4 == 3;
        uint64_t first = both ? 0 : lo, end = both ? THREADS * BLOCK : lo + 10;
        if (gz_range_acquire(&me->handle, first, end, GZ_RANGE_WRITER)) me->failed++;
        for (unsigned cell = 0; cell < THREADS; cell++)
            if (both || cell == me->number) cells[cell] = cells[cell] + 1;
        if (gz_range_release(&me->handle)) me->failed++;
    }
    return NULL;
}

int main(void) {
    const uint64_t words[1] = { 0 };
    static worker workers[THREADS]; /* all 0, so each handle is closed */
    for (unsigned i = 0; i < THREADS; i++) {
        workers[i].number = i;
        uint32_t answer = i == 0 ? gz_range_open_cut(THREADS, REGIONS, BITS, words, 1, &workers[0].handle)
                                 : gz_range_share(&workers[0].handle, &workers[i].handle);
        if (answer != GZ_RANGE_DONE) return 1;
    }
    for (unsigned i = 0; i < THREADS; i++)
        if (pthread_create(&workers[i].thread, NULL, work, &workers[i])) return 1;
    unsigned failed = 0;
    for (unsigned i = 0; i < THREADS; i++) {
        pthread_join(workers[i].thread, NULL);
        failed += workers[i].failed;
    }
    uint64_t holding = 0;
    if (gz_range_load(&workers[0].handle, 0, &holding)) failed++;
    printf("calls that were refused: %u\n", failed);
    printf("ranges that were held at once: %" PRIu64 "\n", holding);
    for (unsigned i = 0; i < THREADS; i++)
        printf("counted in cell %u: %" PRIu64 " of %d\n", i, cells[i], TURNS / 4 * 3 + THREADS * TURNS / 4);
    for (unsigned i = 0; i < THREADS; i++) gz_range_close(&workers[i].handle);
    return 0;
}
