/* Threads that count under ranges. Each turn a thread holds two neighbouring cells of eight as a writer and adds 1 to
   both, or holds all of them as a reader and adds them up twice: the two sums are the same, since no writer is inside.
   Each turn is counted in a client word too. What is printed is the same whatever the threads' schedule is. */
#include "gz_range.h"

#include <inttypes.h>
#include <pthread.h>
#include <stdio.h>

enum { THREADS = 4, TURNS = 20000, CELLS = 8 };

static volatile uint64_t cells[CELLS]; /* volatile, so that each reading is made */

typedef struct worker {
    pthread_t thread;
    gz_range handle;
    unsigned number;
    unsigned failed; /* answers that were not DONE */
    unsigned halves; /* sums that changed while they were read */
} worker;

static uint64_t sum(void) {
    uint64_t all = 0;
    for (int i = 0; i < CELLS; i++) all += cells[i];
    return all;
}

static void *work(void *argument) {
    worker *me = argument;
    for (unsigned turn = 0; turn < TURNS; turn++) {
        if (turn % 4 == 3) {
            if (gz_range_acquire(&me->handle, 0, CELLS, GZ_RANGE_READER)) me->failed++;
            if (sum() != sum()) me->halves++;
        } else {
            uint64_t cell = (turn + me->number) % (CELLS - 1);
            if (gz_range_acquire(&me->handle, cell, cell + 2, GZ_RANGE_WRITER)) me->failed++;
            cells[cell] = cells[cell] + 1;
            cells[cell + 1] = cells[cell + 1] + 1;
        }
        if (gz_range_release(&me->handle)) me->failed++;
        uint64_t before;
        if (gz_range_add(&me->handle, 0, 1, &before)) me->failed++;
    }
    return NULL;
}

int main(void) {
    const uint64_t words[1] = { 0 };
    static worker workers[THREADS]; /* all 0, so each handle is closed */
    for (unsigned i = 0; i < THREADS; i++) {
        workers[i].number = i;
        uint32_t answer = i == 0 ? gz_range_open(THREADS, words, 1, &workers[0].handle)
                                 : gz_range_share(&workers[0].handle, &workers[i].handle);
        if (answer != GZ_RANGE_DONE) return 1;
    }
    for (unsigned i = 0; i < THREADS; i++)
        if (pthread_create(&workers[i].thread, NULL, work, &workers[i])) return 1;
    unsigned failed = 0, halves = 0;
    for (unsigned i = 0; i < THREADS; i++) {
        pthread_join(workers[i].thread, NULL);
        failed += workers[i].failed;
        halves += workers[i].halves;
    }
    uint64_t turns = 0;
    if (gz_range_load(&workers[0].handle, 0, &turns)) failed++;
    printf("calls that were refused: %u\n", failed);
    printf("sums that changed while they were read: %u\n", halves);
    printf("counted in the cells: %" PRIu64 " of %d\n", sum(), THREADS * TURNS / 4 * 3 * 2);
    printf("counted in the client word: %" PRIu64 " of %d\n", turns, THREADS * TURNS);
    for (unsigned i = 0; i < THREADS; i++) gz_range_close(&workers[i].handle);
    return 0;
}
