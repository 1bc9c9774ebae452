/* How many tries to ask for: threads hold ranges that never overlap, so each refusal comes of another thread's work in
   the list. For each number of threads and of tries in a call it prints how many calls of a hundred were refused, and
   what the refused ones answered. It takes some two seconds.

       examples/c/build out crates/range_c/bench/refusals.c && out/refusals */
#define _GNU_SOURCE
#include "gz_range.h"

#include <pthread.h>
#include <stdatomic.h>
#include <stdio.h>
#include <stdlib.h>

enum { MOST_THREADS = 8, CALLS = 20000 };

typedef struct worker {
    pthread_t thread;
    gz_range handle;
    unsigned number;
    unsigned long answers[GZ_RANGE_OTHER + 1];
} worker;

static uint32_t tries;
static unsigned threads;
static atomic_uint ready;

static void *work(void *argument) {
    worker *me = argument;
    ready++;
    while (ready < threads) sched_yield();
    for (int call = 0; call < CALLS; call++) {
        uint64_t lo = 10 * me->number;
        gz_range_answer answer = gz_range_try_plain(&me->handle, lo, lo + 10, GZ_RANGE_WRITER, tries);
        me->answers[answer]++;
        if (answer == GZ_RANGE_DONE) gz_range_release(&me->handle);
    }
    return NULL;
}

static void measure(unsigned count) {
    static worker workers[MOST_THREADS]; /* all 0, so each handle is closed */
    unsigned long sum[GZ_RANGE_OTHER + 1] = { 0 };
    ready = 0;
    threads = count;
    for (unsigned i = 0; i < count; i++) {
        workers[i] = (worker){ .number = i };
        if (i == 0 ? gz_range_open_plain(count, &workers[0].handle)
                   : gz_range_share(&workers[0].handle, &workers[i].handle))
            exit(1);
    }
    for (unsigned i = 0; i < count; i++)
        if (pthread_create(&workers[i].thread, NULL, work, &workers[i])) exit(1);
    for (unsigned i = 0; i < count; i++) {
        pthread_join(workers[i].thread, NULL);
        for (int a = 0; a <= GZ_RANGE_OTHER; a++) sum[a] += workers[i].answers[a];
        gz_range_close(&workers[i].handle);
    }
    double all = 0.01 * CALLS * count;
    printf("%u threads, %2u tries: refused %6.2f of 100 (BUSY %lu, AGAIN %lu, LONG %lu, NO_NODE %lu)\n", count, tries,
           100 - (double)sum[GZ_RANGE_DONE] / all, sum[GZ_RANGE_BUSY], sum[GZ_RANGE_AGAIN], sum[GZ_RANGE_LONG],
           sum[GZ_RANGE_NO_NODE]);
}

int main(void) {
    for (unsigned count = 1; count <= MOST_THREADS; count *= 2)
        for (tries = 1; tries <= 64; tries *= 4) measure(count);
    return 0;
}
