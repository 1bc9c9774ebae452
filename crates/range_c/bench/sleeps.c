/* What waiting costs: threads that hold ranges for a while again and again, asleep or spinning while they wait. It
   prints for each way the turns, the processor time that went into gz_range_acquire and the release, by getrusage(2) of
   each thread, for each turn, and the longest wait; and last how many times less the first takes.

       sleeps [THREADS [NANOSECONDS [MILLISECONDS [CELLS]]]]

   16 threads hold for 100,000 ns each, for 2,000 ms, all of one cell, as writers. */
#define _GNU_SOURCE
#include "gz_range.h"

#include <pthread.h>
#include <stdio.h>
#include <stdlib.h>
#include <sys/resource.h>

static unsigned threads = 16, cells = 1;
static long long hold = 100000, time_of_run = 2000;
static bool spinning;
static long long ends;
static gz_range handles[GZ_RANGE_MOST_SEATS];

typedef struct met {
    long long used, longest;
    unsigned long turns;
} met;

static long long now(void) {
    struct timespec t;
    clock_gettime(CLOCK_MONOTONIC, &t);
    return t.tv_sec * 1000000000ll + t.tv_nsec;
}

static long long used(void) {
    struct rusage u;
    getrusage(RUSAGE_THREAD, &u);
    return (u.ru_utime.tv_sec + u.ru_stime.tv_sec) * 1000000000ll + (u.ru_utime.tv_usec + u.ru_stime.tv_usec) * 1000ll;
}

static void *work(void *argument) {
    met *me = argument;
    static unsigned numbers;
    const unsigned seat = __atomic_fetch_add(&numbers, 1, __ATOMIC_RELAXED) % threads;
    uint64_t drawn = seat + 1;
    long long holding = 0;
    while (now() < ends) {
        drawn = drawn * 6364136223846793005u + 1442695040888963407u;
        const uint64_t lo = (drawn >> 33) % cells;
        const long long begun = now();
        if (spinning ? gz_range_acquire_spinning(&handles[seat], lo, lo + 1, GZ_RANGE_WRITER, NULL)
                     : gz_range_acquire(&handles[seat], lo, lo + 1, GZ_RANGE_WRITER))
            exit(1);
        const long long held = now(), before = used();
        if (held - begun > me->longest) me->longest = held - begun;
        while (now() < held + hold) continue;
        holding += used() - before;
        if (gz_range_release(&handles[seat])) exit(1);
        me->turns++;
    }
    me->used = used() - holding;
    return NULL;
}

static double run(bool spins) {
    pthread_t all[GZ_RANGE_MOST_SEATS];
    met mets[GZ_RANGE_MOST_SEATS] = { 0 }, sum = { 0, 0, 0 };
    spinning = spins;
    ends = now() + time_of_run * 1000000;
    for (unsigned i = 0; i < threads; i++)
        if (pthread_create(&all[i], NULL, work, &mets[i])) exit(1);
    for (unsigned i = 0; i < threads; i++) {
        pthread_join(all[i], NULL);
        sum.used += mets[i].used;
        sum.turns += mets[i].turns;
        if (mets[i].longest > sum.longest) sum.longest = mets[i].longest;
    }
    const double each = (double)sum.used / 1000 / (double)(sum.turns ? sum.turns : 1);
    printf("%s: %lu turns, %.1f us of waiting's processor time each, longest wait %.1f ms\n",
           spins ? "spinning" : "asleep", sum.turns, each, (double)sum.longest / 1e6);
    return each;
}

int main(int count, char **words) {
    if (count > 1) threads = (unsigned)atoi(words[1]);
    if (count > 2) hold = atoll(words[2]);
    if (count > 3) time_of_run = atoll(words[3]);
    if (count > 4) cells = (unsigned)atoi(words[4]);
    if (gz_range_open_plain(threads, &handles[0])) return 1;
    for (unsigned i = 1; i < threads; i++)
        if (gz_range_share(&handles[0], &handles[i])) return 1;
    const double asleep = run(false), spun = run(true);
    printf("asleep takes %.3f of it\n", asleep / spun);
    for (unsigned i = 0; i < threads; i++) gz_range_close(&handles[i]);
    return 0;
}
