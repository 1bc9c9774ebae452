/* What a fault costs from C on the address space: threads fault in arenas of their own, on areas and pages as those of
   `bench_space arenas` on a space that keeps no history, with one list and in seven regions; the least of 4 rounds of
   260,000 faults each. A round's time has the start and the end of its threads in it. */
#include "gz_space.h"

#include <pthread.h>
#include <stdio.h>
#include <time.h>

enum { ROUNDS = 4, FAULTS = 260000, MOST = 4 };
static const uint64_t ARENA = 65536;

typedef struct worker {
    _Alignas(64) pthread_t thread;
    gz_space space;
    unsigned number;
    int failed;
} worker;

static worker workers[MOST];

static double now(void) {
    struct timespec t;
    clock_gettime(CLOCK_MONOTONIC, &t);
    return (double)t.tv_sec * 1e9 + (double)t.tv_nsec;
}

static void *fault_turns(void *argument) {
    worker *me = argument;
    gz_space_reply reply;
    for (uint64_t turn = 0; turn < FAULTS; turn++) {
        uint64_t page = me->number * ARENA + turn * 13 % 60000;
        if (gz_space_fault(&me->space, page * GZ_SPACE_PAGE, GZ_SPACE_READ, &reply)) me->failed = 1;
    }
    return NULL;
}

/* Eight areas in each of four arenas. */
static int map_areas(gz_space *space) {
    gz_space_reply reply;
    for (uint64_t i = 0; i < 32; i++) {
        uint64_t addr = i * (ARENA / 8) * GZ_SPACE_PAGE, len = ARENA / 16 * GZ_SPACE_PAGE;
        if (gz_space_map(space, addr, len, GZ_SPACE_READ, GZ_SPACE_PRIVATE | GZ_SPACE_FIXED, &reply) ||
            reply.kind != GZ_SPACE_ADDRESS)
            return 1;
    }
    return 0;
}

static double round_of(unsigned threads, unsigned regions) {
    for (unsigned i = 0; i < threads; i++) workers[i] = (worker){ .space = GZ_SPACE_CLOSED, .number = i };
    if (gz_space_open(threads, regions, regions > 1 ? 16 : 0, &workers[0].space)) return -1;
    for (unsigned i = 1; i < threads; i++)
        if (gz_space_share(&workers[0].space, &workers[i].space)) return -1;
    if (map_areas(&workers[0].space)) return -1;
    double start = now();
    for (unsigned i = 0; i < threads; i++)
        if (pthread_create(&workers[i].thread, NULL, fault_turns, &workers[i])) return -1;
    int failed = 0;
    for (unsigned i = 0; i < threads; i++) {
        pthread_join(workers[i].thread, NULL);
        failed |= workers[i].failed;
    }
    double took = now() - start;
    for (unsigned i = 0; i < threads; i++) gz_space_close(&workers[i].space);
    return failed ? -1 : took;
}

int main(void) {
    static const struct { unsigned regions; const char *name; } lists[] = { { 7, "7 regions" }, { 1, "one list" } };
    for (unsigned threads = 1; threads <= MOST; threads *= 2)
        for (int l = 0; l < 2; l++) {
            double least = 1e18;
            for (int round = 0; round < ROUNDS; round++) {
                double took = round_of(threads, lists[l].regions);
                if (took < 0) return 1;
                if (took < least) least = took;
            }
            printf("a fault in an arena of one's own, %s, threads %u: %.1f ns\n", lists[l].name, threads,
                   least / FAULTS / threads);
        }
    return 0;
}
