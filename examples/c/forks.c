/* A process that forks beside threads which hold ranges, as an allocator's does. A child has copies of the tables and none
   of the threads, so a range that another thread held at the fork stays held there for ever. The child therefore forgets
   its handles, and opens a table of its own; here by pthread_atfork(3), whose functions each fork calls. A child that
   only calls one of the exec functions needs none of it.

   What the child may do is what malloc may do there: with glibc all, where the process forked by fork(2).
   What is printed is the same whatever the threads' schedule is. */
#define _GNU_SOURCE
#include "gz_range.h"

#include <pthread.h>
#include <stdatomic.h>
#include <stdio.h>
#include <stdlib.h>
#include <sys/wait.h>
#include <unistd.h>

enum { THREADS = 3, FORKS = 200, CELLS = 8 };

static gz_range handles[THREADS + 1]; /* all 0, so each handle is closed; the last one is main's */
static atomic_bool ended;
static atomic_uint failed, turns;

/* Opens a table with a handle for each thread. */
static bool open_all(void) {
    if (gz_range_open_plain(THREADS + 1, &handles[THREADS])) return false;
    for (int i = 0; i < THREADS; i++)
        if (gz_range_share(&handles[THREADS], &handles[i])) return false;
    return true;
}

/* In the child: the parent's table is left as it was at the fork, and a new one takes its place. */
static void begin_anew(void) {
    for (int i = 0; i <= THREADS; i++) {
        gz_range_forget(&handles[i]);
        if (gz_range_release(&handles[i]) != GZ_RANGE_IS_CLOSED) _exit(3);
    }
    if (!open_all()) _exit(2);
}

static void *work(void *argument) {
    gz_range *mine = argument;
    for (unsigned turn = 0; !atomic_load(&ended); turn++) {
        uint64_t cell = turn % (CELLS - 1);
        if (gz_range_acquire(mine, cell, cell + 2, GZ_RANGE_WRITER)) atomic_fetch_add(&failed, 1);
        if (gz_range_release(mine)) atomic_fetch_add(&failed, 1);
        atomic_fetch_add(&turns, 1);
    }
    return NULL;
}

/* What a child does: each of its handles holds what another thread may have held at the fork. It ends with 0 if no call
   was refused. */
static int child(void) {
    for (int i = 0; i <= THREADS; i++)
        if (gz_range_try_plain(&handles[i], 2 * i, 2 * i + 2, GZ_RANGE_WRITER, 4)) return 1;
    for (int i = 0; i <= THREADS; i++)
        if (gz_range_close(&handles[i])) return 1;
    return 0;
}

int main(void) {
    pthread_t threads[THREADS];
    if (!open_all() || pthread_atfork(NULL, NULL, begin_anew)) return 1;
    for (int i = 0; i < THREADS; i++)
        if (pthread_create(&threads[i], NULL, work, &handles[i])) return 1;
    while (atomic_load(&turns) < 1000) sched_yield();
    int well = 0;
    for (int i = 0; i < FORKS; i++) {
        int status;
        pid_t made = fork();
        if (made == 0) _exit(child());
        if (made > 0 && waitpid(made, &status, 0) == made && WIFEXITED(status) && WEXITSTATUS(status) == 0) well++;
    }
    atomic_store(&ended, true);
    for (int i = 0; i < THREADS; i++) pthread_join(threads[i], NULL);
    printf("children that ended well: %d of %d\n", well, FORKS);
    printf("calls of the parent that were refused: %u\n", atomic_load(&failed));
    for (int i = 0; i <= THREADS; i++) gz_range_close(&handles[i]);
    return 0;
}
