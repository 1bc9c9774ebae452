/* A pool of more threads than seats. Each thread shares a handle when it begins, by the pool's own, and closes it when
   it ends; its seat is free then, and a thread that waits for one gets it. The pool's handle is in one call at a time,
   so shares are made under a mutex; a close needs none. Forty threads of sixteen seats count so in cells, each with a
   seat that no other thread has meanwhile. What is printed is the same whatever the threads' schedule is. */
#include "gz_range.h"

#include <pthread.h>
#include <stdio.h>

enum { SEATS = 16, THREADS = 40, TURNS = 500, CELLS = 8 };

static struct {
    pthread_mutex_t mutex;
    pthread_cond_t returned;
    gz_range handle;
    unsigned closed;  /* how many handles were closed */
    unsigned refused; /* answers that were not DONE */
} pool = { .mutex = PTHREAD_MUTEX_INITIALIZER, .returned = PTHREAD_COND_INITIALIZER, .handle = GZ_RANGE_CLOSED };

static uint64_t cells[CELLS];
static unsigned users[SEATS]; /* how many threads have the seat of that number: one or none */

/* Opens a handle that is closed. Waits as long as no seat is free. */
static void take_seat(gz_range *handle) {
    pthread_mutex_lock(&pool.mutex);
    gz_range_answer answer;
    while ((answer = gz_range_share(&pool.handle, handle)) == GZ_RANGE_NONE_LEFT)
        pthread_cond_wait(&pool.returned, &pool.mutex);
    if (answer) pool.refused++;
    pthread_mutex_unlock(&pool.mutex);
}

/* Closes a handle, and wakes a thread that waits for its seat. */
static void give_seat(gz_range *handle, unsigned failed) {
    if (gz_range_close(handle)) failed++;
    pthread_mutex_lock(&pool.mutex);
    pool.closed++;
    pool.refused += failed;
    pthread_cond_signal(&pool.returned);
    pthread_mutex_unlock(&pool.mutex);
}

static void *work(void *argument) {
    unsigned number = *(unsigned *)argument, failed = 0;
    gz_range handle = GZ_RANGE_CLOSED;
    gz_busy own;
    take_seat(&handle);
    if (gz_range_held(&handle, &own) != GZ_RANGE_HAS_NONE || own.owner >= SEATS) failed++;
    if (__atomic_fetch_add(&users[own.owner], 1, __ATOMIC_SEQ_CST)) failed++;
    for (unsigned turn = 0; turn < TURNS; turn++) {
        uint64_t cell = (turn + number) % (CELLS - 1);
        if (gz_range_acquire(&handle, cell, cell + 2, GZ_RANGE_WRITER)) failed++;
        cells[cell]++, cells[cell + 1]++;
        if (turn + 1 < TURNS && gz_range_release(&handle)) failed++;
    }
    __atomic_fetch_sub(&users[own.owner], 1, __ATOMIC_SEQ_CST);
    give_seat(&handle, failed); /* the range of the last turn is given back with the seat */
    return NULL;
}

int main(void) {
    static pthread_t threads[THREADS];
    static unsigned numbers[THREADS];
    if (gz_range_open_plain(SEATS, &pool.handle)) return 1;
    for (unsigned i = 0; i < THREADS; i++) {
        numbers[i] = i;
        if (pthread_create(&threads[i], NULL, work, &numbers[i])) return 1;
    }
    for (unsigned i = 0; i < THREADS; i++) pthread_join(threads[i], NULL);
    gz_range all[SEATS] = { GZ_RANGE_CLOSED };
    unsigned again = 0;
    while (again < SEATS && gz_range_share(&pool.handle, &all[again]) == GZ_RANGE_DONE) again++;
    for (unsigned i = 0; i < again; i++)
        if (gz_range_close(&all[i])) return 1;
    if (gz_range_close(&pool.handle)) return 1;
    uint64_t sum = 0;
    for (int i = 0; i < CELLS; i++) sum += cells[i];
    printf("%d threads by %d seats counted: %lu of %d, calls that were refused: %u\n", THREADS, SEATS,
           (unsigned long)sum, THREADS * TURNS * 2, pool.refused);
    printf("handles that were closed: %u, seats that are free then: %u\n", pool.closed, again);
    return 0;
}
