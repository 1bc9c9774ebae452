/* What a pair of a try and a release costs from C beside a pair of pthread_mutex, on one thread: for each number of
   seats the least of 40 rounds of 20,000 pairs, the rounds of both taken in turns; first while the process has no
   other thread, then beside one that sleeps. Then the shortest and the longest wait that gz_range_pause makes, the
   least of 40 each. The command is in the crate's README. */
#include "gz_range.h"

#include <pthread.h>
#include <stdio.h>
#include <time.h>

enum { ROUNDS = 40, PAIRS = 20000 };

static double now(void) {
    struct timespec t;
    clock_gettime(CLOCK_MONOTONIC, &t);
    return (double)t.tv_sec * 1e9 + (double)t.tv_nsec;
}

static double of_mutex(pthread_mutex_t *mutex) {
    double start = now();
    for (int i = 0; i < PAIRS; i++) {
        pthread_mutex_lock(mutex);
        pthread_mutex_unlock(mutex);
    }
    return (now() - start) / PAIRS;
}

static double of_range(gz_range *handle) {
    gz_busy busy;
    double start = now();
    for (int i = 0; i < PAIRS; i++) {
        if (gz_range_try(handle, 0, 1, GZ_RANGE_WRITER, 1, &busy)) return -1;
        gz_range_release(handle);
    }
    return (now() - start) / PAIRS;
}

/* A thread that does nothing, for its presence alone. */
static void *sleeps(void *end) {
    pthread_mutex_lock(end);
    pthread_mutex_unlock(end);
    return NULL;
}

static int measure(const char *beside) {
    static const uint32_t seats[] = { 1, 2, 4, 16 };
    pthread_mutex_t mutex = PTHREAD_MUTEX_INITIALIZER;
    for (size_t k = 0; k < sizeof seats / sizeof *seats; k++) {
        gz_range handle = GZ_RANGE_CLOSED;
        if (gz_range_open_plain(seats[k], &handle)) return 1;
        double mutex_least = 1e18, range_least = 1e18;
        for (int round = 0; round < ROUNDS; round++) {
            double a = of_mutex(&mutex), b = of_range(&handle);
            if (a < mutex_least) mutex_least = a;
            if (b < range_least) range_least = b;
        }
        double ratio = range_least / mutex_least;
        printf("%2u seats%s: range %.1f ns, mutex %.1f ns, ratio %.2f\n", seats[k], beside, range_least, mutex_least, ratio);
        gz_range_close(&handle);
    }
    return 0;
}

/* A wait of so many turns of the processor's pause. */
static void measure_wait(uint32_t turns) {
    double least = 1e18;
    for (int round = 0; round < ROUNDS; round++) {
        uint32_t waited = turns;
        double start = now();
        gz_range_pause(&waited);
        double a = now() - start;
        if (a < least) least = a;
    }
    printf("a wait of %u turns: %.0f ns\n", turns, least);
}

int main(void) {
    measure_wait(1024);
    measure_wait(8192);
    if (measure("")) return 1;
    /* While a process has one thread the C library's mutex makes no locked instruction. */
    pthread_t thread;
    pthread_mutex_t end = PTHREAD_MUTEX_INITIALIZER;
    pthread_mutex_lock(&end);
    if (pthread_create(&thread, NULL, sleeps, &end)) return 1;
    int failed = measure(", a second thread asleep");
    pthread_mutex_unlock(&end);
    pthread_join(thread, NULL);
    return failed;
}
