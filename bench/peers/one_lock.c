/* One pthread_mutex or one pthread_rwlock over all slots, as a program has it that never thought of ranges. And no lock
   at all: it doesn't exclude, and is the floor of what the loop around a lock takes. Built with -DFLOOR_EXCLUDES=true it
   says that it does, so that it can be seen to be found out. */
#include "peer.h"

#include <pthread.h>

#ifndef FLOOR_EXCLUDES
#define FLOOR_EXCLUDES false
#endif

static _Alignas(64) pthread_mutex_t mutex;
static _Alignas(64) pthread_rwlock_t rwlock;

static void open_mutex(unsigned threads, uint64_t slots, unsigned regions) {
    (void)threads, (void)slots, (void)regions;
    pthread_mutex_init(&mutex, NULL);
}

static void take_mutex(unsigned thread, uint64_t lo, uint64_t hi, bool writer) {
    (void)thread, (void)lo, (void)hi, (void)writer;
    pthread_mutex_lock(&mutex);
}

static void give_back_mutex(unsigned thread, uint64_t lo, uint64_t hi, bool writer) {
    (void)thread, (void)lo, (void)hi, (void)writer;
    pthread_mutex_unlock(&mutex);
}

static void close_mutex(void) { pthread_mutex_destroy(&mutex); }

static void open_rwlock(unsigned threads, uint64_t slots, unsigned regions) {
    (void)threads, (void)slots, (void)regions;
    pthread_rwlock_init(&rwlock, NULL);
}

static void take_rwlock(unsigned thread, uint64_t lo, uint64_t hi, bool writer) {
    (void)thread, (void)lo, (void)hi;
    if (writer) pthread_rwlock_wrlock(&rwlock);
    else pthread_rwlock_rdlock(&rwlock);
}

static void give_back_rwlock(unsigned thread, uint64_t lo, uint64_t hi, bool writer) {
    (void)thread, (void)lo, (void)hi, (void)writer;
    pthread_rwlock_unlock(&rwlock);
}

static void close_rwlock(void) { pthread_rwlock_destroy(&rwlock); }

static void open_nothing(unsigned threads, uint64_t slots, unsigned regions) {
    (void)threads, (void)slots, (void)regions;
}

static void do_nothing(unsigned thread, uint64_t lo, uint64_t hi, bool writer) {
    (void)thread, (void)lo, (void)hi, (void)writer;
}

static void close_nothing(void) {}

const peer one_mutex = { "pthread_mutex", true, open_mutex, take_mutex, give_back_mutex, close_mutex };
const peer one_rwlock = { "pthread_rwlock", true, open_rwlock, take_rwlock, give_back_rwlock, close_rwlock };
const peer no_lock = { "no lock", FLOOR_EXCLUDES, open_nothing, do_nothing, do_nothing, close_nothing };
