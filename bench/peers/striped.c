/* 64 mutexes, of which a slot has one by its number modulo 64: what programs have whose data are single slots. A range
   takes the mutex of each of its slots once, in rising order, so that no two threads wait for each other in a circle; a
   range of 64 slots and more takes them all. A mutex knows no readers. */
#include "peer.h"

#include <pthread.h>

enum { STRIPES = 64 };

static struct stripe {
    _Alignas(64) pthread_mutex_t mutex;
} stripes[STRIPES];

static void open_stripes(unsigned threads, uint64_t slots, unsigned regions) {
    (void)threads, (void)slots, (void)regions;
    for (int i = 0; i < STRIPES; i++) pthread_mutex_init(&stripes[i].mutex, NULL);
}

/* Whether a range has a slot of the stripe. */
static bool has_of(uint64_t lo, uint64_t hi, uint64_t stripe) { return lo + (stripe - lo) % STRIPES < hi; }

static void take(unsigned thread, uint64_t lo, uint64_t hi, bool writer) {
    (void)thread, (void)writer;
    if (hi - lo == 1) {
        pthread_mutex_lock(&stripes[lo % STRIPES].mutex);
        return;
    }
    for (uint64_t i = 0; i < STRIPES; i++)
        if (has_of(lo, hi, i)) pthread_mutex_lock(&stripes[i].mutex);
}

static void give_back(unsigned thread, uint64_t lo, uint64_t hi, bool writer) {
    (void)thread, (void)writer;
    if (hi - lo == 1) {
        pthread_mutex_unlock(&stripes[lo % STRIPES].mutex);
        return;
    }
    for (uint64_t i = 0; i < STRIPES; i++)
        if (has_of(lo, hi, i)) pthread_mutex_unlock(&stripes[i].mutex);
}

static void close_stripes(void) {
    for (int i = 0; i < STRIPES; i++) pthread_mutex_destroy(&stripes[i].mutex);
}

const peer striped = { "64 mutexes", true, open_stripes, take, give_back, close_stripes };
