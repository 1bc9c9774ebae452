/* 16 or 256 rwlocks, of which each has a segment of neighbouring slots; a range takes those of all segments that it
   touches, in rising order. It is the way in which pNOVA locks a file (Kim et al., APSys 2019), and what the paper on
   range locks compares with (Kogan, Dice and Issa, EuroSys 2020). */
#include "peer.h"

#include <pthread.h>

enum { MOST_SEGMENTS = 256 };

static struct segment {
    _Alignas(64) pthread_rwlock_t rwlock;
} segments[MOST_SEGMENTS];

static uint64_t count, slots_each;

static void open_segments(uint64_t slots, unsigned wanted) {
    count = wanted;
    slots_each = (slots + wanted - 1) / wanted;
    for (uint64_t i = 0; i < count; i++) pthread_rwlock_init(&segments[i].rwlock, NULL);
}

static void open_16(unsigned threads, uint64_t slots, unsigned regions) {
    (void)threads, (void)regions;
    open_segments(slots, 16);
}

static void open_256(unsigned threads, uint64_t slots, unsigned regions) {
    (void)threads, (void)regions;
    open_segments(slots, 256);
}

static void take(unsigned thread, uint64_t lo, uint64_t hi, bool writer) {
    (void)thread;
    for (uint64_t i = lo / slots_each; i <= (hi - 1) / slots_each; i++)
        if (writer) pthread_rwlock_wrlock(&segments[i].rwlock);
        else pthread_rwlock_rdlock(&segments[i].rwlock);
}

static void give_back(unsigned thread, uint64_t lo, uint64_t hi, bool writer) {
    (void)thread, (void)writer;
    for (uint64_t i = lo / slots_each; i <= (hi - 1) / slots_each; i++) pthread_rwlock_unlock(&segments[i].rwlock);
}

static void close_segments(void) {
    for (uint64_t i = 0; i < count; i++) pthread_rwlock_destroy(&segments[i].rwlock);
}

const peer rwlocks_16 = { "16 rwlocks", true, open_16, take, give_back, close_segments };
const peer rwlocks_256 = { "256 rwlocks", true, open_256, take, give_back, close_segments };
