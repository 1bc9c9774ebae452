/* A peer is one way to hold ranges of slots: what arrbench and when_it_pays measure. Each stands in a file of its own,
   whose comment says what it is. A thread has a number from 0 on, and holds one range at a time. */
#ifndef PEER_H
#define PEER_H

#include <sched.h>
#include <stdbool.h>
#include <stdint.h>
#include <stdio.h>
#include <stdlib.h>

#ifdef __cplusplus
extern "C" {
#endif

enum { MOST_THREADS = 16 };

typedef struct peer {
    const char *name;
    bool excludes; /* whether no range is held in conflict with another one; false of the floor alone */
    /* Opens it for so many threads and slots; regions is how many the slots are to be cut into, of use to one peer. */
    void (*open)(unsigned threads, uint64_t slots, unsigned regions);
    /* Holds the slots from lo on and below hi, and gives them back. */
    void (*take)(unsigned thread, uint64_t lo, uint64_t hi, bool writer);
    void (*give_back)(unsigned thread, uint64_t lo, uint64_t hi, bool writer);
    void (*close)(void);
} peer;

extern const peer range_list, range_regions, one_mutex, one_rwlock, striped, rwlocks_16, rwlocks_256, tree_shared,
    tree_exclusive, fifo, record_locks, no_lock, absl_btree, interval_map, spinning_list, spinning_regions;

/* Ends the program where a call of the system failed. */
static inline void must(bool well, const char *what) {
    if (well) return;
    perror(what);
    exit(1);
}

/* A turn of a thread that waits: at first it stays on its processor, and after a hundred turns it lets others run. */
static inline void wait_a_turn(unsigned *turns) {
    if (++*turns < 100) __builtin_ia32_pause();
    else sched_yield();
}

#ifdef __cplusplus
}
#endif

#endif
