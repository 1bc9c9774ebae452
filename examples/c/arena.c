/* An allocator of arenas: each thread has an arena in a part of the addresses of its own, which it makes longer, makes
   shorter and discards as it goes. A space of gz_space.h says which pages belong to an arena, and the kernel gives them
   memory. So any thread may ask whether an address is one that an arena has, as a collector of garbage does for each
   word that may be a pointer: that is a fault on the page, which holds nothing but it, beside all growth elsewhere.

   The space is cut into regions, a block of pages for each thread. Faults in different arenas then meet nowhere.

   Each change is made while the space holds it. So a thread that holds a page of another's arena by a fault reads it
   safely: its owner's discard waits until it is done. Each word of an arena says whose it is. */
#define _GNU_SOURCE
#include "gz_space.h"

#include <inttypes.h>
#include <pthread.h>
#include <stdatomic.h>
#include <stdio.h>
#include <stdlib.h>
#include <sys/mman.h>

enum { PAGE = GZ_SPACE_PAGE, THREADS = 4, TURNS = 20000, LONGEST = 32, BITS = 8, BLOCK = 1 << BITS };

typedef struct arena {
    pthread_t thread;
    gz_space space;
    uint64_t number, random;
    char *start;                            /* where it begins: the first page of a block */
    uint64_t pages;                         /* how many it has now */
    uint64_t grown, cut, discarded, looked; /* what it did; looked: how many pages of others it read */
    uint64_t wrong;                         /* how often something wasn't as it has to be */
} arena;

static arena arenas[THREADS]; /* all 0, so each handle is closed */

static void must(bool well, const char *what) {
    if (well) return;
    perror(what);
    exit(1);
}

static void answered(gz_space_answer answer) {
    if (answer == GZ_SPACE_DONE) return;
    fprintf(stderr, "the address space: %s\n", gz_space_text(answer));
    exit(1);
}

/* xorshift64, by Marsaglia. */
static uint64_t drawn(arena *me, uint64_t below) {
    me->random ^= me->random << 13;
    me->random ^= me->random >> 7;
    me->random ^= me->random << 17;
    return (me->random >> 11) % below;
}

static _Atomic uint64_t *word(const arena *of, uint64_t page) { return (_Atomic uint64_t *)(of->start + page * PAGE); }

/* More pages at the end of the arena, which nobody else may have. */
static void grow(arena *me, uint64_t pages) {
    char *end = me->start + me->pages * PAGE;
    uint32_t prot = GZ_SPACE_READ | GZ_SPACE_WRITE, flags = GZ_SPACE_PRIVATE | GZ_SPACE_FIXED_NOREPLACE;
    gz_space_reply reply;
    answered(gz_space_map_held(&me->space, (uint64_t)end, pages * PAGE, prot, flags, &reply));
    if (reply.kind != GZ_SPACE_ADDRESS || reply.at != (uint64_t)end) me->wrong++;
    must(mprotect(end, pages * PAGE, PROT_READ | PROT_WRITE) == 0, "grow");
    answered(gz_space_done(&me->space));
    for (uint64_t page = me->pages; page < me->pages + pages; page++) {
        if (*word(me, page)) me->wrong++; /* it is fresh */
        *word(me, page) = me->number + 1;
    }
    me->pages += pages;
    me->grown++;
}

/* Fewer pages: the last ones have no memory any more. */
static void cut(arena *me, uint64_t pages) {
    char *from = me->start + pages * PAGE;
    uint64_t length = (me->pages - pages) * PAGE;
    gz_space_reply reply;
    answered(gz_space_unmap_held(&me->space, (uint64_t)from, length, &reply));
    if (reply.kind != GZ_SPACE_ZERO) me->wrong++;
    must(madvise(from, length, MADV_DONTNEED) == 0 && mprotect(from, length, PROT_NONE) == 0, "cut");
    answered(gz_space_done(&me->space));
    me->pages = pages;
}

/* Reads a word of a page that another arena may have. While the page is held nobody takes it away. */
static void look(arena *me) {
    const arena *other = &arenas[drawn(me, THREADS)];
    uint64_t page = drawn(me, LONGEST);
    gz_space_reply reply;
    answered(gz_space_fault_held(&me->space, (uint64_t)word(other, page), GZ_SPACE_READ, false, &reply));
    if (reply.kind == GZ_SPACE_GRANTED) {
        uint64_t found = *word(other, page);
        if (found != 0 && found != other->number + 1) me->wrong++;
        me->looked++;
    } else if (reply.kind != GZ_SPACE_MAPERR || (other == me && page < me->pages)) me->wrong++;
    answered(gz_space_done(&me->space));
}

static void *work(void *argument) {
    arena *me = argument;
    for (int turn = 0; turn < TURNS; turn++) {
        uint64_t what = drawn(me, 8);
        if (what < 3 && me->pages < LONGEST) {
            grow(me, 1 + drawn(me, LONGEST - me->pages));
        } else if (what == 3 && me->pages > 1) {
            cut(me, 1 + drawn(me, me->pages - 1)), me->cut++;
        } else if (what == 4 && me->pages > 0) {
            cut(me, 0), me->discarded++;
        } else look(me);
    }
    return NULL;
}

/* A fault at each page of the block, when nobody else is in a call: it says which pages the arena has. */
static uint64_t differing(arena *me) {
    uint64_t differ = 0;
    for (uint64_t page = 0; page < BLOCK; page++) {
        gz_space_reply reply;
        answered(gz_space_fault(&me->space, (uint64_t)word(me, page), GZ_SPACE_WRITE, &reply));
        if ((reply.kind == GZ_SPACE_GRANTED) != (page < me->pages)) differ++;
    }
    return differ;
}

int main(void) {
    /* One block more than there are threads, so that the first can begin where a block of the space does. */
    size_t block = (size_t)BLOCK * PAGE;
    char *all = mmap(NULL, (THREADS + 1) * block, PROT_NONE, MAP_PRIVATE | MAP_ANONYMOUS | MAP_NORESERVE, -1, 0);
    must(all != MAP_FAILED, "map");
    all += (block - (uint64_t)all % block) % block;
    for (uint64_t i = 0; i < THREADS; i++) {
        arenas[i].number = i, arenas[i].random = (i + 1) * 0x9e3779b97f4a7c15, arenas[i].start = all + i * block;
        answered(i == 0 ? gz_space_open(THREADS, THREADS, BITS, &arenas[0].space)
                        : gz_space_share(&arenas[0].space, &arenas[i].space));
    }
    for (int i = 0; i < THREADS; i++)
        must(pthread_create(&arenas[i].thread, NULL, work, &arenas[i]) == 0, "thread");
    for (int i = 0; i < THREADS; i++) pthread_join(arenas[i].thread, NULL);

    uint64_t wrong = 0, differ = 0;
    for (int i = 0; i < THREADS; i++) {
        arena *me = &arenas[i];
        fprintf(stderr, "arena %d: grown %" PRIu64 " times, cut %" PRIu64 ", discarded %" PRIu64, i, me->grown, me->cut,
                me->discarded);
        fprintf(stderr, "; pages of arenas read %" PRIu64 "\n", me->looked);
        wrong += me->wrong + (me->grown == 0) + (me->cut == 0) + (me->discarded == 0) + (me->looked == 0);
        differ += differing(me);
    }
    for (int i = 0; i < THREADS; i++) gz_space_close(&arenas[i].space);
    printf("arenas: %d, turns of each: %d, what was wrong: %lu\n", THREADS, TURNS, (unsigned long)wrong);
    printf("pages that the space has otherwise than the arenas: %lu\n", (unsigned long)differ);
    return wrong + differ != 0;
}
