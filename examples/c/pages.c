/* An allocator of pages over one array. Its map has a byte for each page, which is 0 where the page is free. A run of
   free pages is looked at and taken under the range of exactly these pages, so callers in different parts of the array
   never wait for each other, and no byte of the map is touched but under a range that has its page in it. A run that
   was taken is its caller's alone, with no range held. What is printed is the same whatever the threads' schedule
   is. */
#include "gz_range.h"

#include <pthread.h>
#include <stdio.h>
#include <string.h>

enum { THREADS = 4, TURNS = 5000, PAGES = 64, PAGE_BYTES = 256, LONGEST = 6, NO_PAGE = -1 };

static unsigned char pages[PAGES][PAGE_BYTES];
static unsigned char taken[PAGES];

typedef struct worker {
    pthread_t thread;
    gz_range handle;
    unsigned number;
    unsigned failed;  /* answers that were not DONE */
    unsigned strange; /* bytes of a taken page that another thread wrote */
} worker;

/* Takes the run of so many pages from the first one on, if all of it is free. Otherwise it returns the first page
   behind the last one that is not. */
static unsigned take_at(worker *me, unsigned first, unsigned count) {
    unsigned next = first;
    if (gz_range_acquire(&me->handle, first, first + count, GZ_RANGE_WRITER)) me->failed++;
    for (unsigned page = first; page < first + count; page++)
        if (taken[page]) next = page + 1;
    if (next == first) memset(taken + first, 1, count);
    if (gz_range_release(&me->handle)) me->failed++;
    return next;
}

/* The first page of a run of so many pages, which is the caller's from now on; NO_PAGE where none was found free. */
static int take_pages(worker *me, unsigned count) {
    unsigned first = 0;
    while (first + count <= PAGES) {
        unsigned next = take_at(me, first, count);
        if (next == first) return (int)first;
        first = next;
    }
    return NO_PAGE;
}

/* Gives a run of pages back. */
static void give_pages(worker *me, unsigned first, unsigned count) {
    if (gz_range_acquire(&me->handle, first, first + count, GZ_RANGE_WRITER)) me->failed++;
    memset(taken + first, 0, count);
    if (gz_range_release(&me->handle)) me->failed++;
}

/* How many bytes of these pages are not those that this thread wrote. */
static unsigned strange_bytes(worker *me, unsigned first, unsigned count) {
    unsigned strange = 0;
    for (unsigned page = first; page < first + count; page++)
        for (unsigned byte = 0; byte < PAGE_BYTES; byte++)
            if (pages[page][byte] != me->number + 1) strange++;
    return strange;
}

static void *work(void *argument) {
    worker *me = argument;
    for (unsigned turn = 0; turn < TURNS; turn++) {
        unsigned count = 1 + (turn + me->number) % LONGEST;
        int first = take_pages(me, count);
        if (first == NO_PAGE) { /* runs moved while this thread looked: at most 24 of 64 pages are taken at once */
            sched_yield();
            turn--;
            continue;
        }
        memset(pages[first], (int)me->number + 1, count * PAGE_BYTES);
        if (turn % 16 == 0) sched_yield();
        me->strange += strange_bytes(me, (unsigned)first, count);
        give_pages(me, (unsigned)first, count);
    }
    return NULL;
}

int main(void) {
    static worker workers[THREADS]; /* all 0, so each handle is closed */
    for (unsigned i = 0; i < THREADS; i++) {
        workers[i].number = i;
        uint32_t answer = i == 0 ? gz_range_open_plain(THREADS, &workers[0].handle)
                                 : gz_range_share(&workers[0].handle, &workers[i].handle);
        if (answer != GZ_RANGE_DONE) return 1;
    }
    for (unsigned i = 0; i < THREADS; i++)
        if (pthread_create(&workers[i].thread, NULL, work, &workers[i])) return 1;
    unsigned failed = 0, strange = 0, left = 0;
    for (unsigned i = 0; i < THREADS; i++) {
        pthread_join(workers[i].thread, NULL);
        failed += workers[i].failed;
        strange += workers[i].strange;
        gz_range_close(&workers[i].handle);
    }
    for (unsigned page = 0; page < PAGES; page++) left += taken[page];
    printf("runs that were taken and given back: %d\n", THREADS * TURNS);
    printf("calls that were refused: %u\n", failed);
    printf("bytes that another thread wrote in a taken page: %u\n", strange);
    printf("pages that are taken still: %u\n", left);
    return 0;
}
