/* Each allocation fails in turn, by malloc and realloc that this program puts before those of the C library (the linker
   is told so by --wrap). open, open_cut and share then answer that there is no memory, with nothing changed and nothing
   lost; the other calls are made with every allocation failing. */
#include "gz_range.h"

#include <stdio.h>
#include <stdlib.h>

static long left = -1; /* how many allocations succeed before one fails; below 0 all do */
static int always;     /* whether the ones behind that one fail too */
static long blocks;    /* how many blocks are out */

void *__real_malloc(size_t size);
void *__real_realloc(void *at, size_t size);
void __real_free(void *at);

static int fails(void) {
    if (left < 0) return 0;
    if (left == 0) {
        left = always ? 0 : -1;
        return 1;
    }
    left--;
    return 0;
}

void *__wrap_malloc(size_t size) {
    void *at = fails() ? NULL : __real_malloc(size);
    if (at) blocks++;
    return at;
}

void *__wrap_realloc(void *at, size_t size) {
    void *moved = fails() ? NULL : __real_realloc(at, size);
    if (moved && !at) blocks++;
    return moved;
}

void __wrap_free(void *at) {
    if (at) blocks--;
    __real_free(at);
}

/* Opens a table with the first, the second .. allocation failing, until none is left to fail; how many failed. */
static int open_failing(unsigned seats, unsigned regions, gz_range *handle) {
    const uint64_t words[1] = { 7 };
    for (int n = 0;; n++) {
        long before = blocks;
        left = n;
        uint32_t answer = regions == 1 ? gz_range_open(seats, words, 1, handle)
                                       : gz_range_open_cut(seats, regions, 1, words, 1, handle);
        int failed = left < 0;
        left = -1;
        if (!failed && answer == GZ_RANGE_DONE) return n;
        if (!failed || answer != GZ_RANGE_NO_MEMORY || gz_range_is_open(handle) || blocks != before) exit(1);
    }
}

/* The same of a share. */
static int share_failing(gz_range *from, gz_range *handle) {
    for (int n = 0;; n++) {
        long before = blocks;
        left = n;
        uint32_t answer = gz_range_share(from, handle);
        int failed = left < 0;
        left = -1;
        if (!failed && answer == GZ_RANGE_DONE) return n;
        if (!failed || answer != GZ_RANGE_NO_MEMORY || gz_range_is_open(handle) || blocks != before) exit(1);
    }
}

/* All calls that take no memory, while there is none. */
static int works_without(gz_range *a, gz_range *b) {
    gz_busy busy;
    uint64_t value = 7;
    left = 0;
    always = 1;
    int well = gz_range_try(b, 1, 3, GZ_RANGE_WRITER, 1, &busy) == GZ_RANGE_DONE;
    well = well && gz_range_try(a, 2, 4, GZ_RANGE_WRITER, 5, &busy) == GZ_RANGE_BUSY;
    well = well && gz_range_release(b) == GZ_RANGE_DONE;
    well = well && gz_range_acquire(a, 2, 4, GZ_RANGE_WRITER) == GZ_RANGE_DONE;
    well = well && gz_range_load(a, 0, &value) == GZ_RANGE_DONE;
    well = well && gz_range_exchange(a, 0, &value, 8) == GZ_RANGE_DONE && gz_range_store(b, 0, 9) == GZ_RANGE_DONE;
    well = well && gz_range_add(b, 0, 1, &value) == GZ_RANGE_DONE && value == 9;
    well = well && gz_range_close(a) == GZ_RANGE_DONE && gz_range_close(b) == GZ_RANGE_DONE;
    left = -1;
    always = 0;
    return well;
}

static const char *says(int it_is) { return it_is ? "yes" : "no"; }

/* In blocks of two numbers, 1 to 3 is a range in two regions where there are several, and 2 to 4 is in one. */
static void try_with(unsigned seats, unsigned regions) {
    gz_range a = GZ_RANGE_CLOSED, b = GZ_RANGE_CLOSED;
    long before = blocks;
    int opening = open_failing(seats, regions, &a);
    int sharing = share_failing(&a, &b);
    int well = works_without(&a, &b);
    printf("seats %2u, regions %2u: ", seats, regions);
    printf("open failed at each of its allocations: %s, share: %s, ", says(opening > 0), says(sharing > 0));
    printf("the others need none: %s, blocks left: %ld\n", says(well), blocks - before);
}

int main(void) {
    for (unsigned seats = 2; seats <= 16; seats += 7) {
        try_with(seats, 1);
        try_with(seats, 16);
    }
    return 0;
}
