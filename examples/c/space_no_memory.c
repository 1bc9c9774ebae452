/* Each allocation fails in turn, by malloc and realloc that this program puts before those of the C library (the linker
   is told so by --wrap). gz_space_open and gz_space_share then answer that there is no memory, with nothing changed and
   nothing lost; the other calls are made with every allocation failing. */
#include "gz_space.h"

#include <stdio.h>
#include <stdlib.h>

static long left = -1; /* how many allocations succeed before one fails; below 0 all do */
static int always;     /* whether the ones behind that one fail too */
static long blocks;    /* how many blocks are out */

void *__real_malloc(size_t size);
void *__real_realloc(void *at, size_t size);
void __real_free(void *at);

static int fails(void) {
    if (left < 0) return 0;
    if (left == 0) {
        left = always ? 0 : -1;
        return 1;
    }
    left--;
    return 0;
}

void *__wrap_malloc(size_t size) {
    void *at = fails() ? NULL : __real_malloc(size);
    if (at) blocks++;
    return at;
}

void *__wrap_realloc(void *at, size_t size) {
    void *moved = fails() ? NULL : __real_realloc(at, size);
    if (moved && !at) blocks++;
    return moved;
}

void __wrap_free(void *at) {
    if (at) blocks--;
    __real_free(at);
}

/* Opens or shares a handle with the first, the second .. allocation failing, until none is left to fail; how many
   failed. It opens where `from` is NULL. */
static int fill_failing(unsigned callers, unsigned regions, gz_space *from, gz_space *handle) {
    for (int n = 0;; n++) {
        long before = blocks;
        left = n;
        uint32_t answer = from ? gz_space_share(from, handle) : gz_space_open(callers, regions, 4, handle);
        int failed = left < 0;
        left = -1;
        if (!failed && answer == GZ_SPACE_DONE) return n;
        if (!failed || answer != GZ_SPACE_NO_MEMORY || gz_space_is_open(handle) || blocks != before) exit(1);
    }
}

/* All calls that take no memory, while there is none. */
static int works_without(gz_space *a, gz_space *b) {
    enum { PAGE = GZ_SPACE_PAGE, MANY = 1000, RW = GZ_SPACE_READ | GZ_SPACE_WRITE };
    gz_space_reply reply;
    int well = 1;
    left = 0;
    always = 1;
    for (uint64_t i = 16; i < 16 + 2 * MANY; i += 2) {
        well = well && !gz_space_map(a, i * PAGE, PAGE, RW, GZ_SPACE_PRIVATE | GZ_SPACE_FIXED, &reply);
        well = well && reply.kind == GZ_SPACE_ADDRESS;
    }
    well = well && !gz_space_fault_held(b, 16 * PAGE, GZ_SPACE_WRITE, true, &reply) && reply.kind == GZ_SPACE_GRANTED;
    well = well && !gz_space_done(b);
    well = well && !gz_space_remap_held(b, 16 * PAGE, PAGE, 9 * PAGE, GZ_SPACE_MAYMOVE, 0, &reply);
    well = well && reply.kind == GZ_SPACE_ADDRESS && !gz_space_done(b);
    well = well && !gz_space_seal(a, 18 * PAGE, PAGE, 0, &reply) && reply.kind == GZ_SPACE_ZERO;
    well = well && !gz_space_protect(b, 20 * PAGE, PAGE, 0, &reply) && reply.kind == GZ_SPACE_ZERO;
    well = well && !gz_space_unmap(b, 20 * PAGE, 2 * MANY * PAGE, &reply) && reply.kind == GZ_SPACE_ZERO;
    well = well && !gz_space_brk(b, 22 * PAGE, 23 * PAGE, &reply) && reply.at == 23 * PAGE;
    well = well && gz_space_close(a) == GZ_SPACE_DONE && gz_space_close(b) == GZ_SPACE_DONE;
    left = -1;
    always = 0;
    return well;
}

static const char *says(int it_is) { return it_is ? "yes" : "no"; }

static void try_with(unsigned callers, unsigned regions) {
    gz_space a = GZ_SPACE_CLOSED, b = GZ_SPACE_CLOSED;
    long before = blocks;
    int opening = fill_failing(callers, regions, NULL, &a), sharing = fill_failing(0, 0, &a, &b);
    int well = works_without(&a, &b);
    printf("callers %2u, regions %2u: ", callers, regions);
    printf("open failed at each of its allocations: %s, share: %s, ", says(opening > 0), says(sharing > 0));
    printf("the others need none: %s, blocks left: %ld\n", says(well), blocks - before);
}

int main(void) {
    try_with(2, 1);
    try_with(3, 4);
    return 0;
}
