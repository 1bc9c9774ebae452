/* A pager in user space: Linux' userfaultfd(2) hands the faults of a region to this program, and range locks keep those
   apart who work on the same pages.

   Threads add 1 to counters that lie all over the region. The region has no pages of its own at first: what isn't in it
   is in a store. The kernel sends a message for each fault, and four kinds of threads answer it or change the region:

   - A handler reads messages. Where a page is missing it copies the page from the store into the region; where a page
     is write-protected it waits for the evictor, which is why the page is protected, and wakes the thread.
   - An evictor takes a span of pages out of the region: it write-protects them, copies them to the store, drops them.
   - The resizer unmaps the end of the region, a part at a time, while the others work on the rest.
   - A counting thread touches pages, and knows nothing of all this but where the region ends.

   Two tables of the range lock stand behind it. Both number the region's pages from 0 on.

   - `content` says who may move pages. A handler holds the page of its fault, an evictor or the resizer its whole span,
     all as writers. So `place[page]`, `store[page]` and the calls on the kernel for a page are one thread's at a time.
   - `layout` says where the region is. A counting thread holds the page that it touches as a reader, and the resizer
     the part that it unmaps as a writer. So no thread touches what is being unmapped.

   A counting thread may fault, and so wait for a handler, while it holds a page in `layout`. That can't be a circle, as
   nobody asks for a range in `layout` while holding one in `content`.

   What is printed is the same whatever the threads' schedule is; how many faults there were goes to standard error. The
   program ends with status 77 where the kernel gives it no userfaultfd. Built with -DNO_LOCK it holds no range in
   `content`, passes over what the kernel refuses, and loses additions. */
#define _GNU_SOURCE
#include "gz_range.h"

#include <errno.h>
#include <fcntl.h>
#include <linux/userfaultfd.h>
#include <poll.h>
#include <pthread.h>
#include <stdatomic.h>
#include <stdio.h>
#include <stdlib.h>
#include <string.h>
#include <sys/ioctl.h>
#include <sys/mman.h>
#include <sys/syscall.h>
#include <time.h>
#include <unistd.h>

enum { PAGE = 4096, WORDS = PAGE / 8, PAGES = 128, PART = 16, PARTS = 3, LONGEST = 16 };
enum { COUNTING = 3, HANDLERS = 2, EVICTORS = 3, TURNS = 200000, NOT_HERE = 77 };
#ifdef NO_LOCK
enum { LOCKED = 0 };
#else
enum { LOCKED = 1 };
#endif

typedef enum place { IN_STORE, IN_REGION, UNMAPPED } place;

static char *region;                 /* PAGES pages, registered with the userfaultfd */
static int messages;                 /* the userfaultfd */
static uint64_t store[PAGES][WORDS]; /* what isn't in the region */
static place places[PAGES];          /* where a page is; it and the page's store are under its range in `content` */
static bool unmapped[PAGES];         /* whether a page is in no region any more; under its range in `layout` */

static atomic_bool resized, done;                /* the resizer is done; all additions were made */
static atomic_ulong missing, protected, evicted; /* faults of missing pages, of protected ones; pages evicted */

typedef struct worker {
    pthread_t thread;
    gz_range content, layout; /* each kind of thread has open what it needs of the two */
    uint64_t random;          /* where it stands in its row of random numbers */
    uint64_t additions;       /* how many it made */
} worker;

/* Ends the program where a call failed. */
static void must(bool well, const char *what) {
    if (well) return;
    perror(what);
    exit(1);
}

static void answered(gz_range_answer answer) {
    if (answer == GZ_RANGE_DONE) return;
    fprintf(stderr, "the range lock: %s\n", gz_range_text(answer));
    exit(1);
}

/* Holds pages in `content`, from first on and below end. */
static void hold(worker *me, uint64_t first, uint64_t end) {
    if (LOCKED) answered(gz_range_acquire(&me->content, first, end, GZ_RANGE_WRITER));
}

static void give_back(worker *me) {
    if (LOCKED) answered(gz_range_release(&me->content));
}

/* xorshift64, by Marsaglia. */
static uint64_t next_random(worker *me) {
    me->random ^= me->random << 13;
    me->random ^= me->random >> 7;
    return me->random ^= me->random << 17;
}

static uint64_t *words_of(uint64_t page) { return (uint64_t *)(region + page * PAGE); }

/* Lets the threads go on that wait in a fault of the page. One whose page isn't there then faults again. */
static void wake(uint64_t page) {
    struct uffdio_range range = { (uint64_t)words_of(page), PAGE };
    must(ioctl(messages, UFFDIO_WAKE, &range) == 0 || !LOCKED, "wake");
}

/* Makes a page of the region read-only. A thread that writes it then waits in a fault. */
static void protect(uint64_t page) {
    struct uffdio_writeprotect change = { { (uint64_t)words_of(page), PAGE }, UFFDIO_WRITEPROTECT_MODE_WP };
    must(ioctl(messages, UFFDIO_WRITEPROTECT, &change) == 0 || !LOCKED, "write-protect");
}

/* Puts a page of the store into the region, and wakes who waits for it. */
static void bring_in(uint64_t page) {
    struct uffdio_copy copy = { .dst = (uint64_t)words_of(page), .src = (uint64_t)store[page], .len = PAGE };
    must(ioctl(messages, UFFDIO_COPY, &copy) == 0 || !LOCKED, "copy");
    places[page] = IN_REGION;
}

/* Takes pages out of the region, each of which the caller holds. The order matters: an addition between the copy and
   the drop would be lost, and so the pages are protected before they are copied. A thread that came to write one
   meanwhile waits in a fault, and is woken when the page is gone. */
static void take_out(uint64_t first, uint64_t end) {
    for (uint64_t page = first; page < end; page++)
        if (places[page] == IN_REGION) protect(page);
    for (uint64_t page = first; page < end; page++) {
        if (places[page] != IN_REGION) continue;
        const _Atomic uint64_t *words = (_Atomic uint64_t *)words_of(page);
        for (int i = 0; i < WORDS; i++) store[page][i] = atomic_load_explicit(&words[i], memory_order_relaxed);
        places[page] = IN_STORE;
        must(madvise(words_of(page), PAGE, MADV_DONTNEED) == 0 || !LOCKED, "drop");
        wake(page);
        evicted++;
    }
}

/* Answers the message of a fault. It may be out of date by the time that the page is held: another handler brought the
   page in, or it was evicted since, or even unmapped. */
static void answer(worker *me, const struct uffd_msg *message) {
    uint64_t page = (message->arg.pagefault.address - (uint64_t)region) / PAGE;
    bool writes = message->arg.pagefault.flags & UFFD_PAGEFAULT_FLAG_WP;
    if (writes) protected++;
    else missing++;
    hold(me, page, page + 1);
    if (places[page] == IN_STORE && !writes) bring_in(page);
    else if (places[page] != UNMAPPED) wake(page);
    give_back(me);
}

static void *handle_faults(void *argument) {
    worker *me = argument;
    while (!done) {
        struct pollfd ready = { messages, POLLIN, 0 };
        if (poll(&ready, 1, 5) == 0) continue;
        struct uffd_msg message;
        ssize_t length = read(messages, &message, sizeof message);
        if (length < 0) must(errno == EAGAIN, "read"); /* the other handler was quicker, or the fault is over */
        else if (message.event == UFFD_EVENT_PAGEFAULT) answer(me, &message);
    }
    return NULL;
}

static void *evict(void *argument) {
    worker *me = argument;
    while (!done) {
        uint64_t drawn = next_random(me), first = drawn % PAGES, end = first + 1 + (drawn >> 32) % LONGEST;
        if (end > PAGES) end = PAGES;
        hold(me, first, end);
        take_out(first, end);
        give_back(me);
        nanosleep(&(struct timespec){ 0, 20000 }, NULL);
    }
    return NULL;
}

/* Unmaps the last pages, a part at a time. What they hold is in the store from then on. */
static void *resize(void *argument) {
    worker *me = argument;
    for (uint64_t end = PAGES; end > PAGES - PARTS * PART; end -= PART) {
        nanosleep(&(struct timespec){ 0, 20000000 }, NULL);
        answered(gz_range_acquire(&me->layout, end - PART, end, GZ_RANGE_WRITER));
        hold(me, end - PART, end);
        take_out(end - PART, end);
        must(munmap(words_of(end - PART), PART * PAGE) == 0, "unmap");
        for (uint64_t page = end - PART; page < end; page++) places[page] = UNMAPPED, unmapped[page] = true;
        give_back(me);
        answered(gz_range_release(&me->layout));
    }
    resized = true;
    return NULL;
}

/* Adds 1 to counters anywhere, until that met all that it is to meet. */
static void *count(void *argument) {
    worker *me = argument;
    while (me->additions < TURNS || !resized || !protected) {
        uint64_t drawn = next_random(me), page = drawn % PAGES;
        answered(gz_range_acquire(&me->layout, page, page + 1, GZ_RANGE_READER));
        if (!unmapped[page]) {
            _Atomic uint64_t *words = (_Atomic uint64_t *)words_of(page);
            atomic_fetch_add_explicit(&words[(drawn >> 32) % WORDS], 1, memory_order_relaxed);
            me->additions++;
        }
        answered(gz_range_release(&me->layout));
    }
    return NULL;
}

/* Makes the region, and registers it for faults of missing pages and of writes to protected ones. Only faults of this
   program's own code are asked for, which needs no privilege; a kernel may refuse even that. */
static void make_region(void) {
    messages = (int)syscall(SYS_userfaultfd, O_CLOEXEC | O_NONBLOCK | UFFD_USER_MODE_ONLY);
    struct uffdio_api api = { .api = UFFD_API, .features = UFFD_FEATURE_PAGEFAULT_FLAG_WP };
    if (messages < 0 || ioctl(messages, UFFDIO_API, &api)) {
        perror("userfaultfd");
        exit(NOT_HERE);
    }
    region = mmap(NULL, PAGES * PAGE, PROT_READ | PROT_WRITE, MAP_PRIVATE | MAP_ANONYMOUS | MAP_NORESERVE, -1, 0);
    must(region != MAP_FAILED && madvise(region, PAGES * PAGE, MADV_NOHUGEPAGE) == 0, "map");
    struct uffdio_register wanted = { .range = { (uint64_t)region, PAGES * PAGE },
                                      .mode = UFFDIO_REGISTER_MODE_MISSING | UFFDIO_REGISTER_MODE_WP };
    must(ioctl(messages, UFFDIO_REGISTER, &wanted) == 0, "register");
}

int main(void) {
    enum { CONTENT = HANDLERS + EVICTORS + 1, LAYOUT = COUNTING + 1, ALL = HANDLERS + EVICTORS + 1 + COUNTING };
    static worker workers[ALL]; /* the handlers, the evictors, the resizer, the counting threads; all 0, so closed */
    worker *resizer = &workers[CONTENT - 1];
    make_region();

    for (int i = 0; i < ALL; i++) workers[i].random = (uint64_t)(i + 1) * 0x9e3779b97f4a7c15;
    answered(gz_range_open_plain(CONTENT, &workers[0].content));
    for (int i = 1; i < CONTENT; i++) answered(gz_range_share(&workers[0].content, &workers[i].content));
    answered(gz_range_open_plain(LAYOUT, &resizer->layout));
    for (int i = CONTENT; i < ALL; i++) answered(gz_range_share(&resizer->layout, &workers[i].layout));

    for (int i = 0; i < ALL; i++) {
        void *(*work)(void *) = i < HANDLERS ? handle_faults : i < CONTENT - 1 ? evict : i < CONTENT ? resize : count;
        must(pthread_create(&workers[i].thread, NULL, work, &workers[i]) == 0, "thread");
    }
    for (int i = CONTENT - 1; i < ALL; i++) pthread_join(workers[i].thread, NULL);
    done = true;
    for (int i = 0; i < CONTENT - 1; i++) pthread_join(workers[i].thread, NULL);
    for (int i = 0; i < ALL; i++) gz_range_close(&workers[i].content), gz_range_close(&workers[i].layout);

    uint64_t made = 0, sum = 0;
    unsigned gone = 0;
    for (int i = 0; i < ALL; i++) made += workers[i].additions;
    for (uint64_t page = 0; page < PAGES; page++) {
        const uint64_t *words = places[page] == IN_REGION ? words_of(page) : store[page];
        for (int i = 0; i < WORDS; i++) sum += words[i];
        gone += places[page] == UNMAPPED;
    }
    printf("additions: at least %d, of which are lost: %ld\n", COUNTING * TURNS, (long)(made - sum));
    printf("pages unmapped beside them: %u of %d\n", gone, PAGES);
    fprintf(stderr, "%lu of %lu additions; faults of missing pages %lu, of protected ones %lu; pages evicted %lu\n",
            (unsigned long)sum, (unsigned long)made, (unsigned long)missing, (unsigned long)protected,
            (unsigned long)evicted);
    return made != sum;
}
