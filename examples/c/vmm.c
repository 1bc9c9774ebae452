/* A memory manager: an address space of gz_space.h that says what is mapped in a region of this process, and the kernel
   that does it. Threads map, unmap, protect and move areas and fault on pages at once, and what the kernel has mapped
   is always what the space says.

   Each change of the space is made in the kernel too, by mmap(2), munmap(2), mprotect(2) or mremap(2) at the address
   that the space chose, while the call still holds its pages: so nobody's call comes between the two. All pages outside
   of the region are mapped and sealed in the space alone, so that every place that it finds lies in the region.

   The region's memory comes and goes page by page. Linux' userfaultfd(2) hands faults of missing pages to this program:

   - A worker owns some areas: it alone unmaps, protects and moves them. One more area is common to all, and stays; any
     worker makes pages of it executable, and takes that away. At each turn a worker makes one call of each kind, and
     adds 1 to counters in pages of its own and of the common area. It writes them by the plain address, without asking
     the space: that the page is there, and the same one, is what this program has to see to.
   - As its fault of a turn a worker evicts a page of anybody: it holds it alone, write-protects it, copies it to the
     store and drops it.
   - A handler reads the kernel's messages. It faults in the space at that address, holds the page alone meanwhile, and
     brings it in from the store.
   - At moments drawn at random the main thread asks for the areas of the region, goes on holding its pages, and
     compares the areas with /proc/self/maps.

   `shadow` is what the replies say of each page. It is written by who holds all pages and read by who holds the page,
   so each fault's reply is compared with it; at the end a fault at each page by each access is too, and it with the
   areas. While a thread holds pages it touches none that may be missing, since a handler would wait for it.

       vmm [TURNS] [loose]

   makes TURNS turns a thread, or 100,000. With `loose` no call goes on holding: then a place that was unmapped in the
   space is given away before the kernel unmaps it. Of a difference the program says the first, and ends with status 1;
   it ends with status 77 where the kernel gives it no userfaultfd. */
#define _GNU_SOURCE
#include "gz_space.h"

#include <errno.h>
#include <fcntl.h>
#include <linux/userfaultfd.h>
#include <poll.h>
#include <pthread.h>
#include <signal.h>
#include <stdatomic.h>
#include <stdio.h>
#include <stdlib.h>
#include <string.h>
#include <sys/ioctl.h>
#include <sys/mman.h>
#include <sys/syscall.h>
#include <time.h>
#include <unistd.h>

enum { PAGE = GZ_SPACE_PAGE, WORDS = PAGE / 8, PAGES = 512, COMMON = 32, LONGEST = 8, OWN = 6 };
enum { WORKERS = 4, HANDLERS = 2, MOMENTS = 100, NOT_HERE = 77 };
enum { READ_ONLY = GZ_SPACE_READ, PLAIN = GZ_SPACE_READ | GZ_SPACE_WRITE, CODE = PLAIN | GZ_SPACE_EXEC, UNMAPPED = 8 };

/* Where what a page holds is: nowhere, since nothing was written yet; in the store; or in the region. */
typedef enum place { NOWHERE, IN_STORE, IN_REGION } place;

typedef struct area {
    uint64_t first, pages; /* the number of its first page in the region, and how many it has */
    uint32_t prot;
    uint64_t counted[LONGEST]; /* what the counter in each page has to be */
} area;

typedef struct worker {
    pthread_t thread;
    gz_space space;
    uint64_t random, turns, commons, evicted; /* commons: how often it added in the common area */
    area areas[OWN];
    int count;
} worker;

static char *region;            /* PAGES pages, of which the first COMMON ones are the common area */
static int messages;            /* the userfaultfd */
static bool loose;              /* no call goes on holding */
static uint64_t turns = 100000; /* of each worker, at least */

static uint64_t store[PAGES][WORDS]; /* what isn't in the region; for a page under its hold, as places[page] */
static place places[PAGES];
static atomic_uint shadow[PAGES];     /* the protection of a page as replies say it, or UNMAPPED */
static gz_space_mapping listed[PAGES]; /* the areas of the region at the last moment */
static gz_space_counts counted;        /* how many there were */
static atomic_int moments;            /* how many moments were looked at */
static atomic_int ended;              /* how many workers are done */
static atomic_bool done;              /* all is over */
static atomic_ulong turned, answers;  /* how many turns all workers made; how many messages were answered */

static void fail(const char *what, uint64_t page) {
    fprintf(stderr, "%s, at page %lu of the region\n", what, (unsigned long)page);
    exit(1);
}

static void must(bool well, const char *what) {
    if (well) return;
    perror(what);
    exit(1);
}

static void answered(gz_space_answer answer) {
    if (answer == GZ_SPACE_DONE) return;
    fprintf(stderr, "the address space: %s\n", gz_space_text(answer));
    exit(1);
}

/* Ends what a held call holds; where nothing goes on holding, it holds nothing. */
static void give_back(worker *me) {
    if (!loose) answered(gz_space_done(&me->space));
}

/* Makes a call that goes on holding. */
static gz_space_reply change(worker *me, gz_space_call call) {
    gz_space_reply reply;
    answered(gz_space_make(&me->space, &call, !loose, &reply));
    return reply;
}

/* xorshift64, by Marsaglia. */
static uint64_t drawn(worker *me, uint64_t below) {
    me->random ^= me->random << 13;
    me->random ^= me->random >> 7;
    me->random ^= me->random << 17;
    return (me->random >> 11) % below;
}

static char *at(uint64_t page) { return region + page * PAGE; }
static uint64_t page_of(uint64_t address) { return (address - (uint64_t)region) / PAGE; }
static _Atomic uint64_t *counter(uint64_t page) { return (_Atomic uint64_t *)at(page); }

/* What the kernel is told of pages, each of which is held. A mapping that is new or has moved is registered for faults
   of missing pages, and of writes to pages that the evictor protects. */
static void enroll(uint64_t first, uint64_t pages) {
    struct uffdio_register wanted = { .range = { (uint64_t)at(first), pages * PAGE },
                                      .mode = UFFDIO_REGISTER_MODE_MISSING | UFFDIO_REGISTER_MODE_WP };
    must(ioctl(messages, UFFDIO_REGISTER, &wanted) == 0, "register");
}

/* What is known of pages that are mapped anew. */
static void say_new(uint64_t first, uint64_t end, uint32_t prot) {
    for (uint64_t page = first; page < end; page++) {
        shadow[page] = prot;
        places[page] = NOWHERE;
    }
}

static void map_pages(uint64_t first, uint64_t pages, uint32_t prot) {
    int flags = MAP_PRIVATE | MAP_ANONYMOUS | MAP_NORESERVE | MAP_FIXED_NOREPLACE;
    must(mmap(at(first), pages * PAGE, (int)prot, flags, -1, 0) == at(first), "map");
    enroll(first, pages);
    say_new(first, first + pages, prot);
}

static void unmap_pages(uint64_t first, uint64_t pages) {
    must(munmap(at(first), pages * PAGE) == 0, "unmap");
    for (uint64_t page = first; page < first + pages; page++) shadow[page] = UNMAPPED;
}

static void protect_pages(uint64_t first, uint64_t pages, uint32_t prot) {
    must(mprotect(at(first), pages * PAGE, (int)prot) == 0, "protect");
    for (uint64_t page = first; page < first + pages; page++) shadow[page] = prot;
}

/* Maps pages behind others, as one mapping with them. */
static void extend_pages(uint64_t first, uint64_t pages, uint64_t wanted) {
    must(mremap(at(first), pages * PAGE, wanted * PAGE, 0) == at(first), "extend");
    say_new(first + pages, first + wanted, shadow[first]);
}

/* Moves pages, with what they hold, to another place. They are struck off first: else the kernel might join them with a
   mapping beside the new place, and a move strikes off the whole mapping that it makes. */
static void move_pages(uint64_t first, uint64_t pages, uint64_t to, uint64_t wanted) {
    uint32_t prot = shadow[first];
    struct uffdio_range old = { (uint64_t)at(first), pages * PAGE };
    must(ioctl(messages, UFFDIO_UNREGISTER, &old) == 0, "strike off");
    must(mremap(at(first), pages * PAGE, wanted * PAGE, MREMAP_MAYMOVE | MREMAP_FIXED, at(to)) == at(to), "move");
    enroll(to, wanted);
    for (uint64_t i = 0; i < wanted; i++) {
        shadow[to + i] = prot;
        places[to + i] = i < pages ? places[first + i] : NOWHERE;
        if (places[to + i] == IN_STORE) memcpy(store[to + i], store[first + i], PAGE);
    }
    for (uint64_t i = 0; i < pages; i++) shadow[first + i] = UNMAPPED;
}

/* Whether a fault's reply is what the replies before it say of the page. */
static void compare_fault(uint64_t page, uint32_t access, const gz_space_reply *reply) {
    uint32_t prot = shadow[page];
    uint32_t kind = prot == UNMAPPED ? GZ_SPACE_MAPERR : prot & access ? GZ_SPACE_GRANTED : GZ_SPACE_ACCERR;
    if (reply->kind != kind || (prot != UNMAPPED && reply->prot != prot)) fail("a fault's reply differs", page);
}

/* A counter of one's own, which only its owner changes: the page is brought in if it is missing. */
static void check_counts(const area *own, uint64_t from) {
    for (uint64_t i = from; i < own->pages; i++)
        if (atomic_load_explicit(counter(own->first + i), memory_order_relaxed) != own->counted[i])
            fail("an increment is lost", own->first + i);
}

static void map_one(worker *me) {
    area *own = &me->areas[me->count];
    uint64_t pages = 1 + drawn(me, LONGEST), hint = drawn(me, 2) ? (uint64_t)at(drawn(me, PAGES)) : 0;
    gz_space_reply reply = change(me, (gz_space_call){ .kind = GZ_SPACE_MAP, .prot = PLAIN, .flags = GZ_SPACE_PRIVATE,
                                                       .addr = hint, .len = pages * PAGE });
    if (reply.kind == GZ_SPACE_ADDRESS) {
        *own = (area){ page_of(reply.at), pages, PLAIN, { 0 } };
        map_pages(own->first, pages, PLAIN);
        me->count++;
    }
    give_back(me);
}

static void unmap_one(worker *me) {
    area *own = &me->areas[drawn(me, (uint64_t)me->count)];
    check_counts(own, 0);
    gz_space_reply reply = change(me, (gz_space_call){ .kind = GZ_SPACE_UNMAP, .addr = (uint64_t)at(own->first),
                                                       .len = own->pages * PAGE });
    if (reply.kind != GZ_SPACE_ZERO) fail("an unmap is refused", own->first);
    unmap_pages(own->first, own->pages);
    give_back(me);
    *own = me->areas[--me->count];
}

/* A whole area of one's own becomes read-only or writable, or a span of the common one executable or not. */
static void protect_one(worker *me) {
    area *own = drawn(me, 2) ? &me->areas[drawn(me, (uint64_t)me->count)] : NULL;
    uint64_t first = own ? own->first : drawn(me, COMMON), pages = own ? own->pages : 1 + drawn(me, COMMON - first);
    uint32_t prot = own ? (own->prot == PLAIN ? READ_ONLY : PLAIN) : drawn(me, 2) ? PLAIN : CODE;
    gz_space_reply reply = change(me, (gz_space_call){ .kind = GZ_SPACE_PROTECT, .prot = prot,
                                                       .addr = (uint64_t)at(first), .len = pages * PAGE });
    if (reply.kind != GZ_SPACE_ZERO) fail("a protect is refused", first);
    protect_pages(first, pages, prot);
    give_back(me);
    if (own) own->prot = prot;
}

/* An area of one's own gets another length, and perhaps another place. */
static void remap_one(worker *me) {
    area *own = &me->areas[drawn(me, (uint64_t)me->count)];
    uint64_t wanted = 1 + drawn(me, LONGEST), hint = drawn(me, 2) ? (uint64_t)at(drawn(me, PAGES)) : 0;
    if (wanted < own->pages) check_counts(own, wanted);
    gz_space_reply reply = change(me, (gz_space_call){ .kind = GZ_SPACE_REMAP, .flags = GZ_SPACE_MAYMOVE,
                                                       .addr = (uint64_t)at(own->first), .len = own->pages * PAGE,
                                                       .new_len = wanted * PAGE, .place = hint });
    uint64_t to = page_of(reply.at);
    if (reply.kind == GZ_SPACE_ADDRESS) {
        if (to != own->first) move_pages(own->first, own->pages, to, wanted);
        else if (wanted < own->pages) unmap_pages(to + wanted, own->pages - wanted);
        else if (wanted > own->pages) extend_pages(to, own->pages, wanted);
        for (uint64_t i = own->pages; i < wanted; i++) own->counted[i] = 0;
        own->first = to, own->pages = wanted;
    } else if (reply.cause != GZ_SPACE_NO_GAP) fail("a remap is refused", own->first);
    give_back(me);
}

/* Lets the threads go on that wait in a fault of the page; they fault again if it isn't there. */
static void wake(uint64_t page) {
    struct uffdio_range range = { (uint64_t)at(page), PAGE };
    must(ioctl(messages, UFFDIO_WAKE, &range) == 0, "wake");
}

/* Puts a page from the region into the store. An addition between the copy and the drop would be lost, so the page is
   write-protected first: a thread that writes it then waits, and is woken when the page is gone. */
static void evict_page(uint64_t page) {
    struct uffdio_writeprotect stop = { { (uint64_t)at(page), PAGE }, UFFDIO_WRITEPROTECT_MODE_WP };
    must(ioctl(messages, UFFDIO_WRITEPROTECT, &stop) == 0, "write-protect");
    const _Atomic uint64_t *words = counter(page);
    for (int i = 0; i < WORDS; i++) store[page][i] = atomic_load_explicit(&words[i], memory_order_relaxed);
    places[page] = IN_STORE;
    must(madvise(at(page), PAGE, MADV_DONTNEED) == 0, "drop");
    wake(page);
}

static void evict_one(worker *me) {
    uint64_t page = drawn(me, drawn(me, 2) ? PAGES : COMMON);
    gz_space_reply reply;
    answered(gz_space_fault_by(&me->space, (uint64_t)at(page), GZ_SPACE_READ, true, !loose, &reply));
    compare_fault(page, GZ_SPACE_READ, &reply);
    if (reply.kind == GZ_SPACE_GRANTED && places[page] == IN_REGION) evict_page(page), me->evicted++;
    give_back(me);
}

/* Adds 1 to a counter in the common area and to one of one's own. The space isn't asked. */
static void count(worker *me) {
    area *own = &me->areas[drawn(me, (uint64_t)me->count)];
    uint64_t page = drawn(me, own->pages);
    atomic_fetch_add_explicit(counter(drawn(me, COMMON)), 1, memory_order_relaxed);
    me->commons++;
    if (own->prot != PLAIN) return;
    atomic_fetch_add_explicit(counter(own->first + page), 1, memory_order_relaxed);
    own->counted[page]++;
}

static void *work(void *argument) {
    worker *me = argument;
    while (me->count < OWN / 2) map_one(me);
    while (me->turns < turns || moments < MOMENTS) {
        while (me->count < OWN - 1) map_one(me), count(me);
        protect_one(me), count(me);
        remap_one(me), count(me);
        evict_one(me), count(me);
        unmap_one(me), count(me);
        me->turns++, turned++;
    }
    ended++;
    return NULL;
}

/* Answers the message of a fault. It may be out of date: another message of that fault was answered since, and the page
   was evicted again, or even unmapped. Then the reply says so, and there is nothing to bring in. */
static void answer(worker *me, const struct uffd_msg *message) {
    uint64_t address = message->arg.pagefault.address, page = page_of(address);
    uint32_t access = message->arg.pagefault.flags & UFFD_PAGEFAULT_FLAG_WRITE ? GZ_SPACE_WRITE : GZ_SPACE_READ;
    gz_space_reply reply;
    answered(gz_space_fault_by(&me->space, address, access, true, !loose, &reply));
    compare_fault(page, access, &reply);
    answers++;
    if (reply.kind != GZ_SPACE_GRANTED || places[page] == IN_REGION) {
        wake(page);
    } else if (places[page] == NOWHERE) {
        struct uffdio_zeropage zero = { .range = { (uint64_t)at(page), PAGE } };
        must(ioctl(messages, UFFDIO_ZEROPAGE, &zero) == 0, "zero");
        places[page] = IN_REGION;
    } else {
        struct uffdio_copy copy = { .dst = (uint64_t)at(page), .src = (uint64_t)store[page], .len = PAGE };
        must(ioctl(messages, UFFDIO_COPY, &copy) == 0, "copy");
        places[page] = IN_REGION;
    }
    give_back(me);
}

static void *handle_faults(void *argument) {
    worker *me = argument;
    while (!done) {
        struct pollfd ready = { messages, POLLIN, 0 };
        if (poll(&ready, 1, 5) == 0) continue;
        struct uffd_msg message;
        ssize_t length = read(messages, &message, sizeof message);
        if (length < 0) must(errno == EAGAIN, "read"); /* the other handler was quicker, or the fault is over */
        else if (message.event == UFFD_EVENT_PAGEFAULT) answer(me, &message);
    }
    return NULL;
}

/* Compares the space's areas of the region with the kernel's maps. All its pages are held. */
static void compare_maps(const gz_space_mapping *areas, const gz_space_counts *counts) {
    static char text[1 << 20];
    static uint32_t found[PAGES];
    uint64_t page = 0, mapped = 0;
    size_t length = 0;
    ssize_t more;
    int maps = open("/proc/self/maps", O_RDONLY | O_CLOEXEC);
    must(maps >= 0, "maps");
    while ((more = read(maps, text + length, sizeof text - 1 - length)) > 0) length += (size_t)more;
    close(maps);
    text[length] = 0;
    for (page = 0; page < PAGES; page++) found[page] = UNMAPPED;
    for (char *line = text; *line; line = strchr(line, '\n') + 1) {
        unsigned long lo, hi;
        char prot[5];
        must(sscanf(line, "%lx-%lx %4s", &lo, &hi, prot) == 3, "a line of maps");
        for (uint64_t i = lo; i < hi && hi <= (uint64_t)at(PAGES) && lo >= (uint64_t)region; i += PAGE)
            found[page_of(i)] = (prot[0] == 'r') * 1u + (prot[1] == 'w') * 2u + (prot[2] == 'x') * 4u;
    }
    page = 0;
    for (uint64_t i = 0; i < counts->areas; i++) {
        uint64_t first = page_of(areas[i].lo * PAGE), end = page_of(areas[i].hi * PAGE);
        for (; page < first; page++)
            if (found[page] != UNMAPPED) fail("the kernel has a page that the space hasn't", page);
        for (; page < end; page++, mapped++)
            if (found[page] != areas[i].prot) fail("the kernel's maps differ", page);
    }
    for (; page < PAGES; page++)
        if (found[page] != UNMAPPED) fail("the kernel has a page that the space hasn't", page);
    if (mapped != counts->pages) fail("the areas don't have so many pages", mapped);
}

/* Sleeps until the workers have made so many turns, or are done. */
static void await(worker *me, uint64_t wanted) {
    uint64_t last = turned;
    time_t since = time(NULL);
    do {
        nanosleep(&(struct timespec){ 0, (long)drawn(me, 1000000) }, NULL);
        if (turned != last) last = turned, since = time(NULL);
        else if (time(NULL) - since > 10) fail("no worker goes on, since a fault isn't answered", 0);
    } while (turned < wanted && ended < WORKERS);
}

/* The areas of the region, of which there are at most as many as pages, and the kernel's maps while they are held. */
static void look_at_moment(worker *me) {
    uint64_t first = (uint64_t)region / PAGE;
    answered(gz_space_areas_by(&me->space, first, first + PAGES, !loose, listed, PAGES, &counted));
    compare_maps(listed, &counted);
    give_back(me);
}

/* When all is over: the maps, a fault at each page by each access, and all counters. */
static uint64_t look_at_end(worker *workers) {
    uint64_t sum = 0;
    for (int i = 0; i < WORKERS; i++)
        for (int j = 0; j < workers[i].count; j++) check_counts(&workers[i].areas[j], 0);
    for (uint64_t page = 0; page < COMMON; page++) sum += *counter(page);
    look_at_moment(&workers[0]);
    for (uint64_t i = 0; i < counted.areas; i++)
        for (uint64_t page = page_of(listed[i].lo * PAGE); page < page_of(listed[i].hi * PAGE); page++)
            if (shadow[page] != listed[i].prot) fail("the replies differ", page);
    for (uint64_t page = 0; page < PAGES; page++)
        for (uint32_t access = GZ_SPACE_READ; access <= GZ_SPACE_EXEC; access *= 2) {
            gz_space_reply reply;
            answered(gz_space_fault(&workers[0].space, (uint64_t)at(page), access, &reply));
            compare_fault(page, access, &reply);
        }
    return sum;
}

static void lost(int number) {
    static const char text[] = "a page of its owner's is gone\n";
    (void)number;
    _exit(write(STDERR_FILENO, text, sizeof text - 1) > 0 ? 1 : 2);
}

/* Finds room for the region at the lowest end of 64 GB that are free: the kernel places other mappings at the top. Only
   faults of this program's own code are asked for, which needs no privilege; a kernel may refuse even that. */
static void make_region(void) {
    messages = (int)syscall(SYS_userfaultfd, O_CLOEXEC | O_NONBLOCK | UFFD_USER_MODE_ONLY);
    struct uffdio_api api = { .api = UFFD_API, .features = UFFD_FEATURE_PAGEFAULT_FLAG_WP };
    if (messages < 0 || ioctl(messages, UFFDIO_API, &api)) {
        perror("userfaultfd");
        exit(NOT_HERE);
    }
    size_t room = (size_t)1 << 36;
    region = mmap(NULL, room, PROT_NONE, MAP_PRIVATE | MAP_ANONYMOUS | MAP_NORESERVE, -1, 0);
    must(region != MAP_FAILED && munmap(region, room) == 0, "room");
    for (uint64_t page = 0; page < PAGES; page++) shadow[page] = UNMAPPED;
}

/* Takes all that lies outside of the region, and maps the common area. */
static void make_space(worker *me) {
    uint64_t start = (uint64_t)region, behind = (uint64_t)at(PAGES), end = (uint64_t)GZ_SPACE_LIMIT * PAGE;
    uint32_t flags = GZ_SPACE_SHARED | GZ_SPACE_FIXED;
    gz_space_reply replies[4];
    answered(gz_space_map(&me->space, 0, start, 0, flags, &replies[0]));
    answered(gz_space_seal(&me->space, 0, start, 0, &replies[1]));
    answered(gz_space_map(&me->space, behind, end - behind, 0, flags, &replies[2]));
    answered(gz_space_seal(&me->space, behind, end - behind, 0, &replies[3]));
    for (int i = 0; i < 4; i++)
        if (replies[i].kind == GZ_SPACE_REFUSED) fail("the rest is refused", 0);
    flags = GZ_SPACE_PRIVATE | GZ_SPACE_FIXED;
    answered(gz_space_map(&me->space, start, COMMON * PAGE, PLAIN, flags, &replies[0]));
    map_pages(0, COMMON, PLAIN);
}

int main(int arguments, char **argument) {
    enum { ALL = WORKERS + HANDLERS + 1 };
    static worker all[ALL]; /* the workers, the handlers and this thread; all 0, so closed */
    worker *me = &all[ALL - 1];
    for (int i = 1; i < arguments; i++) {
        if (strcmp(argument[i], "loose") == 0) loose = true;
        else turns = strtoull(argument[i], NULL, 10);
    }
    make_region();
    signal(SIGSEGV, lost);
    answered(gz_space_open(ALL, 1, 16, &me->space));
    for (int i = 0; i < ALL; i++) {
        all[i].random = (uint64_t)(i + 1) * 0x9e3779b97f4a7c15;
        if (&all[i] != me) answered(gz_space_share(&me->space, &all[i].space));
    }
    make_space(me);
    for (int i = 0; i < ALL - 1; i++)
        must(pthread_create(&all[i].thread, NULL, i < WORKERS ? work : handle_faults, &all[i]) == 0, "thread");
    while (moments < MOMENTS) {
        await(me, WORKERS * turns * (uint64_t)moments / MOMENTS);
        look_at_moment(me);
        moments++;
    }
    await(me, UINT64_MAX);
    for (int i = 0; i < WORKERS; i++) pthread_join(all[i].thread, NULL);
    uint64_t sum = look_at_end(all), made = 0, evicted = 0;
    done = true;
    for (int i = WORKERS; i < ALL - 1; i++) pthread_join(all[i].thread, NULL);
    for (int i = 0; i < ALL; i++) made += all[i].commons, evicted += all[i].evicted, gz_space_close(&all[i].space);

    printf("moments, and the end, at which the maps are the space's: %d\n", moments + 1);
    printf("increments lost in pages of one thread: 0, of all threads: %ld\n", (long)(made - sum));
    fprintf(stderr, "turns of each thread: %lu and more; faults: %lu, pages evicted: %lu\n", (unsigned long)turns,
            (unsigned long)answers, (unsigned long)evicted);
    return made != sum;
}
