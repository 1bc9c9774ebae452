/* The proved address space of Gazmrobik (gz_, which has nothing to do with gzip), for up to 16 threads in C and C++.

   A space says which pages of 4096 bytes are mapped, and how: what may be done with them, whether they are shared, and
   whether they are sealed. Threads map, unmap, protect, move and seal spans of pages beside page faults, as by mmap(2),
   munmap(2), mprotect(2), mremap(2), mseal(2) and brk(2). A space is numbers alone, and has no memory of its own: it is
   for programs that keep such a map of something, as a pager, an allocator or an emulator does. By a held call they
   change the real thing, page tables or a file, while nobody else's call comes between.

   A space has a fixed number of callers, and each handle is one of them for good: so a space has as many handles in all
   as it has callers. Open the first handle with gz_space_open, get one more for each thread with gz_space_share, and
   close each with gz_space_close; closing the last one frees the space. The caller of a closed handle isn't given away
   again: threads that come and go hand their handles on.

       #include <gz_space.h>
       #include <stdio.h>

       int main(void) {
           gz_space space = GZ_SPACE_CLOSED;
           gz_space_reply reply;
           if (gz_space_open(2, 1, 16, &space)) return 1;
           if (gz_space_map_held(&space, 0x10000, 8192, GZ_SPACE_READ, GZ_SPACE_PRIVATE, &reply)) return 1;
           printf("mapped at %#lx, ", (unsigned long)reply.at);
           gz_space_done(&space); // what was to be done at that address is done
           if (gz_space_fault(&space, 0x11000, GZ_SPACE_WRITE, &reply)) return 1;
           if (reply.kind == GZ_SPACE_ACCERR) printf("page %lu may not be written\n", (unsigned long)reply.at);
           gz_space_close(&space);
           return 0;
       }

   It prints: mapped at 0x10000, page 17 may not be written.

   Two numbers tell how a call went. What it returns says whether the space was asked at all: GZ_SPACE_DONE, or why not.
   After DONE, and only then, `reply` says what the space answered, as the manual pages have it: an address, or success,
   or the errno with its page; a fault's is granted, MAPERR, or ACCERR with the page's protection.

   What you may rely on:
   - Proved, as long as you keep what the list below says that you owe: all calls of all handles have one legal history.
     Each call has one place in it, between its beginning and its end, and its reply is right there: what
     docs/PROFILE.md of the repository says of a space with all calls before. What each call of the archive answers,
     with its cause, and what its handle holds after it, is proved too. Of gz_space_end only its answer is proved, and
     that the handle is closed; that what it held is given back and the last one frees the space is tested.
   - The calls that are written in this header, such as gz_space_map and gz_space_close, are C over those of the
     archive, and are tested. So the loop that tries again and waits between two tries is C.
   - A call that is held, such as gz_space_map_held, goes on holding its pages after it has returned, until
     gz_space_done: a fault its one page, and any other call all pages. Until then no other call that needs one of these
     pages finds its place. So what you change meanwhile, say by mmap(2) at the address in the reply, changes together
     with the space. Two faults hold one page at once, unless one of them is alone.
   - What a thread wrote before it gave pages back, or before a call that isn't held, is seen by each thread whose later
     call takes one of these pages, unless both are faults that aren't alone. This isn't proved of your memory: it rests
     on each step of the library being sequentially consistent, and on a compiler that moves no access across a call.
   - None takes a lock but in malloc and free. The calls that are written in this header wait without a bound, by trying
     again, and sleep between two tries; those that try once pause a bounded number of turns. That a call which waits
     ever returns isn't claimed. Only open, share and close call the allocator, and only the first two can fail for want
     of memory.
   - A space takes some 2.1 MB, written at its opening, and each caller 1 MB that is reserved and mostly not touched;
     for a moment the opening takes some 8.4 MB. It is that much at once since no call may fail later for want of
     memory: a call is refused with ENOMEM exactly where it would leave more than 131,061 rows, so there is room for all
     of them, and for each caller's plan of a change. A further handle takes some 300 bytes.

   What you owe. Nothing checks it:
   - A handle begins as GZ_SPACE_CLOSED, and afterwards only these calls write or copy it.
   - A handle is in one call at a time. The handles of one space may be in calls at once; that is what they are for.
   - A handle goes to another thread by a lock, by a thread's start or join, or by a sequentially consistent atomic.
   - A pointer is to a live object of its type that nobody else uses meanwhile. None is null.
   - While pages are held nothing waits for another thread of the space: no lock that is also held around a call, and no
     access to memory whose fault another handle has to answer. Otherwise both wait for ever.
   - No call is made in a signal handler, or in the forked child of a process that has threads. No call is left by
     longjmp or by an asynchronous cancel; none is a cancellation point.
   - malloc, realloc and free belong to one allocator, which aligns a block to each power of two up to 16 that divides
     its size. It isn't one that asks this space for its memory.
   - A thread that ends without closing its handle leaves its pages held for ever.

   The archive is for Linux on x86-64. `install` beside this header makes one archive, with a file for pkg-config;
   without it, programs link libspace_c.a and the kit's liblibc_c.a, in this order. */
#ifndef GZ_SPACE_H
#define GZ_SPACE_H

#include <stdbool.h>
#include <stddef.h>
#include <stdint.h>
#include <time.h>

#ifndef __x86_64__
#error "gz_space.h: the address space's archive is for x86-64"
#endif

/* The version of this header and its archive: 100 for each step of the first number, 1 for each of the second. The
   second rises when calls, names or causes of a refusal are added; the first, which the shared object's name has too,
   when a program for the version before may no longer compile, or may mean something else. */
#define GZ_SPACE_VERSION 103
#define GZ_SPACE_VERSION_TEXT "1.3.0"

#ifdef __GNUC__
#define GZ_SPACE_NONNULL __attribute__((nonnull))
#define GZ_SPACE_MUST_CHECK __attribute__((nonnull, warn_unused_result))
#else
#define GZ_SPACE_NONNULL
#define GZ_SPACE_MUST_CHECK
#endif

#ifdef __cplusplus
#define GZ_SPACE_ASSERT static_assert
extern "C" {
#else
#define GZ_SPACE_ASSERT _Static_assert
#endif

/* A handle: open, with a caller of a space behind it, or closed. Its members are the library's. */
typedef struct gz_space {
    void *at;
    uint64_t opened;
} gz_space;

/* What a handle begins as. A handle that is all 0 is the same. */
#define GZ_SPACE_CLOSED { NULL, 0 }

/* The most callers that a space has; the bytes of a page; the first page that is never mapped, counted from 0, so that
   addresses end below 2^56 - 4096; and the most rows: areas, and gaps between and around them. */
#define GZ_SPACE_MOST_CALLERS 16
#define GZ_SPACE_PAGE 4096
#define GZ_SPACE_LIMIT 17592186044415
#define GZ_SPACE_MOST_ROWS 131061

/* What may be done with a page: any of these, or none. The numbers are those of PROT_READ, PROT_WRITE and PROT_EXEC. As
   an access, of which a fault has one, each asks for itself: writing doesn't imply reading. */
#define GZ_SPACE_READ 1
#define GZ_SPACE_WRITE 2
#define GZ_SPACE_EXEC 4

/* How a map maps: one of SHARED and PRIVATE; with FIXED its address binds, and replaces what was mapped there; with
   FIXED_NOREPLACE it binds, and nothing may be mapped there. Only the first two have the numbers of mmap(2). */
#define GZ_SPACE_SHARED 1
#define GZ_SPACE_PRIVATE 2
#define GZ_SPACE_FIXED 4
#define GZ_SPACE_FIXED_NOREPLACE 8

/* How a remap moves: to another place too, where the old one doesn't do. */
#define GZ_SPACE_MAYMOVE 1

/* What a call returns. Each call's comment names its answers. Only after LATER and AT_ONCE may the same call do better,
   which the calls that wait see to. The example space_answers.c meets each answer but LATER and SPENT. */
typedef enum gz_space_answer {
    GZ_SPACE_DONE = 0,         /* the call did what it is for; the space's answer is in `reply` */
    GZ_SPACE_LATER = 1,        /* another caller has a page that this try needs, or work of others is in its way */
    GZ_SPACE_AT_ONCE = 2,      /* another caller changed the lock's list where this try was about to */
    GZ_SPACE_HOLDS = 3,        /* this handle holds pages of the call before, until gz_space_done */
    GZ_SPACE_HOLDS_NONE = 4,   /* this handle holds no page */
    GZ_SPACE_IS_CLOSED = 5,    /* the handle that is to be worked with is closed */
    GZ_SPACE_IS_OPEN = 6,      /* a handle that has to be closed, as one that is to be opened, is open */
    GZ_SPACE_NO_MEMORY = 7,    /* there was no memory */
    GZ_SPACE_BAD_CALLERS = 8,  /* the number of callers is 0 or above GZ_SPACE_MOST_CALLERS */
    GZ_SPACE_BAD_CUT = 9,      /* there are 0 regions or more than 16, or a block has more than 2^62 pages */
    GZ_SPACE_NONE_LEFT = 10,   /* the handle has no caller left to share */
    GZ_SPACE_BAD_CALL = 11,    /* a kind, a protection, a flag or an access isn't above; pages are too high or none */
    GZ_SPACE_SPENT = 12        /* this caller has made 2^56 calls */
} gz_space_answer;

/* Which call a gz_space_call is. */
#define GZ_SPACE_MAP 0
#define GZ_SPACE_UNMAP 1
#define GZ_SPACE_PROTECT 2
#define GZ_SPACE_REMAP 3
#define GZ_SPACE_SEAL 4
#define GZ_SPACE_BRK 5

/* A call other than a fault, for gz_space_try and gz_space_make. Addresses and lengths are in bytes; a length is
   rounded up to pages. What a call has no use for isn't looked at. */
typedef struct gz_space_call {
    uint32_t kind;    /* GZ_SPACE_MAP and so on */
    uint32_t prot;    /* of a map and a protect: any of READ, WRITE and EXEC */
    uint32_t flags;   /* of a map: SHARED and so on; of a remap: 0 or MAYMOVE; of a seal: 0, all else is EINVAL */
    uint32_t zero;    /* nothing */
    uint64_t addr;    /* the first byte; of a map a hint, unless it binds; of a brk the end that is wanted */
    uint64_t len;     /* how many bytes; of a remap how many there are; not of a brk */
    uint64_t new_len; /* of a remap: how many there are to be */
    uint64_t place;   /* of a remap: a hint of where to, or 0; of a brk: the first byte of the heap */
} gz_space_call;

/* What the kind of a reply says. */
#define GZ_SPACE_NOTHING 0 /* there is no reply, since the call wasn't DONE */
#define GZ_SPACE_ADDRESS 1 /* of a map, a remap or a brk: the address in `at` */
#define GZ_SPACE_ZERO 2    /* of an unmap, a protect or a seal: it was done */
#define GZ_SPACE_GRANTED 3 /* of a fault: the page lets the access through */
#define GZ_SPACE_REFUSED 4 /* of all but a fault: nothing changed, for the error, which has its cause and page */
#define GZ_SPACE_MAPERR 5  /* of a fault: the page isn't mapped; as SEGV_MAPERR of sigaction(2) */
#define GZ_SPACE_ACCERR 6  /* of a fault: the page doesn't let the access through; as SEGV_ACCERR */

/* Which argument is wrong, or what a call found in its way. */
#define GZ_SPACE_ADDR 1     /* EINVAL: the address isn't a page's, or the base of a brk may not be one of a heap */
#define GZ_SPACE_LEN 2      /* EINVAL: the length is 0 */
#define GZ_SPACE_FLAGS 3    /* EINVAL: a map has not exactly one of SHARED and PRIVATE, or a seal has flags */
#define GZ_SPACE_END 4      /* EINVAL: the end is above GZ_SPACE_LIMIT, of an unmap or a remap */
#define GZ_SPACE_MISSING 5  /* ENOMEM: the page isn't mapped; it is the lowest such one */
#define GZ_SPACE_PAST_END 6 /* ENOMEM: the page is the end, which is above GZ_SPACE_LIMIT */
#define GZ_SPACE_NO_GAP 7   /* ENOMEM: for so many pages no place is free */
#define GZ_SPACE_ROWS 8     /* ENOMEM: the result would have so many rows, more than GZ_SPACE_MOST_ROWS */
#define GZ_SPACE_TAKEN 9    /* EEXIST: the page is mapped; it is the lowest such one */
#define GZ_SPACE_SEALED 10  /* EPERM: the page is sealed; it is the lowest such one */
#define GZ_SPACE_OTHER 11   /* EFAULT: the page isn't mapped, or not as the first one is; it is the lowest such one */

/* What the space answered a call that was DONE; all 0 after each other answer. */
typedef struct gz_space_reply {
    uint32_t kind;   /* GZ_SPACE_ADDRESS and so on */
    uint32_t error;  /* REFUSED: EPERM, ENOMEM, EFAULT, EEXIST or EINVAL, with the numbers of errno(3); else 0 */
    uint32_t cause;  /* REFUSED: GZ_SPACE_ADDR and so on; else 0 */
    uint32_t prot;   /* GRANTED, ACCERR: what may be done with the page; else 0 */
    uint32_t shared; /* GRANTED, ACCERR: 1 if the page was mapped as SHARED; else 0 */
    uint32_t sealed; /* GRANTED, ACCERR: 1 if the page is sealed; else 0 */
    uint64_t at;     /* ADDRESS: the address in bytes. MAPERR, ACCERR, and REFUSED but for EINVAL: the page that `kind`
                        or `cause` speaks of, counted from 0, or how many pages or rows; else 0 */
} gz_space_reply;

/* Pages that a handle holds, from lo on and below hi, with the number of its caller, counted from 0. The first handle
   of a space of n callers has caller n - 1, and each share from it the next one below. */
typedef struct gz_space_range {
    uint64_t lo, hi; /* 0 and 0 where no page is held */
    uint32_t caller;
    uint32_t writer; /* 1 as a writer: nobody else holds one of the pages; 0 as a reader, of a fault that isn't alone */
} gz_space_range;

/* Pages by their numbers, counted from 0: from lo on and below hi. */
typedef struct gz_space_pages {
    uint64_t lo, hi;
} gz_space_pages;

/* The area at a page: the longest run of pages round it that are mapped alike. All 0 where the page isn't mapped. */
typedef struct gz_space_mapping {
    uint64_t lo, hi; /* its pages, counted from 0: from lo on and below hi */
    uint32_t prot;   /* what may be done with each: any of READ, WRITE and EXEC */
    uint32_t shared; /* 1 if they were mapped as SHARED */
    uint32_t sealed; /* 1 if they are sealed */
    uint32_t mapped; /* 1, and 0 where the page isn't mapped */
} gz_space_mapping;

/* How many areas there are, and how many pages they have together. */
typedef struct gz_space_counts {
    uint64_t areas, pages;
} gz_space_counts;

GZ_SPACE_ASSERT(sizeof(gz_space) == 16 && sizeof(void *) == 8, "a handle is two words");
GZ_SPACE_ASSERT(sizeof(gz_space_answer) == 4, "an answer is a uint32_t");
GZ_SPACE_ASSERT(sizeof(gz_space_call) == 48 && offsetof(gz_space_call, addr) == 16, "a call is six words");
GZ_SPACE_ASSERT(sizeof(gz_space_reply) == 32 && offsetof(gz_space_reply, at) == 24, "a reply is four words");
GZ_SPACE_ASSERT(sizeof(gz_space_range) == 24 && offsetof(gz_space_range, caller) == 16, "a range is three words");
GZ_SPACE_ASSERT(sizeof(gz_space_mapping) == 32 && offsetof(gz_space_mapping, mapped) == 28, "an area is four words");
GZ_SPACE_ASSERT(sizeof(gz_space_counts) == 16, "counts are two words");

/* The answer in words, for messages; it never comes back NULL. */
static inline const char *gz_space_text(gz_space_answer answer) {
    switch (answer) {
    case GZ_SPACE_DONE: return "done";
    case GZ_SPACE_LATER: return "another caller is in the way";
    case GZ_SPACE_AT_ONCE: return "another caller changed the list at this moment";
    case GZ_SPACE_HOLDS: return "the handle holds pages of the call before";
    case GZ_SPACE_HOLDS_NONE: return "the handle holds no page";
    case GZ_SPACE_IS_CLOSED: return "the handle is closed";
    case GZ_SPACE_IS_OPEN: return "a handle that has to be closed is open";
    case GZ_SPACE_NO_MEMORY: return "out of memory";
    case GZ_SPACE_BAD_CALLERS: return "the number of callers isn't from 1 to 16";
    case GZ_SPACE_BAD_CUT: return "the numbers make no cut into regions";
    case GZ_SPACE_NONE_LEFT: return "no caller is left to share";
    case GZ_SPACE_BAD_CALL: return "a kind, a protection, a flag or an access has no name, or a page is too high";
    case GZ_SPACE_SPENT: return "the caller has made 2^56 calls";
    }
    return "no answer of the address space";
}

/* Opens a handle over a new space of that many callers, 1 to 16, in which no page is mapped. The pages are cut into
   regions, 1 to 16, in blocks of 2^bits pages, with bits at most 62: the first block belongs to the first region, the
   next one to the second, and so on; after the last region the first one has its turn again. A cut is for threads whose
   faults are in different regions, as each in its own arena: the lock under the space has a list for each region, so
   they change no word in common. It changes no reply. Calls that hold all pages take longer the more regions there are.
   1 and 16 will do where nothing is known; with bits 16 a block has 256 MB.
   DONE, and the handle holds nothing and has callers - 1 callers to share; or the first of IS_OPEN, BAD_CUT,
   BAD_CALLERS, NO_MEMORY that applies. After a refusal nothing has changed.
   Any thread. It allocates. */
GZ_SPACE_MUST_CHECK
gz_space_answer gz_space_open(uint32_t callers, uint32_t regions, uint32_t bits, gz_space *handle);

/* Opens a handle with a caller of its own in the space of `from`: the last of those that `from` has left to share. The
   new handle holds nothing and has no callers left to share, so all are shared from the handle that was opened. What
   `from` holds stays.
   DONE; or the first of IS_OPEN (handle), IS_CLOSED (from), NONE_LEFT, NO_MEMORY that applies. After a refusal nothing
   has changed.
   The thread that has `from`. It allocates. */
GZ_SPACE_MUST_CHECK
gz_space_answer gz_space_share(gz_space *from, gz_space *handle);

/* One try of a call. Where its arguments decide it, it is DONE without a look at a page; otherwise it asks for all
   pages as a writer, makes the call under them, and gives them back, or with `keep` goes on holding them.
   *round is 0 before the first try of a call, and counts those that were answered LATER; each try writes what the next
   one is to be given, which after DONE is 0 again. In a space of several regions the try after 16 of them may pause,
   48,128 turns in all, with its place in the lock's list, behind which others stay: else a call on all pages might find
   no moment at which nobody faults. A program that has something else to do after LATER may as well begin anew with 0.
   DONE, with the space's answer in *reply, where after `keep` all pages are held, whatever the reply is, unless the
   arguments decided it: by a length of 0, an address that isn't a page's, wrong flags or an end that is too high, as
   docs/PROFILE.md lists them. Or the first of IS_CLOSED, BAD_CALL, HOLDS, SPENT that applies, with the handle as it
   was. Or LATER, after which to wait before the next try, or AT_ONCE, after which not to: nothing is held, and nothing
   but the lock's own words has changed.
   The thread that has the handle. */
GZ_SPACE_MUST_CHECK
gz_space_answer gz_space_try(gz_space *handle, const gz_space_call *call, uint32_t *round, bool keep,
                             gz_space_reply *reply);

/* One try of a page fault: one access, READ, WRITE or EXEC, to the byte at addr. It holds the page, looks, and gives it
   back, or with `keep` goes on holding it. It holds it as a reader, or with `alone` as a writer: then no other fault of
   the page comes between, as where the page is filled. An address at or above page GZ_SPACE_LIMIT is MAPERR, with
   nothing held. A reader that meets a writer looks again up to four times, with 15,360 turns of pauses in all.
   The answers are those of gz_space_try; a fault has no rounds.
   The thread that has the handle. */
GZ_SPACE_MUST_CHECK
gz_space_answer gz_space_try_fault(gz_space *handle, uint64_t addr, uint32_t access, bool alone, bool keep,
                                   gz_space_reply *reply);

/* One look for the area at a page, by its number below GZ_SPACE_LIMIT. It holds pages as a reader, reads, and gives
   them back: those of `around` if the page is one of them and all are below GZ_SPACE_LIMIT, and else the page alone. An
   area has its exact ends only under pages that are held past both; so a look that finds more than it holds is answered
   AT_ONCE, with the pages for the next look in `around`. *round and *around are 0 before the first look for a page, and
   each look writes what the next one is to be given. It pauses as gz_space_try_fault does, and where it holds pages of
   several regions, after 16 that were answered LATER, as gz_space_try. It isn't a call of the space's history.
   DONE, with the area at one moment of the look in *area, all 0 if the page wasn't mapped then. Or the first of
   IS_CLOSED, BAD_CALL (the page), HOLDS that applies, with the handle, *round and *around as they were. Or LATER, after
   which to wait before the next look, or AT_ONCE, after which not to. *area is all 0 after each answer but DONE.
   The thread that has the handle. */
GZ_SPACE_MUST_CHECK
gz_space_answer gz_space_try_area(gz_space *handle, uint64_t page, uint32_t *round, gz_space_pages *around,
                                  gz_space_mapping *area);

/* One look for the areas of the pages from lo on and below hi, by their numbers, each clipped to these pages. It holds
   all of them at once as a reader, reads, and gives them back, or with `keep` goes on holding them: then the areas stay
   what they are until gz_space_done, while faults that aren't alone go on. `areas` has room for so many: the first ones
   are put there in order, and what isn't needed stays as it was. *counts has how many areas there are, whatever the
   room, and how many pages they have together; so a room that is too small is told. It takes no memory. *round is 0
   before the first look for a span. It pauses as gz_space_try_area does. It isn't a call of the space's history.
   DONE, with the areas and counts of one moment of the look. Or the first of IS_CLOSED, BAD_CALL (lo isn't below hi, or
   hi is above GZ_SPACE_LIMIT), HOLDS that applies, with the handle and *round as they were. Or LATER, after which to
   wait before the next look, or AT_ONCE, after which not to, with nothing held. After each answer but DONE *counts is
   all 0, and `areas` as it was.
   The thread that has the handle. */
GZ_SPACE_MUST_CHECK
gz_space_answer gz_space_try_areas(gz_space *handle, uint64_t lo, uint64_t hi, uint32_t *round, bool keep,
                                   gz_space_mapping *areas, size_t room, gz_space_counts *counts);

/* Gives back the pages that a held call goes on holding.
   DONE, and nothing is held; IS_CLOSED or HOLDS_NONE, with the handle as it was. HOLDS_NONE comes also after a held
   call that its arguments decided, so a program that ends each held call by done needn't look.
   The thread that has the handle. */
GZ_SPACE_NONNULL
gz_space_answer gz_space_done(gz_space *handle);

/* Tells which pages the handle holds, and the number of its caller. Nothing changes, but the handle is in a call as in
   any other.
   DONE if it holds pages; HOLDS_NONE, with the number of the caller and all else 0; IS_CLOSED, with all 0.
   The thread that has the handle. */
GZ_SPACE_NONNULL
gz_space_answer gz_space_held(const gz_space *handle, gz_space_range *held);

/* Waits as the calls below do between their first tries, for a program with a loop of its own: *turns turns of the
   processor's pause, but at least 1,024 and at most 8,192. *turns is 0 at first, and becomes twice what was waited, at
   most 8,192. The call doesn't yield the processor.
   true if this wait was one of 8,192 turns: then let other threads run, by a sleep.
   Any thread. */
GZ_SPACE_NONNULL
bool gz_space_pause(uint32_t *turns);

/* What gz_space_close calls. It puts `next`, a closed handle, in the place of the handle, and ends the old one: the
   held pages are given back, and its caller and those that it had left to share are gone. It waits for nobody, and
   other handles of the space may be in calls meanwhile.
   IS_OPEN if next is open, with nothing changed; else DONE, or IS_CLOSED if the handle was already closed, and the
   handle is closed. */
GZ_SPACE_NONNULL
gz_space_answer gz_space_end(gz_space *handle, gz_space next);

/* ThreadSanitizer sees no step of the archive. In a program that is compiled for it, the calls below this line go
   through functions that tell it what they do: calls meet at each of their pages modulo 64. So it reports no correct
   program, and misses the wrong ones that are in order only by such numbers, or by what faults do side by side. */
#if defined(__SANITIZE_THREAD__)
#define GZ_SPACE_TELLS 1
#elif defined(__has_feature)
#if __has_feature(thread_sanitizer)
#define GZ_SPACE_TELLS 1
#endif
#endif
#ifdef GZ_SPACE_TELLS
#include <sanitizer/tsan_interface.h>

__attribute__((weak)) char gz_space_places[64];

static inline void gz_space_tell_before(uint64_t lo, uint64_t hi) {
    for (uint64_t page = lo; page < hi && page - lo < 64; page++) __tsan_release(&gz_space_places[page % 64]);
}

static inline void gz_space_tell_after(uint64_t lo, uint64_t hi) {
    for (uint64_t page = lo; page < hi && page - lo < 64; page++) __tsan_acquire(&gz_space_places[page % 64]);
}

static inline void gz_space_tell_release(const gz_space *handle) {
    gz_space_range held;
    if (gz_space_held(handle, &held) == GZ_SPACE_DONE) gz_space_tell_before(held.lo, held.hi);
}

GZ_SPACE_MUST_CHECK
static inline gz_space_answer gz_space_try_told(gz_space *handle, const gz_space_call *call, uint32_t *round, bool keep,
                                                gz_space_reply *reply) {
    if (*round == 0) gz_space_tell_before(0, 64);
    gz_space_answer answer = gz_space_try(handle, call, round, keep, reply);
    if (answer == GZ_SPACE_DONE) gz_space_tell_after(0, 64);
    return answer;
}

GZ_SPACE_MUST_CHECK
static inline gz_space_answer gz_space_try_fault_told(gz_space *handle, uint64_t addr, uint32_t access, bool alone,
                                                      bool keep, gz_space_reply *reply) {
    uint64_t page = addr / GZ_SPACE_PAGE;
    gz_space_tell_before(page, page + 1);
    gz_space_answer answer = gz_space_try_fault(handle, addr, access, alone, keep, reply);
    if (answer == GZ_SPACE_DONE) gz_space_tell_after(page, page + 1);
    return answer;
}

GZ_SPACE_MUST_CHECK
static inline gz_space_answer gz_space_try_area_told(gz_space *handle, uint64_t page, uint32_t *round,
                                                     gz_space_pages *around, gz_space_mapping *area) {
    bool named = around->lo <= page && page < around->hi && around->hi <= GZ_SPACE_LIMIT;
    uint64_t lo = named ? around->lo : page, hi = named ? around->hi : page + 1;
    gz_space_tell_before(lo, hi);
    gz_space_answer answer = gz_space_try_area(handle, page, round, around, area);
    if (answer == GZ_SPACE_DONE) gz_space_tell_after(lo, hi);
    return answer;
}

GZ_SPACE_MUST_CHECK
static inline gz_space_answer gz_space_try_areas_told(gz_space *handle, uint64_t lo, uint64_t hi, uint32_t *round,
                                                      bool keep, gz_space_mapping *areas, size_t room,
                                                      gz_space_counts *counts) {
    gz_space_tell_before(lo, hi);
    gz_space_answer answer = gz_space_try_areas(handle, lo, hi, round, keep, areas, room, counts);
    if (answer == GZ_SPACE_DONE) gz_space_tell_after(lo, hi);
    return answer;
}

GZ_SPACE_NONNULL
static inline gz_space_answer gz_space_done_told(gz_space *handle) {
    gz_space_tell_release(handle);
    return gz_space_done(handle);
}

GZ_SPACE_NONNULL
static inline gz_space_answer gz_space_end_told(gz_space *handle, gz_space next) {
    gz_space_tell_release(handle);
    return gz_space_end(handle, next);
}

#define gz_space_try gz_space_try_told
#define gz_space_try_fault gz_space_try_fault_told
#define gz_space_try_area gz_space_try_area_told
#define gz_space_try_areas gz_space_try_areas_told
#define gz_space_done gz_space_done_told
#define gz_space_end gz_space_end_told
#endif

/* Closes a handle: gives back what it holds. Its caller is gone, with those that it had left to share. Closing the last
   handle of a space frees the space.
   DONE; IS_CLOSED if it was already closed. The handle is closed after both.
   The thread that has the handle. */
GZ_SPACE_NONNULL
static inline gz_space_answer gz_space_close(gz_space *handle) {
    gz_space closed = GZ_SPACE_CLOSED;
    return gz_space_end(handle, closed);
}

/* Whether a handle is open. */
GZ_SPACE_NONNULL
static inline bool gz_space_is_open(const gz_space *handle) { return handle->opened != 0; }

/* Sleeps 100 microseconds, by nanosleep(2), which a signal ends. It leaves errno alone, is no cancellation point, and
   no declaration of it is hidden by a program's -std=c11. */
static inline void gz_space_nap(void) {
    const struct timespec time = { 0, 100000 };
    long answer;
    __asm__ volatile("syscall" : "=a"(answer) : "0"(35L), "D"(&time), "S"(NULL) : "rcx", "r11", "memory");
    (void)answer;
}

/* What stands between two tries: after LATER waits of 1,024, 2,048 and 4,096 turns of gz_space_pause, and then sleeps
   of 100 microseconds. After AT_ONCE nothing. false where the call isn't to be tried again. */
static inline bool gz_space_again(gz_space_answer answer, uint32_t *turns) {
    if (answer == GZ_SPACE_LATER) {
        if (*turns < 8192) (void)gz_space_pause(turns);
        else gz_space_nap();
    }
    return answer == GZ_SPACE_LATER || answer == GZ_SPACE_AT_ONCE;
}

/* Makes a call other than a fault, however long that takes: gz_space_try until it is DONE. The calls below are this
   one, each with its arguments. After three waits it sleeps between two tries, 100 microseconds at a time, so that it
   leaves its processor to others, also to threads of a lower priority under SCHED_FIFO.
   DONE; IS_CLOSED, BAD_CALL, HOLDS or SPENT at once, with the handle as it was.
   The thread that has the handle. */
GZ_SPACE_MUST_CHECK
static inline gz_space_answer gz_space_make(gz_space *handle, const gz_space_call *call, bool keep,
                                            gz_space_reply *reply) {
    uint32_t round = 0, turns = 0;
    gz_space_answer answer;
    do answer = gz_space_try(handle, call, &round, keep, reply);
    while (gz_space_again(answer, &turns));
    return answer;
}

/* Each of the calls from here on stands twice: alone, and as _held, after which the handle goes on holding until
   gz_space_done. A call that its arguments decide holds nothing. For each: DONE, with the space's answer in *reply; or
   IS_CLOSED, BAD_CALL, HOLDS or SPENT, with the handle as it was and *reply all 0. BAD_CALL comes only where the
   comment says so. The thread that has the handle. */

/* Maps len bytes, as mmap(2) does. Without FIXED and FIXED_NOREPLACE addr is a hint; if the hint isn't taken, the place
   is the highest one that is free, from page 16 on and below address 0x7ffffffff000.
   ADDRESS; or EINVAL (ADDR, LEN, FLAGS), ENOMEM (PAST_END, NO_GAP, ROWS), EEXIST (TAKEN) with FIXED_NOREPLACE, EPERM
   (SEALED) with FIXED. BAD_CALL for a bit of prot or flags without a name. */
GZ_SPACE_MUST_CHECK
static inline gz_space_answer gz_space_map(gz_space *handle, uint64_t addr, uint64_t len, uint32_t prot, uint32_t flags,
                                           gz_space_reply *reply) {
    const gz_space_call call = { GZ_SPACE_MAP, prot, flags, 0, addr, len, 0, 0 };
    return gz_space_make(handle, &call, false, reply);
}
GZ_SPACE_MUST_CHECK
static inline gz_space_answer gz_space_map_held(gz_space *handle, uint64_t addr, uint64_t len, uint32_t prot,
                                                uint32_t flags, gz_space_reply *reply) {
    const gz_space_call call = { GZ_SPACE_MAP, prot, flags, 0, addr, len, 0, 0 };
    return gz_space_make(handle, &call, true, reply);
}

/* Unmaps len bytes, as munmap(2) does. Pages that aren't mapped are no error.
   ZERO; or EINVAL (ADDR, LEN, END), EPERM (SEALED), ENOMEM (ROWS). */
GZ_SPACE_MUST_CHECK
static inline gz_space_answer gz_space_unmap(gz_space *handle, uint64_t addr, uint64_t len, gz_space_reply *reply) {
    const gz_space_call call = { GZ_SPACE_UNMAP, 0, 0, 0, addr, len, 0, 0 };
    return gz_space_make(handle, &call, false, reply);
}
GZ_SPACE_MUST_CHECK
static inline gz_space_answer gz_space_unmap_held(gz_space *handle, uint64_t addr, uint64_t len,
                                                  gz_space_reply *reply) {
    const gz_space_call call = { GZ_SPACE_UNMAP, 0, 0, 0, addr, len, 0, 0 };
    return gz_space_make(handle, &call, true, reply);
}

/* Changes what may be done with len bytes, as mprotect(2) does, but all of them or none. A length of 0 does nothing.
   ZERO; or EINVAL (ADDR), ENOMEM (PAST_END, MISSING, ROWS), EPERM (SEALED). BAD_CALL for a bit without a name. */
GZ_SPACE_MUST_CHECK
static inline gz_space_answer gz_space_protect(gz_space *handle, uint64_t addr, uint64_t len, uint32_t prot,
                                               gz_space_reply *reply) {
    const gz_space_call call = { GZ_SPACE_PROTECT, prot, 0, 0, addr, len, 0, 0 };
    return gz_space_make(handle, &call, false, reply);
}
GZ_SPACE_MUST_CHECK
static inline gz_space_answer gz_space_protect_held(gz_space *handle, uint64_t addr, uint64_t len, uint32_t prot,
                                                    gz_space_reply *reply) {
    const gz_space_call call = { GZ_SPACE_PROTECT, prot, 0, 0, addr, len, 0, 0 };
    return gz_space_make(handle, &call, true, reply);
}

/* Makes old_len bytes into new_len, as mremap(2) does. A smaller length is cut off at the end. A larger one goes, with
   MAYMOVE, to `place` if that isn't 0 and is free; or stays if the pages after it are free; or, with MAYMOVE, goes to
   the highest place that is free.
   ADDRESS; or EINVAL (ADDR, LEN, END), EFAULT (OTHER), EPERM (SEALED), ENOMEM (NO_GAP, ROWS). BAD_CALL for a flag other
   than MAYMOVE. */
GZ_SPACE_MUST_CHECK
static inline gz_space_answer gz_space_remap(gz_space *handle, uint64_t addr, uint64_t old_len, uint64_t new_len,
                                             uint32_t flags, uint64_t place, gz_space_reply *reply) {
    const gz_space_call call = { GZ_SPACE_REMAP, 0, flags, 0, addr, old_len, new_len, place };
    return gz_space_make(handle, &call, false, reply);
}
GZ_SPACE_MUST_CHECK
static inline gz_space_answer gz_space_remap_held(gz_space *handle, uint64_t addr, uint64_t old_len, uint64_t new_len,
                                                  uint32_t flags, uint64_t place, gz_space_reply *reply) {
    const gz_space_call call = { GZ_SPACE_REMAP, 0, flags, 0, addr, old_len, new_len, place };
    return gz_space_make(handle, &call, true, reply);
}

/* Seals len bytes, as mseal(2) does: nothing unmaps, replaces, protects or moves them from then on. A length of 0 does
   nothing. There is no flag yet.
   ZERO; or EINVAL (ADDR, FLAGS), ENOMEM (PAST_END, MISSING, ROWS). */
GZ_SPACE_MUST_CHECK
static inline gz_space_answer gz_space_seal(gz_space *handle, uint64_t addr, uint64_t len, uint32_t flags,
                                            gz_space_reply *reply) {
    const gz_space_call call = { GZ_SPACE_SEAL, 0, flags, 0, addr, len, 0, 0 };
    return gz_space_make(handle, &call, false, reply);
}
GZ_SPACE_MUST_CHECK
static inline gz_space_answer gz_space_seal_held(gz_space *handle, uint64_t addr, uint64_t len, uint32_t flags,
                                                 gz_space_reply *reply) {
    const gz_space_call call = { GZ_SPACE_SEAL, 0, flags, 0, addr, len, 0, 0 };
    return gz_space_make(handle, &call, true, reply);
}

/* Moves the end of the heap that begins at base, as brk(2) does: the heap is the pages from there on that are private,
   may be read and written, and are neither executable nor sealed.
   ADDRESS: end if it is reached, else where the heap still ends; or EINVAL (ADDR) of a base that is 0, isn't a page's,
   or is too high. */
GZ_SPACE_MUST_CHECK
static inline gz_space_answer gz_space_brk(gz_space *handle, uint64_t base, uint64_t end, gz_space_reply *reply) {
    const gz_space_call call = { GZ_SPACE_BRK, 0, 0, 0, end, 0, 0, base };
    return gz_space_make(handle, &call, false, reply);
}
GZ_SPACE_MUST_CHECK
static inline gz_space_answer gz_space_brk_held(gz_space *handle, uint64_t base, uint64_t end, gz_space_reply *reply) {
    const gz_space_call call = { GZ_SPACE_BRK, 0, 0, 0, end, 0, 0, base };
    return gz_space_make(handle, &call, true, reply);
}

/* One access to the byte at addr: READ, WRITE or EXEC. It holds the page as a reader, so faults run side by side, of
   one page too. gz_space_fault_held goes on holding it; with `alone` it holds the page as a writer, so no other fault
   of the page comes between, as where the page is filled.
   GRANTED, MAPERR or ACCERR. BAD_CALL for another access. */
GZ_SPACE_MUST_CHECK
static inline gz_space_answer gz_space_fault_by(gz_space *handle, uint64_t addr, uint32_t access, bool alone, bool keep,
                                                gz_space_reply *reply) {
    uint32_t turns = 0;
    gz_space_answer answer;
    do answer = gz_space_try_fault(handle, addr, access, alone, keep, reply);
    while (gz_space_again(answer, &turns));
    return answer;
}
GZ_SPACE_MUST_CHECK
static inline gz_space_answer gz_space_fault(gz_space *handle, uint64_t addr, uint32_t access, gz_space_reply *reply) {
    return gz_space_fault_by(handle, addr, access, false, false, reply);
}
GZ_SPACE_MUST_CHECK
static inline gz_space_answer gz_space_fault_held(gz_space *handle, uint64_t addr, uint32_t access, bool alone,
                                                  gz_space_reply *reply) {
    return gz_space_fault_by(handle, addr, access, alone, true, reply);
}

/* The area of the byte at addr, with its exact ends, as it is at one moment of the call: gz_space_try_area until it is
   DONE. It holds pages as a reader: faults that aren't alone run beside it, and all other calls wait. Nothing is held
   afterwards. While others change the area's ends it may look again and again.
   DONE, with the area in *area, all 0 if the page isn't mapped; IS_CLOSED, BAD_CALL for an address at or above page
   GZ_SPACE_LIMIT, or HOLDS at once, with the handle as it was and *area all 0.
   The thread that has the handle. */
GZ_SPACE_MUST_CHECK
static inline gz_space_answer gz_space_area(gz_space *handle, uint64_t addr, gz_space_mapping *area) {
    uint32_t round = 0, turns = 0;
    gz_space_pages around = { 0, 0 };
    gz_space_answer answer;
    do answer = gz_space_try_area(handle, addr / GZ_SPACE_PAGE, &round, &around, area);
    while (gz_space_again(answer, &turns));
    return answer;
}

/* The areas of the pages from lo on and below hi, each clipped to them, as they are at one moment of the call:
   gz_space_try_areas until it is DONE; 0 and GZ_SPACE_LIMIT are all pages. gz_space_areas_held goes on holding these
   pages as a reader, so that the areas stay what they are until gz_space_done, as for a copy of the pages.
   gz_space_count has no room: it counts alone.
   DONE, with the first areas in `areas`, as many as have room, and how many there are in counts->areas: where that is
   more than `room`, the others may be had by another call, at another moment. IS_CLOSED, BAD_CALL or HOLDS at once,
   with the handle as it was, *counts all 0 and `areas` as it was.
   The thread that has the handle. */
GZ_SPACE_MUST_CHECK
static inline gz_space_answer gz_space_areas_by(gz_space *handle, uint64_t lo, uint64_t hi, bool keep,
                                                gz_space_mapping *areas, size_t room, gz_space_counts *counts) {
    uint32_t round = 0, turns = 0;
    gz_space_answer answer;
    do answer = gz_space_try_areas(handle, lo, hi, &round, keep, areas, room, counts);
    while (gz_space_again(answer, &turns));
    return answer;
}
GZ_SPACE_MUST_CHECK
static inline gz_space_answer gz_space_areas(gz_space *handle, uint64_t lo, uint64_t hi, gz_space_mapping *areas,
                                             size_t room, gz_space_counts *counts) {
    return gz_space_areas_by(handle, lo, hi, false, areas, room, counts);
}
GZ_SPACE_MUST_CHECK
static inline gz_space_answer gz_space_areas_held(gz_space *handle, uint64_t lo, uint64_t hi, gz_space_mapping *areas,
                                                  size_t room, gz_space_counts *counts) {
    return gz_space_areas_by(handle, lo, hi, true, areas, room, counts);
}
GZ_SPACE_MUST_CHECK
static inline gz_space_answer gz_space_count(gz_space *handle, uint64_t lo, uint64_t hi, gz_space_counts *counts) {
    gz_space_mapping none;
    return gz_space_areas_by(handle, lo, hi, false, &none, 0, counts);
}

#ifdef __cplusplus
}
#endif

#endif
