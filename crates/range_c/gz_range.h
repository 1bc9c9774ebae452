/* The proved range lock of Gazmrobik (gz_, which has nothing to do with gzip), for up to 16 threads in C and C++.

   A range is the whole numbers from lo on and below hi; what they number (bytes, pages, rows) is up to you. A handle
   holds one range at a time, as a reader or as a writer. Two handles of one table never hold overlapping ranges at once
   if one of them is a writer's. Beside the lock a table has client words: 64-bit atomic numbers for your own use.

   A table has a fixed number of seats, and each open handle has one, so at most as many handles as seats are open at
   once. Open the first handle with gz_range_open, get one more for each thread with gz_range_share, and close each with
   gz_range_close; closing the last one frees the table. The seat of a closed handle is free, and goes to a later share
   by any handle of the table: so threads may come and go, as in the example pool.c.

       #include <gz_range.h>
       #include <stdio.h>

       int main(void) {
           gz_range first = GZ_RANGE_CLOSED, second = GZ_RANGE_CLOSED;
           gz_busy busy;
           if (gz_range_open_plain(2, &first) || gz_range_share(&first, &second)) return 1;
           if (gz_range_acquire(&first, 10, 20, GZ_RANGE_WRITER)) return 1;
           if (gz_range_try(&second, 15, 16, GZ_RANGE_READER, 4, &busy) == GZ_RANGE_BUSY)
               printf("seat %u has or wants %u to %u\n", busy.owner, (unsigned)busy.lo, (unsigned)busy.hi);
           gz_range_release(&first);
           gz_range_close(&first);
           gz_range_close(&second);
           return 0;
       }

   It prints: seat 1 has or wants 10 to 20.

   What you may rely on:
   - What each call of the archive answers, and what it leaves in its handles, is proved, as long as you keep what the
     list below says that you owe. So is it that a call for a range asks for no other one, and so holds none on the
     way. Of gz_range_end only its answer is proved, and that the handle is closed; that the
     range is given back and the last one frees the table is tested. The calls that are written in this header, such as
     acquire and close, are C over those of the archive, and are tested. So acquire's loop, which tries again and waits
     between two tries, is C. Of a pause of the archive it is proved how many turns the next one takes; that a pause
     takes time, and how long, is neither proved nor tested.
   - What a thread wrote before it gave a range back is seen by each thread that later holds a range in conflict with
     it: a release happens before that grant, in the words of C11. So does a step on a client word before a later step
     on the same word. Two readers are in no order to each other, and neither are ranges that don't overlap. This isn't
     proved of your memory: it rests on each step of the library being sequentially consistent, and on a compiler that
     moves no access across a call.
   - No call sleeps but gz_range_acquire and gz_range_acquire_until, and none takes a lock but in malloc and free. Only
     gz_range_acquire waits without a bound, by trying again; gz_range_try and gz_range_pause wait a bounded number of
     turns. Only open, open_cut, share and close call the allocator, and only the first three can fail for want of
     memory. A table takes 2 to 25 KB for 1 to 16 seats, once for each of its lists, twice as much while it is opened,
     and 8 bytes for each client word; each further handle takes 128 bytes.

   What you owe. Nothing checks it:
   - A handle begins as GZ_RANGE_CLOSED, and afterwards only these calls write or copy it.
   - A handle is in one call at a time. The handles of one table may be in calls at once; that is what they are for.
   - A handle goes to another thread by a lock, by a thread's start or join, or by a sequentially consistent atomic.
   - A pointer is to a live object of its type that nobody else uses meanwhile. None is null; without client words use
     gz_range_open_plain, and without busy gz_range_try_plain.
   - A signal handler calls gz_range_try with tries 1, in its three forms, gz_range_release, gz_range_held and the four
     on client words alone, by a handle that nobody else has. These wait for nobody, take no memory and leave errno
     alone.
   - In the forked child of a process that had threads gz_range_forget alone is called with a handle from before the
     fork; a table that is opened there is like any other, if malloc may be called there, as glibc allows.
   - No call is left by longjmp or by an asynchronous cancel. None is a cancellation point: a thread that is cancelled
     while it sleeps goes on waiting, as in pthread_mutex_lock, at most until its moment.
   - malloc, realloc and free belong to one allocator, which aligns a block to each power of two up to 16 that divides
     its size.
   - A thread that ends without closing its handle leaves its range held and its seat taken for ever.

   The archive is for Linux on x86-64. `install` beside this header makes one archive, with a file for pkg-config;
   without it, programs link librange_c.a and the kit's liblibc_c.a, in this order. */
#ifndef GZ_RANGE_H
#define GZ_RANGE_H

#include <sched.h>
#include <stdbool.h>
#include <stddef.h>
#include <stdint.h>
#include <time.h>

#ifndef __x86_64__
#error "gz_range.h: the range lock's archive is for x86-64"
#endif

/* The version of this header and its archive: 100 for each step of the first number, 1 for each of the second. The
   second rises when calls, names or causes of a refusal are added; the first, which the shared object's name has too,
   when a program for the version before may no longer compile, or may mean something else.
   1.1 has gz_range_open_cut, BAD_CUT, gz_range_held, gz_range_pause and the names of the modes; gz_range_end refuses an
   open `next`; what gz_range_try waits between two tries grows; the seat of a closed handle is shared again.
   1.2 has gz_range_try_counted, 1.3 gz_range_acquire_until, gz_range_acquire_spinning, gz_range_forget, gz_range_scan,
   FULL and gz_range_counts. */
#define GZ_RANGE_VERSION 103
#define GZ_RANGE_VERSION_TEXT "1.3.0"

#ifdef __GNUC__
#define GZ_RANGE_NONNULL __attribute__((nonnull))
#define GZ_RANGE_MUST_CHECK __attribute__((nonnull, warn_unused_result))
#define GZ_RANGE_FIRST __attribute__((nonnull(1), warn_unused_result))
#else
#define GZ_RANGE_NONNULL
#define GZ_RANGE_MUST_CHECK
#define GZ_RANGE_FIRST
#endif

#ifdef __cplusplus
#define GZ_RANGE_ASSERT static_assert
extern "C" {
#else
#define GZ_RANGE_ASSERT _Static_assert
#endif

/* A handle: open, with a seat of a table behind it, or closed. Its members are the library's. */
typedef struct gz_range {
    void *at;
    uint64_t opened;
} gz_range;

/* What a handle begins as. A handle that is all 0 is the same. */
#define GZ_RANGE_CLOSED { NULL, 0 }

/* The most seats that a table has, the most client words, and the highest end of a range. */
#define GZ_RANGE_MOST_SEATS 16
#define GZ_RANGE_MOST_WORDS 1048576
#define GZ_RANGE_HIGHEST 4611686018427387904

/* What the calls' `writer` means: a writer's range is in conflict with each that overlaps it, a reader's only with
   writers'. */
#define GZ_RANGE_READER false
#define GZ_RANGE_WRITER true

/* A range of a handle, the numbers from lo on and below hi, with the number of that handle's seat, counted from 0, and
   whether it is a writer's. A refused try shows the range that was in its way, held or only asked for; gz_range_held
   shows a handle's own.
   The first handle of a table of n seats has seat n - 1, and each share from it gives the next one below, and after
   the last, seats that were given back. The number is below n, and no two open handles of one table have the same. */
typedef struct gz_busy {
    uint64_t lo, hi;
    uint32_t owner;
    bool writer;
} gz_busy;

/* What a call answers. Each call's comment names its answers. After BUSY, AGAIN, LONG and NO_NODE, and no other, a later
   try may do better (gz_range_may_retry): BUSY tells of a range in conflict, and the other three of another thread's
   work in the list, so that a caller treats them alike. NO_NODE comes often where there are more threads than
   processors: a thread that loses its processor inside a call keeps the nodes that all others gave back from being
   ready, until it runs again. More tries don't help then; a sleep between them does (gz_range_acquire).
   The examples meet each answer but AGAIN, LONG and NO_NODE, which need another thread inside a call. */
typedef enum gz_range_answer {
    GZ_RANGE_DONE = 0,       /* the call did what it is for */
    GZ_RANGE_BUSY = 1,       /* at a step of the last try another seat held, or asked for, the range in busy */
    GZ_RANGE_AGAIN = 2,      /* another seat changed the list where the last try was about to */
    GZ_RANGE_LONG = 3,       /* the last try looked at 16 nodes for each seat and one more */
    GZ_RANGE_NO_NODE = 4,    /* the seat's nodes are all in the list still, or others may still look at them */
    GZ_RANGE_NOT_TRIED = 5,  /* the number of tries was 0 */
    GZ_RANGE_BAD_RANGE = 6,  /* lo is not below hi, or hi is above GZ_RANGE_HIGHEST */
    GZ_RANGE_HAS_ONE = 7,    /* this handle holds a range already */
    GZ_RANGE_HAS_NONE = 8,   /* this handle holds no range */
    GZ_RANGE_IS_CLOSED = 9,  /* the handle that is to be worked with is closed */
    GZ_RANGE_IS_OPEN = 10,   /* a handle that has to be closed, as one that is to be opened, is open */
    GZ_RANGE_NO_MEMORY = 11, /* there was no memory */
    GZ_RANGE_BAD_SEATS = 12, /* the number of seats is 0 or above GZ_RANGE_MOST_SEATS */
    GZ_RANGE_BAD_WORDS = 13, /* there are more than GZ_RANGE_MOST_WORDS client words */
    GZ_RANGE_NONE_LEFT = 14, /* the handle has no seat left to share, and none was found that was given back */
    GZ_RANGE_NO_WORD = 15,   /* the table has no client word of that number */
    GZ_RANGE_OTHER = 16,     /* the client word had another value than the expected one */
    GZ_RANGE_BAD_CUT = 17,   /* there are 0 regions, or more than 16, or a block has more than 2^62 numbers */
    GZ_RANGE_FULL = 18       /* a scan went past one range more than there are places */
} gz_range_answer;

/* The archive was made for these sizes. */
GZ_RANGE_ASSERT(sizeof(gz_range) == 16 && sizeof(gz_busy) == 24, "the structs have the sizes of the archive");
GZ_RANGE_ASSERT(sizeof(gz_range_answer) == 4 && sizeof(bool) == 1, "answers and flags have the sizes of the archive");
GZ_RANGE_ASSERT(sizeof(size_t) == 8 && sizeof(void *) == 8, "sizes and pointers have 64 bits");

/* What an answer means, for people. */
static inline const char *gz_range_text(gz_range_answer answer) {
    switch (answer) {
    case GZ_RANGE_DONE: return "done";
    case GZ_RANGE_BUSY: return "another handle holds or asks for a range in conflict";
    case GZ_RANGE_AGAIN: return "another handle changed the list at the same place";
    case GZ_RANGE_LONG: return "the walk of the list grew too long";
    case GZ_RANGE_NO_NODE: return "no node of the handle is ready to be used again";
    case GZ_RANGE_NOT_TRIED: return "no try was asked for";
    case GZ_RANGE_BAD_RANGE: return "the ends bound no range";
    case GZ_RANGE_HAS_ONE: return "the handle holds a range already";
    case GZ_RANGE_HAS_NONE: return "the handle holds no range";
    case GZ_RANGE_IS_CLOSED: return "the handle is closed";
    case GZ_RANGE_IS_OPEN: return "a handle that has to be closed is open";
    case GZ_RANGE_NO_MEMORY: return "out of memory";
    case GZ_RANGE_BAD_SEATS: return "the number of seats isn't from 1 to 16";
    case GZ_RANGE_BAD_WORDS: return "more than 1048576 client words";
    case GZ_RANGE_NONE_LEFT: return "no seat is free";
    case GZ_RANGE_NO_WORD: return "the table has no client word of that number";
    case GZ_RANGE_OTHER: return "the client word has another value than the expected one";
    case GZ_RANGE_BAD_CUT: return "the numbers make no cut into regions";
    case GZ_RANGE_FULL: return "more ranges than places";
    }
    return "no answer of the range lock";
}

/* Opens a handle over a new table of that many seats, 1 to 16, whose client words begin as copies of `words`, at most
   2^20. The handle holds nothing and has seats - 1 seats to share.
   DONE; or the first of IS_OPEN, BAD_WORDS, BAD_SEATS, NO_MEMORY that applies. After a refusal nothing has changed.
   Any thread. It allocates. */
GZ_RANGE_MUST_CHECK
gz_range_answer gz_range_open(uint32_t seats, const uint64_t *words, size_t count, gz_range *handle);

/* The same over a cut of the numbers into regions, 1 to 16, in blocks of 2^bits numbers, with bits at most 62. The
   first block belongs to the first region, the next one to the second, and so on; after the last region the first one
   has its turn again. Each region has a list of its own; where there are several, one more list is for the ranges in
   more than one region.
   A cut is for many threads at ranges of different regions: where no node is in the list for ranges in several of them,
   they change no word of a list in common, where with one list most calls change its head. A range in several regions may
   leave its node there when it is given back; the next calls for ranges of one region take it out, and work in that
   list meanwhile. So most ranges should fit into a block; with bits 16 it has 65536 numbers. A range in several regions
   takes longer: a look at the list of each, and more where somebody is there. And while threads at ranges of one region
   keep coming, gz_range_acquire of a range in several may try for ever, since one of them may be in its way at each
   try; a caller from C keeps no node in a list while it waits. A table takes as many times the memory as it has lists.
   All else is as with gz_range_open, whose tables have one list: which ranges are in conflict, and what each call
   answers. Which cut serves a load best, or whether any does, only measuring tells.
   DONE; or the first of IS_OPEN, BAD_CUT, BAD_WORDS, BAD_SEATS, NO_MEMORY that applies. After a refusal nothing has
   changed.
   Any thread. It allocates. */
GZ_RANGE_MUST_CHECK
gz_range_answer gz_range_open_cut(uint32_t seats, uint32_t regions, uint32_t bits, const uint64_t *words, size_t count,
                                  gz_range *handle);

/* The same as gz_range_open, of a table without client words. */
GZ_RANGE_MUST_CHECK
static inline gz_range_answer gz_range_open_plain(uint32_t seats, gz_range *handle) {
    const uint64_t none = 0;
    return gz_range_open(seats, &none, 0, handle);
}

/* Opens a handle with a seat of its own in the table of `from`: the last of those that `from` has left to share, or if
   it has none, one that a closed handle gave back. The new handle holds nothing and has no seats left to share, so a
   share from it gives only seats that were given back. What `from` holds stays.
   DONE; or the first of IS_OPEN (handle), IS_CLOSED (from), NONE_LEFT, NO_MEMORY that applies. After a refusal nothing
   has changed. After NONE_LEFT a later share may do better: once a close of another handle has returned, its seat is
   there for the next share, unless another share takes it first.
   The thread that has `from`. It allocates. */
GZ_RANGE_MUST_CHECK
gz_range_answer gz_range_share(gz_range *from, gz_range *handle);

/* Tries to hold the numbers from lo on and below hi, at most 2^62, as a writer or as a reader: until a try is granted,
   and at most `tries` times. A try makes at most 64 atomic steps and 386 for each seat of the table, whatever other
   threads do; for a range in several regions of a cut it makes at most that many for each list of the table. After
   BUSY, LONG or NO_NODE it waits before the next try, as gz_range_pause does, and after AGAIN not at all. With tries 1
   it makes one and waits for nobody; with 0 it only checks what is asked.
   How many tries to ask for: a single try may be refused though no range is in conflict, as a weak compare-exchange may
   fail. The answer is then AGAIN, LONG or NO_NODE, and comes from another thread's work in the list. So four busy
   threads at ranges apart were refused 28 of 100 calls with 1 try, 2 of 100 with 4 tries, and 1 of 1,000 with 16
   (crates/range_c/bench/refusals.c of the repository). Ask for 1 if you have something else to do, and for 4 to 16 if
   you want the range soon: 4 tries wait at most 7,168 turns, and each one above 4 at most another 8,192.
   DONE, and the range is held from a step of this call on; or the first of IS_CLOSED, HAS_ONE, BAD_RANGE, NOT_TRIED
   that applies, with the handle as it was; or BUSY, AGAIN, LONG or NO_NODE if all tries were refused: why the last one
   was, with nothing held. busy is filled after BUSY, and all 0 after each other answer.
   The thread that has the handle. */
GZ_RANGE_MUST_CHECK
gz_range_answer gz_range_try(gz_range *handle, uint64_t lo, uint64_t hi, bool writer, uint32_t tries, gz_busy *busy);

/* The same, and *made is how many tries it made: from 1 to `tries` after DONE, the last of which was granted; `tries`
   after BUSY, AGAIN, LONG or NO_NODE; and 0 after each other answer. */
GZ_RANGE_MUST_CHECK
gz_range_answer gz_range_try_counted(gz_range *handle, uint64_t lo, uint64_t hi, bool writer, uint32_t tries,
                                     gz_busy *busy, uint32_t *made);

/* Waits as gz_range_acquire does between its first tries, for a program with a loop of its own: *turns turns of the
   processor's pause, but at least 1,024 and at most 8,192. *turns is 0 at first, and becomes twice what was waited, at
   most 8,192. How long a turn takes depends on the processor; at 4 to 12 ns, as were seen, 8,192 take some 30 to 100
   microseconds. The call doesn't yield the processor.
   true if this wait was one of 8,192 turns: then let other threads run, by sched_yield or a sleep.
   Any thread. */
GZ_RANGE_NONNULL
bool gz_range_pause(uint32_t *turns);

/* Gives the held range back, in one or two atomic steps.
   DONE, and nothing is held; IS_CLOSED or HAS_NONE, with the handle as it was.
   The thread that has the handle. */
GZ_RANGE_NONNULL
gz_range_answer gz_range_release(gz_range *handle);

/* Tells what the handle holds, and the number of its seat, in `held`. Nothing changes, but the handle is in a call as
   in any other: two threads may not look at one at once.
   DONE if it holds a range; HAS_NONE, with the number of the seat and all else 0; IS_CLOSED, with all 0.
   The thread that has the handle. */
GZ_RANGE_NONNULL
gz_range_answer gz_range_held(const gz_range *handle, gz_busy *held);

/* What gz_range_scan calls. It puts `next`, a closed handle, in the place of the handle until the scan is over. IS_OPEN
   if next is open, with nothing changed. */
GZ_RANGE_NONNULL
gz_range_answer gz_range_scan_into(gz_range *handle, gz_range next, gz_busy *ranges, size_t count, size_t *found);

/* Each of the next four is one sequentially consistent atomic step on client word i, counted from 0. It needs no held
   range. What the handle holds stays.
   DONE; IS_CLOSED or NO_WORD, with nothing changed and nothing written.
   The thread that has the handle. */

/* Loads the word into *value. */
GZ_RANGE_NONNULL
gz_range_answer gz_range_load(gz_range *handle, uint32_t i, uint64_t *value);

/* Stores a value in the word. */
GZ_RANGE_NONNULL
gz_range_answer gz_range_store(gz_range *handle, uint32_t i, uint64_t value);

/* Adds to the word, modulo 2^64. *before is its value before. */
GZ_RANGE_NONNULL
gz_range_answer gz_range_add(gz_range *handle, uint32_t i, uint64_t by, uint64_t *before);

/* Puts value into the word if the word is *expected. If it has another value, the answer is OTHER, the word stays, and
   *expected becomes what was found. */
GZ_RANGE_MUST_CHECK
gz_range_answer gz_range_exchange(gz_range *handle, uint32_t i, uint64_t *expected, uint64_t value);

/* What gz_range_close calls. It puts `next`, a closed handle, in the place of the handle, and ends the old one: the
   held range is given back, then the seats that were left to share, and the handle's own. It waits for nobody, and
   other handles of the table may be in calls meanwhile.
   IS_OPEN if next is open, with nothing changed; else DONE, or IS_CLOSED if the handle was already closed, and the
   handle is closed. */
GZ_RANGE_NONNULL
gz_range_answer gz_range_end(gz_range *handle, gz_range next);

/* ThreadSanitizer sees no step of the archive. In a program that is compiled for it, the calls below this line go
   through functions that tell it what they do: a grant and a release meet at each number of the range modulo 64, and
   two steps on client words at each number of the word modulo 64. So it reports no correct program, and misses the
   wrong ones that are in order only by such numbers, or by what readers do. */
#if defined(__SANITIZE_THREAD__)
#define GZ_RANGE_TELLS 1
#elif defined(__has_feature)
#if __has_feature(thread_sanitizer)
#define GZ_RANGE_TELLS 1
#endif
#endif
#ifdef GZ_RANGE_TELLS
#include <sanitizer/tsan_interface.h>

__attribute__((weak)) char gz_range_places[2][64];

static inline void gz_range_tell_before(int words, uint64_t lo, uint64_t hi) {
    for (uint64_t n = lo; n < hi && n - lo < 64; n++) __tsan_release(&gz_range_places[words][n % 64]);
}

static inline void gz_range_tell_after(int words, uint64_t lo, uint64_t hi) {
    for (uint64_t n = lo; n < hi && n - lo < 64; n++) __tsan_acquire(&gz_range_places[words][n % 64]);
}

static inline void gz_range_tell_release(gz_range *handle) {
    gz_busy held;
    if (gz_range_held(handle, &held) == GZ_RANGE_DONE) gz_range_tell_before(0, held.lo, held.hi);
}

GZ_RANGE_MUST_CHECK
static inline gz_range_answer gz_range_try_told(gz_range *handle, uint64_t lo, uint64_t hi, bool writer, uint32_t tries,
                                                gz_busy *busy) {
    gz_range_answer answer = gz_range_try(handle, lo, hi, writer, tries, busy);
    if (answer == GZ_RANGE_DONE) gz_range_tell_after(0, lo, hi);
    return answer;
}

GZ_RANGE_MUST_CHECK
static inline gz_range_answer gz_range_try_counted_told(gz_range *handle, uint64_t lo, uint64_t hi, bool writer,
                                                        uint32_t tries, gz_busy *busy, uint32_t *made) {
    gz_range_answer answer = gz_range_try_counted(handle, lo, hi, writer, tries, busy, made);
    if (answer == GZ_RANGE_DONE) gz_range_tell_after(0, lo, hi);
    return answer;
}

GZ_RANGE_NONNULL
static inline gz_range_answer gz_range_release_told(gz_range *handle) {
    gz_range_tell_release(handle);
    return gz_range_release(handle);
}

GZ_RANGE_NONNULL
static inline gz_range_answer gz_range_end_told(gz_range *handle, gz_range next) {
    gz_range_tell_release(handle);
    return gz_range_end(handle, next);
}

GZ_RANGE_NONNULL
static inline gz_range_answer gz_range_load_told(gz_range *handle, uint32_t i, uint64_t *value) {
    gz_range_answer answer = gz_range_load(handle, i, value);
    gz_range_tell_after(1, i, i + 1ull);
    return answer;
}

GZ_RANGE_NONNULL
static inline gz_range_answer gz_range_store_told(gz_range *handle, uint32_t i, uint64_t value) {
    gz_range_tell_before(1, i, i + 1ull);
    return gz_range_store(handle, i, value);
}

GZ_RANGE_NONNULL
static inline gz_range_answer gz_range_add_told(gz_range *handle, uint32_t i, uint64_t by, uint64_t *before) {
    gz_range_tell_before(1, i, i + 1ull);
    gz_range_answer answer = gz_range_add(handle, i, by, before);
    gz_range_tell_after(1, i, i + 1ull);
    return answer;
}

GZ_RANGE_MUST_CHECK
static inline gz_range_answer gz_range_exchange_told(gz_range *handle, uint32_t i, uint64_t *expected, uint64_t value) {
    gz_range_tell_before(1, i, i + 1ull);
    gz_range_answer answer = gz_range_exchange(handle, i, expected, value);
    gz_range_tell_after(1, i, i + 1ull);
    return answer;
}

#define gz_range_try gz_range_try_told
#define gz_range_try_counted gz_range_try_counted_told
#define gz_range_release gz_range_release_told
#define gz_range_end gz_range_end_told
#define gz_range_load gz_range_load_told
#define gz_range_store gz_range_store_told
#define gz_range_add gz_range_add_told
#define gz_range_exchange gz_range_exchange_told
#endif

/* Shows who has or wants what in the handle's table, as for a table that seems stuck. It goes through all lists, and
   writes each range that it goes past, held or only asked for, to ranges[0] and on, of which there are `count`. *found
   is how many. Each stood in a list at a step of this call, and no list is left out; but other threads go on meanwhile,
   so a range may be missing that came or went, or be shown twice, as one in several regions that is asked for may.
   While nobody comes or goes, twice as many places as the table has seats are enough.
   DONE if it came to the end of all lists. With what was found until then: FULL if it went past one range more than
   there are places, AGAIN if another thread changed the list where it was, LONG if it looked at 16 nodes for each seat
   and one more. With *found 0: IS_CLOSED, or HAS_ONE if the handle holds a range. So keep a handle for this: a table
   whose seats are all out has none to share.
   It waits for nobody, and makes a bounded number of atomic steps.
   The thread that has the handle. */
GZ_RANGE_NONNULL
static inline gz_range_answer gz_range_scan(gz_range *handle, gz_busy *ranges, size_t count, size_t *found) {
    gz_range closed = GZ_RANGE_CLOSED;
    return gz_range_scan_into(handle, closed, ranges, count, found);
}

/* gz_range_try without busy, for when it doesn't matter who is in the way. */
GZ_RANGE_MUST_CHECK
static inline gz_range_answer gz_range_try_plain(gz_range *handle, uint64_t lo, uint64_t hi, bool writer,
                                                 uint32_t tries) {
    gz_busy busy;
    return gz_range_try(handle, lo, hi, writer, tries, &busy);
}

/* Makes a handle closed and leaves its table alone: what it holds stays held, its seat stays taken, and no memory is
   freed. It is for the child after a fork, whose copy of a table other threads may have left in the middle of a call;
   there it opens a table of its own. The example forks.c does it by pthread_atfork.
   It answers nothing, and the handle is closed.
   The thread that has the handle, or the child. */
GZ_RANGE_NONNULL
static inline void gz_range_forget(gz_range *handle) {
    gz_range closed = GZ_RANGE_CLOSED;
    *handle = closed;
}

/* Whether a handle is open. */
GZ_RANGE_NONNULL
static inline bool gz_range_is_open(const gz_range *handle) { return handle->opened != 0; }

/* Whether an answer is a refusal after which a later try may do better: BUSY, AGAIN, LONG or NO_NODE. */
static inline bool gz_range_may_retry(gz_range_answer answer) {
    return answer >= GZ_RANGE_BUSY && answer <= GZ_RANGE_NO_NODE;
}

/* What the callers of a table met that gave this to gz_range_acquire_counted: how many tries they made, how many of
   these were refused with the answer of that number, as refused[GZ_RANGE_BUSY], how many waits they made between two
   tries, and how many sleeps. It begins as all 0. Each step on it is a relaxed atomic one, so threads may share one;
   read a number of it by __atomic_load_n while they run. */
typedef struct gz_range_counts {
    uint64_t tries, refused[GZ_RANGE_NO_NODE + 1], waits, sleeps;
} gz_range_counts;

/* Counts one try by its answer, for a loop of the program's own. An answer that comes before a try isn't counted, and
   where counts is null none is. */
static inline void gz_range_count(gz_range_counts *counts, gz_range_answer answer) {
    if (!counts || answer > GZ_RANGE_NO_NODE) return;
    __atomic_fetch_add(&counts->tries, 1, __ATOMIC_RELAXED);
    if (answer != GZ_RANGE_DONE) __atomic_fetch_add(&counts->refused[answer], 1, __ATOMIC_RELAXED);
}

/* How callers sleep. All that follows up to gz_range_acquire_spinning is this header's own.
   A caller that is going to sleep takes one of 64 places, which all tables of the process share: `asleep` has a bit for
   each that is taken. There it writes its range, and then it tries once more. Refused again, it writes which range was
   in its way, puts ASLEEP into its word where nobody has put NOTIFIED, and sleeps on that word by futex(2).
   Who gives a range back looks at `asleep` after that. Either it finds the caller's bit, or the caller counted itself
   later, and its try comes later still and finds the range given back. Where it finds bits, it puts NOTIFIED into the
   word of each whose range is in conflict with its own, and which is awake between its count and its sleep, or met the
   range that is gone, or was left for a later turn (`any`); and it wakes those that slept. Of two that are in conflict
   with each other it notifies the older one; the other is left for a later turn, unless the older one has gone by then.
   A caller that is refused once more, or that gives up, passes on its turn so, as its own node may have been in the way
   of others. What still has nobody who tells of it costs a sleep of 1 to 16 ms and no more, since no sleep is longer: a
   try that isn't one of gz_range_acquire, and was refused; who was left behind one that another range keeps; a release
   by the archive's own symbol, as from another language; tables of two shared objects that don't share this symbol; two
   tables with the same ranges and seats; and a sixty-fifth caller, which sleeps without a place. */
enum { GZ_RANGE_SLEEP_PLACES = 64, GZ_RANGE_SLEEP_AWAKE = 0, GZ_RANGE_SLEEP_ASLEEP = 1, GZ_RANGE_SLEEP_NOTIFIED = 2 };

/* A place: the range that its caller waits for, and the one that it met when it fell asleep. `age` is 0 while the place
   is free or not yet written, and of a later caller higher. */
typedef struct gz_range_sleep_place {
    uint64_t age, lo, hi, met_lo, met_hi;
    uint32_t writer, met_by, any, word, process, unused;
} gz_range_sleep_place;

typedef struct gz_range_sleep_table {
    uint64_t asleep, ages;
    gz_range_sleep_place places[GZ_RANGE_SLEEP_PLACES];
} gz_range_sleep_table;

__attribute__((weak, visibility("default"), aligned(64))) gz_range_sleep_table gz_range_sleepers;

#define GZ_RANGE_SLEEP_LOAD(at) __atomic_load_n(at, __ATOMIC_SEQ_CST)
#define GZ_RANGE_SLEEP_STORE(at, value) __atomic_store_n(at, value, __ATOMIC_SEQ_CST)

/* Whether a caller is counted: one load. */
static inline bool gz_range_sleep_any(void) {
    return __builtin_expect(GZ_RANGE_SLEEP_LOAD(&gz_range_sleepers.asleep) != 0, 0);
}

/* A system call of Linux. It leaves errno alone, and no declaration of it is hidden by a program's -std=c11. */
static inline int64_t gz_range_sleep_ask(int64_t call, const void *at, int64_t what, int64_t value,
                                         const struct timespec *time) {
    int64_t answer;
    register const struct timespec *fourth __asm__("r10") = time;
    register int64_t fifth __asm__("r8") = 0;
    register int64_t sixth __asm__("r9") = UINT32_MAX;
    __asm__ volatile("syscall"
                     : "=a"(answer)
                     : "0"(call), "D"(at), "S"(what), "d"(value), "r"(fourth), "r"(fifth), "r"(sixth)
                     : "rcx", "r11", "memory");
    return answer;
}

/* The process, by getpid(2). The child of a fork has the places of its parent's callers, and passes over them. */
static inline uint32_t gz_range_sleep_process(void) { return (uint32_t)gz_range_sleep_ask(39, NULL, 0, 0, NULL); }

/* A range's seat and mode as one number. */
static inline uint32_t gz_range_sleep_by(const gz_busy *range) { return 2 * range->owner + (range->writer ? 1 : 0); }

static inline bool gz_range_sleep_conflict(const gz_busy *a, const gz_busy *b) {
    return a->lo < b->hi && b->lo < a->hi && (a->writer || b->writer);
}

/* Frees a place. */
static inline void gz_range_sleep_end(unsigned i) {
    if (i == GZ_RANGE_SLEEP_PLACES) return;
    GZ_RANGE_SLEEP_STORE(&gz_range_sleepers.places[i].age, 0);
    __atomic_fetch_and(&gz_range_sleepers.asleep, ~(UINT64_C(1) << i), __ATOMIC_SEQ_CST);
}

/* Notifies callers after `gone`, or where it is null any range, was given back or withdrawn; `own` is the place of the
   one that tells, if it has one.
   Those in conflict with `in_way`, which a caller met that passes on its turn, are left for that one's release. */
__attribute__((noinline, unused)) static void gz_range_sleep_wake(const gz_busy *gone, const gz_busy *in_way,
                                                                  unsigned own) {
    const gz_busy unknown = { 0, UINT64_MAX, UINT32_MAX, true };
    gz_busy ranges[GZ_RANGE_SLEEP_PLACES];
    uint64_t ages[GZ_RANGE_SLEEP_PLACES], left = 0, notified = 0;
    if (!gone) gone = &unknown;
    const uint32_t process = gz_range_sleep_process();
    for (uint64_t rest = GZ_RANGE_SLEEP_LOAD(&gz_range_sleepers.asleep); rest; rest &= rest - 1) {
        const unsigned i = (unsigned)__builtin_ctzll(rest);
        gz_range_sleep_place *place = &gz_range_sleepers.places[i];
        ages[i] = GZ_RANGE_SLEEP_LOAD(&place->age);
        if (i == own || ages[i] == 0) continue;
        uint32_t its = GZ_RANGE_SLEEP_LOAD(&place->process);
        if (its != process) {
            /* Of the parent. The one thread that finds its number there frees the place. */
            if (its && __atomic_compare_exchange_n(&place->process, &its, 0, false, __ATOMIC_SEQ_CST, __ATOMIC_SEQ_CST))
                gz_range_sleep_end(i);
            continue;
        }
        const bool awake = GZ_RANGE_SLEEP_LOAD(&place->word) != GZ_RANGE_SLEEP_ASLEEP;
        ranges[i].lo = GZ_RANGE_SLEEP_LOAD(&place->lo);
        ranges[i].hi = GZ_RANGE_SLEEP_LOAD(&place->hi);
        ranges[i].writer = GZ_RANGE_SLEEP_LOAD(&place->writer) != 0;
        if (!gz_range_sleep_conflict(&ranges[i], gone)) continue;
        if (!awake && !GZ_RANGE_SLEEP_LOAD(&place->any) && gone->owner != UINT32_MAX &&
            (GZ_RANGE_SLEEP_LOAD(&place->met_lo) != gone->lo || GZ_RANGE_SLEEP_LOAD(&place->met_hi) != gone->hi ||
             GZ_RANGE_SLEEP_LOAD(&place->met_by) != gz_range_sleep_by(gone)))
            continue;
        left |= UINT64_C(1) << i;
    }
    while (left) {
        unsigned i = (unsigned)__builtin_ctzll(left);
        for (uint64_t rest = left; rest; rest &= rest - 1)
            if (ages[__builtin_ctzll(rest)] < ages[i]) i = (unsigned)__builtin_ctzll(rest);
        gz_range_sleep_place *place = &gz_range_sleepers.places[i];
        left &= ~(UINT64_C(1) << i);
        bool later = in_way && gz_range_sleep_conflict(&ranges[i], in_way);
        if (later) GZ_RANGE_SLEEP_STORE(&place->any, 1);
        for (uint64_t rest = notified; rest && !later; rest &= rest - 1) {
            const unsigned older = (unsigned)__builtin_ctzll(rest);
            if (!gz_range_sleep_conflict(&ranges[i], &ranges[older])) continue;
            GZ_RANGE_SLEEP_STORE(&place->any, 1);
            later = GZ_RANGE_SLEEP_LOAD(&gz_range_sleepers.places[older].age) == ages[older];
        }
        if (later) continue;
        notified |= UINT64_C(1) << i;
        if (__atomic_exchange_n(&place->word, GZ_RANGE_SLEEP_NOTIFIED, __ATOMIC_SEQ_CST) == GZ_RANGE_SLEEP_ASLEEP)
            gz_range_sleep_ask(202, &place->word, 129, 1, NULL); /* futex(2), FUTEX_WAKE_PRIVATE */
    }
}

/* Takes a place for a caller, or GZ_RANGE_SLEEP_PLACES where none is free. */
static inline unsigned gz_range_sleep_begin(const gz_busy *wanted) {
    uint64_t taken = GZ_RANGE_SLEEP_LOAD(&gz_range_sleepers.asleep), bit;
    do {
        if (!~taken) return GZ_RANGE_SLEEP_PLACES;
        bit = ~taken & (taken + 1);
    } while (!__atomic_compare_exchange_n(&gz_range_sleepers.asleep, &taken, taken | bit, true, __ATOMIC_SEQ_CST,
                                          __ATOMIC_SEQ_CST));
    const unsigned i = (unsigned)__builtin_ctzll(bit);
    gz_range_sleep_place *place = &gz_range_sleepers.places[i];
    GZ_RANGE_SLEEP_STORE(&place->lo, wanted->lo);
    GZ_RANGE_SLEEP_STORE(&place->hi, wanted->hi);
    GZ_RANGE_SLEEP_STORE(&place->writer, wanted->writer);
    GZ_RANGE_SLEEP_STORE(&place->process, gz_range_sleep_process());
    GZ_RANGE_SLEEP_STORE(&place->age, __atomic_add_fetch(&gz_range_sleepers.ages, 1, __ATOMIC_SEQ_CST));
    return i;
}

/* Sleeps at a place, for so many nanoseconds at most, and not past the moment, unless it was notified since its last
   try. After BUSY, `met` was in the way. Whether it slept to the end. */
static inline bool gz_range_sleep_at(unsigned i, gz_range_answer answer, const gz_busy *met, int64_t most,
                                     const struct timespec *moment, gz_range_counts *counts) {
    gz_range_sleep_place alone = { 0, 0, 0, 0, 0, 0, 0, 0, 0, 0, 0 };
    gz_range_sleep_place *place = i == GZ_RANGE_SLEEP_PLACES ? &alone : &gz_range_sleepers.places[i];
    uint32_t word = GZ_RANGE_SLEEP_AWAKE;
    GZ_RANGE_SLEEP_STORE(&place->met_lo, met->lo);
    GZ_RANGE_SLEEP_STORE(&place->met_hi, met->hi);
    GZ_RANGE_SLEEP_STORE(&place->met_by, gz_range_sleep_by(met));
    if (answer != GZ_RANGE_BUSY) GZ_RANGE_SLEEP_STORE(&place->any, 1);
    if (!__atomic_compare_exchange_n(&place->word, &word, GZ_RANGE_SLEEP_ASLEEP, false, __ATOMIC_SEQ_CST,
                                     __ATOMIC_SEQ_CST))
        return false;
    if (counts) __atomic_fetch_add(&counts->sleeps, 1, __ATOMIC_RELAXED);
    const struct timespec time = { 0, (long)most };
    /* futex(2): FUTEX_WAIT_PRIVATE takes a time, FUTEX_WAIT_BITSET_PRIVATE a moment of CLOCK_MONOTONIC. ETIMEDOUT. */
    return gz_range_sleep_ask(202, &place->word, moment ? 137 : 128, GZ_RANGE_SLEEP_ASLEEP,
                              moment ? moment : &time) == -110;
}

/* The nanoseconds until a moment of CLOCK_MONOTONIC: 0 or below when it has passed, and 10^9 if it is far or null. A
   program that is compiled for ISO C alone, as by -std=c11, has no CLOCK_MONOTONIC unless _POSIX_C_SOURCE is 199309L or
   above. */
static inline int64_t gz_range_left(const struct timespec *moment) {
    const int64_t second = 1000000000;
#ifdef CLOCK_MONOTONIC
    struct timespec now;
    if (moment) {
        clock_gettime(CLOCK_MONOTONIC, &now);
        if (moment->tv_sec < now.tv_sec) return 0;
        if (moment->tv_sec <= now.tv_sec + 1)
            return (moment->tv_sec - now.tv_sec) * second + moment->tv_nsec - now.tv_nsec;
    }
#else
    (void)moment;
#endif
    return second;
}

/* One try of a caller that may have a place, where it is awake from then on. */
GZ_RANGE_FIRST
static inline gz_range_answer gz_range_sleep_try(gz_range *handle, const gz_busy *wanted, unsigned i,
                                                 gz_range_counts *counts, gz_busy *met) {
    if (i != GZ_RANGE_SLEEP_PLACES) {
        GZ_RANGE_SLEEP_STORE(&gz_range_sleepers.places[i].any, 0);
        GZ_RANGE_SLEEP_STORE(&gz_range_sleepers.places[i].word, GZ_RANGE_SLEEP_AWAKE);
    }
    const gz_range_answer answer = gz_range_try(handle, wanted->lo, wanted->hi, wanted->writer, 1, met);
    gz_range_count(counts, answer);
    return answer;
}

/* Goes on after a first try that was answered so. */
__attribute__((noinline, unused)) static gz_range_answer gz_range_sleep_on(gz_range *handle, gz_busy *own,
                                                                           const struct timespec *moment,
                                                                           gz_range_counts *counts, gz_busy *met,
                                                                           gz_range_answer answer) {
    const int64_t longest = 16000000, longest_alone = 1000000;
    int64_t most = 1000000, alone = 50000;
    gz_busy before = { 0, 0, 0, false };
    unsigned place = GZ_RANGE_SLEEP_PLACES;
    uint32_t turns = 0, refused = 0, same = 0;
    bool counted = false;
    for (;; answer = gz_range_sleep_try(handle, own, place, counts, met)) {
        const bool busy = answer == GZ_RANGE_BUSY;
        const int64_t left = gz_range_may_retry(answer) ? gz_range_left(moment) : 0;
        if (left <= 0) {
            gz_range_sleep_end(place);
            if (counted && answer != GZ_RANGE_DONE && gz_range_sleep_any())
                gz_range_sleep_wake(own, busy ? met : NULL, GZ_RANGE_SLEEP_PLACES);
            return answer;
        }
        if (answer == GZ_RANGE_AGAIN) continue;
        if (counted) {
            if (gz_range_sleep_any()) gz_range_sleep_wake(own, busy ? met : NULL, place);
            const bool told = busy && place != GZ_RANGE_SLEEP_PLACES;
            int64_t *time = told ? &most : &alone;
            const int64_t end = told ? longest : longest_alone;
            if (gz_range_sleep_at(place, answer, met, *time, left < *time ? moment : NULL, counts))
                *time = 2 * *time < end ? 2 * *time : end;
            continue;
        }
        const bool stays = busy && met->owner == before.owner && met->lo == before.lo && met->hi == before.hi;
        before = *met;
        same = stays ? same + 1 : 1;
        if (same == 4 || ++refused == 8) {
            gz_busy held;
            counted = true;
            (void)gz_range_held(handle, &held); /* for the number of the seat */
            own->owner = held.owner;
            place = gz_range_sleep_begin(own);
            continue;
        }
        if (counts) __atomic_fetch_add(&counts->waits, 1, __ATOMIC_RELAXED);
        (void)gz_range_pause(&turns);
    }
}

/* What gz_range_acquire_until does, and after BUSY *met is the range that was in the way. */
GZ_RANGE_FIRST
static inline gz_range_answer gz_range_sleep_until(gz_range *handle, uint64_t lo, uint64_t hi, bool writer,
                                                   const struct timespec *moment, gz_range_counts *counts,
                                                   gz_busy *met) {
    gz_busy own = { lo, hi, 0, writer };
    const gz_range_answer answer = gz_range_try(handle, lo, hi, writer, 1, met);
    gz_range_count(counts, answer);
    if (!gz_range_may_retry(answer)) return answer;
    return gz_range_sleep_on(handle, &own, moment, counts, met, answer);
}

/* What a release and an end do: they take note of what the handle holds where somebody is counted, and look again when
   that is given back. Where nobody is these are two loads of one word. */
#define GZ_RANGE_SLEEP_GIVE_BACK(handle, call)                                                                      \
    gz_busy gone;                                                                                                   \
    gz_range_answer looked = GZ_RANGE_OTHER;                                                                        \
    if (gz_range_sleep_any()) looked = gz_range_held(handle, &gone);                                                \
    const gz_range_answer answer = call;                                                                            \
    if (gz_range_sleep_any() && (looked == GZ_RANGE_DONE || looked == GZ_RANGE_OTHER))                              \
        gz_range_sleep_wake(looked == GZ_RANGE_DONE ? &gone : NULL, NULL, GZ_RANGE_SLEEP_PLACES);                   \
    return answer

GZ_RANGE_NONNULL
static inline gz_range_answer gz_range_sleep_release(gz_range *handle) {
    GZ_RANGE_SLEEP_GIVE_BACK(handle, gz_range_release(handle));
}

GZ_RANGE_NONNULL
static inline gz_range_answer gz_range_sleep_close(gz_range *handle, gz_range next) {
    GZ_RANGE_SLEEP_GIVE_BACK(handle, gz_range_end(handle, next));
}

#undef gz_range_release
#undef gz_range_end
#define gz_range_release gz_range_sleep_release
#define gz_range_end gz_range_sleep_close

/* Closes a handle: gives back what it holds, and its seat with those that it had left to share, which later shares of
   the table may take. Closing the last handle of a table frees the table.
   DONE; IS_CLOSED if it was already closed. The handle is closed after both.
   The thread that has the handle. */
GZ_RANGE_NONNULL
static inline gz_range_answer gz_range_close(gz_range *handle) {
    gz_range closed = GZ_RANGE_CLOSED;
    return gz_range_end(handle, closed);
}

/* Holds a range, however long that takes, as pthread_mutex_lock does. It tries once. After BUSY, LONG or NO_NODE it
   waits as long as gz_range_pause does, and tries again; after AGAIN at once. Refused four times running by the same
   range, or eight times in all, it counts itself, tries once more and sleeps, until the range that was in its way is
   given back; then it tries again. No sleep is longer than 16 ms, and after LONG or NO_NODE a millisecond, so
   that it tries again where nobody tells it. A signal ends a sleep, and then it tries again too. So it leaves its
   processor to others, also to threads of a lower priority under SCHED_FIFO.
   Nothing is claimed of when it returns, or of any order among those that wait: who comes at the right moment is first,
   and callers of narrow ranges may keep out one of a wide range for as long as they come.
   counts is null, or what this call met is added to it.
   DONE; IS_CLOSED, HAS_ONE or BAD_RANGE at once, with the handle as it was.
   The thread that has the handle. It isn't a cancellation point. */
GZ_RANGE_FIRST
static inline gz_range_answer gz_range_acquire_counted(gz_range *handle, uint64_t lo, uint64_t hi, bool writer,
                                                       gz_range_counts *counts) {
    gz_busy met;
    return gz_range_sleep_until(handle, lo, hi, writer, NULL, counts, &met);
}

/* The same, and nothing is counted. */
GZ_RANGE_MUST_CHECK
static inline gz_range_answer gz_range_acquire(gz_range *handle, uint64_t lo, uint64_t hi, bool writer) {
    return gz_range_acquire_counted(handle, lo, hi, writer, NULL);
}

/* The same without sleep, where ranges are held so shortly that a sleep costs more than it saves: 1,024 turns of
   gz_range_pause at first, then twice as many each time, up to 8,192; after each wait of 8,192 it lets other threads
   run by sched_yield. It uses its processor as long as it waits, and under SCHED_FIFO, where sched_yield gives nothing
   to threads of lower priority, it may try for ever. A table may have callers of both kinds. */
GZ_RANGE_FIRST
static inline gz_range_answer gz_range_acquire_spinning(gz_range *handle, uint64_t lo, uint64_t hi, bool writer,
                                                        gz_range_counts *counts) {
    uint32_t turns = 0;
    for (;;) {
        gz_range_answer answer = gz_range_try_plain(handle, lo, hi, writer, 1);
        gz_range_count(counts, answer);
        if (!gz_range_may_retry(answer)) return answer;
        if (answer == GZ_RANGE_AGAIN) continue;
        if (counts) __atomic_fetch_add(&counts->waits, 1, __ATOMIC_RELAXED);
        if (gz_range_pause(&turns)) sched_yield();
    }
}

#ifdef CLOCK_MONOTONIC
/* Holds a range as gz_range_acquire does, but gives up when a moment of CLOCK_MONOTONIC has passed, and sleeps no
   longer. It tries at least once: with a moment in the past it is one try. After a try that is refused it looks at the
   clock.
   DONE; IS_CLOSED, HAS_ONE or BAD_RANGE at once, with the handle as it was; or BUSY, AGAIN, LONG or NO_NODE when the
   moment has passed: why the last try was refused, with nothing held. counts as with gz_range_acquire_counted.
   The thread that has the handle. It isn't a cancellation point. */
GZ_RANGE_FIRST
static inline gz_range_answer gz_range_acquire_until_counted(gz_range *handle, uint64_t lo, uint64_t hi, bool writer,
                                                             const struct timespec *moment, gz_range_counts *counts) {
    gz_busy met;
    return gz_range_sleep_until(handle, lo, hi, writer, moment, counts, &met);
}

/* The same, and nothing is counted. */
GZ_RANGE_MUST_CHECK
static inline gz_range_answer gz_range_acquire_until(gz_range *handle, uint64_t lo, uint64_t hi, bool writer,
                                                     const struct timespec *moment) {
    return gz_range_acquire_until_counted(handle, lo, hi, writer, moment, NULL);
}
#endif

#ifdef __cplusplus
}
#endif

#endif
