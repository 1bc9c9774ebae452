/* A file of records, mapped by mmap(2), that threads read and change in place. It is the second kind of program that a
   range lock is for, beside the pager: of the records that a thread works on it holds exactly these, be it one or a span,
   and the others stay free.

   - A reader holds a span of up to 256 records and adds their values up, twice. The two sums are the same.
   - A writer holds one record: it puts one in where the place is free, and else adds 1 to its value or takes it out.
   - The compactor holds a span as a writer, and moves its records to the front of it.

   The same is done by three locks, one after the other, and what each took is told on standard error:

   - The range lock: a hold is one call, however long the span is, and readers of one span don't keep each other out. It
     is for the threads of one process.
   - 64 mutexes, a record's by its number modulo 64: quickest where all that is ever held is one record. A span isn't
     taken at once but by one mutex after the other, all 64 from 64 records on, and readers keep each other out.
   - Record locks of the kernel, by fcntl(2) with F_OFD_SETLKW on the bytes of the records: any span at once, and between
     processes too; the kernel gives them back when a process dies. Each hold and each release is a system call.

   No lock makes a write to a file one step. A process that is killed in the midst of one leaves a record whose check
   doesn't fit its value, or, in a compaction, one that stands twice or not at all. A store that is to survive that needs
   a log beside the file, or a second copy; a lock of threads can't give it.

   What is printed is the same whatever the threads' schedule is. */
#define _GNU_SOURCE
#include "gz_range.h"

#include <fcntl.h>
#include <pthread.h>
#include <stdatomic.h>
#include <stdio.h>
#include <stdlib.h>
#include <sys/mman.h>
#include <time.h>
#include <unistd.h>

enum { RECORDS = 4096, LONGEST = 256, STRIPES = 64, TURNS = 20000 };
enum { READERS = 2, WRITERS = 2, THREADS = READERS + WRITERS + 1 };

/* A record of the file, which a key that isn't 0 tells from a free one; that is all 0. */
typedef struct record {
    uint64_t key, value, check;
    char rest[40];
} record;

typedef struct worker {
    pthread_t thread;
    gz_range handle; /* each thread has what each of the locks needs */
    int file;
    uint64_t number, random;
    uint64_t keys, added, taken;     /* records that it put in; additions that it made, and took out with their records */
    uint64_t turns, torn, changed;   /* holds; records whose check didn't fit; sums that changed while they were read */
    long long took;                  /* nanoseconds, of all holds */
} worker;

typedef struct lock {
    const char *name;
    void (*hold)(worker *me, uint64_t first, uint64_t end, bool writer);
    void (*give_back)(worker *me, uint64_t first, uint64_t end);
} lock;

static record *records; /* the mapped file */
static const lock *with;
static atomic_bool done;
static pthread_mutex_t stripes[STRIPES];

/* Ends the program where a call failed. */
static void must(bool well, const char *what) {
    if (well) return;
    perror(what);
    exit(1);
}

static void answered(gz_range_answer answer) {
    if (answer == GZ_RANGE_DONE) return;
    fprintf(stderr, "the range lock: %s\n", gz_range_text(answer));
    exit(1);
}

static void hold_range(worker *me, uint64_t first, uint64_t end, bool writer) {
    answered(gz_range_acquire(&me->handle, first, end, writer));
}

static void give_back_range(worker *me, uint64_t first, uint64_t end) {
    (void)first, (void)end;
    answered(gz_range_release(&me->handle));
}

/* Whether a span has a record of the stripe. */
static bool has_of(uint64_t first, uint64_t end, uint64_t stripe) { return first + (stripe - first) % STRIPES < end; }

/* In rising order, so that no two threads wait for each other in a circle. */
static void hold_stripes(worker *me, uint64_t first, uint64_t end, bool writer) {
    (void)me, (void)writer;
    for (uint64_t i = 0; i < STRIPES; i++)
        if (has_of(first, end, i)) pthread_mutex_lock(&stripes[i]);
}

static void give_back_stripes(worker *me, uint64_t first, uint64_t end) {
    (void)me;
    for (uint64_t i = 0; i < STRIPES; i++)
        if (has_of(first, end, i)) pthread_mutex_unlock(&stripes[i]);
}

/* ThreadSanitizer doesn't know that fcntl puts one thread's work behind another's. */
#ifdef GZ_RANGE_TELLS
static char told;
#define TELL(what) __tsan_##what(&told)
#else
#define TELL(what) (void)0
#endif

static void set_bytes(worker *me, uint64_t first, uint64_t end, short type) {
    struct flock span = { .l_type = type, .l_whence = SEEK_SET, .l_start = (off_t)(first * sizeof(record)),
                          .l_len = (off_t)((end - first) * sizeof(record)) };
    must(fcntl(me->file, F_OFD_SETLKW, &span) == 0, "fcntl");
}

static void hold_bytes(worker *me, uint64_t first, uint64_t end, bool writer) {
    set_bytes(me, first, end, writer ? F_WRLCK : F_RDLCK);
    TELL(acquire);
}

static void give_back_bytes(worker *me, uint64_t first, uint64_t end) {
    TELL(release);
    set_bytes(me, first, end, F_UNLCK);
}

static const lock locks[] = { { "the range lock", hold_range, give_back_range },
                              { "64 mutexes", hold_stripes, give_back_stripes },
                              { "record locks", hold_bytes, give_back_bytes } };

static uint64_t check_of(uint64_t key, uint64_t value) { return (key ^ value) * 0x9e3779b97f4a7c15; }

static bool is_torn(const record *r) { return r->check != check_of(r->key, r->value); }

/* xorshift64, by Marsaglia. */
static uint64_t next_random(worker *me) {
    me->random ^= me->random << 13;
    me->random ^= me->random >> 7;
    return me->random ^= me->random << 17;
}

static long long now(void) {
    struct timespec t;
    clock_gettime(CLOCK_MONOTONIC, &t);
    return t.tv_sec * 1000000000ll + t.tv_nsec;
}

static uint64_t sum(uint64_t first, uint64_t end) {
    uint64_t all = 0;
    for (uint64_t i = first; i < end; i++) all += ((volatile record *)records)[i].value; /* so that each is read */
    return all;
}

static void read_span(worker *me, uint64_t first, uint64_t end) {
    uint64_t before = sum(first, end);
    for (uint64_t i = first; i < end; i++) me->torn += is_torn(&records[i]);
    me->changed += sum(first, end) != before;
}

/* One of eight records that a writer meets is taken out. */
static void change(worker *me, record *r) {
    me->torn += is_torn(r);
    if (r->key == 0) {
        r->key = ++me->keys * THREADS + me->number;
        r->value = 1;
        me->added++;
    } else if (next_random(me) % 8 == 0) {
        me->taken += r->value;
        *r = (record){ 0 };
        return;
    } else {
        r->value++;
        me->added++;
    }
    r->check = check_of(r->key, r->value);
}

static void compact(worker *me, uint64_t first, uint64_t end) {
    uint64_t to = first;
    for (uint64_t from = first; from < end; from++) {
        me->torn += is_torn(&records[from]);
        if (records[from].key == 0) continue;
        if (from != to) {
            records[to] = records[from];
            records[from] = (record){ 0 };
        }
        to++;
    }
}

/* Makes one hold: draws a span, or a record for a writer of one, and works on it. */
static void take_turn(worker *me, void (*span)(worker *, uint64_t, uint64_t), bool writer) {
    uint64_t drawn = next_random(me), length = span ? 1 + (drawn >> 32) % LONGEST : 1;
    uint64_t first = drawn % (RECORDS - length + 1);
    long long start = now();
    with->hold(me, first, first + length, writer);
    if (span) span(me, first, first + length);
    else change(me, &records[first]);
    with->give_back(me, first, first + length);
    me->took += now() - start;
    me->turns++;
}

static void *read_spans(void *argument) {
    do take_turn(argument, read_span, false);
    while (!done);
    return NULL;
}

static void *write_records(void *argument) {
    for (int turn = 0; turn < TURNS; turn++) take_turn(argument, NULL, true);
    return NULL;
}

static void *compact_spans(void *argument) {
    do {
        take_turn(argument, compact, true);
        nanosleep(&(struct timespec){ 0, 100000 }, NULL);
    } while (!done);
    return NULL;
}

/* Makes a file of free records, maps it, and opens it once for each thread. */
static void make_file(worker *workers) {
    char name[] = P_tmpdir "/store-XXXXXX";
    int file = mkstemp(name);
    must(file >= 0 && ftruncate(file, RECORDS * sizeof(record)) == 0, "file");
    records = mmap(NULL, RECORDS * sizeof(record), PROT_READ | PROT_WRITE, MAP_SHARED, file, 0);
    must(records != MAP_FAILED, "map");
    for (int i = 0; i < THREADS; i++) must((workers[i].file = open(name, O_RDWR)) >= 0, "open");
    must(unlink(name) == 0 && close(file) == 0, "close");
}

static void tell(const char *what, const worker *workers, int count) {
    uint64_t turns = 0;
    long long took = 0;
    for (int i = 0; i < count; i++) turns += workers[i].turns, took += workers[i].took;
    fprintf(stderr, ", %s %lld ns", what, took / (long long)turns);
}

static void run(const lock *lock) {
    static worker workers[THREADS]; /* the readers, the writers, the compactor */
    with = lock;
    done = false;
    for (int i = 0; i < THREADS; i++) {
        workers[i] = (worker){ .number = (uint64_t)i, .random = (uint64_t)(i + 1) * 0x9e3779b97f4a7c15 };
        answered(i == 0 ? gz_range_open_plain(THREADS, &workers[0].handle)
                        : gz_range_share(&workers[0].handle, &workers[i].handle));
    }
    make_file(workers);
    for (int i = 0; i < THREADS; i++) {
        void *(*work)(void *) = i < READERS ? read_spans : i < READERS + WRITERS ? write_records : compact_spans;
        must(pthread_create(&workers[i].thread, NULL, work, &workers[i]) == 0, "thread");
    }
    for (int i = READERS; i < READERS + WRITERS; i++) pthread_join(workers[i].thread, NULL);
    done = true;
    for (int i = 0; i < THREADS; i++)
        if (i < READERS || i == THREADS - 1) pthread_join(workers[i].thread, NULL);

    uint64_t added = 0, torn = 0, changed = 0;
    for (int i = 0; i < THREADS; i++) {
        added += workers[i].added - workers[i].taken;
        torn += workers[i].torn, changed += workers[i].changed;
        close(workers[i].file);
        gz_range_close(&workers[i].handle);
    }
    printf("%s: additions lost %ld, records torn %lu, sums that changed while they were read %lu\n", lock->name,
           (long)(added - sum(0, RECORDS)), (unsigned long)torn, (unsigned long)changed);
    fprintf(stderr, "with %s", lock->name);
    tell("a span is read in", workers, READERS);
    tell("a record is written in", workers + READERS, WRITERS);
    tell("a span is compacted in", workers + READERS + WRITERS, 1);
    fprintf(stderr, "\n");
    munmap(records, RECORDS * sizeof(record));
}

int main(void) {
    for (int i = 0; i < STRIPES; i++) pthread_mutex_init(&stripes[i], NULL);
    for (size_t i = 0; i < sizeof locks / sizeof *locks; i++) run(&locks[i]);
    return 0;
}
