/* The rounds of rounds.h. Threads are pinned to the processors that the program may use, in turns. */
#define _GNU_SOURCE
#include "rounds.h"

#include <pthread.h>
#include <stdatomic.h>
#include <string.h>
#include <time.h>
#include <x86intrin.h>

typedef struct worker {
    _Alignas(64) pthread_t thread;
    unsigned number;
    uint64_t random, turns, additions, waited, longest;
    bool differed;
} worker;

static worker workers[MOST_THREADS];
static struct slot {
    _Alignas(64) volatile uint64_t value; /* volatile, so that each access is made */
} slots[MOST_SLOTS];

/* What the round is of. */
static const peer *which;
static load of;
static _Alignas(64) atomic_bool begun, ended;

long long now(void) {
    struct timespec t;
    clock_gettime(CLOCK_MONOTONIC, &t);
    return t.tv_sec * 1000000000ll + t.tv_nsec;
}

static void sleep_for(long long nanoseconds) {
    struct timespec t = { nanoseconds / 1000000000, nanoseconds % 1000000000 };
    clock_nanosleep(CLOCK_MONOTONIC, 0, &t, NULL);
}

static uint64_t work(uint64_t turns) {
    uint64_t x = turns | 1;
    for (uint64_t i = 0; i < turns; i++) {
        x = x * 6364136223846793005u + 1442695040888963407u;
        __asm__ volatile("" : "+r"(x)); /* so that no turn is left out */
    }
    return x;
}

double turns_each(void) {
    double most = 0;
    for (int i = 0; i < 20; i++) {
        long long start = now();
        work(1000000);
        double each = 1000000.0 / (double)(now() - start);
        if (each > most) most = each;
    }
    return most;
}

/* How many ticks of the processor's counter a nanosecond has. */
static double ticks_each(void) {
    static double each;
    if (each != 0) return each;
    long long start = now();
    uint64_t ticks = __rdtsc();
    sleep_for(20000000);
    return each = (double)(__rdtsc() - ticks) / (double)(now() - start);
}

static void pin(unsigned number) {
    static cpu_set_t all;
    static bool known;
    cpu_set_t one;
    if (!known) known = sched_getaffinity(0, sizeof all, &all) == 0;
    CPU_ZERO(&one);
    unsigned place = number % (unsigned)CPU_COUNT(&all);
    for (int cpu = 0; cpu < CPU_SETSIZE; cpu++)
        if (CPU_ISSET(cpu, &all) && place-- == 0) CPU_SET(cpu, &one);
    pthread_setaffinity_np(workers[number].thread, sizeof one, &one);
}

/* xorshift64, by Marsaglia. */
static uint64_t next_random(worker *me) {
    me->random ^= me->random << 13;
    me->random ^= me->random >> 7;
    return me->random ^= me->random << 17;
}

static void draw_range(worker *me, uint64_t *lo, uint64_t *hi) {
    uint64_t a, b;
    *lo = 0, *hi = of.slots;
    switch (of.draw) {
    case FULL: break;
    case DISJOINT:
        *lo = of.slots * me->number / of.threads;
        *hi = of.slots * (me->number + 1) / of.threads;
        break;
    case RANDOM:
        a = next_random(me) % of.slots, b = next_random(me) % of.slots;
        *lo = a < b ? a : b, *hi = (a < b ? b : a) + 1;
        break;
    case SPAN:
        *lo = next_random(me) % (of.slots - of.length + 1);
        *hi = *lo + of.length;
        break;
    case WIDE:
        if (me->number == 0) break;
        *lo = next_random(me) % (of.slots - of.length + 1);
        *hi = *lo + of.length;
        break;
    }
}

/* What a thread does with the slots that it holds. Full and disjoint ranges are always changed as a whole, so that a
   reader that sees two of their slots differ was beside a writer. */
static void use(worker *me, uint64_t lo, uint64_t hi, bool writer) {
    uint64_t step = of.step ? of.step : 1;
    if (writer) {
        for (uint64_t i = lo; i < hi; i += step, me->additions++) slots[i].value = slots[i].value + 1;
        return;
    }
    uint64_t first = slots[lo].value, differences = 0;
    for (uint64_t i = lo; i < hi; i += step) differences |= slots[i].value ^ first;
    if (differences != 0 && (of.draw == FULL || of.draw == DISJOINT)) me->differed = true;
}

static void *take_turns(void *argument) {
    worker *me = argument;
    while (!atomic_load(&begun)) sched_yield();
    while (!atomic_load_explicit(&ended, memory_order_relaxed)) {
        uint64_t lo, hi, asked = 0;
        bool writer = next_random(me) % 100 >= of.readers;
        draw_range(me, &lo, &hi);
        if (of.waits) asked = __rdtsc();
        which->take(me->number, lo, hi, writer);
        if (of.waits) {
            uint64_t waited = __rdtsc() - asked;
            me->waited += waited;
            if (waited > me->longest) me->longest = waited;
        }
        use(me, lo, hi, writer);
        work(of.work);
        which->give_back(me->number, lo, hi, writer);
        me->turns++;
        if (of.between == 0) continue;
        for (uint64_t i = next_random(me) % of.between; i > 0; i--) __asm__ volatile("");
    }
    return NULL;
}

/* Compares the slots with what was added. */
static void look_for_losses(bool differed, uint64_t additions) {
    uint64_t sum = 0;
    for (uint64_t i = 0; i < of.slots; i++) sum += slots[i].value;
    if (!which->excludes || (sum == additions && !differed)) return;
    fprintf(stderr, "%s: two threads held slots in conflict\n", which->name);
    exit(1);
}

static outcome run_round(long long nanoseconds) {
    memset(slots, 0, sizeof slots);
    begun = ended = false;
    which->open(of.threads, of.slots, of.regions);
    for (unsigned i = 0; i < of.threads; i++) {
        workers[i] = (worker){ .number = i, .random = (i + 1) * 0x9e3779b97f4a7c15 };
        must(pthread_create(&workers[i].thread, NULL, take_turns, &workers[i]) == 0, "thread");
        pin(i);
    }
    long long start = now();
    begun = true;
    sleep_for(nanoseconds);
    ended = true;
    uint64_t turns = 0, additions = 0, waited = 0, longest = 0, fewest = UINT64_MAX;
    bool differed = false;
    for (unsigned i = 0; i < of.threads; i++) {
        pthread_join(workers[i].thread, NULL);
        turns += workers[i].turns, additions += workers[i].additions, differed |= workers[i].differed;
        waited += workers[i].waited;
        if (workers[i].turns < fewest) fewest = workers[i].turns;
        if (workers[i].longest > longest) longest = workers[i].longest;
    }
    double took = (double)(now() - start);
    which->close();
    look_for_losses(differed, additions);
    const worker *wide = &workers[0];
    return (outcome){ .rate = (double)turns * 1e9 / took,
                      .least_share = 100.0 * (double)fewest * of.threads / (double)(turns ? turns : 1),
                      .mean_wait = (double)waited / (double)(turns ? turns : 1) / ticks_each(),
                      .longest_wait = (double)longest / ticks_each(),
                      .first_rate = (double)wide->turns * 1e9 / took,
                      .first_mean = (double)wide->waited / (double)(wide->turns ? wide->turns : 1) / ticks_each(),
                      .first_longest = (double)wide->longest / ticks_each() };
}

static int compare(const void *a, const void *b) {
    double x = *(const double *)a, y = *(const double *)b;
    return (x > y) - (x < y);
}

void measure(const peer *const peers[], unsigned count, const load *load, long long nanoseconds, outcome outcomes[]) {
    double rates[count][ROUNDS];
    of = *load;
    for (int round = 0; round < ROUNDS; round++)
        for (unsigned p = 0; p < count; p++) {
            which = peers[p];
            outcome one = run_round(nanoseconds);
            rates[p][round] = one.rate;
            if (round == 0) outcomes[p] = one;
            else {
                outcomes[p].mean_wait += one.mean_wait;
                outcomes[p].first_rate += one.first_rate;
                outcomes[p].first_mean += one.first_mean;
            }
            if (one.least_share < outcomes[p].least_share) outcomes[p].least_share = one.least_share;
            if (one.longest_wait > outcomes[p].longest_wait) outcomes[p].longest_wait = one.longest_wait;
            if (one.first_longest > outcomes[p].first_longest) outcomes[p].first_longest = one.first_longest;
        }
    for (unsigned p = 0; p < count; p++) {
        qsort(rates[p], ROUNDS, sizeof(double), compare);
        outcomes[p].rate = rates[p][ROUNDS / 2];
        outcomes[p].least_rate = rates[p][0];
        outcomes[p].most_rate = rates[p][ROUNDS - 1];
        outcomes[p].mean_wait /= ROUNDS;
        outcomes[p].first_rate /= ROUNDS;
        outcomes[p].first_mean /= ROUNDS;
    }
}

enum { PIECES = 1000, PIECE = 20000 };

typedef struct looker {
    pthread_t thread;
    double took[PIECES], all;
} looker;

static void *look(void *argument) {
    looker *me = argument;
    for (int i = 0; i < PIECES; i++) {
        long long start = now();
        work(PIECE);
        me->took[i] = (double)(now() - start);
        me->all += me->took[i];
    }
    return NULL;
}

static int rising(const void *a, const void *b) {
    double x = *(const double *)a, y = *(const double *)b;
    return (x > y) - (x < y);
}

/* What share of its time a loop loses on the processor where it loses most: the time of its pieces above that of as many
   of its middle piece. Two processors that share a core slow each other down in every piece, so that is no loss. */
static double time_lost(void) {
    static looker lookers[MOST_THREADS];
    memset(lookers, 0, sizeof lookers);
    cpu_set_t all;
    unsigned count = sched_getaffinity(0, sizeof all, &all) == 0 ? (unsigned)CPU_COUNT(&all) : 1;
    if (count > MOST_THREADS) count = MOST_THREADS;
    double most = 0;
    for (unsigned i = 0; i < count; i++)
        must(pthread_create(&lookers[i].thread, NULL, look, &lookers[i]) == 0, "thread");
    for (unsigned i = 0; i < count; i++) {
        pthread_join(lookers[i].thread, NULL);
        qsort(lookers[i].took, PIECES, sizeof lookers[i].took[0], rising);
        double lost = 1 - lookers[i].took[PIECES / 2] * PIECES / lookers[i].all;
        if (lost > most) most = lost;
    }
    return most;
}

bool is_disturbed(void) {
    double lost = 1;
    for (int look = 0; look < 3 && lost > 0.1; look++) {
        double now_lost = time_lost();
        if (now_lost < lost) lost = now_lost;
    }
    if (lost <= 0.1) return false;
    fprintf(stderr, "other work disturbs this machine: a loop lost %.0f in 100 of its time\n", 100 * lost);
    return true;
}
