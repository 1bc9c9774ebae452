/* What one writes in an afternoon: a mutex, a list of the ranges that are held or asked for in the order in which they
   came, and a condition variable for each thread. A range waits asleep for all in conflict that came before it, so
   nobody overtakes; who gives back wakes those that nothing is in front of any more. */
#include "peer.h"

#include <pthread.h>

typedef struct entry {
    struct entry *next;
    uint64_t lo, hi;
    bool writer, granted;
    pthread_cond_t turn;
} entry;

static entry entries[MOST_THREADS];
static entry *first, **last;
static pthread_mutex_t mutex = PTHREAD_MUTEX_INITIALIZER;

static void open_fifo(unsigned threads, uint64_t slots, unsigned regions) {
    (void)slots, (void)regions;
    first = NULL, last = &first;
    for (unsigned i = 0; i < threads; i++) pthread_cond_init(&entries[i].turn, NULL);
}

static bool is_first(const entry *of) {
    for (const entry *e = first; e != of; e = e->next)
        if (e->lo < of->hi && of->lo < e->hi && (e->writer || of->writer)) return false;
    return true;
}

static void take(unsigned thread, uint64_t lo, uint64_t hi, bool writer) {
    entry *mine = &entries[thread];
    pthread_mutex_lock(&mutex);
    mine->next = NULL, mine->lo = lo, mine->hi = hi, mine->writer = writer;
    *last = mine, last = &mine->next;
    for (mine->granted = is_first(mine); !mine->granted;) pthread_cond_wait(&mine->turn, &mutex);
    pthread_mutex_unlock(&mutex);
}

static void give_back(unsigned thread, uint64_t lo, uint64_t hi, bool writer) {
    (void)lo, (void)hi, (void)writer;
    entry *mine = &entries[thread], **at = &first;
    pthread_mutex_lock(&mutex);
    while (*at != mine) at = &(*at)->next;
    *at = mine->next;
    if (last == &mine->next) last = at;
    for (entry *e = *at; e; e = e->next) {
        if (e->granted || !is_first(e)) continue;
        e->granted = true;
        pthread_cond_signal(&e->turn);
    }
    pthread_mutex_unlock(&mutex);
}

static void close_fifo(void) {}

const peer fifo = { "FIFO range lock", true, open_fifo, take, give_back, close_fifo };
