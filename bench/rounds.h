/* A round: threads hold ranges of slots under one peer for a set time, again and again. */
#ifndef ROUNDS_H
#define ROUNDS_H

#include "peers/peer.h"

enum { MOST_SLOTS = 4096, ROUNDS = 3 };

/* Which ranges a thread holds: all slots; its own part of them; from one drawn slot to another; `length` slots from a
   drawn one on; all slots by thread 0, and `length` of them by each other. */
typedef enum draw { FULL, DISJOINT, RANDOM, SPAN, WIDE } draw;

typedef struct load {
    unsigned threads;
    uint64_t slots, length;
    draw draw;
    unsigned readers;     /* of 100 turns */
    uint64_t work;        /* turns of a loop of multiplications while a range is held */
    uint64_t between;     /* fewer than that many empty turns, drawn, between a range and the next one; 0 for none */
    unsigned regions;     /* for the peer's opening */
    uint64_t step;        /* each so many-th slot of a range is looked at or changed; 0 for each */
    bool waits;           /* whether each wait is timed, which costs two readings of the processor's counter a turn */
} load;

typedef struct outcome {
    double rate;          /* turns of all threads in a second */
    double least_rate, most_rate; /* the same of the slowest round and of the fastest */
    double least_share;   /* the turns of the thread that made fewest, in hundredths of an even share */
    double mean_wait;     /* nanoseconds that a take lasted in the mean; 0 where waits aren't timed */
    double longest_wait;  /* nanoseconds that a single take lasted at most; 0 likewise */
    double first_rate, first_mean, first_longest; /* the turns in a second and the waits of thread 0 alone */
} outcome;

/* One round of each peer after the other, and that three times: for each the middle rate, the least share, the mean of
   the mean waits and the longest wait, of all and of thread 0. Ends the program where a peer that is to exclude didn't: where an addition to a
   slot was lost, or a reader of slots that are always changed together saw them differ. */
void measure(const peer *const peers[], unsigned count, const load *load, long long nanoseconds, outcome outcomes[]);

/* How many turns of work take a nanosecond. */
double turns_each(void);

/* Whether other work disturbs this machine: of three loops on all its processors at once, each loses more than a twentieth
   of its time on one of them. Says so on standard error. */
bool is_disturbed(void);

long long now(void); /* nanoseconds of CLOCK_MONOTONIC */

#endif
