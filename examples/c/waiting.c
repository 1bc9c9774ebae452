/* How callers wait: asleep after their first tries, until the range in their way is given back or a moment has passed.
   Each case is a sentence of gz_range.h: deadlines, signals during a sleep, a cancel from without, a signal handler
   that has a handle of its own, a fork while threads sleep, a waiter of a higher SCHED_FIFO priority than the holder's
   on one processor, and many turns of sixteen threads under a watchdog.

       waiting [TURNS]

   A thread makes so many turns in the last case, 1,000 if none is named. The program ends itself where it takes longer
   than 100 seconds and 10 more for each 10,000 of these. It prints the same whatever the threads' schedule is. */
#define _GNU_SOURCE
#include "gz_range.h"

#include <errno.h>
#include <pthread.h>
#include <sched.h>
#include <signal.h>
#include <stdio.h>
#include <stdlib.h>
#include <string.h>
#include <sys/time.h>
#include <sys/wait.h>
#include <unistd.h>

enum { SEATS = 16, CELLS = 64, MILLI = 1000000 };

static gz_range handles[SEATS]; /* all 0, so each handle is closed */
static uint64_t cells[CELLS];
static unsigned long turns = 1000;

/* A time of a clock, in nanoseconds. */
static long long now(clockid_t clock) {
    struct timespec t;
    clock_gettime(clock, &t);
    return t.tv_sec * 1000000000ll + t.tv_nsec;
}

static struct timespec time_of(long long nanoseconds) {
    return (struct timespec){ nanoseconds / 1000000000, nanoseconds % 1000000000 };
}

/* Sleeps so many milliseconds, whatever signals come. */
static void rest(int milliseconds) {
    struct timespec end = time_of(now(CLOCK_MONOTONIC) + milliseconds * (long long)MILLI);
    while (clock_nanosleep(CLOCK_MONOTONIC, TIMER_ABSTIME, &end, NULL) == EINTR) continue;
}

static void say(const char *what, bool it_is) { printf("%s: %s\n", what, it_is ? "yes" : "no"); }

static void show_deadlines(void) {
    gz_range *holder = &handles[0], *other = &handles[1];
    if (gz_range_acquire(holder, 0, CELLS, GZ_RANGE_WRITER)) exit(1);
    long long begun = now(CLOCK_MONOTONIC), used = now(CLOCK_THREAD_CPUTIME_ID);
    struct timespec past = time_of(begun), soon = time_of(begun + 200 * MILLI), far = { INT64_MAX, 999999999 };
    gz_range_answer answer = gz_range_acquire_until(other, 5, 6, GZ_RANGE_WRITER, &past);
    printf("at a moment that has passed: %s\n", gz_range_text(answer));
    answer = gz_range_acquire_until(other, 5, 6, GZ_RANGE_WRITER, &soon);
    long long took = now(CLOCK_MONOTONIC) - begun;
    used = now(CLOCK_THREAD_CPUTIME_ID) - used;
    printf("at its deadline: %s\n", gz_range_text(answer));
    say("it waited until the deadline, asleep", took >= 200 * MILLI && used < 50 * MILLI);
    gz_range_release(holder);
    answer = gz_range_acquire_until(other, 5, 6, GZ_RANGE_WRITER, &past);
    printf("when the other one has given it back: %s\n", gz_range_text(answer));
    gz_range_release(other);
    answer = gz_range_acquire_until(other, 6, 5, GZ_RANGE_WRITER, &far);
    printf("a reversed range, for ever: %s\n", gz_range_text(answer));
    answer = gz_range_acquire_until(other, 5, 6, GZ_RANGE_WRITER, &far);
    printf("a free one, for ever: %s\n", gz_range_text(answer));
    gz_range_release(other);
}

/* A thread that waits for all cells, and what it met. */
typedef struct waiter {
    pthread_t thread;
    gz_range *handle;
    const struct timespec *moment; /* or none */
    bool held;
    long long used; /* processor time until the range was held, in nanoseconds */
    unsigned long tries;
} waiter;

static void *wait_for_cells(void *argument) {
    waiter *me = argument;
    gz_range_counts counts = { 0 };
    gz_range_answer answer = me->moment
        ? gz_range_acquire_until_counted(me->handle, 0, CELLS, GZ_RANGE_READER, me->moment, &counts)
        : gz_range_acquire_counted(me->handle, 0, CELLS, GZ_RANGE_READER, &counts);
    me->used = now(CLOCK_THREAD_CPUTIME_ID);
    me->tries = counts.tries;
    __atomic_store_n(&me->held, answer == GZ_RANGE_DONE, __ATOMIC_SEQ_CST);
    if (answer == GZ_RANGE_DONE) gz_range_release(me->handle);
    pthread_testcancel();
    return me;
}

static void start(waiter *waiter, int seat, const struct timespec *moment) {
    waiter->handle = &handles[seat];
    waiter->moment = moment;
    waiter->held = false;
    if (pthread_create(&waiter->thread, NULL, wait_for_cells, waiter)) exit(1);
}

static bool holds(waiter *waiter) { return __atomic_load_n(&waiter->held, __ATOMIC_SEQ_CST); }

static void on_signal(int number) { (void)number; }

/* Three readers sleep while the cells are held for 300 ms, and are woken together. */
static void show_sleep(void) {
    waiter readers[3];
    bool asleep = true;
    if (gz_range_acquire(&handles[0], 0, CELLS, GZ_RANGE_WRITER)) exit(1);
    for (int i = 0; i < 3; i++) start(&readers[i], i + 1, NULL);
    rest(300);
    gz_range_release(&handles[0]);
    for (int i = 0; i < 3; i++) {
        pthread_join(readers[i].thread, NULL);
        asleep = asleep && holds(&readers[i]) && readers[i].used < 100 * MILLI && readers[i].tries < 100;
    }
    say("three readers waited asleep", asleep);
}

static void show_signals(void) {
    const struct sigaction action = { .sa_handler = on_signal };
    waiter one;
    sigaction(SIGUSR1, &action, NULL);
    if (gz_range_acquire(&handles[0], 0, CELLS, GZ_RANGE_WRITER)) exit(1);
    start(&one, 1, NULL);
    for (int i = 0; i < 20; i++) {
        rest(5);
        pthread_kill(one.thread, SIGUSR1);
    }
    bool waits = !holds(&one);
    gz_range_release(&handles[0]);
    pthread_join(one.thread, NULL);
    say("it went on waiting after signals", waits && holds(&one));
}

static void show_cancel(void) {
    const struct timespec far = { INT64_MAX, 0 };
    waiter one;
    void *ended;
    if (gz_range_acquire(&handles[0], 0, CELLS, GZ_RANGE_WRITER)) exit(1);
    start(&one, 1, &far);
    rest(50);
    pthread_cancel(one.thread);
    rest(50);
    bool waits = !holds(&one);
    gz_range_release(&handles[0]);
    pthread_join(one.thread, &ended);
    gz_busy held;
    say("a thread that was cancelled went on waiting", waits && holds(&one));
    say("and ended with nothing held", ended == PTHREAD_CANCELED &&
        gz_range_held(one.handle, &held) == GZ_RANGE_HAS_NONE);
}

static volatile sig_atomic_t alarms, granted, wrong;

/* A try waits for nobody and takes no memory, so a handler may make one by a handle that no one else uses. */
static void on_alarm(int number) {
    gz_busy busy;
    gz_range_answer answer = gz_range_try(&handles[2], 0, 8, GZ_RANGE_WRITER, 1, &busy);
    (void)number;
    alarms = alarms + 1;
    if (answer == GZ_RANGE_DONE) {
        granted = granted + 1;
        if (gz_range_release(&handles[2])) wrong = wrong + 1;
    } else if (!gz_range_may_retry(answer)) {
        wrong = wrong + 1;
    }
}

static void show_handler(void) {
    const struct sigaction action = { .sa_handler = on_alarm }, ignored = { .sa_handler = SIG_IGN };
    const struct itimerval each = { { 0, 1000 }, { 0, 1000 } }, never = { { 0, 0 }, { 0, 0 } };
    unsigned failed = 0;
    sigaction(SIGALRM, &action, NULL);
    setitimer(ITIMER_REAL, &each, NULL);
    while (alarms < 100 || granted == 0) {
        if (gz_range_acquire(&handles[0], 4, 12, GZ_RANGE_WRITER) || gz_range_release(&handles[0])) failed++;
        if (alarms >= 50) sched_yield();
    }
    setitimer(ITIMER_REAL, &never, NULL);
    sigaction(SIGALRM, &ignored, NULL);
    say("a signal handler has a handle of its own", wrong == 0 && failed == 0);
}

/* The child has the places of its parent's sleeping callers, and not these threads. */
static void show_fork(void) {
    waiter one;
    int status = 1;
    if (gz_range_acquire(&handles[0], 0, CELLS, GZ_RANGE_WRITER)) exit(1);
    start(&one, 1, NULL);
    rest(50);
    pid_t child = fork();
    if (child == 0) {
        gz_range own = GZ_RANGE_CLOSED, second = GZ_RANGE_CLOSED;
        struct timespec soon = time_of(now(CLOCK_MONOTONIC) + 20 * MILLI);
        for (int i = 0; i < SEATS; i++) gz_range_forget(&handles[i]);
        bool right = gz_range_open_plain(2, &own) == GZ_RANGE_DONE && gz_range_share(&own, &second) == GZ_RANGE_DONE &&
                     gz_range_acquire(&own, 0, CELLS, GZ_RANGE_WRITER) == GZ_RANGE_DONE &&
                     gz_range_acquire_until(&second, 0, 1, GZ_RANGE_READER, &soon) == GZ_RANGE_BUSY &&
                     gz_range_release(&own) == GZ_RANGE_DONE && gz_range_close(&second) == GZ_RANGE_DONE &&
                     gz_range_close(&own) == GZ_RANGE_DONE;
        _exit(right ? 0 : 1);
    }
    if (child < 0 || waitpid(child, &status, 0) != child) status = 1;
    gz_range_release(&handles[0]);
    pthread_join(one.thread, NULL);
    say("a child of a fork waits in a table of its own", status == 0 && holds(&one));
}

static pthread_barrier_t both;

/* Holds the cells at the lowest priority, and gives them back after 20 ms of its own processor time. */
static void *hold_low(void *argument) {
    if (gz_range_acquire(&handles[0], 0, CELLS, GZ_RANGE_WRITER)) exit(1);
    pthread_barrier_wait(&both);
    while (now(CLOCK_THREAD_CPUTIME_ID) < 20 * MILLI) continue;
    gz_range_release(&handles[0]);
    return argument;
}

static void *wait_high(void *argument) {
    pthread_barrier_wait(&both);
    return wait_for_cells(argument);
}

/* Starts a thread on processor `on` with this priority of SCHED_FIFO; what is wrong else. */
static int start_fifo(pthread_t *thread, int on, int priority, void *(*run)(void *), void *argument) {
    pthread_attr_t attributes;
    const struct sched_param param = { .sched_priority = priority };
    cpu_set_t one;
    CPU_ZERO(&one);
    CPU_SET(on, &one);
    pthread_attr_init(&attributes);
    pthread_attr_setinheritsched(&attributes, PTHREAD_EXPLICIT_SCHED);
    pthread_attr_setschedpolicy(&attributes, SCHED_FIFO);
    pthread_attr_setschedparam(&attributes, &param);
    pthread_attr_setaffinity_np(&attributes, sizeof one, &one);
    int failed = pthread_create(thread, &attributes, run, argument);
    pthread_attr_destroy(&attributes);
    return failed;
}

static void *return_at_once(void *argument) { return argument; }

static void show_priorities(void) {
    static waiter high;
    pthread_t low;
    int on = sched_getcpu(), failed = start_fifo(&low, on, 1, return_at_once, NULL);
    if (failed) {
        fprintf(stderr, "passed over: priorities, as SCHED_FIFO can't be had here: %s\n", strerror(failed));
    } else {
        pthread_join(low, NULL);
        high.handle = &handles[1];
        pthread_barrier_init(&both, NULL, 2);
        if (start_fifo(&low, on, 1, hold_low, NULL) || start_fifo(&high.thread, on, 2, wait_high, &high)) exit(1);
        pthread_join(high.thread, NULL);
        pthread_join(low, NULL);
    }
    say("a waiter let a holder of a lower priority run", failed || holds(&high));
}

/* Counts in one cell, in a few or in all, and looks into some. */
static void *count(void *argument) {
    const unsigned me = (unsigned)(uintptr_t)argument;
    uint64_t drawn = 1 + me, sum = 0;
    for (unsigned long turn = 0; turn < turns; turn++) {
        drawn = drawn * 6364136223846793005u + 1442695040888963407u;
        uint64_t lo = (drawn >> 33) % CELLS, length = turn % 64 == me ? CELLS : 1 + (drawn >> 50) % 4;
        if (lo + length > CELLS) lo = CELLS - length;
        const bool writer = (drawn >> 60) < 7;
        if (gz_range_acquire(&handles[me], lo, lo + length, writer)) exit(1);
        if (writer) cells[lo]++;
        else sum += cells[lo];
        if (turn % 16 == 0) sched_yield();
        if (gz_range_release(&handles[me])) exit(1);
        if (writer) __atomic_fetch_add(&granted, 1, __ATOMIC_RELAXED);
    }
    return (void *)(uintptr_t)(sum & 1);
}

static void show_turns(void) {
    pthread_t threads[SEATS];
    uint64_t sum = 0;
    granted = 0;
    for (unsigned i = 0; i < SEATS; i++)
        if (pthread_create(&threads[i], NULL, count, (void *)(uintptr_t)i)) exit(1);
    for (unsigned i = 0; i < SEATS; i++) pthread_join(threads[i], NULL);
    for (int i = 0; i < CELLS; i++) sum += cells[i];
    say("sixteen threads came to their turns", sum == (uint64_t)granted);
}

/* Ends the program where it doesn't end. The case of the handler has SIGALRM. */
static void *watch(void *argument) {
    rest((int)(100000 + turns));
    fprintf(stderr, "somebody waits still\n");
    abort();
    return argument;
}

int main(int count, char **words) {
    pthread_t watchdog;
    sigset_t alarm;
    if (count > 1) turns = strtoul(words[1], NULL, 10);
    sigemptyset(&alarm);
    sigaddset(&alarm, SIGALRM);
    pthread_sigmask(SIG_BLOCK, &alarm, NULL); /* for the watchdog */
    if (pthread_create(&watchdog, NULL, watch, NULL)) return 1;
    pthread_sigmask(SIG_UNBLOCK, &alarm, NULL);
    if (gz_range_open_plain(SEATS, &handles[0])) return 1;
    for (int i = 1; i < SEATS; i++)
        if (gz_range_share(&handles[0], &handles[i])) return 1;
    show_deadlines();
    show_sleep();
    show_signals();
    show_cancel();
    show_handler();
    show_fork();
    show_priorities();
    show_turns();
    for (int i = 0; i < SEATS; i++) gz_range_close(&handles[i]);
    return 0;
}
