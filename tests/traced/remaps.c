/* Four threads that remap areas of few sizes and give them back, and that grow blocks of memory by realloc: each takes what
   another has freed, and their calls cut each other's in two under strace. If a word is given it first waits until it is
   traced, and a second more. */
#define _GNU_SOURCE
#include <pthread.h>
#include <stdio.h>
#include <stdlib.h>
#include <sys/mman.h>
#include <unistd.h>

enum { THREADS = 4, TURNS = 150, PAGE = 4096 };

static void *turns(void *seed)
{
    unsigned state = (unsigned)(long)seed + 29;
    size_t len = 4 * PAGE;
    char *at = mmap(NULL, len, PROT_READ | PROT_WRITE, MAP_PRIVATE | MAP_ANONYMOUS, -1, 0);
    void *block = NULL;
    for (int i = 0; i < TURNS && at != MAP_FAILED; i++) {
        state = state * 1103515245u + 12345u;
        size_t next = (state >> 16) % 2 ? 4 * PAGE : 8 * PAGE;
        if ((state >> 17) % 3 == 0) {
            munmap(at, len);
            at = mmap(NULL, next, PROT_READ | PROT_WRITE, MAP_PRIVATE | MAP_ANONYMOUS, -1, 0);
        } else {
            at = mremap(at, len, next, MREMAP_MAYMOVE);
        }
        len = next;
        if ((state >> 19) % 4 == 0) {
            free(block);
            block = NULL;
        } else {
            block = realloc(block, 70000 + (state >> 18) % 9 * 20000);
        }
    }
    return NULL;
}

/* The process that traces this one, or 0. */
static int tracer(void)
{
    char line[256];
    int found = 0;
    FILE *status = fopen("/proc/self/status", "r");
    while (status && fgets(line, sizeof line, status) && sscanf(line, "TracerPid: %d", &found) != 1)
        continue;
    if (status)
        fclose(status);
    return found;
}

int main(int words, char **word)
{
    pthread_t threads[THREADS];
    int failed = 0;
    (void)word;
    if (words > 1) {
        for (int i = 0; i < 600 && !tracer(); i++)
            usleep(100000);
        sleep(1);
    }
    for (long i = 0; i < THREADS; i++)
        failed |= pthread_create(&threads[i], NULL, turns, (void *)i);
    for (int i = 0; !failed && i < THREADS; i++)
        failed |= pthread_join(threads[i], NULL);
    return failed;
}
