/* Threads that map, unmap and protect pages while others do: their calls cut each other's in two under strace. */
#include <pthread.h>
#include <sys/mman.h>

enum { THREADS = 4, TURNS = 300, PAGE = 4096 };

static void *turns(void *seed)
{
    for (long i = (long)seed; i < (long)seed + TURNS; i++) {
        size_t len = PAGE * (1 + i % 5);
        char *at = mmap(NULL, len, PROT_READ | PROT_WRITE, MAP_PRIVATE | MAP_ANONYMOUS, -1, 0);
        if (at == MAP_FAILED)
            return seed;
        if (i % 3 == 0)
            mprotect(at, PAGE, PROT_READ);
        else
            munmap(at, len);
    }
    return NULL;
}

int main(void)
{
    pthread_t threads[THREADS];
    int failed = 0;
    for (long i = 0; i < THREADS; i++)
        failed |= pthread_create(&threads[i], NULL, turns, (void *)(i * TURNS));
    for (int i = 0; !failed && i < THREADS; i++)
        failed |= pthread_join(threads[i], NULL);
    return failed;
}
