/* In a PID namespace of its own: a child maps and ends, a thread gets its number and maps, and then another child does.
   At the end it prints its maps. */
#define _GNU_SOURCE
#include <fcntl.h>
#include <pthread.h>
#include <stdio.h>
#include <string.h>
#include <sys/mman.h>
#include <sys/wait.h>
#include <unistd.h>

enum { PAGE = 4096 };

/* The number after this is the next. */
static int last(const char *number)
{
    int file = open("/proc/sys/kernel/ns_last_pid", O_WRONLY);
    int is = file >= 0 && write(file, number, strlen(number)) > 0;
    if (file >= 0)
        close(file);
    return is;
}

static void *maps(void *pages)
{
    char *at = mmap(NULL, (size_t)pages * PAGE, PROT_READ, MAP_PRIVATE | MAP_ANONYMOUS, -1, 0);
    if (at != MAP_FAILED)
        mprotect(at, PAGE, PROT_NONE);
    return NULL;
}

static int child(size_t pages)
{
    pid_t made = last("100") ? fork() : -1;
    if (made == 0) {
        maps((void *)pages);
        _exit(0);
    }
    return made > 0 && waitpid(made, NULL, 0) == made;
}

int main(void)
{
    static char text[1 << 16];
    pthread_t thread;
    ssize_t got;
    int file;
    if (!child(9) || !last("100") || pthread_create(&thread, NULL, maps, (void *)5))
        return 1;
    pthread_join(thread, NULL);
    if (!child(7) || (file = open("/proc/self/maps", O_RDONLY)) < 0)
        return 1;
    while ((got = read(file, text, sizeof text)) > 0)
        if (write(1, text, (size_t)got) != got)
            return 1;
    return 0;
}
