/* A program that ends at once, or as its word says: by SIGKILL, with a child that goes on for a while, by the system call
   exit of its one thread, after a call of a form that isn't played, after 400 blocks of memory, or with a status. */
#define _GNU_SOURCE
#include <signal.h>
#include <stdlib.h>
#include <string.h>
#include <sys/mman.h>
#include <sys/syscall.h>
#include <unistd.h>

int main(int words, char **word)
{
    if (words < 2)
        return 0;
    if (strcmp(word[1], "killed") == 0)
        kill(getpid(), SIGKILL);
    if (strcmp(word[1], "forks") == 0) {
        if (fork() == 0)
            sleep(15);
        return 0;
    }
    if (strcmp(word[1], "otherwise") == 0)
        syscall(SYS_exit, 0);
    if (strcmp(word[1], "moves") == 0) {
        char *from = mmap(NULL, 8192, PROT_READ, MAP_PRIVATE | MAP_ANONYMOUS, -1, 0);
        char *to = mmap(NULL, 65536, PROT_NONE, MAP_PRIVATE | MAP_ANONYMOUS, -1, 0);
        return mremap(from, 8192, 8192, MREMAP_MAYMOVE | MREMAP_FIXED, to) == MAP_FAILED;
    }
    if (strcmp(word[1], "blocks") == 0) {
        for (size_t i = 0; i < 400; i++)
            if (malloc(16 + i * 37 % 3000) == NULL)
                return 1;
        return 0;
    }
    return atoi(word[1]);
}
