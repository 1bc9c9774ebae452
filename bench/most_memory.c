/* Runs a command and prints, on standard error, how many megabytes of memory it had at most. Its own end is that of the
   command. */
#include <stdio.h>
#include <sys/resource.h>
#include <sys/wait.h>
#include <unistd.h>

int main(int argc, char **argv) {
    struct rusage used;
    int status = 0;
    pid_t child = argc > 1 ? fork() : -1;
    if (child < 0) return 127;
    if (child == 0) {
        execvp(argv[1], argv + 1);
        _exit(127);
    }
    waitpid(child, &status, 0);
    getrusage(RUSAGE_CHILDREN, &used);
    fprintf(stderr, "%.1f MB\n", used.ru_maxrss / 1024.0);
    return WIFEXITED(status) ? WEXITSTATUS(status) : 1;
}
