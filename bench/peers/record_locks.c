/* Record locks of the kernel, by fcntl(2) with F_OFD_SETLKW: each thread has the same file open by itself, and locks the
   bytes whose numbers are those of its slots. The kernel keeps them in a list for the file, and a call costs a system
   call, with a wait asleep. They are the only peer that excludes other processes too. */
#define _GNU_SOURCE
#include "peer.h"

#include <fcntl.h>
#include <sys/mman.h>
#include <unistd.h>

static int files[MOST_THREADS];
static unsigned opened;

static void open_files(unsigned threads, uint64_t slots, unsigned regions) {
    (void)slots, (void)regions;
    char name[64];
    int file = memfd_create("arrbench", 0);
    must(file >= 0, "memfd_create");
    snprintf(name, sizeof name, "/proc/self/fd/%d", file);
    for (opened = 0; opened < threads; opened++) {
        files[opened] = open(name, O_RDWR);
        must(files[opened] >= 0, "open");
    }
    close(file);
}

static void set(unsigned thread, uint64_t lo, uint64_t hi, short type) {
    struct flock lock = { .l_type = type, .l_whence = SEEK_SET, .l_start = (off_t)lo, .l_len = (off_t)(hi - lo) };
    must(fcntl(files[thread], F_OFD_SETLKW, &lock) == 0, "fcntl");
}

static void take(unsigned thread, uint64_t lo, uint64_t hi, bool writer) {
    set(thread, lo, hi, writer ? F_WRLCK : F_RDLCK);
}

static void give_back(unsigned thread, uint64_t lo, uint64_t hi, bool writer) {
    (void)writer;
    set(thread, lo, hi, F_UNLCK);
}

static void close_files(void) {
    for (unsigned i = 0; i < opened; i++) close(files[i]);
}

const peer record_locks = { "fcntl record locks", true, open_files, take, give_back, close_files };
