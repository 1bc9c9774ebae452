/* A library to preload. It refuses the one growth of memory whose number, counted from 1, FAIL_NTH says, and tells on
   standard error that it did; where it tells nothing, there were fewer growths. */
#include <errno.h>
#include <stdatomic.h>
#include <stdlib.h>
#include <unistd.h>

extern void *__libc_malloc(size_t size);
extern void *__libc_calloc(size_t count, size_t size);
extern void *__libc_realloc(void *block, size_t size);

static atomic_long growths;
static long nth;

__attribute__((constructor)) static void begin(void) {
    const char *word = getenv("FAIL_NTH");
    nth = word ? atol(word) : 0;
}

static int refuses(void) {
    static const char told[] = "a growth is refused\n";
    if (nth == 0 || ++growths != nth) return 0;
    if (write(2, told, sizeof told - 1) < 0) _exit(99);
    errno = ENOMEM;
    return 1;
}

void *malloc(size_t size) { return refuses() ? NULL : __libc_malloc(size); }
void *calloc(size_t count, size_t size) { return refuses() ? NULL : __libc_calloc(count, size); }
void *realloc(void *block, size_t size) { return refuses() ? NULL : __libc_realloc(block, size); }
