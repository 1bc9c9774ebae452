/* Maps single pages, with gaps between them, until this process has as many areas as Linux lets a process have by
   default. It prints its maps file, an empty line, and a call that takes the first of these pages away. It ends with
   status 77 where it can't have so many. */
#define _GNU_SOURCE
#include <stdio.h>
#include <sys/mman.h>

enum { AREAS = 65530, PAGE = 4096 };

static char text[1 << 16];

/* Copies the maps file to a stream, if there is one, and gives how many areas it has. The page that the kernel shows
   behind all areas, [vsyscall], is none. */
static int copy_maps(FILE *out) {
    FILE *maps = fopen("/proc/self/maps", "r");
    int areas = 0;
    if (!maps) return AREAS + 1;
    while (fgets(text, sizeof text, maps)) {
        if (out) fputs(text, out);
        areas += text[0] != 'f' || text[1] != 'f' || text[2] != 'f' || text[3] != 'f';
    }
    fclose(maps);
    return areas;
}

int main(void) {
    static char buffer[1 << 16];
    setvbuf(stdout, buffer, _IOFBF, sizeof buffer);
    char *first = mmap(NULL, 2L * AREAS * PAGE, PROT_NONE, MAP_PRIVATE | MAP_ANONYMOUS, -1, 0);
    if (first == MAP_FAILED || munmap(first, 2L * AREAS * PAGE)) return 77;
    copy_maps(NULL);
    int missing = AREAS - copy_maps(NULL);
    for (int i = 0; i < missing; i++) {
        void *page = first + (2L * i + 1) * PAGE;
        if (mmap(page, PAGE, PROT_READ, MAP_PRIVATE | MAP_ANONYMOUS | MAP_FIXED, -1, 0) != page) return 77;
    }
    if (copy_maps(stdout) != AREAS) return 77;
    printf("\nmunmap(%p, %d)\n", (void *)(first + PAGE), PAGE);
    return 0;
}
