// One block grows to 39 MB by realloc, becomes small again and is freed, and the end of the heap moves up and down. The
// C library grows such a block by mremap(2) and moves the end by brk(2).
#include <stdlib.h>
#include <unistd.h>

int main(void) {
    char *block = malloc(200000);
    for (size_t size = 300000; block != NULL && size <= 40000000; size += size / 2) {
        block = realloc(block, size);
        if (block != NULL)
            block[size - 1] = 1;
    }
    for (size_t size = 30000000; block != NULL && size >= 200000; size /= 3)
        block = realloc(block, size);
    if (block == NULL)
        return 1;
    free(block);
    for (int i = 0; i < 8; i++)
        if (sbrk(100000) == (void *)-1)
            return 1;
    for (int i = 0; i < 8; i++)
        if (sbrk(-60000) == (void *)-1)
            return 1;
    return 0;
}
