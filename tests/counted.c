/* Wraps the allocator of a shared library, which is linked with --wrap=malloc, --wrap=realloc and --wrap=free: counts
 * growths, and refuses one of them. For tests/calling.py, in one thread. */
#include <stddef.h>

void *__real_malloc(size_t size);
void *__real_realloc(void *place, size_t size);
void __real_free(void *place);

static long growths, refused, blocks;

/* Starts counting again, and refuses the growth with this number, from 1. Number 0 refuses none. */
void refuse(long number) {
    growths = 0;
    blocks = 0;
    refused = number;
}

long growths_made(void) { return growths; }

long blocks_left(void) { return blocks; }

void *__wrap_malloc(size_t size) {
    if (++growths == refused) return NULL;
    blocks++;
    return __real_malloc(size);
}

void *__wrap_realloc(void *place, size_t size) {
    if (++growths == refused) return NULL;
    blocks += place == NULL;
    return __real_realloc(place, size);
}

void __wrap_free(void *place) {
    blocks -= place != NULL;
    __real_free(place);
}
