// The memory functions that compiled Rattle calls, on top of malloc, realloc and free, as in the toolchain's liblibc_c.a.
typedef unsigned long u64;
typedef struct {
    u64 is_ok;
    void *place;
} Tried;

void *malloc(u64 size);
void *realloc(void *place, u64 size);
void free(void *place);

static char refused;

static Tried tried(void *place) {
    return (Tried){place != 0, place ? place : &refused};
}

Tried rattle_alloc(u64 size, u64 align) {
    return tried(malloc(size ? size : align));
}

Tried rattle_realloc(void *place, u64 kept, u64 size, u64 align) {
    (void)kept;
    return tried(realloc(place, size ? size : align));
}

void rattle_dealloc(void *place) {
    free(place);
}
