/* The heap of the library for processors other than x86-64: the engine's code calls it to take and give
 * back memory. It uses the C library's malloc; it is tested and not proved. On x86-64 the kit's own heap
 * takes its place.
 *
 * A call returns whether it succeeded, and the address; the address of a refused call is never read. Sizes
 * may be 0. No alignment exceeds that of malloc. */
typedef unsigned long u64;

struct tried {
    u64 done;
    void *at;
};

void *malloc(u64 size);
void *realloc(void *old, u64 size);
void free(void *at);

static char nowhere;

static struct tried told(void *at) {
    struct tried it = {at != 0, at ? at : &nowhere};
    return it;
}

struct tried rattle_alloc(u64 size, u64 align) {
    return told(malloc(size ? size : align));
}

struct tried rattle_realloc(void *at, u64 kept, u64 size, u64 align) {
    (void)kept;
    return told(realloc(at, size ? size : align));
}

void rattle_dealloc(void *at) {
    free(at);
}
