/* The heap of the WebAssembly module in the playground and in rudekpi.mjs: the engine's code calls it to
 * take or give back memory. It is not proved; the library for C uses malloc instead.
 *
 * Blocks are powers of two from 32 bytes on, with their class in a header of 16 bytes. A freed block goes
 * to the front of its class's list; memory never shrinks. A call returns whether it succeeded, and the
 * address. */
typedef unsigned long u64;
typedef unsigned char u8;

enum { HEADER = 16, LEAST_CLASS = 5, CLASSES = 64, PAGE = 65536, LEAST_PAGES = 16 };

struct tried {
    u64 done;
    u8 *at;
};

extern u8 __heap_base;
static u8 *top, *end;
static u8 *free_blocks[CLASSES];

static int class_of(u64 size) {
    int class = LEAST_CLASS;
    while ((1ul << class) < size + HEADER) class ++;
    return class;
}

/* Grows memory until `size` bytes lie between top and end; returns 0 if that is refused. */
static int has_room(u64 size) {
    if (!top) {
        top = (u8 *)(((u64)&__heap_base + HEADER - 1) & -(u64)HEADER);
        end = (u8 *)(__builtin_wasm_memory_size(0) * PAGE);
    }
    u64 left = end > top ? (u64)(end - top) : 0;
    if (left >= size) return 1;
    u64 pages = (size - left + PAGE - 1) / PAGE + 1;
    if (pages < LEAST_PAGES) pages = LEAST_PAGES;
    /* The memory's size shows whether it grew: lowered to 32 bits, this module gets no -1 of 64 bits for a
     * refused growth. */
    __builtin_wasm_memory_grow(0, pages);
    u8 *grown = (u8 *)(__builtin_wasm_memory_size(0) * PAGE);
    if (grown < end + pages * PAGE) return 0;
    end = grown;
    return 1;
}

static u8 *take(u64 size) {
    if (size >= 1ul << 40) return 0;
    int class = class_of(size);
    if (!free_blocks[class] && has_room(1ul << class)) {
        u8 *block = top;
        top += 1ul << class;
        *(int *)block = class;
        return block + HEADER;
    }
    /* If memory does not grow, a larger freed block has to do. */
    while (class < CLASSES && !free_blocks[class]) class ++;
    if (class == CLASSES) return 0;
    u8 *block = free_blocks[class];
    free_blocks[class] = *(u8 **)(block + HEADER);
    return block + HEADER;
}

static struct tried told(u8 *at) {
    struct tried it = {at != 0, at ? at : (u8 *)HEADER};
    return it;
}

struct tried rattle_alloc(u64 size, u64 align) {
    (void)align;
    return told(take(size));
}

void rattle_dealloc(u8 *at) {
    u8 *block = at - HEADER;
    int class = *(int *)block;
    *(u8 **)at = free_blocks[class];
    free_blocks[class] = block;
}

struct tried rattle_realloc(u8 *at, u64 kept, u64 size, u64 align) {
    (void)align;
    if (size >= 1ul << 40) return told(0);
    int class = *(int *)(at - HEADER), wanted = class_of(size);
    if (wanted == class) return told(at);
    u8 *to = take(size);
    if (!to) return told(wanted < class ? at : 0);
    __builtin_memcpy(to, at, kept);
    rattle_dealloc(at);
    return told(to);
}

/* Room for bytes that JavaScript and the module exchange; null if there is none. */
u8 *rudekpi_room(u64 size) {
    return take(size);
}

void rudekpi_give_back(u8 *at) {
    rattle_dealloc(at);
}
