/* Lies between a program and the C library's heap: the N-th allocation of all threads together returns
 * null. Allocations in a pause are not counted; pauses may be nested. */
#include <stdatomic.h>
#include <stdint.h>
#include <stdlib.h>

static atomic_ullong allocations, refused_number;
static atomic_int pauses, refused;

void rows_refuse(uint64_t number) {
    allocations = 0;
    refused = 0;
    pauses = 0;
    refused_number = number;
}

void rows_pause(uint32_t begins) {
    pauses += begins ? 1 : -1;
}

uint32_t rows_refused(void) {
    return (uint32_t)refused;
}

static int is_refused(void) {
    if (pauses || !refused_number || atomic_fetch_add(&allocations, 1) + 1 != refused_number) return 0;
    refused = 1;
    return 1;
}

void *rows_malloc(size_t size) {
    return is_refused() ? NULL : malloc(size);
}

void *rows_realloc(void *old, size_t size) {
    return is_refused() ? NULL : realloc(old, size);
}
