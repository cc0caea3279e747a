/* Refuses the N-th allocation of sessions of the library for C, for N = 1, 2, .. until none is refused, also
 * of a session that goes on from a transcript. A line that lacked memory is given again. Without lines that ask for turns the text must be the one with
 * memory; otherwise it must be that of a run. Link with -Wl,--wrap=malloc,--wrap=realloc. */
#include <stdio.h>
#include <stdlib.h>
#include <string.h>
#include "rudekpi.h"

static unsigned long allocations, refused_number;
static bool was_refused;

void *__real_malloc(size_t size);
void *__real_realloc(void *old, size_t size);

static bool is_refused(void) {
    if (!refused_number || ++allocations != refused_number) return false;
    return was_refused = true;
}

void *__wrap_malloc(size_t size) {
    return is_refused() ? NULL : __real_malloc(size);
}
void *__wrap_realloc(void *old, size_t size) {
    return is_refused() ? NULL : __real_realloc(old, size);
}

static const char *const events[] = {"link 1 2", "link 2 3",   "link 3 4", "link 4 1",   "enabled",  "step 1 3",
                                     "join 5",   "link 5 1",   "status",   "checkpoint", "step 2 4", "point 5 1",
                                     "flag 5 1", "enabled",    "matching", "lnk",        "leave 2",  "unlink 1 5",
                                     "show 1",   "step 1>4 3", "",         "checkpoint", "status",   NULL};
static const char *const turns[] = {"link 1 2",     "link 2 3",   "link 3 4", "drive 7 20",
                                    "scramble 3 5", "drive 1 20", "matching", NULL};

struct text {
    uint8_t bytes[1 << 14];
    size_t length;
};

static void fail(const char *what) {
    printf("allocation %lu: %s\n", refused_number, what);
    exit(1);
}

/* One session, begun again and each line given again if memory is refused. */
static void play(const char *const *lines, struct text *text) {
    struct rudekpi_slot slot = RUDEKPI_NONE;
    uint64_t number = 0;
    uint32_t status = rudekpi_session_new(RUDEKPI_MANNE, 6, 4, &slot);
    if (status == RUDEKPI_NO_MEMORY) {
        if (slot.full || !was_refused) fail("a session of no memory");
        status = rudekpi_session_new(RUDEKPI_MANNE, 6, 4, &slot);
    }
    if (status != RUDEKPI_DONE) fail("no session");
    for (; *lines; lines++) {
        uint32_t wanted = strcmp(*lines, "lnk") ? RUDEKPI_DONE : RUDEKPI_BAD_LINE;
        status = rudekpi_session_feed(&slot, (const uint8_t *)*lines, strlen(*lines), &number);
        if (status == RUDEKPI_NO_MEMORY && was_refused)
            status = rudekpi_session_feed(&slot, (const uint8_t *)*lines, strlen(*lines), &number);
        if (status != wanted) fail(*lines);
    }
    text->length = rudekpi_session_read(&slot, text->bytes, sizeof text->bytes);
    rudekpi_session_free(&slot);
}

/* A session that goes on from a text, begun again if memory is refused; then the same lines. */
static void go_on(const struct text *from, const char *const *lines, struct text *text) {
    struct rudekpi_slot slot = RUDEKPI_NONE;
    struct rudekpi_verdict verdict;
    uint64_t number = 0;
    uint32_t status = rudekpi_session_new(RUDEKPI_HSU_HUANG, 2, 2, &slot);
    if (status == RUDEKPI_NO_MEMORY && was_refused) status = rudekpi_session_new(RUDEKPI_HSU_HUANG, 2, 2, &slot);
    if (status != RUDEKPI_DONE) fail("no session");
    status = rudekpi_session_resume(&slot, from->bytes, from->length, &verdict);
    if (status == RUDEKPI_NO_MEMORY) {
        if (slot.full || !was_refused) fail("a session of no memory goes on");
        if (verdict.kind != RUDEKPI_ACCEPTED && verdict.kind != RUDEKPI_UNJUDGED) fail("a verdict of no memory");
        status = rudekpi_session_resume(&slot, from->bytes, from->length, &verdict);
    }
    if (status != RUDEKPI_DONE || verdict.kind != RUDEKPI_ACCEPTED || !slot.full) fail("no session goes on");
    for (; *lines; lines++) {
        status = rudekpi_session_feed(&slot, (const uint8_t *)*lines, strlen(*lines), &number);
        if (status == RUDEKPI_NO_MEMORY && was_refused)
            status = rudekpi_session_feed(&slot, (const uint8_t *)*lines, strlen(*lines), &number);
        if (status != RUDEKPI_DONE) fail(*lines);
    }
    text->length = rudekpi_session_read(&slot, text->bytes, sizeof text->bytes);
    status = rudekpi_session_resume(&slot, (const uint8_t *)"matching hh x\n", 14, &verdict);
    if (status == RUDEKPI_NO_MEMORY && was_refused)
        status = rudekpi_session_resume(&slot, (const uint8_t *)"matching hh x\n", 14, &verdict);
    if (status != RUDEKPI_DAMAGED || slot.full || verdict.kind != RUDEKPI_BAD_HEADER || verdict.line != 1)
        fail("what is no transcript");
    rudekpi_session_free(&slot);
}

static unsigned long refuse_each_to_go_on(void) {
    static const char *const lines[] = {"show 1", "link 2 4", "enabled", "checkpoint", "join 6", "status", NULL};
    static struct text from, whole, text;
    refused_number = 0;
    play(events, &from);
    go_on(&from, lines, &whole);
    for (refused_number = 1;; refused_number++) {
        allocations = 0;
        was_refused = false;
        go_on(&from, lines, &text);
        if (text.length != whole.length || memcmp(text.bytes, whole.bytes, whole.length)) fail("another text goes on");
        if (!was_refused) return refused_number - 1;
    }
}

static unsigned long refuse_each(const char *const *lines, bool same) {
    static struct text whole, text;
    struct rudekpi_verdict verdict;
    refused_number = 0;
    play(lines, &whole);
    for (refused_number = 1;; refused_number++) {
        allocations = 0;
        was_refused = false;
        play(lines, &text);
        if (same && (text.length != whole.length || memcmp(text.bytes, whole.bytes, whole.length)))
            fail("another text");
        rudekpi_audit(text.bytes, text.length, &verdict);
        if (verdict.kind != RUDEKPI_ACCEPTED && !(verdict.kind == RUDEKPI_UNJUDGED && was_refused))
            fail("another verdict");
        if (!was_refused) return refused_number - 1;
    }
}

int main(void) {
    unsigned long of_events = refuse_each(events, true), of_turns = refuse_each(turns, false);
    unsigned long of_going_on = refuse_each_to_go_on();
    printf("refused: %lu, %lu and %lu\n", of_events, of_turns, of_going_on);
    return of_events && of_turns && of_going_on ? 0 : 1;
}
