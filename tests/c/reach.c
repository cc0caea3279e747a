/* Tests rest and reach by the library for C: a network with pointers written by hand, and each row of the
 * table in docs/BOUNDS.md, found by hand from its edges. Each allocation of a row is refused once, then
 * the row is asked again. Link with -Wl,--wrap=malloc,--wrap=realloc. */
#include <stdio.h>
#include <stdlib.h>
#include <string.h>
#include "rudekpi.h"

static unsigned long allocations, refused_number;
static bool was_refused;

void *__real_malloc(size_t size);
void *__real_realloc(void *old, size_t size);

static bool is_refused(void) {
    if (!refused_number || ++allocations != refused_number) return false;
    return was_refused = true;
}

void *__wrap_malloc(size_t size) {
    return is_refused() ? NULL : __real_malloc(size);
}
void *__wrap_realloc(void *old, size_t size) {
    return is_refused() ? NULL : __real_realloc(old, size);
}

enum kind { LINK, UNLINK, JOIN, LEAVE, POINT, FLAG };

/* An event, and the nodes that it reaches, as digits: by Hsu and Huang's rules, and by Manne's. */
struct row {
    enum kind kind;
    uint32_t a, b;
    const char *reach[2];
};

/* 1 and 2 are a pair; 3 points at 1 and 7 at 5, which do not answer; 4 and 6 are linked with 1 and 2; 8 is
 * not present. */
static const uint32_t edges[][2] = {{1, 2}, {1, 3}, {1, 4}, {2, 5}, {2, 6}, {5, 7}},
                      pointers[][2] = {{1, 2}, {2, 1}, {3, 1}, {7, 5}};

/* whether each node from 1 on is at rest; the flags of the pair are not set */
static const char *rests[2] = {"11010101", "00010101"};

static const struct row rows[] = {
    {LINK, 3, 4, {"34", "34"}}, /* neither is in a pair */
    {LINK, 5, 4, {"45", "45"}},
    {LINK, 3, 2, {"", ""}},               /* one is */
    {UNLINK, 1, 2, {"123456", "123456"}}, /* a pair, and all their neighbours but 7 are unpaired */
    {UNLINK, 1, 3, {"", ""}},
    {POINT, 1, 3, {"123456", "123456"}}, /* in a pair, and points elsewhere */
    {POINT, 2, 0, {"123456", "123456"}},
    {POINT, 1, 2, {"", ""}}, /* its present target */
    {POINT, 3, 0, {"", ""}}, /* unpaired, and points nowhere then */
    {POINT, 3, 1, {"", ""}},
    {POINT, 5, 2, {"5", "5"}}, /* unpaired, and points elsewhere */
    {FLAG, 1, 1, {"", ""}},    /* right */
    {FLAG, 1, 0, {"", "1"}},   /* wrong */
    {FLAG, 4, 1, {"", "4"}},
    {FLAG, 4, 0, {"", ""}},
    {JOIN, 8, 0, {"", ""}},
    {LEAVE, 1, 0, {"256", "256"}}, /* its partner, with two unpaired neighbours */
    {LEAVE, 2, 0, {"134", "134"}},
    {LEAVE, 3, 0, {"", ""}},
    /* refused */
    {LINK, 3, 3, {"", ""}},
    {LINK, 1, 2, {"", ""}},
    {LINK, 3, 8, {"", ""}},
    {LINK, 3, 65535, {"", ""}},
    {UNLINK, 3, 4, {"", ""}},
    {POINT, 4, 5, {"", ""}},
    {POINT, 1, 65535, {"", ""}},
    {FLAG, 8, 1, {"", ""}},
    {JOIN, 1, 0, {"", ""}},
    {JOIN, 9, 0, {"", ""}},
    {LEAVE, 8, 0, {"", ""}},
};

static const uint32_t no_names[] = {0, 65536, UINT32_MAX};

enum { ROOM = 9, UNTOUCHED = 77 };

static void fail(const char *what, size_t at) {
    printf("%s: %zu\n", what, at);
    exit(1);
}

static uint32_t asked(struct rudekpi_slot *slot, enum kind kind, uint32_t a, uint32_t b, uint32_t *out, size_t room,
                      size_t *count) {
    switch (kind) {
    case LINK:
        return rudekpi_reach_of_link(slot, a, b, out, room, count);
    case UNLINK:
        return rudekpi_reach_of_unlink(slot, a, b, out, room, count);
    case JOIN:
        return rudekpi_reach_of_join(slot, a, out, room, count);
    case LEAVE:
        return rudekpi_reach_of_leave(slot, a, out, room, count);
    case POINT:
        return rudekpi_reach_of_point(slot, a, b, out, room, count);
    default:
        return rudekpi_reach_of_flag(slot, a, b, out, room, count);
    }
}

/* All places from `from` on are untouched. */
static void expect_untouched(const uint32_t *out, size_t from, size_t at) {
    for (size_t place = from; place < ROOM; place++)
        if (out[place] != UNTOUCHED) fail("a place that was written", at);
}

static void blank(uint32_t *out) {
    for (size_t place = 0; place < ROOM; place++) out[place] = UNTOUCHED;
}

/* Asks for the reach with every room from 0 to all: it is copied if there is enough, otherwise nothing is
 * written. */
static void ask_row(struct rudekpi_slot *slot, uint32_t rules, size_t at) {
    const struct row *row = &rows[at];
    size_t wanted = strlen(row->reach[rules]);
    for (size_t room = 0; room <= ROOM; room++) {
        uint32_t out[ROOM];
        size_t count = 99;
        blank(out);
        if (asked(slot, row->kind, row->a, row->b, out, room, &count) != RUDEKPI_DONE || count != wanted)
            fail("how many are in reach", at);
        if (room < wanted) {
            expect_untouched(out, 0, at);
            continue;
        }
        for (size_t place = 0; place < count; place++)
            if (out[place] != (uint32_t)(row->reach[rules][place] - '0')) fail("who is in reach", at);
        expect_untouched(out, count, at);
    }
}

/* Refuses each allocation of a row in turn: then nothing is reported or written. Returns how many were
 * refused. */
static unsigned long refuse_row(struct rudekpi_slot *slot, size_t at) {
    for (refused_number = 1;; refused_number++) {
        uint32_t out[ROOM];
        size_t count = 9;
        allocations = 0;
        was_refused = false;
        blank(out);
        uint32_t status = asked(slot, rows[at].kind, rows[at].a, rows[at].b, out, ROOM, &count);
        unsigned long refused = refused_number;
        if (!was_refused) {
            refused_number = 0;
            if (status != RUDEKPI_DONE) fail("a row that failed with memory", at);
            return refused - 1;
        }
        if (status != RUDEKPI_NO_MEMORY || count) fail("a row without memory", at);
        expect_untouched(out, 0, at);
    }
}

/* Names out of range, for either node, in a slot with a session and without. */
static void give_bad_names(struct rudekpi_slot *slot) {
    uint32_t out[ROOM];
    blank(out);
    for (size_t at = 0; at < 3; at++) {
        uint32_t name = no_names[at];
        bool is_at_rest = true;
        if (rudekpi_is_at_rest(slot, name, &is_at_rest) != RUDEKPI_BAD_ARGUMENT || is_at_rest)
            fail("a bad name at rest", at);
        for (enum kind kind = LINK; kind <= FLAG; kind++) {
            size_t count = 9;
            if (asked(slot, kind, name, 1, out, ROOM, &count) != RUDEKPI_BAD_ARGUMENT || count) fail("a bad name", at);
            bool has_other = kind == LINK || kind == UNLINK || (kind == POINT && name);
            count = 9;
            if (has_other && (asked(slot, kind, 1, name, out, ROOM, &count) != RUDEKPI_BAD_ARGUMENT || count))
                fail("a bad other name", at);
        }
    }
    expect_untouched(out, 0, 0);
}

static void ask_each(uint32_t rules) {
    struct rudekpi_slot slot = RUDEKPI_NONE;
    struct rudekpi_told told;
    if (rudekpi_session_new(rules, 8, 7, &slot) != RUDEKPI_DONE) fail("no session", rules);
    for (size_t at = 0; at < sizeof edges / sizeof *edges; at++)
        if (rudekpi_link(&slot, edges[at][0], edges[at][1], &told) != RUDEKPI_DONE) fail("an edge", at);
    for (size_t at = 0; at < sizeof pointers / sizeof *pointers; at++)
        if (rudekpi_point(&slot, pointers[at][0], pointers[at][1], &told) != RUDEKPI_DONE) fail("a pointer", at);
    size_t written = rudekpi_session_length(&slot);
    for (size_t at = 0; at < sizeof rows / sizeof *rows; at++) {
        ask_row(&slot, rules, at);
        bool takes_memory = *rows[at].reach[rules];
        if ((refuse_row(&slot, at) > 0) != takes_memory) fail("what takes memory", at);
        ask_row(&slot, rules, at);
    }
    for (uint32_t node = 1; node <= 8; node++) {
        bool is_at_rest = rests[rules][node - 1] == '0';
        if (rudekpi_is_at_rest(&slot, node, &is_at_rest) != RUDEKPI_DONE ||
            is_at_rest != (rests[rules][node - 1] == '1'))
            fail("who is at rest", node);
    }
    bool beyond = false;
    if (rudekpi_is_at_rest(&slot, 65535, &beyond) != RUDEKPI_DONE || !beyond) fail("a name that nobody has", rules);
    give_bad_names(&slot);
    /* nothing changed: no entry was added */
    if (rudekpi_session_length(&slot) != written) fail("a question that leaves a trace", rules);
    if (rudekpi_show(&slot, 1, &told) != RUDEKPI_DONE || told.entry != 11 || told.target != 2)
        fail("a network that was changed", rules);
    rudekpi_session_free(&slot);
}

int main(void) {
    struct rudekpi_slot none = RUDEKPI_NONE;
    ask_each(RUDEKPI_HSU_HUANG);
    ask_each(RUDEKPI_MANNE);
    for (size_t at = 0; at < sizeof rows / sizeof *rows; at++) {
        uint32_t out[ROOM];
        size_t count = 9;
        blank(out);
        if (asked(&none, rows[at].kind, rows[at].a, rows[at].b, out, ROOM, &count) != RUDEKPI_NO_SESSION || count)
            fail("a slot of none", at);
        expect_untouched(out, 0, at);
    }
    bool is_at_rest = true;
    if (rudekpi_is_at_rest(&none, 1, &is_at_rest) != RUDEKPI_NO_SESSION || is_at_rest) fail("a node of no session", 1);
    give_bad_names(&none);
    printf("reach: %zu\n", sizeof rows / sizeof *rows);
    return 0;
}
