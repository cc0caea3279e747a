/* Tests the costs of edits and faults by the library for C: a network with pointers written by hand, and
 * each row of the table in docs/BOUNDS.md, computed by hand from its edges. */
#include <stdio.h>
#include <stdlib.h>
#include "rudekpi.h"

enum kind { LINK, UNLINK, JOIN, LEAVE, POINT, FLAG };

/* An event, and its cost under both rule sets. */
struct row {
    enum kind kind;
    uint32_t a, b;
    uint32_t costs[2];
};

/* 1 and 2 are a pair; 3 points at 1 and 7 at 5, which do not answer; 4 and 6 are linked with 1 and 2; 8 is
 * not present. */
static const uint32_t edges[][2] = {{1, 2}, {1, 3}, {1, 4}, {2, 5}, {2, 6}, {5, 7}},
                      pointers[][2] = {{1, 2}, {2, 1}, {3, 1}, {7, 5}};

static const struct row rows[] = {
    {LINK, 3, 4, {2, 2}},
    {UNLINK, 1, 2, {8, 12}}, /* a pair: two other edges at each */
    {UNLINK, 1, 3, {4, 0}},  /* 3 points at 1, which has two other edges */
    {UNLINK, 2, 5, {0, 0}},  /* no pointer crosses it */
    {POINT, 1, 3, {12, 16}}, /* in a pair, with three edges at each */
    {POINT, 3, 0, {6, 2}},   /* it points at 1, which has three edges */
    {POINT, 5, 2, {4, 1}},   /* it points nowhere, has two edges, and 7 points at it */
    {POINT, 4, 1, {1, 1}},   /* neither points nor is pointed at */
    {FLAG, 1, 1, {0, 7}},    /* 2 and 3 point at it, and it has three edges */
    {FLAG, 1, 0, {0, 1}},
    {FLAG, 4, 1, {0, 1}}, /* not pointed at */
    {JOIN, 8, 0, {0, 1}},
    {LEAVE, 1, 0, {4, 6}}, /* in a pair with 2, which has two other edges */
    {LEAVE, 3, 0, {4, 0}}, /* it points at 1, which has two other edges */
    {LEAVE, 4, 0, {0, 0}}, /* it points nowhere */
    /* refused */
    {LINK, 1, 1, {0, 0}},
    {LINK, 1, 2, {0, 0}},
    {LINK, 1, 65535, {0, 0}},
    {UNLINK, 3, 4, {0, 0}},
    {POINT, 4, 5, {0, 0}},
    {POINT, 1, 65535, {0, 0}},
    {FLAG, 8, 1, {0, 0}},
    {JOIN, 1, 0, {0, 0}},
    {JOIN, 9, 0, {0, 0}},
    {LEAVE, 8, 0, {0, 0}},
};

static const uint32_t no_names[] = {0, 65536, UINT32_MAX};

static void fail(const char *what, size_t at) {
    printf("%s: %zu\n", what, at);
    exit(1);
}

static uint32_t asked(struct rudekpi_slot *slot, enum kind kind, uint32_t a, uint32_t b, uint32_t *cost) {
    switch (kind) {
    case LINK:
        return rudekpi_cost_of_link(slot, a, b, cost);
    case UNLINK:
        return rudekpi_cost_of_unlink(slot, a, b, cost);
    case JOIN:
        return rudekpi_cost_of_join(slot, a, cost);
    case LEAVE:
        return rudekpi_cost_of_leave(slot, a, cost);
    case POINT:
        return rudekpi_cost_of_point(slot, a, b, cost);
    default:
        return rudekpi_cost_of_flag(slot, a, b, cost);
    }
}

/* Names out of range, for either node, in a slot with a session and without. */
static void give_bad_names(struct rudekpi_slot *slot) {
    for (enum kind kind = LINK; kind <= FLAG; kind++)
        for (size_t at = 0; at < 3; at++) {
            uint32_t name = no_names[at], cost = 9;
            if (asked(slot, kind, name, 1, &cost) != RUDEKPI_BAD_ARGUMENT || cost) fail("a bad name", at);
            bool has_other = kind == LINK || kind == UNLINK || (kind == POINT && name);
            cost = 9;
            if (has_other && (asked(slot, kind, 1, name, &cost) != RUDEKPI_BAD_ARGUMENT || cost))
                fail("a bad other name", at);
        }
}

static void ask_each(uint32_t rules) {
    struct rudekpi_slot slot = RUDEKPI_NONE;
    struct rudekpi_told told;
    struct rudekpi_row enabled[8];
    if (rudekpi_session_new(rules, 8, 7, &slot) != RUDEKPI_DONE) fail("no session", rules);
    for (size_t at = 0; at < sizeof edges / sizeof *edges; at++)
        if (rudekpi_link(&slot, edges[at][0], edges[at][1], &told) != RUDEKPI_DONE) fail("an edge", at);
    for (size_t at = 0; at < sizeof pointers / sizeof *pointers; at++)
        if (rudekpi_point(&slot, pointers[at][0], pointers[at][1], &told) != RUDEKPI_DONE) fail("a pointer", at);
    if (rudekpi_enabled(&slot, &told) != RUDEKPI_DONE || told.entry != 11 || !told.rows) fail("who is enabled", rules);
    size_t written = rudekpi_session_length(&slot), listed = told.rows;
    for (size_t at = 0; at < sizeof rows / sizeof *rows; at++) {
        uint32_t cost = 9, status = asked(&slot, rows[at].kind, rows[at].a, rows[at].b, &cost);
        if (status != RUDEKPI_DONE || cost != rows[at].costs[rules]) fail("a cost", at);
    }
    give_bad_names(&slot);
    /* nothing changed: no entry was added, and the last answer is still there */
    if (rudekpi_session_length(&slot) != written || rudekpi_rows(&slot, enabled, 8) != listed)
        fail("a question that leaves a trace", rules);
    if (rudekpi_show(&slot, 1, &told) != RUDEKPI_DONE || told.entry != 12 || told.target != 2)
        fail("a network that was changed", rules);
    rudekpi_session_free(&slot);
}

int main(void) {
    struct rudekpi_slot none = RUDEKPI_NONE;
    ask_each(RUDEKPI_HSU_HUANG);
    ask_each(RUDEKPI_MANNE);
    for (size_t at = 0; at < sizeof rows / sizeof *rows; at++) {
        uint32_t cost = 9;
        if (asked(&none, rows[at].kind, rows[at].a, rows[at].b, &cost) != RUDEKPI_NO_SESSION || cost)
            fail("a slot of none", at);
    }
    give_bad_names(&none);
    printf("costs: %zu\n", sizeof rows / sizeof *rows);
    return 0;
}
