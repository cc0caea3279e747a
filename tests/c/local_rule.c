/* Tests the rule of one node by the library for C: rows worked out by hand from the rules in docs/DEFINITIONS.md,
 * views that no state shows, and numbers out of range. */
#include <stdio.h>
#include <stdlib.h>
#include <string.h>
#include "rudekpi.h"

enum { HH = RUDEKPI_HSU_HUANG, MANNE = RUDEKPI_MANNE, MOST = 3 };

/* Node 3's pointer and flag, its neighbours' records, and what node 3 does. */
struct row {
    uint32_t rules, pointer;
    bool flag;
    size_t length;
    struct rudekpi_record near[MOST];
    struct rudekpi_local_move made;
};

static const struct row rows[] = {
    {HH, 0, false, 0, {{0}}, {0, 0, 0, false, 0, 0}},
    /* a suitor goes before an open neighbour, and the least of each is taken */
    {HH, 0, false, 2, {{5, 0, false}, {7, 0, false}}, {RUDEKPI_SEDUCE, 5, 5, false, 0, 0}},
    {HH, 0, false, 3, {{1, 0, false}, {5, 3, false}, {7, 3, false}}, {RUDEKPI_MARRY, 5, 5, false, 0, 0}},
    {HH, 0, false, 2, {{1, 9, false}, {7, 8, false}}, {0, 0, 0, false, 0, 0}},
    /* the target points at a third node; nowhere; back */
    {HH, 5, false, 1, {{5, 7, false}}, {RUDEKPI_ABANDON, 0, 0, false, 0, 0}},
    {HH, 5, false, 1, {{5, 0, false}}, {0, 0, 5, false, 0, 0}},
    {HH, 5, false, 1, {{5, 3, false}}, {0, 0, 5, false, 0, 0}},
    /* the greatest above it that is unflagged and points nowhere; none below it */
    {MANNE, 0, false, 3, {{1, 0, false}, {5, 0, false}, {7, 0, true}}, {RUDEKPI_SEDUCE, 5, 5, false, 0, 0}},
    {MANNE, 0, false, 2, {{5, 0, false}, {7, 0, false}}, {RUDEKPI_SEDUCE, 7, 7, false, 0, 0}},
    {MANNE, 0, false, 2, {{1, 0, false}, {2, 0, false}}, {0, 0, 0, false, 0, 0}},
    {MANNE, 0, false, 2, {{5, 0, false}, {7, 3, true}}, {RUDEKPI_MARRY, 7, 7, false, 0, 0}},
    /* a wrong flag goes first */
    {MANNE, 7, false, 1, {{7, 3, false}}, {RUDEKPI_UPDATE, 0, 7, true, 0, 0}},
    {MANNE, 7, true, 1, {{7, 9, true}}, {RUDEKPI_UPDATE, 0, 7, false, 0, 0}},
    {MANNE, 0, true, 1, {{7, 3, false}}, {RUDEKPI_UPDATE, 0, 0, false, 0, 0}},
    {MANNE, 7, true, 1, {{7, 3, true}}, {0, 0, 7, true, 0, 0}},
    /* a target that does not answer: flagged, unflagged and above, below */
    {MANNE, 7, false, 1, {{7, 9, true}}, {RUDEKPI_ABANDON, 0, 0, false, 0, 0}},
    {MANNE, 7, false, 1, {{7, 9, false}}, {0, 0, 7, false, 0, 0}},
    {MANNE, 1, false, 1, {{1, 0, false}}, {RUDEKPI_ABANDON, 0, 0, false, 0, 0}},
    /* a pointer at no neighbour: null, and the flag as it is */
    {MANNE, 8, true, 1, {{7, 0, false}}, {RUDEKPI_REPAIR, 0, 0, true, RUDEKPI_POINTS_AT_STRANGER, 8}},
    {HH, 3, false, 0, {{0}}, {RUDEKPI_REPAIR, 0, 0, false, RUDEKPI_POINTS_AT_STRANGER, 3}},
    {HH, 65535, false, 1, {{65534, 0, false}}, {RUDEKPI_REPAIR, 0, 0, false, RUDEKPI_POINTS_AT_STRANGER, 65535}},
};

/* Views that no state shows; the first fault counts. */
static const struct row faults[] = {
    {HH, 0, false, 2, {{7, 0, false}, {5, 0, false}}, {0, 0, 0, false, RUDEKPI_NOT_ASCENDING, 5}},
    {HH, 0, false, 2, {{5, 0, false}, {5, 0, false}}, {0, 0, 0, false, RUDEKPI_NOT_ASCENDING, 5}},
    {MANNE, 0, false, 2, {{3, 0, false}, {5, 5, false}}, {0, 0, 0, false, RUDEKPI_OWN_NEIGHBOUR, 0}},
    {MANNE, 8, false, 2, {{1, 0, false}, {5, 5, false}}, {0, 0, 0, false, RUDEKPI_POINTS_AT_ITSELF, 5}},
};

static void fail(const char *what, size_t at) {
    printf("%s: %zu\n", what, at);
    exit(1);
}

static bool is_same(const struct rudekpi_local_move *a, const struct rudekpi_local_move *b) {
    return a->rule == b->rule && a->target == b->target && a->pointer == b->pointer && a->flag == b->flag &&
           a->fault == b->fault && a->at == b->at;
}

static void ask(const struct row *it, uint32_t status, const char *what, size_t at) {
    struct rudekpi_record me = {3, it->pointer, it->flag};
    struct rudekpi_local_move made;
    memset(&made, 9, sizeof made);
    if (rudekpi_local_rule(it->rules, &me, it->near, it->length, &made) != status || !is_same(&made, &it->made))
        fail(what, at);
}

/* Each rule and target: the machine allows the row's rule alone, to these targets. */
static void try_moves(const struct row *it, size_t at) {
    struct rudekpi_record me = {3, it->pointer, it->flag};
    bool is_repair = it->made.rule == RUDEKPI_REPAIR;
    for (uint32_t rule = RUDEKPI_UPDATE; rule <= RUDEKPI_ABANDON; rule++)
        for (uint32_t target = 0; target <= 9; target++) {
            bool may = true, takes = rule == RUDEKPI_MARRY || rule == RUDEKPI_SEDUCE, near = false;
            uint32_t status = rudekpi_may_move(it->rules, &me, it->near, it->length, rule, target, &may);
            if (status != (is_repair ? RUDEKPI_NOT_SHOWN : RUDEKPI_DONE)) fail("a status of a move", at);
            for (size_t i = 0; i < it->length; i++) {
                bool suits = it->near[i].pointer == 3, open = it->near[i].pointer == 0;
                near = near || (it->near[i].node == target && (rule == RUDEKPI_MARRY ? suits : open));
            }
            /* of those that may be seduced, Manne's rules allow the greatest alone */
            if (rule == RUDEKPI_SEDUCE && it->rules == MANNE) near = target != 0 && target == it->made.target;
            bool wanted = !is_repair && rule == it->made.rule && (takes ? near : target == 0);
            if (may != wanted) fail("a move", at * 100 + rule * 10 + target);
        }
}

static void give_bad_numbers(void) {
    static const struct rudekpi_local_move none = {0};
    static const uint32_t bad[][5] = {/* rules, name, pointer, neighbour, its pointer */
                                      {2, 3, 0, 5, 0},     {0, 0, 0, 5, 0},         {0, 65536, 0, 5, 0},
                                      {0, 3, 65536, 5, 0}, {0, 3, 0, 0, 0},         {0, 3, 0, 65536, 0},
                                      {0, 3, 0, 5, 65536}, {UINT32_MAX, 3, 0, 5, 0}};
    bool may;
    for (size_t at = 0; at < sizeof bad / sizeof *bad; at++) {
        struct rudekpi_record me = {bad[at][1], bad[at][2], false}, near = {bad[at][3], bad[at][4], false};
        struct rudekpi_local_move made = {9, 9, 9, true, 9, 9};
        if (rudekpi_local_rule(bad[at][0], &me, &near, 1, &made) != RUDEKPI_BAD_ARGUMENT || !is_same(&made, &none))
            fail("a bad number", at);
        may = true;
        if (rudekpi_may_move(bad[at][0], &me, &near, 1, RUDEKPI_SEDUCE, 5, &may) != RUDEKPI_BAD_ARGUMENT || may)
            fail("a bad number of a move", at);
    }
    struct rudekpi_record me = {3, 0, false}, near = {5, 0, false};
    static const uint32_t moves[][2] = {{0, 5}, {RUDEKPI_REPAIR, 0}, {RUDEKPI_SEDUCE, 65536}};
    for (size_t at = 0; at < 3; at++) {
        may = true;
        if (rudekpi_may_move(HH, &me, &near, 1, moves[at][0], moves[at][1], &may) != RUDEKPI_BAD_ARGUMENT || may)
            fail("a bad move", at);
    }
}

int main(void) {
    for (size_t at = 0; at < sizeof rows / sizeof *rows; at++) {
        ask(&rows[at], RUDEKPI_DONE, "a row", at);
        try_moves(&rows[at], at);
    }
    for (size_t at = 0; at < sizeof faults / sizeof *faults; at++) ask(&faults[at], RUDEKPI_NOT_SHOWN, "a fault", at);
    give_bad_numbers();
    if (strcmp(rudekpi_status_text(RUDEKPI_NOT_SHOWN), "shown by no state") || rudekpi_status_text(11)[0] != 'u')
        fail("a status's text", 9);
    if (strcmp(rudekpi_view_fault_text(RUDEKPI_POINTS_AT_STRANGER), "the node points at a name that is no neighbour"))
        fail("a fault's text", 4);
    printf("local rule: %zu rows\n", sizeof rows / sizeof *rows);
    return 0;
}
