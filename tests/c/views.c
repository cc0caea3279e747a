/* Tests the registers, neighbours, nodes, edges and restless nodes that the library for C lists, and the
 * renumbering of a session: networks and texts written by hand. Each allocation is refused once, then the
 * question is asked again. Link with -Wl,--wrap=malloc,--wrap=realloc. */
#include <stdio.h>
#include <stdlib.h>
#include <string.h>
#include "rudekpi.h"

static unsigned long allocations, refused_number;
static bool was_refused;

void *__real_malloc(size_t size);
void *__real_realloc(void *old, size_t size);

static bool is_refused(void) {
    if (!refused_number || ++allocations != refused_number) return false;
    return was_refused = true;
}

void *__wrap_malloc(size_t size) {
    return is_refused() ? NULL : __real_malloc(size);
}
void *__wrap_realloc(void *old, size_t size) {
    return is_refused() ? NULL : __real_realloc(old, size);
}

static void fail(const char *what, size_t at) {
    printf("%s, row %zu, allocation %lu\n", what, at, refused_number);
    exit(1);
}

enum { ROOM = 7, UNTOUCHED = 77 };
enum kind { NEIGHBOURS, NODES, RESTLESS, EDGES };

/* 1 and 2 are a pair, 3 points at 4, which does not answer, 5 is linked with 2 alone, and 6 is not present. */
static const uint32_t edges[][2] = {{1, 2}, {3, 2}, {4, 3}, {2, 5}}, pointers[][2] = {{1, 2}, {2, 1}, {3, 4}};
static const struct rudekpi_node registers[2][7] = {{{2, false, true},
                                                     {1, false, true},
                                                     {4, false, true},
                                                     {0, false, true},
                                                     {0, false, true},
                                                     {0, false, false},
                                                     {0, false, false}},
                                                    {{2, true, true},
                                                     {1, false, true},
                                                     {4, false, true},
                                                     {0, true, true},
                                                     {0, false, true},
                                                     {0, false, false},
                                                     {0, false, false}}};

/* A question, and the names that answer it, as digits: by Hsu and Huang's rules, and by Manne's. There the
 * flags of 1 and 4 are set: of the pair 1 alone has the right one. */
struct row {
    enum kind kind;
    uint32_t node;
    const char *names[2];
};
static const struct row rows[] = {
    {NEIGHBOURS, 1, {"2", "2"}},   {NEIGHBOURS, 2, {"135", "135"}},
    {NEIGHBOURS, 3, {"24", "24"}}, {NEIGHBOURS, 4, {"3", "3"}},
    {NEIGHBOURS, 5, {"2", "2"}},   {NEIGHBOURS, 6, {"", ""}}, /* absent */
    {NEIGHBOURS, 7, {"", ""}},                                /* no name of the session */
    {NEIGHBOURS, 65535, {"", ""}}, {NODES, 0, {"12345", "12345"}},
    {RESTLESS, 0, {"34", "234"}},  {EDGES, 0, {"12232534", "12232534"}}, /* two digits an edge */
};
static const uint32_t no_names[] = {0, 65536, UINT32_MAX};

/* Asks for a list as 32-bit names; an edge is two of them. */
static uint32_t asked(struct rudekpi_slot *slot, const struct row *row, uint32_t *out, size_t room, size_t *count) {
    struct rudekpi_row found[ROOM];
    uint32_t status;
    switch (row->kind) {
    case NEIGHBOURS:
        return rudekpi_neighbours(slot, row->node, out, room, count);
    case NODES:
        return rudekpi_nodes(slot, out, room, count);
    case RESTLESS:
        return rudekpi_restless(slot, out, room, count);
    default:
        for (size_t at = 0; at < ROOM; at++) found[at] = (struct rudekpi_row){UNTOUCHED, 0, UNTOUCHED};
        status = rudekpi_edges(slot, found, room / 2, count);
        for (size_t at = 0; at < room / 2; at++) {
            if (found[at].rule) fail("a rule of an edge", at);
            out[2 * at] = found[at].node;
            out[2 * at + 1] = found[at].other;
        }
        *count *= 2;
        return status;
    }
}

static void expect_untouched(const uint32_t *out, size_t from, size_t at) {
    for (size_t place = from; place < 2 * ROOM; place++)
        if (out[place] != UNTOUCHED) fail("what was written", at);
}

static void blank(uint32_t *out) {
    for (size_t place = 0; place < 2 * ROOM; place++) out[place] = UNTOUCHED;
}

/* Asks with every room from 0 on: all names are copied if there is enough, otherwise none. */
static void ask_row(struct rudekpi_slot *slot, uint32_t rules, size_t at) {
    const struct row *row = &rows[at];
    size_t wanted = strlen(row->names[rules]), step = row->kind == EDGES ? 2 : 1;
    for (size_t room = 0; room <= ROOM * step; room += step) {
        uint32_t out[2 * ROOM];
        size_t count = 99;
        blank(out);
        if (asked(slot, row, out, room, &count) != RUDEKPI_DONE || count != wanted) fail("how many there are", at);
        for (size_t place = 0; room >= wanted && place < count; place++)
            if (out[place] != (uint32_t)(row->names[rules][place] - '0')) fail("who they are", at);
        expect_untouched(out, room >= wanted ? count : 0, at);
    }
}

/* Refuses each allocation of a row in turn: then nothing is reported or written. Returns how many were. */
static unsigned long refuse_row(struct rudekpi_slot *slot, size_t at) {
    for (refused_number = 1;; refused_number++) {
        uint32_t out[2 * ROOM];
        size_t count = 9;
        allocations = 0;
        was_refused = false;
        blank(out);
        uint32_t status = asked(slot, &rows[at], out, ROOM, &count);
        unsigned long refused = refused_number;
        if (!was_refused) {
            refused_number = 0;
            if (status != RUDEKPI_DONE) fail("a row that failed with memory", at);
            return refused - 1;
        }
        if (status != RUDEKPI_NO_MEMORY || count) fail("a row without memory", at);
        expect_untouched(out, 0, at);
    }
}

static bool are(const struct rudekpi_node *found, const struct rudekpi_node *wanted) {
    return found->pointer == wanted->pointer && found->flag == wanted->flag && found->present == wanted->present;
}

static void ask_registers(struct rudekpi_slot *slot, uint32_t rules) {
    struct rudekpi_node found = {9, true, true};
    for (uint32_t node = 1; node <= 7; node++)
        if (rudekpi_registers(slot, node, &found) != RUDEKPI_DONE || !are(&found, &registers[rules][node - 1]))
            fail("registers", node);
    found.present = true;
    if (rudekpi_registers(slot, 65535, &found) != RUDEKPI_DONE || !are(&found, &registers[rules][5]))
        fail("registers of a name that nobody has", rules);
}

/* Names out of range and slots without a session: nothing but 0 is written. */
static void give_bad_names(struct rudekpi_slot *slot) {
    for (size_t at = 0; at < 3; at++) {
        uint32_t out[2 * ROOM];
        size_t count = 9;
        struct rudekpi_node found = {9, true, true};
        blank(out);
        if (rudekpi_registers(slot, no_names[at], &found) != RUDEKPI_BAD_ARGUMENT || !are(&found, &registers[0][5]))
            fail("registers of a bad name", at);
        if (rudekpi_neighbours(slot, no_names[at], out, ROOM, &count) != RUDEKPI_BAD_ARGUMENT || count)
            fail("neighbours of a bad name", at);
        expect_untouched(out, 0, at);
    }
}

static void ask_each(uint32_t rules) {
    struct rudekpi_slot slot = RUDEKPI_NONE;
    struct rudekpi_told told;
    if (rudekpi_session_new(rules, 6, 5, &slot) != RUDEKPI_DONE) fail("no session", rules);
    for (size_t at = 0; at < sizeof edges / sizeof *edges; at++)
        if (rudekpi_link(&slot, edges[at][0], edges[at][1], &told) != RUDEKPI_DONE) fail("an edge", at);
    for (size_t at = 0; at < sizeof pointers / sizeof *pointers; at++)
        if (rudekpi_point(&slot, pointers[at][0], pointers[at][1], &told) != RUDEKPI_DONE) fail("a pointer", at);
    if (rules == RUDEKPI_MANNE && (rudekpi_flag(&slot, 1, true, &told) || rudekpi_flag(&slot, 4, true, &told)))
        fail("a flag", rules);
    size_t written = rudekpi_session_length(&slot);
    ask_registers(&slot, rules);
    for (size_t at = 0; at < sizeof rows / sizeof *rows; at++) {
        ask_row(&slot, rules, at);
        if ((refuse_row(&slot, at) > 0) != (rows[at].kind != NEIGHBOURS)) fail("what takes memory", at);
        ask_row(&slot, rules, at);
    }
    give_bad_names(&slot);
    /* nothing changed: no entry was added */
    if (rudekpi_session_length(&slot) != written) fail("a question that leaves a trace", rules);
    rudekpi_session_free(&slot);
}

static void ask_nobody(void) {
    struct rudekpi_slot none = RUDEKPI_NONE;
    struct rudekpi_node found = {9, true, true};
    size_t ended = 9;
    give_bad_names(&none);
    for (size_t at = 0; at < sizeof rows / sizeof *rows; at++) {
        uint32_t out[2 * ROOM];
        size_t count = 9;
        blank(out);
        if (asked(&none, &rows[at], out, ROOM, &count) != RUDEKPI_NO_SESSION || count) fail("a slot of none", at);
        expect_untouched(out, 0, at);
    }
    if (rudekpi_registers(&none, 1, &found) != RUDEKPI_NO_SESSION || !are(&found, &registers[0][5]))
        fail("registers of no session", 0);
    if (rudekpi_session_renumber(&none, &ended) != RUDEKPI_NO_SESSION || ended || none.full)
        fail("no session goes on", 0);
}

/* 1 and 2 are linked, and 1 has proposed: one move is spent, and one is left. */
static const char begun[] = "matching hh 2\n1 link 1 2 = ok\n2 step 1 = 1:seduce>2\n",
                  ended_by[] = "matching2 hh 2\nbase 2 spent=1 nodes=2 edges=1\nnode 1 2 0\nnode 2 - 0\nedge 1 2\n",
                  begins[] = "matching2 hh 2\nbase 0 spent=1 nodes=2 edges=1\nnode 1 2 0\nnode 2 - 0\nedge 1 2\n",
                  goes_on[] = "1 step 2 = 2:marry>1\n2 status = nodes=2 edges=1 pairs=1 enabled=0 charge=0 spent=2\n";

static void begin(struct rudekpi_slot *slot) {
    struct rudekpi_told told;
    struct rudekpi_item first = {1, 0};
    if (rudekpi_session_new(RUDEKPI_HSU_HUANG, 2, 2, slot) || rudekpi_link(slot, 1, 2, &told) ||
        rudekpi_step(slot, &first, 1, &told))
        fail("no beginning", 0);
}

static void go_on(struct rudekpi_slot *slot) {
    struct rudekpi_told told;
    struct rudekpi_counts counts;
    struct rudekpi_item second = {2, 0};
    if (rudekpi_step(slot, &second, 1, &told) || told.entry != 1) fail("the first entry", told.entry);
    if (rudekpi_status(slot, &counts, &told) || told.entry != 2 || counts.spent != 2 || counts.charge)
        fail("the counts", 0);
}

static void expect_text(struct rudekpi_slot *slot, const char *const *parts, size_t count) {
    char text[1024], wanted[1024] = "";
    size_t length = rudekpi_session_read(slot, (uint8_t *)text, sizeof text);
    for (size_t at = 0; at < count; at++) strcat(wanted, parts[at]);
    if (length != strlen(wanted) || memcmp(text, wanted, length)) fail("a text", count);
}

static void expect_accepted(const char *const *parts, size_t count, uint32_t entries) {
    char text[1024] = "";
    struct rudekpi_verdict verdict;
    for (size_t at = 0; at < count; at++) strcat(text, parts[at]);
    rudekpi_audit((const uint8_t *)text, strlen(text), &verdict);
    if (verdict.kind != RUDEKPI_ACCEPTED || verdict.entries != entries) fail("a verdict", verdict.kind);
}

/* Both transcripts are accepted, the second from its base on; one text of both is not. */
static void renumber(void) {
    struct rudekpi_slot slot = RUDEKPI_NONE;
    const char *whole[] = {begun, ended_by, begins, goes_on};
    size_t ended = 0;
    begin(&slot);
    if (rudekpi_session_renumber(&slot, &ended) != RUDEKPI_DONE) fail("no new numbers", 0);
    if (ended != strlen(begun) + strlen(ended_by)) fail("where the first text ends", ended);
    go_on(&slot);
    expect_text(&slot, whole, 4);
    expect_accepted(whole, 2, 2);
    expect_accepted(whole + 2, 2, 2);
    /* a second time, and what was read is not counted */
    if (rudekpi_session_renumber(&slot, &ended) != RUDEKPI_DONE) fail("no new numbers again", 0);
    const char *again[] = {"matching2 hh 2\nbase 2 spent=2 nodes=2 edges=1\nnode 1 2 0\nnode 2 1 0\nedge 1 2\n",
                           "matching2 hh 2\nbase 0 spent=2 nodes=2 edges=1\nnode 1 2 0\nnode 2 1 0\nedge 1 2\n"};
    if (ended != strlen(again[0])) fail("where the second text ends", ended);
    expect_text(&slot, again, 2);
    rudekpi_session_free(&slot);
}

static void renumber_without_text(void) {
    struct rudekpi_slot slot = RUDEKPI_NONE;
    size_t ended = 9;
    begin(&slot);
    if (rudekpi_transcript(&slot, false) || rudekpi_session_renumber(&slot, &ended) || ended)
        fail("no text ends", ended);
    if (rudekpi_session_length(&slot)) fail("a text that is not kept", 0);
    go_on(&slot);
    rudekpi_session_free(&slot);
}

/* A full log takes entries again. */
static void fill_the_log(void) {
    struct rudekpi_slot slot = RUDEKPI_NONE;
    struct rudekpi_told told;
    size_t ended = 9;
    if (rudekpi_session_new(RUDEKPI_HSU_HUANG, 1, 1, &slot) || rudekpi_transcript(&slot, false)) fail("no session", 1);
    for (uint32_t entry = 1; entry <= 16777216; entry++)
        if (rudekpi_show(&slot, 1, &told) || told.entry != entry) fail("an entry", entry);
    if (rudekpi_show(&slot, 1, &told) != RUDEKPI_LOG_FULL) fail("a log without end", 0);
    if (rudekpi_session_renumber(&slot, &ended) || ended) fail("no new numbers of a full log", ended);
    if (rudekpi_show(&slot, 1, &told) || told.entry != 1) fail("the first entry after a full log", told.entry);
    rudekpi_session_free(&slot);
}

/* Refuses each allocation in turn: then the session is as it was. Returns how many were refused. */
static unsigned long renumber_without_memory(void) {
    for (unsigned long number = 1;; number++) {
        struct rudekpi_slot slot = RUDEKPI_NONE;
        struct rudekpi_told told;
        const char *unchanged[] = {begun, "3 show 1 = 2\n"}, *whole[] = {begun, ended_by, begins};
        size_t ended = 9;
        begin(&slot);
        allocations = 0, was_refused = false, refused_number = number;
        uint32_t status = rudekpi_session_renumber(&slot, &ended);
        refused_number = 0;
        if (status != (was_refused ? RUDEKPI_NO_MEMORY : RUDEKPI_DONE)) fail("a status", number);
        if (was_refused) {
            if (ended || rudekpi_show(&slot, 1, &told) || told.entry != 3) fail("a change without memory", number);
            expect_text(&slot, unchanged, 2);
        } else
            expect_text(&slot, whole, 3);
        rudekpi_session_free(&slot);
        if (!was_refused) return number - 1;
    }
}

int main(void) {
    ask_each(RUDEKPI_HSU_HUANG);
    ask_each(RUDEKPI_MANNE);
    ask_nobody();
    renumber();
    renumber_without_text();
    fill_the_log();
    if (!renumber_without_memory()) fail("no memory was refused", 0);
    printf("views: %zu\n", sizeof rows / sizeof *rows);
    return 0;
}
