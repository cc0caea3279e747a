/* Gives sessions of the library for C commands in numbers, and refuses their N-th allocation, for N = 1,
 * 2, .. until none is refused. A call that lacked memory is made again. Without calls for turns the text
 * and the answers must be those with memory; otherwise the text must be that of a run. First come calls
 * with bad arguments, which must change nothing. Link with -Wl,--wrap=malloc,--wrap=realloc. */
#include <stdio.h>
#include <stdlib.h>
#include <string.h>
#include "rudekpi.h"

static unsigned long allocations, refused_number;
static bool was_refused;

void *__real_malloc(size_t size);
void *__real_realloc(void *old, size_t size);

static bool is_refused(void) {
    if (!refused_number || ++allocations != refused_number) return false;
    return was_refused = true;
}

void *__wrap_malloc(size_t size) {
    return is_refused() ? NULL : __real_malloc(size);
}
void *__wrap_realloc(void *old, size_t size) {
    return is_refused() ? NULL : __real_realloc(old, size);
}

enum kind {
    LINK,
    UNLINK,
    JOIN,
    LEAVE,
    POINT,
    FLAG,
    STEP,
    SHOW,
    ENABLED,
    PAIRS,
    STATUS,
    DRIVE,
    SCRAMBLE,
    CHECKPOINT,
    END
};

struct call {
    enum kind kind;
    uint32_t a, b;
    uint32_t wanted;
};

static const struct rudekpi_item chosen[] = {{1, 0}, {3, 0}, {2, 0}, {4, 0}, {1, 4}, {3, 0}};

static const struct call events[] = {
    {LINK, 1, 2, 0},       {LINK, 2, 3, 0},    {LINK, 3, 4, 0},  {LINK, 4, 1, 0},       {LINK, 4, 4, 6},
    {ENABLED, 0, 0, 0},    {STEP, 0, 2, 0},    {JOIN, 5, 0, 0},  {LINK, 5, 1, 0},       {STATUS, 0, 0, 0},
    {CHECKPOINT, 0, 0, 0}, {STEP, 2, 2, 6},    {STEP, 3, 1, 0},  {POINT, 5, 1, 0},      {POINT, 5, 0, 0},
    {FLAG, 5, 1, 0},       {ENABLED, 0, 0, 0}, {PAIRS, 0, 0, 0}, {STEP, 0, 0, 6},       {LEAVE, 2, 0, 0},
    {UNLINK, 1, 5, 0},     {SHOW, 1, 0, 0},    {STEP, 4, 2, 6},  {CHECKPOINT, 0, 0, 0}, {STATUS, 0, 0, 0},
    {END, 0, 0, 0}};
static const struct call turns[] = {{LINK, 1, 2, 0},     {LINK, 2, 3, 0},   {LINK, 3, 4, 0},  {DRIVE, 7, 20, 0},
                                    {SCRAMBLE, 3, 5, 0}, {DRIVE, 1, 20, 0}, {PAIRS, 0, 0, 0}, {END, 0, 0, 0}};

struct text {
    uint8_t bytes[1 << 14];
    size_t length;
    struct rudekpi_told told[32];
    struct rudekpi_row rows[32][8];
};

static void fail(const char *what) {
    printf("allocation %lu: %s\n", refused_number, what);
    exit(1);
}

static uint32_t made(struct rudekpi_slot *slot, const struct call *call, struct rudekpi_told *told) {
    struct rudekpi_counts counts;
    uint32_t status;
    switch (call->kind) {
    case LINK:
        return rudekpi_link(slot, call->a, call->b, told);
    case UNLINK:
        return rudekpi_unlink(slot, call->a, call->b, told);
    case JOIN:
        return rudekpi_join(slot, call->a, told);
    case LEAVE:
        return rudekpi_leave(slot, call->a, told);
    case POINT:
        return rudekpi_point(slot, call->a, call->b, told);
    case FLAG:
        return rudekpi_flag(slot, call->a, call->b, told);
    case STEP:
        return rudekpi_step(slot, chosen + call->a, call->b, told);
    case SHOW:
        return rudekpi_show(slot, call->a, told);
    case ENABLED:
        return rudekpi_enabled(slot, told);
    case PAIRS:
        return rudekpi_pairs(slot, told);
    case DRIVE:
        return rudekpi_drive(slot, call->a, call->b, told);
    case SCRAMBLE:
        return rudekpi_scramble(slot, call->a, call->b, told);
    case CHECKPOINT:
        return rudekpi_checkpoint(slot, told);
    default:
        status = rudekpi_status(slot, &counts, told);
        if ((status == RUDEKPI_DONE) != (counts.nodes > 0)) fail("counts of no answer");
        return status;
    }
}

/* One session, begun again and each call made again if memory is refused. */
static void play(const struct call *calls, struct text *text) {
    struct rudekpi_slot slot = RUDEKPI_NONE;
    uint32_t status = rudekpi_session_new(RUDEKPI_MANNE, 6, 4, &slot);
    memset(text, 0, sizeof *text);
    if (status == RUDEKPI_NO_MEMORY && was_refused) status = rudekpi_session_new(RUDEKPI_MANNE, 6, 4, &slot);
    if (status != RUDEKPI_DONE) fail("no session");
    for (size_t at = 0; calls[at].kind != END; at++) {
        struct rudekpi_told told, *kept = &text->told[at];
        status = made(&slot, &calls[at], &told);
        if (status == RUDEKPI_NO_MEMORY && was_refused) {
            bool turns = calls[at].kind == DRIVE || calls[at].kind == SCRAMBLE || calls[at].kind == CHECKPOINT;
            if ((told.entry && !turns) || told.refusal || told.rows || rudekpi_rows(&slot, text->rows[at], 8))
                fail("an answer of no memory");
            status = made(&slot, &calls[at], &told);
        }
        if (status != calls[at].wanted || !told.refusal != (status == RUDEKPI_DONE)) fail("a status");
        if (rudekpi_rows(&slot, text->rows[at], 8) != told.rows) fail("rows");
        kept->entry = told.entry, kept->refusal = told.refusal, kept->target = told.target, kept->rows = told.rows;
    }
    text->length = rudekpi_session_read(&slot, text->bytes, sizeof text->bytes);
    rudekpi_session_free(&slot);
}

static unsigned long refuse_each(const struct call *calls, bool same) {
    static struct text whole, text;
    struct rudekpi_verdict verdict;
    refused_number = 0;
    play(calls, &whole);
    for (refused_number = 1;; refused_number++) {
        allocations = 0;
        was_refused = false;
        play(calls, &text);
        if (same && memcmp(&text, &whole, sizeof whole)) fail("another text, or other answers");
        rudekpi_audit(text.bytes, text.length, &verdict);
        if (verdict.kind != RUDEKPI_ACCEPTED && !(verdict.kind == RUDEKPI_UNJUDGED && was_refused))
            fail("another verdict");
        if (!was_refused) return refused_number - 1;
    }
}

static void is_bad(uint32_t status, uint32_t wanted, const struct rudekpi_told *told) {
    if (status != wanted || told->entry || told->refusal || told->target || told->rows) fail("a bad argument");
}

/* Arguments out of range, and slots without a session, change nothing. */
static void give_bad_arguments(struct rudekpi_slot *slot, uint32_t wanted) {
    static const uint32_t none[] = {0, 65536, UINT32_MAX};
    static struct rudekpi_item many[65536];
    struct rudekpi_told told = {1, 1, 1, 1};
    uint32_t partner = 1;
    for (size_t at = 0; at < 3; at++) {
        uint32_t v = none[at];
        struct rudekpi_item items[] = {{1, 0}, {v, 0}}, wishes[] = {{1, 0}, {2, v ? v : 65536}};
        is_bad(rudekpi_link(slot, 1, v, &told), 5, &told);
        is_bad(rudekpi_link(slot, v, 1, &told), 5, &told);
        is_bad(rudekpi_unlink(slot, v, 1, &told), 5, &told);
        is_bad(rudekpi_join(slot, v, &told), 5, &told);
        is_bad(rudekpi_leave(slot, v, &told), 5, &told);
        is_bad(rudekpi_point(slot, v, 0, &told), 5, &told);
        is_bad(rudekpi_point(slot, 1, v ? v : 65536, &told), 5, &told);
        is_bad(rudekpi_flag(slot, v, true, &told), 5, &told);
        is_bad(rudekpi_show(slot, v, &told), 5, &told);
        is_bad(rudekpi_step(slot, items, 2, &told), 5, &told);
        is_bad(rudekpi_step(slot, wishes, 2, &told), 5, &told);
        if (rudekpi_partner(slot, v, &partner) != 5 || partner) fail("a partner of nobody");
    }
    for (size_t at = 0; at < 65536; at++) many[at].node = 1;
    is_bad(rudekpi_step(slot, many, 65536, &told), 5, &told);
    is_bad(rudekpi_drive(slot, 1, 1000001, &told), 5, &told);
    is_bad(rudekpi_scramble(slot, 1, 1000001, &told), 5, &told);
    if (!wanted) return;
    for (struct call call = {LINK, 1, 2, 0}; call.kind != END; call.kind++) {
        told.entry = 1;
        is_bad(made(slot, &call, &told), wanted, &told);
    }
    if (rudekpi_partner(slot, 1, &partner) != wanted || partner || rudekpi_transcript(slot, true) != wanted)
        fail("a look at no session");
}

/* A session that is given bad arguments between good ones. */
static void try_arguments(void) {
    struct rudekpi_slot slot = RUDEKPI_NONE, none = RUDEKPI_NONE;
    struct rudekpi_row rows[2] = {{7, 7, 7}, {7, 7, 7}};
    struct rudekpi_told told;
    uint8_t text[256];
    static const char wanted[] =
        "matching hh 3 2\n1 link 1 2 = ok\n2 enabled = 1:seduce 2:seduce\n3 show 4 = refused 1 unknown-node\n";
    give_bad_arguments(&none, RUDEKPI_NO_SESSION);
    if (none.full || rudekpi_rows(&none, rows, 2) || rows[0].node != 7) fail("a slot of none");
    if (rudekpi_session_new(RUDEKPI_HSU_HUANG, 3, 4, &slot) != RUDEKPI_BAD_ARGUMENT || slot.full)
        fail("more nodes than names");
    if (rudekpi_session_new(RUDEKPI_HSU_HUANG, 3, 2, &slot) != RUDEKPI_DONE) fail("no session");
    if (rudekpi_link(&slot, 1, 2, &told) != RUDEKPI_DONE || told.entry != 1) fail("a link");
    if (rudekpi_enabled(&slot, &told) != RUDEKPI_DONE || told.rows != 2) fail("who is enabled");
    give_bad_arguments(&slot, 0);
    if (rudekpi_rows(&slot, rows, 0) != 2 || rudekpi_rows(&slot, rows, 1) != 2 || rows[0].node != 7)
        fail("rows with no room");
    if (rudekpi_rows(&slot, rows, 2) != 2 || rows[1].node != 2 || rows[1].rule != RUDEKPI_SEDUCE || rows[1].other)
        fail("rows");
    if (rudekpi_show(&slot, 4, &told) != RUDEKPI_REFUSED || told.refusal != RUDEKPI_UNKNOWN_NODE || told.entry != 3)
        fail("a name of nobody");
    if (rudekpi_session_read(&slot, text, 8) != sizeof wanted - 1) fail("the length of a text");
    if (rudekpi_session_read(&slot, text, sizeof text) != sizeof wanted - 1 || memcmp(text, wanted, sizeof wanted - 1))
        fail("a text");
    rudekpi_session_free(&slot);
}

int main(void) {
    try_arguments();
    unsigned long of_events = refuse_each(events, true), of_turns = refuse_each(turns, false);
    printf("refused: %lu and %lu\n", of_events, of_turns);
    return of_events && of_turns ? 0 : 1;
}
