/* Feeds a transcript to audits of the library for C in pieces, and refuses their N-th allocation, for N =
 * 1, 2, .. until none is refused. An audit that lacked memory judges nothing and reports that at each
 * call; any other judges as it does with memory. First come audits that are freed after each byte, and
 * slots without an audit. Link with -Wl,--wrap=malloc,--wrap=realloc. */
#include <stdio.h>
#include <stdlib.h>
#include <string.h>
#include "rudekpi.h"

static unsigned long allocations, refused_number;
static bool was_refused;

void *__real_malloc(size_t size);
void *__real_realloc(void *old, size_t size);

static bool is_refused(void) {
    if (!refused_number || ++allocations != refused_number) return false;
    return was_refused = true;
}

void *__wrap_malloc(size_t size) {
    return is_refused() ? NULL : __real_malloc(size);
}
void *__wrap_realloc(void *old, size_t size) {
    return is_refused() ? NULL : __real_realloc(old, size);
}

/* The run of a pair, with a base among its entries; and the beginning of one with a wrong reply at line 3. */
static const char run[] =
    "matching manne 3 2\n1 link 1 2 = ok\n2 enabled = 1:seduce\n3 step 1 = 1:seduce>2\nmatching2 manne 3\n"
    "base 3 spent=1 nodes=2 edges=1\nnode 1 2 0\nnode 2 - 0\nedge 1 2\n4 enabled = 2:marry\n5 step 2 = 2:marry>1\n6 "
    "matching = 1-2\n";
static const char damaged[] = "matching manne 3 2\n1 link 1 2 = ok\n2 enabled = 2:seduce\n3 step 1 = 1:seduce>2\n";

/* A text, how it is cut, the verdict, and the status after its last piece. */
struct trial {
    const char *text;
    size_t length, piece;
    struct rudekpi_verdict wanted;
    uint32_t told;
};

static const struct trial trials[] = {
    {run, sizeof run - 1, 1, {RUDEKPI_ACCEPTED, 6, 2, 2, 0}, RUDEKPI_DONE},
    {run, sizeof run - 1, 7, {RUDEKPI_ACCEPTED, 6, 2, 2, 0}, RUDEKPI_DONE},
    {run, sizeof run - 1, 65536, {RUDEKPI_ACCEPTED, 6, 2, 2, 0}, RUDEKPI_DONE},
    {run, sizeof run - 2, 5, {RUDEKPI_NOT_A_LINE, 0, 0, 0, 12}, RUDEKPI_DONE},
    {run, 130, 3, {RUDEKPI_BAD_BASE, 0, 0, 0, 7}, RUDEKPI_DONE},
    {run, 0, 1, {RUDEKPI_BAD_HEADER, 0, 0, 0, 1}, RUDEKPI_DONE},
    {damaged, sizeof damaged - 1, 1, {RUDEKPI_NOT_THE_REPLY, 0, 0, 0, 3}, RUDEKPI_DAMAGED},
    {damaged, sizeof damaged - 1, 40, {RUDEKPI_NOT_THE_REPLY, 0, 0, 0, 3}, RUDEKPI_DAMAGED},
};

static void fail(const char *what, size_t at) {
    printf("allocation %lu: %s: %zu\n", refused_number, what, at);
    exit(1);
}

static void is_verdict(const struct rudekpi_verdict *found, const struct rudekpi_verdict *wanted, size_t at) {
    if (found->kind != wanted->kind || found->entries != wanted->entries || found->epochs != wanted->epochs ||
        found->moves != wanted->moves || found->line != wanted->line) {
        printf("kind %u at line %llu\n", found->kind, (unsigned long long)found->line);
        fail("a verdict", at);
    }
}

/* Begins an audit, again if memory is refused. */
static void begin(struct rudekpi_audit_slot *slot) {
    uint32_t status = rudekpi_audit_new(slot);
    if (status == RUDEKPI_NO_MEMORY && was_refused && !slot->full) status = rudekpi_audit_new(slot);
    if (status != RUDEKPI_DONE || !slot->full) fail("no audit", status);
}

/* Feeds a text in pieces and returns the status after the last one. Each status comes again if asked
 * again. */
static uint32_t feed(struct rudekpi_audit_slot *slot, const char *text, size_t length, size_t piece) {
    uint32_t told = RUDEKPI_DONE;
    for (size_t at = 0; at < length; at += piece) {
        size_t left = length - at;
        uint32_t status = rudekpi_audit_feed(slot, (const uint8_t *)text + at, left < piece ? left : piece);
        if (told != RUDEKPI_DONE && status != told) fail("a status that is not told again", at);
        told = status;
    }
    return told;
}

static const struct rudekpi_verdict unjudged = {RUDEKPI_UNJUDGED, 0, 0, 0, 0};

static void judge(const struct trial *trial, size_t at) {
    struct rudekpi_audit_slot slot = RUDEKPI_NONE;
    struct rudekpi_verdict verdict = {9, 9, 9, 9, 9};
    begin(&slot);
    uint32_t told = feed(&slot, trial->text, trial->length, trial->piece);
    if (told != trial->told && !(told == RUDEKPI_NO_MEMORY && was_refused)) fail("a status", told);
    if (rudekpi_audit_finish(&slot, &verdict) != RUDEKPI_DONE || slot.full) fail("no verdict", at);
    is_verdict(&verdict,
               (verdict.kind == RUDEKPI_UNJUDGED && was_refused) || told == RUDEKPI_NO_MEMORY ? &unjudged
                                                                                              : &trial->wanted,
               at);
}

static unsigned long refuse_each(const struct trial *trial, size_t at) {
    for (refused_number = 1;; refused_number++) {
        allocations = 0;
        was_refused = false;
        judge(trial, at);
        if (!was_refused) return refused_number - 1;
    }
}

/* Audits that are freed, or begun anew, after each byte. */
static void free_each(void) {
    struct rudekpi_audit_slot slot = RUDEKPI_NONE;
    for (size_t length = 0; length < sizeof run; length++) {
        begin(&slot);
        if (feed(&slot, run, length, 1) != RUDEKPI_DONE) fail("a damage", length);
        if (length % 2) rudekpi_audit_free(&slot);
        if (slot.full != !(length % 2)) fail("a slot", length);
    }
    rudekpi_audit_free(&slot);
    rudekpi_audit_free(&slot);
}

static void ask_none(void) {
    struct rudekpi_audit_slot slot = RUDEKPI_NONE;
    struct rudekpi_verdict verdict = {9, 9, 9, 9, 9};
    if (rudekpi_audit_feed(&slot, (const uint8_t *)run, 1) != RUDEKPI_NO_SESSION || slot.full)
        fail("a slot of none", 0);
    if (rudekpi_audit_finish(&slot, &verdict) != RUDEKPI_NO_SESSION) fail("a verdict of none", 0);
    is_verdict(&verdict, &unjudged, 0);
}

int main(void) {
    unsigned long refused = 0;
    ask_none();
    free_each();
    for (size_t at = 0; at < sizeof trials / sizeof *trials; at++) {
        refused_number = 0;
        judge(&trials[at], at);
        refused += refuse_each(&trials[at], at);
    }
    printf("refused: %lu\n", refused);
    return refused ? 0 : 1;
}
