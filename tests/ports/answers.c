/* Plays scripts and judges transcripts, one after another, so that one emulated process serves many. Each
 * question on standard input is a line followed by bytes: `play RULES NODES PRESENT SIZE` and a script,
 * `resume SIZE SIZE` and a transcript and a script, or `audit SIZE` and a transcript. Each answer on standard output is a line with its size, followed by its
 * bytes: the session's transcript, up to the first line that is not carried out, or the verdict's numbers.
 * Build: cc answers.c librudekpi.a */
#include <stdio.h>
#include <stdlib.h>
#include <string.h>
#include "rudekpi.h"

static uint8_t *taken(size_t size) {
    uint8_t *bytes = malloc(size + 1);
    if (!bytes || fread(bytes, 1, size, stdin) != size) exit(2);
    return bytes;
}

static void answer(const uint8_t *bytes, size_t size) {
    printf("%zu\n", size);
    fwrite(bytes, 1, size, stdout);
}

/* Feeds a script to a session, which is ended then. */
static void play_on(struct rudekpi_slot *slot, size_t size) {
    uint8_t *script = taken(size), *line = script, *end = script + size;
    uint64_t number;
    while (line < end) {
        uint8_t *next = memchr(line, '\n', (size_t)(end - line));
        if (!next) next = end;
        if (rudekpi_session_feed(slot, line, (size_t)(next - line), &number) != RUDEKPI_DONE) break;
        line = next + 1;
    }
    size_t length = rudekpi_session_length(slot);
    uint8_t *text = malloc(length + 1);
    if (!text || rudekpi_session_read(slot, text, length) != length) exit(4);
    answer(text, length);
    rudekpi_session_free(slot);
    free(text);
    free(script);
}

static void play(uint32_t rules, uint32_t nodes, uint32_t present, size_t size) {
    struct rudekpi_slot slot = RUDEKPI_NONE;
    if (rudekpi_session_new(rules, nodes, present, &slot) != RUDEKPI_DONE) exit(3);
    play_on(&slot, size);
}

static void resume(size_t length, size_t size) {
    struct rudekpi_slot slot = RUDEKPI_NONE;
    struct rudekpi_verdict verdict;
    uint8_t *transcript = taken(length);
    if (rudekpi_session_resume(&slot, transcript, length, &verdict) != RUDEKPI_DONE) exit(3);
    free(transcript);
    play_on(&slot, size);
}

static void audit(size_t size) {
    uint8_t *bytes = taken(size);
    struct rudekpi_verdict it;
    char text[128];
    rudekpi_audit(bytes, size, &it);
    int length = snprintf(text, sizeof text, "%u %u %u %llu %llu", it.kind, it.entries, it.epochs,
                          (unsigned long long)it.moves, (unsigned long long)it.line);
    answer((const uint8_t *)text, (size_t)length);
    free(bytes);
}

int main(void) {
    char line[128];
    while (fgets(line, sizeof line, stdin)) {
        unsigned rules, nodes, present;
        size_t size, length;
        if (sscanf(line, "play %u %u %u %zu", &rules, &nodes, &present, &size) == 4) {
            play(rules, nodes, present, size);
        } else if (sscanf(line, "resume %zu %zu", &length, &size) == 2) {
            resume(length, size);
        } else if (sscanf(line, "audit %zu", &size) == 1) {
            audit(size);
        } else {
            return 1;
        }
    }
    return 0;
}
