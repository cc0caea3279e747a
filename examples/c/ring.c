/* A ring of twelve nodes settles, is broken by a fault and a leaving node, and mends itself. The transcript
 * is printed as it comes, and judged in the end. Build: cc ring.c $(pkg-config --cflags --libs rudekpi.pc) */
#include <stdio.h>
#include <stdlib.h>
#include <string.h>
#include "rudekpi.h"

static struct rudekpi_slot ring = RUDEKPI_NONE;
static uint8_t transcript[1 << 16];
static size_t length;

/* Gives the session a line, and ends the program if it is not carried out. */
static void tell(const char *line) {
    uint64_t number = 0;
    uint32_t status = rudekpi_session_feed(&ring, (const uint8_t *)line, strlen(line), &number);
    if (status != RUDEKPI_DONE) {
        fprintf(stderr, "line %llu: status %u\n", (unsigned long long)number, status);
        exit(1);
    }
}

/* Appends the new text to the transcript, and prints it. */
static void take(void) {
    size_t come = rudekpi_session_read(&ring, transcript + length, sizeof transcript - length);
    if (come > sizeof transcript - length) exit(1);
    fwrite(transcript + length, 1, come, stdout);
    length += come;
}

int main(void) {
    struct rudekpi_verdict verdict;
    char line[32];
    if (rudekpi_session_new(RUDEKPI_MANNE, 12, 12, &ring) != RUDEKPI_DONE) return 1;
    for (int v = 1; v <= 12; v++) {
        snprintf(line, sizeof line, "link %d %d", v, v % 12 + 1);
        tell(line);
    }
    tell("drive 7 100");
    tell("matching");
    take();
    tell("point 1 12");
    tell("leave 4");
    tell("drive 8 100");
    tell("matching");
    tell("status");
    take();
    rudekpi_session_free(&ring);
    rudekpi_audit(transcript, length, &verdict);
    printf("audit: kind %u, %u entries, %u epochs, %llu moves\n", verdict.kind, verdict.entries, verdict.epochs,
           (unsigned long long)verdict.moves);
    return verdict.kind == RUDEKPI_ACCEPTED ? 0 : 1;
}
