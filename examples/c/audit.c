/* Judges a transcript as it comes on standard input, and prints what `console audit` prints. It holds only an
 * unfinished line or base. Build: cc audit.c $(pkg-config --cflags --libs rudekpi.pc) */
#include <stdio.h>
#include "rudekpi.h"

static const char *const damages[] = {
    "", "bad header", "not a transcript line", "out of order", "not the machine's reply", "bad base"};

int main(void) {
    static uint8_t piece[1 << 16];
    struct rudekpi_audit_slot audit = RUDEKPI_NONE;
    struct rudekpi_verdict verdict;
    uint32_t status = rudekpi_audit_new(&audit);
    size_t length;
    /* what follows cannot undo a damage, so reading ends there */
    while (status == RUDEKPI_DONE && (length = fread(piece, 1, sizeof piece, stdin)) > 0)
        status = rudekpi_audit_feed(&audit, piece, length);
    if (ferror(stdin)) {
        rudekpi_audit_free(&audit);
        return 3;
    }
    rudekpi_audit_finish(&audit, &verdict);
    if (verdict.kind == RUDEKPI_UNJUDGED) return 4;
    if (verdict.kind != RUDEKPI_ACCEPTED) {
        printf("line %llu: %s\n", (unsigned long long)verdict.line, damages[verdict.kind]);
        return 1;
    }
    printf("accepted: %u entries, %u epochs, %llu moves\n", verdict.entries, verdict.epochs,
           (unsigned long long)verdict.moves);
    return 0;
}
