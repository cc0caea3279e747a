/* Four threads share one network, protected by a mutex. Each repeatedly links and unlinks its own pair of
 * nodes, and lets the network settle. The log has the order of the lock; its transcript is judged in the end.
 * Build: cc -pthread threads.c $(pkg-config --cflags --libs rudekpi.pc) */
#include <pthread.h>
#include <stdio.h>
#include <stdlib.h>
#include "rudekpi.h"

enum { THREADS = 4, TURNS = 1000 };

static struct rudekpi_slot net = RUDEKPI_NONE;
static pthread_mutex_t lock = PTHREAD_MUTEX_INITIALIZER;

/* An edit and the moves after it, under one lock, so no other thread's entries come between. Returns whether
 * all was carried out. */
static bool edit(uint32_t a, uint32_t b, bool comes, uint64_t seed) {
    struct rudekpi_told told;
    pthread_mutex_lock(&lock);
    uint32_t edited = comes ? rudekpi_link(&net, a, b, &told) : rudekpi_unlink(&net, a, b, &told);
    uint32_t driven = rudekpi_drive(&net, seed, 10, &told);
    pthread_mutex_unlock(&lock);
    return edited == RUDEKPI_DONE && driven == RUDEKPI_DONE;
}

static void *edits(void *given) {
    uint32_t a = *(const uint32_t *)given;
    for (uint64_t turn = 0; turn < TURNS; turn++)
        if (!edit(a, a + 1, turn % 2 == 0, turn)) return NULL;
    return given;
}

/* Returns whether the transcript is that of a run of the rules with all edits, and prints its counts. */
static bool is_right(void) {
    struct rudekpi_verdict verdict;
    size_t length = rudekpi_session_length(&net);
    uint8_t *text = malloc(length + 1);
    if (!text) return false;
    rudekpi_session_read(&net, text, length);
    rudekpi_audit(text, length, &verdict);
    free(text);
    printf("audit: %s: %u epochs\n", rudekpi_verdict_text(verdict.kind), verdict.epochs);
    return verdict.kind == RUDEKPI_ACCEPTED && verdict.epochs == THREADS * TURNS + 1;
}

int main(void) {
    pthread_t threads[THREADS];
    uint32_t first[THREADS];
    bool done = rudekpi_session_new(RUDEKPI_MANNE, 2 * THREADS, 2 * THREADS, &net) == RUDEKPI_DONE;
    int started = 0;
    while (done && started < THREADS) {
        first[started] = (uint32_t)(2 * started + 1);
        if (pthread_create(&threads[started], NULL, edits, &first[started])) break;
        started++;
    }
    for (int at = 0; at < started; at++) {
        void *ended = NULL;
        done = pthread_join(threads[at], &ended) == 0 && ended && done;
    }
    done = done && started == THREADS && is_right();
    rudekpi_session_free(&net);
    return done ? 0 : 1;
}
