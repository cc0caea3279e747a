/* Times an entry `show 1` in C: bench/library compiles it and runs it. Prints a line for each way: its
 * name, and nanoseconds an entry.
 * usage: library_loop ENTRIES */
#define _POSIX_C_SOURCE 199309L
#include <stdio.h>
#include <stdlib.h>
#include <time.h>
#include "rudekpi.h"

static struct rudekpi_slot slot = RUDEKPI_NONE;

static double now(void) {
    struct timespec at;
    clock_gettime(CLOCK_MONOTONIC, &at);
    return (double)at.tv_sec * 1e9 + (double)at.tv_nsec;
}

static void begin(void) {
    if (rudekpi_session_new(RUDEKPI_HSU_HUANG, 2, 2, &slot) != RUDEKPI_DONE) exit(1);
}

/* A line a call, and its text is read at once. */
static void by_lines(long entries) {
    uint8_t text[64];
    uint64_t number;
    for (long at = 0; at < entries; at++) {
        if (rudekpi_session_feed(&slot, (const uint8_t *)"show 1", 6, &number) != RUDEKPI_DONE) exit(1);
        if (rudekpi_session_read(&slot, text, sizeof text) > sizeof text) exit(1);
    }
}

/* A number a call; the text stays unread, or is not kept. */
static void by_numbers(long entries) {
    struct rudekpi_told told;
    for (long at = 0; at < entries; at++)
        if (rudekpi_show(&slot, 1, &told) != RUDEKPI_DONE || told.target) exit(1);
}

static void timed(const char *name, void (*way)(long), bool keeps, long entries) {
    double began;
    begin();
    if (!keeps && rudekpi_transcript(&slot, false) != RUDEKPI_DONE) exit(1);
    began = now();
    way(entries);
    printf("%s %.1f\n", name, (now() - began) / (double)entries);
    rudekpi_session_free(&slot);
}

int main(int count, char **words) {
    long entries = count > 1 ? atol(words[1]) : 1000000;
    timed("lines", by_lines, true, entries);
    timed("numbers", by_numbers, true, entries);
    timed("untold", by_numbers, false, entries);
    return 0;
}
