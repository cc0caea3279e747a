/* A preloaded library that kills its process inside a call. KILL_KIND is `entry` (a write to a file `run-..`),
 * `base` (a write to a file `.run-..`) or `rename`; KILL_CALL is which of these calls it is, from 1. A write
 * takes KILL_PART thousandths of its bytes before the process is killed; a rename is done before if KILL_PART
 * is odd. Before it kills, it makes the file KILL_TOLD. */
#define _GNU_SOURCE
#include <dlfcn.h>
#include <fcntl.h>
#include <signal.h>
#include <stdbool.h>
#include <stdio.h>
#include <stdlib.h>
#include <string.h>
#include <unistd.h>

typedef ssize_t (*writing)(int, const void *, size_t);
typedef int (*renaming)(const char *, const char *);

static unsigned long calls;

static unsigned long number(const char *name) {
    const char *text = getenv(name);
    return text ? strtoul(text, NULL, 10) : 0;
}

/* Whether this call, of this kind, is the one to be killed in. */
static bool is_last(const char *kind) {
    const char *wanted = getenv("KILL_KIND");
    return wanted && !strcmp(wanted, kind) && ++calls == number("KILL_CALL");
}

static void die(void) {
    const char *told = getenv("KILL_TOLD");
    if (told) close(open(told, O_CREAT | O_WRONLY, 0600));
    kill(getpid(), SIGKILL);
    pause();
}

/* The kind of a write, by the name of its file. */
static const char *kind_of(int file) {
    char link[64], path[4096];
    snprintf(link, sizeof link, "/proc/self/fd/%d", file);
    ssize_t length = readlink(link, path, sizeof path - 1);
    if (length <= 0) return "";
    path[length] = '\0';
    const char *name = strrchr(path, '/');
    if (!name) return "";
    return !strncmp(name, "/run-", 5) ? "entry" : !strncmp(name, "/.run-", 6) ? "base" : "";
}

ssize_t write(int file, const void *bytes, size_t size) {
    writing real;
    *(void **)&real = dlsym(RTLD_NEXT, "write");
    const char *kind = getenv("KILL_KIND") ? kind_of(file) : "";
    if (*kind && is_last(kind)) {
        real(file, bytes, size * number("KILL_PART") / 1000);
        die();
    }
    return real(file, bytes, size);
}

/* A killed process loses nothing that it has written, so nothing here waits for the disk. */
int fsync(int file) {
    (void)file;
    return 0;
}

int rename(const char *old, const char *new) {
    renaming real;
    *(void **)&real = dlsym(RTLD_NEXT, "rename");
    if (is_last("rename")) {
        if (number("KILL_PART") % 2) real(old, new);
        die();
    }
    return real(old, new);
}
