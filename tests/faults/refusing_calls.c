/* Preloaded before the C library: lets calls of the program fail as the environment says. Writes a byte
 * for each to the file FAULT_TOLD: 'm' memory refused, 't' a thread refused, 'r' a read failed, 'w' a
 * write failed, 'W' a write to the same stream after that; in the end 'e', the program's end, or 'l', its
 * end while another thread is left. Calls before the program's main are not counted.
 *
 * REFUSE_MEMORY=N   the N-th malloc, calloc, realloc, reallocarray, aligned_alloc, memalign or
 *                   posix_memalign returns null
 * REFUSE_THREAD=N   the N-th pthread_create returns EAGAIN
 * NO_WORDS=1        the program is given no words, not even its name, as kernels before 5.18 allow
 * READ_STOPS=K      reads give K bytes, and the next one fails with the error number READ_ERROR
 * WRITE_STOPS=K     writes to standard output take K bytes, and the next one fails with WRITE_ERROR, or
 *                   takes none if that is 0 */
#define _GNU_SOURCE
#include <dirent.h>
#include <dlfcn.h>
#include <errno.h>
#include <fcntl.h>
#include <pthread.h>
#include <stdatomic.h>
#include <stdlib.h>
#include <string.h>
#include <sys/syscall.h>
#include <unistd.h>

static long refused_memory, refused_thread, read_stops = -1, write_stops = -1;
static int read_error, write_error, told = -1;
static atomic_long allocations, threads, was_read, was_written;
static atomic_int stopped;

static long number(const char *name, long otherwise) {
    const char *text = getenv(name);
    return text ? atol(text) : otherwise;
}

static int (*real_main)(int, char **, char **);

static void tell(char what) {
    if (told >= 0) syscall(SYS_write, told, &what, 1);
}

/* Whether there are other threads; a joined one may be listed for a moment still. */
static int is_left(void) {
    for (int look = 0; look < 100; look++) {
        int tasks = 0;
        DIR *list = opendir("/proc/self/task");
        if (!list) return 1;
        for (struct dirent *it; (it = readdir(list));) tasks += it->d_name[0] != '.';
        closedir(list);
        if (tasks == 1) return 0;
        usleep(1000);
    }
    return 1;
}

static void tell_end(void) {
    refused_memory = 0;
    tell(is_left() ? 'l' : 'e');
}

static int counted_main(int count, char **words, char **environment) {
    const char *path = getenv("FAULT_TOLD");
    if (path) told = open(path, O_WRONLY | O_APPEND | O_CREAT | O_CLOEXEC, 0600);
    read_error = (int)number("READ_ERROR", EIO);
    write_error = (int)number("WRITE_ERROR", EIO);
    read_stops = number("READ_STOPS", -1);
    write_stops = number("WRITE_STOPS", -1);
    refused_thread = number("REFUSE_THREAD", 0);
    refused_memory = number("REFUSE_MEMORY", 0);
    int status = real_main(count, words, environment);
    tell_end();
    return status;
}

void _exit(int status) {
    tell_end();
    syscall(SYS_exit_group, status);
    __builtin_unreachable();
}

/* Finds the function of the C library with this name, and stores it in a pointer to a function. */
static void find(const char *name, void *pointer) {
    void *found = dlsym(RTLD_NEXT, name);
    memcpy(pointer, &found, sizeof found);
}

int __libc_start_main(int (*main)(int, char **, char **), int count, char **words, void (*init)(void),
                      void (*fini)(void), void (*loader_fini)(void), void *stack_end) {
    int (*start)(int (*)(int, char **, char **), int, char **, void (*)(void), void (*)(void), void (*)(void), void *);
    find("__libc_start_main", &start);
    int skipped = number("NO_WORDS", 0) ? count : 0;
    real_main = main;
    return start(counted_main, count - skipped, words + skipped, init, fini, loader_fini, stack_end);
}

static int is_refused(void) {
    if (!refused_memory || atomic_fetch_add(&allocations, 1) + 1 != refused_memory) return 0;
    tell('m');
    errno = ENOMEM;
    return 1;
}

extern void *__libc_malloc(size_t);
extern void *__libc_calloc(size_t, size_t);
extern void *__libc_realloc(void *, size_t);
extern void *__libc_memalign(size_t, size_t);

void *malloc(size_t size) {
    return is_refused() ? NULL : __libc_malloc(size);
}

void *calloc(size_t count, size_t size) {
    return is_refused() ? NULL : __libc_calloc(count, size);
}

void *realloc(void *old, size_t size) {
    return is_refused() ? NULL : __libc_realloc(old, size);
}

void *reallocarray(void *old, size_t count, size_t size) {
    size_t all;
    if (__builtin_mul_overflow(count, size, &all) || is_refused()) {
        errno = ENOMEM;
        return NULL;
    }
    return __libc_realloc(old, all);
}

void *memalign(size_t alignment, size_t size) {
    return is_refused() ? NULL : __libc_memalign(alignment, size);
}

void *aligned_alloc(size_t alignment, size_t size) {
    return memalign(alignment, size);
}

int posix_memalign(void **place, size_t alignment, size_t size) {
    void *made = memalign(alignment, size);
    if (!made) return ENOMEM;
    *place = made;
    return 0;
}

int pthread_create(pthread_t *thread, const pthread_attr_t *how, void *(*work)(void *), void *with) {
    static int (*create)(pthread_t *, const pthread_attr_t *, void *(*)(void *), void *);
    if (refused_thread && atomic_fetch_add(&threads, 1) + 1 == refused_thread) {
        tell('t');
        return EAGAIN;
    }
    if (!create) find("pthread_create", &create);
    return create(thread, how, work, with);
}

ssize_t read(int file, void *to, size_t size) {
    long left = read_stops < 0 ? (long)size : read_stops - was_read;
    if (left <= 0 && size) {
        tell('r');
        errno = read_error;
        return -1;
    }
    ssize_t came = syscall(SYS_read, file, to, (long)size < left ? (long)size : left);
    if (came > 0) was_read += came;
    return came;
}

static ssize_t taken(int file, const void *from, size_t size) {
    if (file != STDOUT_FILENO || write_stops < 0) return syscall(SYS_write, file, from, size);
    long left = write_stops - was_written;
    if (left <= 0 && size) {
        tell(stopped++ ? 'W' : 'w');
        errno = write_error;
        return write_error ? -1 : 0;
    }
    ssize_t took = syscall(SYS_write, file, from, (long)size < left ? (long)size : left);
    if (took > 0) was_written += took;
    return took;
}

ssize_t write(int file, const void *from, size_t size) {
    return taken(file, from, size);
}

ssize_t __write(int file, const void *from, size_t size) {
    return taken(file, from, size);
}
