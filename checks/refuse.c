/* Refuses one request of a program, the one whose number REFUSE tells, counted from 1, and appends to the file that REFUSE_LOG
   names that it has. The requests are those for memory; where REFUSE_FILES is set they are those to open, write or rename a file
   of a part of a topic's history, as if the disk were full. Loaded before the C library (LD_PRELOAD). */
#define _GNU_SOURCE
#include <dlfcn.h>
#include <errno.h>
#include <fcntl.h>
#include <stdarg.h>
#include <stdio.h>
#include <stdlib.h>
#include <string.h>
#include <unistd.h>

static long requests;
static long refused;
static int of_files;
/* Which descriptors are files of parts. */
static char is_part[1024];

static void *(*real_malloc)(size_t);
static void *(*real_calloc)(size_t, size_t);
static void *(*real_realloc)(void *, size_t);
static int (*real_open)(const char *, int, ...);
static ssize_t (*real_write)(int, const void *, size_t);
static int (*real_rename)(const char *, const char *);
static int (*real_posix_memalign)(void **, size_t, size_t);
static void *(*real_aligned_alloc)(size_t, size_t);

__attribute__((constructor)) static void begin(void) {
    real_malloc = dlsym(RTLD_NEXT, "malloc");
    real_calloc = dlsym(RTLD_NEXT, "calloc");
    real_realloc = dlsym(RTLD_NEXT, "realloc");
    real_open = dlsym(RTLD_NEXT, "open");
    real_write = dlsym(RTLD_NEXT, "write");
    real_rename = dlsym(RTLD_NEXT, "rename");
    real_posix_memalign = dlsym(RTLD_NEXT, "posix_memalign");
    real_aligned_alloc = dlsym(RTLD_NEXT, "aligned_alloc");
    const char *number = getenv("REFUSE");
    refused = number ? atol(number) : 0;
    requests = 0;
    of_files = getenv("REFUSE_FILES") != NULL;
}

static void tell(void) {
    const char *path = getenv("REFUSE_LOG");
    int log = path == NULL ? -1 : real_open(path, O_WRONLY | O_CREAT | O_APPEND, 0600);
    if (log >= 0) {
        ssize_t written = real_write(log, "refused\n", strlen("refused\n"));
        (void)written;
        close(log);
    }
}

/* Whether this request is the one, which is of this sort; `error` says why then. */
static int is_the_one(int is_of_files, int error) {
    if (refused == 0 || is_of_files != of_files || __atomic_add_fetch(&requests, 1, __ATOMIC_RELAXED) != refused) {
        return 0;
    }
    tell();
    errno = error;
    return 1;
}

static int is_refused(void) {
    return is_the_one(0, ENOMEM);
}

/* Whether this is the path of a file of a part, whole or not. */
static int is_of_part(const char *path) {
    return strstr(path, ".trace") != NULL;
}

int open(const char *path, int flags, ...) {
    va_list rest;
    va_start(rest, flags);
    int mode = flags & O_CREAT ? va_arg(rest, int) : 0;
    va_end(rest);
    if (is_of_part(path) && is_the_one(1, ENOSPC)) {
        return -1;
    }
    int made = real_open(path, flags, mode);
    if (made >= 0 && made < (int)sizeof is_part) {
        is_part[made] = (char)is_of_part(path);
    }
    return made;
}

ssize_t write(int to, const void *bytes, size_t count) {
    if (to >= 0 && to < (int)sizeof is_part && is_part[to] && is_the_one(1, ENOSPC)) {
        return -1;
    }
    return real_write(to, bytes, count);
}

int rename(const char *from, const char *to) {
    return is_of_part(from) && is_the_one(1, ENOSPC) ? -1 : real_rename(from, to);
}

void *malloc(size_t size) {
    if (real_malloc == NULL) {
        real_malloc = dlsym(RTLD_NEXT, "malloc");
    }
    return is_refused() ? NULL : real_malloc(size);
}

void *calloc(size_t count, size_t size) {
    if (real_calloc == NULL) {
        real_calloc = dlsym(RTLD_NEXT, "calloc");
    }
    return is_refused() ? NULL : real_calloc(count, size);
}

void *realloc(void *old, size_t size) {
    if (real_realloc == NULL) {
        real_realloc = dlsym(RTLD_NEXT, "realloc");
    }
    return is_refused() ? NULL : real_realloc(old, size);
}

int posix_memalign(void **made, size_t alignment, size_t size) {
    return is_refused() ? ENOMEM : real_posix_memalign(made, alignment, size);
}

void *aligned_alloc(size_t alignment, size_t size) {
    return is_refused() ? NULL : real_aligned_alloc(alignment, size);
}
