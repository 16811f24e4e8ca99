/* Preloaded into the program by check-refusals: refuses calls of the system, and counts all of their kind. A change is a call that makes, writes,
 * syncs, renames or removes a file, or gives it a mode or an owner.
 *
 * REFUSE_GROWTH=N  the Nth allocation (malloc, calloc or realloc) answers no memory
 * REFUSE_FROM=N    the Nth allocation and each one after it answers no memory
 * REFUSE_READ=N    the Nth read from a file that the program opened fails
 * REFUSE_MOST=N    a read from such a file gives at most N bytes
 * REFUSE_CHANGE=N  the Nth change fails
 * REFUSE_END=N     the process is killed ahead of the Nth change
 * REFUSE_COUNT=F   at the end the numbers of allocations, reads and changes are written to the file F */
#define _GNU_SOURCE
#include <dlfcn.h>
#include <errno.h>
#include <fcntl.h>
#include <signal.h>
#include <stdarg.h>
#include <stdio.h>
#include <stdlib.h>
#include <sys/stat.h>
#include <sys/types.h>
#include <unistd.h>

static long growths, reads, changes, growth_refused, refused_from, read_refused, change_refused, ended_at, most;

static long number(const char *name)
{
    const char *text = getenv(name);
    return text ? strtol(text, NULL, 10) : 0;
}

__attribute__((constructor)) static void begin(void)
{
    growth_refused = number("REFUSE_GROWTH");
    refused_from = number("REFUSE_FROM");
    most = number("REFUSE_MOST");
    read_refused = number("REFUSE_READ");
    change_refused = number("REFUSE_CHANGE");
    ended_at = number("REFUSE_END");
    growths = 0;
    reads = 0;
    changes = 0;
}

__attribute__((destructor)) static void end(void)
{
    const char *name = getenv("REFUSE_COUNT");
    long seen = growths, changed = changes;
    growth_refused = refused_from = change_refused = ended_at = 0;
    FILE *file = name ? fopen(name, "w") : NULL;
    if (file) {
        fprintf(file, "%ld %ld %ld\n", seen, reads, changed);
        fclose(file);
    }
}

static int refused(void)
{
    growths++;
    if (growths != growth_refused && (!refused_from || growths < refused_from))
        return 0;
    errno = ENOMEM;
    return 1;
}

void *malloc(size_t size)
{
    static void *(*next)(size_t);
    if (!next)
        next = dlsym(RTLD_NEXT, "malloc");
    return refused() ? NULL : next(size);
}

void *realloc(void *block, size_t size)
{
    static void *(*next)(void *, size_t);
    if (!next)
        next = dlsym(RTLD_NEXT, "realloc");
    return refused() ? NULL : next(block, size);
}

ssize_t read(int file, void *into, size_t size)
{
    static ssize_t (*next)(int, void *, size_t);
    if (!next)
        next = dlsym(RTLD_NEXT, "read");
    if (file > 2) {
        reads++;
        if (reads == read_refused) {
            errno = EIO;
            return -1;
        }
        if (most && size > (size_t)most)
            size = most;
    }
    return next(file, into, size);
}

static int is_refused_change(void)
{
    changes++;
    if (changes == ended_at)
        kill(getpid(), SIGKILL);
    if (changes != change_refused)
        return 0;
    errno = EIO;
    return 1;
}

int open(const char *name, int flags, ...)
{
    static int (*next)(const char *, int, ...);
    if (!next)
        next = dlsym(RTLD_NEXT, "open");
    mode_t mode = 0;
    if (flags & O_CREAT) {
        va_list rest;
        va_start(rest, flags);
        mode = va_arg(rest, mode_t);
        va_end(rest);
    }
    return flags & O_CREAT && is_refused_change() ? -1 : next(name, flags, mode);
}

ssize_t write(int file, const void *from, size_t size)
{
    static ssize_t (*next)(int, const void *, size_t);
    if (!next)
        next = dlsym(RTLD_NEXT, "write");
    return file > 2 && is_refused_change() ? -1 : next(file, from, size);
}

int fsync(int file)
{
    static int (*next)(int);
    if (!next)
        next = dlsym(RTLD_NEXT, "fsync");
    return is_refused_change() ? -1 : next(file);
}

int fchmod(int file, mode_t mode)
{
    static int (*next)(int, mode_t);
    if (!next)
        next = dlsym(RTLD_NEXT, "fchmod");
    return is_refused_change() ? -1 : next(file, mode);
}

int fchown(int file, uid_t owner, gid_t group)
{
    static int (*next)(int, uid_t, gid_t);
    if (!next)
        next = dlsym(RTLD_NEXT, "fchown");
    return is_refused_change() ? -1 : next(file, owner, group);
}

int rename(const char *from, const char *to)
{
    static int (*next)(const char *, const char *);
    if (!next)
        next = dlsym(RTLD_NEXT, "rename");
    return is_refused_change() ? -1 : next(from, to);
}

int unlink(const char *name)
{
    static int (*next)(const char *);
    if (!next)
        next = dlsym(RTLD_NEXT, "unlink");
    return is_refused_change() ? -1 : next(name);
}
