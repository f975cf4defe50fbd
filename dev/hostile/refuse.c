/* Refuses calls that a program makes to the C library, as the environment asks. Preloaded by the script `hostile`.
 *
 * REFUSED_CALL  which calls are counted: memory, read, write, open, stat, thread; or `space`: no call is, but from main on the
 *               address space can't grow by more than REFUSED_FROM kilobytes
 * REFUSED_FROM  the first one that is refused, counted from 1; those before main are not counted
 * REFUSED_TO    the last one
 * REFUSED_AS    how: the name of an error, or in reads and writes `short` (one byte is taken), `half` (half of what is given),
 *               `nothing` (no byte, and no error)
 * REFUSED_LOG   a file that gets the line `begun`, and one for each call that is refused and for the first that takes less: its
 *               descriptor, or -, and its path, or -
 *
 * What is replaced here has to ask for no memory itself, so files are reached by system calls alone.
 */
#define _GNU_SOURCE
#include <dlfcn.h>
#include <errno.h>
#include <fcntl.h>
#include <pthread.h>
#include <stdarg.h>
#include <stdatomic.h>
#include <stdio.h>
#include <stdlib.h>
#include <string.h>
#include <sys/mman.h>
#include <sys/resource.h>
#include <sys/stat.h>
#include <sys/syscall.h>
#include <sys/types.h>
#include <unistd.h>

/* The C library's own, which the names below stand before. */
extern void *__libc_malloc(size_t size);
extern void *__libc_calloc(size_t count, size_t size);
extern void *__libc_realloc(void *block, size_t size);
extern void *__libc_memalign(size_t alignment, size_t size);

enum { SHORT = -1, HALF = -2, NOTHING = -3 };

/* A run that is refused again and again fills no disk. */
enum { MOST_LINES = 1000 };

static const struct {
    const char *name;
    int how;
} HOWS[] = {
    {"EACCES", EACCES}, {"EAGAIN", EAGAIN}, {"EBADF", EBADF},   {"EINTR", EINTR}, {"EIO", EIO},   {"EMFILE", EMFILE},
    {"ENOMEM", ENOMEM}, {"ENOSPC", ENOSPC}, {"EPIPE", EPIPE},   {"short", SHORT}, {"half", HALF}, {"nothing", NOTHING},
};

/* Empty until `begin` has run, so that what comes before main is not counted. */
static char asked_call[16];
static long refused_from, refused_to;
static int refused_as;
static const char *log_path;
static atomic_long count;
static atomic_flag was_short;

static void add_to_log(const char *line) {
    static atomic_int lines;
    if (atomic_fetch_add(&lines, 1) >= MOST_LINES)
        return;
    int log = syscall(SYS_openat, AT_FDCWD, log_path, O_WRONLY | O_APPEND | O_CREAT | O_CLOEXEC, 0600);
    if (log < 0 || syscall(SYS_write, log, line, strlen(line)) < 0)
        abort();
    syscall(SYS_close, log);
}

/* Lets the address space grow by so many kilobytes more. A megabyte of the stack is touched first: a stack that can't grow ends
 * any program by a signal, and the program needs half of that. */
static void limit_space(long kilobytes) {
    volatile char stack[1 << 20];
    for (size_t at = 0; at < sizeof stack; at += 1024)
        stack[at] = 0;
    char text[64] = "";
    int file = syscall(SYS_openat, AT_FDCWD, "/proc/self/statm", O_RDONLY | O_CLOEXEC);
    if (file < 0 || syscall(SYS_read, file, text, sizeof text - 1) < 0)
        abort();
    syscall(SYS_close, file);
    /* The first number is that of the pages which are mapped. */
    rlim_t size = strtol(text, NULL, 10) * sysconf(_SC_PAGESIZE) + kilobytes * 1024;
    if (setrlimit(RLIMIT_AS, &(struct rlimit){size, size}))
        abort();
}

__attribute__((constructor)) static void begin(void) {
    const char *call = getenv("REFUSED_CALL"), *from = getenv("REFUSED_FROM"), *to = getenv("REFUSED_TO"),
               *as = getenv("REFUSED_AS");
    log_path = getenv("REFUSED_LOG");
    if (!call || !from || !to || !as || !log_path || strlen(call) >= sizeof asked_call)
        abort();
    refused_from = strtol(from, NULL, 10);
    refused_to = strtol(to, NULL, 10);
    for (size_t at = 0; at < sizeof HOWS / sizeof *HOWS; at++)
        if (!strcmp(as, HOWS[at].name))
            refused_as = HOWS[at].how;
    if (!refused_as && refused_to)
        abort();
    add_to_log("begun\n");
    /* No run leaves a core file. */
    setrlimit(RLIMIT_CORE, &(struct rlimit){0, 0});
    if (!strcmp(call, "space"))
        limit_space(refused_from);
    strcpy(asked_call, call);
}

/* Counts a call, and tells whether it is one of those that are refused. */
static int is_counted_out(const char *call) {
    if (strcmp(asked_call, call))
        return 0;
    long number = atomic_fetch_add(&count, 1) + 1;
    return refused_from <= number && number <= refused_to;
}

/* Whether a call that has no descriptor is refused. Where it is, it is noted, and errno says how. */
static int is_refused(const char *call, const char *path) {
    char line[4352];
    if (!is_counted_out(call))
        return 0;
    snprintf(line, sizeof line, "- %.4096s\n", path);
    add_to_log(line);
    errno = refused_as;
    return 1;
}

static void note_descriptor(int file) {
    char name[32], path[4097] = "-", line[4352];
    snprintf(name, sizeof name, "/proc/self/fd/%d", file);
    ssize_t length = syscall(SYS_readlinkat, AT_FDCWD, name, path, sizeof path - 1);
    if (length >= 0)
        path[length] = 0;
    snprintf(line, sizeof line, "%d %s\n", file, path);
    add_to_log(line);
}

/* How many bytes a read or a write is let take of so many, or -1 where it is refused. */
static ssize_t let_take(const char *call, int file, size_t size) {
    if (!is_counted_out(call))
        return size;
    if ((refused_as != SHORT && refused_as != HALF) || !atomic_flag_test_and_set(&was_short))
        note_descriptor(file);
    switch (refused_as) {
    case SHORT:
        return size < 1 ? size : 1;
    case HALF:
        return size < 2 ? size : size / 2;
    case NOTHING:
        return 0;
    }
    errno = refused_as;
    return -1;
}

ssize_t read(int file, void *into, size_t size) {
    ssize_t most = let_take("read", file, size);
    return most < 0 ? -1 : syscall(SYS_read, file, into, most);
}

ssize_t write(int file, const void *from, size_t size) {
    ssize_t most = let_take("write", file, size);
    return most < 0 ? -1 : syscall(SYS_write, file, from, most);
}

int open(const char *path, int flags, ...) {
    va_list rest;
    va_start(rest, flags);
    mode_t mode = flags & O_CREAT ? va_arg(rest, mode_t) : 0;
    va_end(rest);
    return is_refused("open", path) ? -1 : syscall(SYS_openat, AT_FDCWD, path, flags, mode);
}

int statx(int folder, const char *path, int flags, unsigned mask, struct statx *into) {
    return is_refused("stat", path) ? -1 : syscall(SYS_statx, folder, path, flags, mask, into);
}

void *malloc(size_t size) {
    return is_refused("memory", "-") ? NULL : __libc_malloc(size);
}

void *calloc(size_t number, size_t size) {
    return is_refused("memory", "-") ? NULL : __libc_calloc(number, size);
}

void *realloc(void *block, size_t size) {
    return is_refused("memory", "-") ? NULL : __libc_realloc(block, size);
}

void *aligned_alloc(size_t alignment, size_t size) {
    return is_refused("memory", "-") ? NULL : __libc_memalign(alignment, size);
}

int posix_memalign(void **block, size_t alignment, size_t size) {
    void *given = is_refused("memory", "-") ? NULL : __libc_memalign(alignment, size);
    if (!given)
        return ENOMEM;
    *block = given;
    return 0;
}

void *mmap(void *at, size_t size, int protection, int flags, int file, off_t offset) {
    return is_refused("memory", "-") ? MAP_FAILED : (void *)syscall(SYS_mmap, at, size, protection, flags, file, offset);
}

int pthread_create(pthread_t *thread, const pthread_attr_t *settings, void *(*start)(void *), void *word) {
    int (*create)(pthread_t *, const pthread_attr_t *, void *(*)(void *), void *);
    if (is_refused("thread", "-"))
        return refused_as;
    /* ISO C gives no cast from an object's address to a function's. */
    *(void **)&create = dlsym(RTLD_NEXT, "pthread_create");
    return create(thread, settings, start, word);
}
