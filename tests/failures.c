/* Preloaded before gsnap by tests/failures.py: makes calls of the C library fail, counts them, and counts the bytes of live memory.

   Variables of the environment say which calls fail. A choice is "A", the A-th call, from 1; "A+", this one and all later ones; or
   "A+B", this one and each B-th after it.

   FAIL_MEMORY   a choice of the requests for memory, which are then refused
   STARTS        the place in the program from which a start of a thread asks for the block that it hands to the thread, or 0
   FAIL_START    a choice of the starts of threads, which then fail with EAGAIN
   FAIL_READ     "N:NAME": reads of the file of this name, "-" for standard input, give N bytes in all, and then fail with EIO
   FAIL_OPEN     "ERROR:NAME": the file of this name cannot be opened, for the reason of this number
   FAIL_WRITE    "N:FILE": writes to this descriptor take N bytes in all, and then fail with ENOSPC
   SHORT         if it is set, each read and write takes one byte
   INTERRUPT     if it is set, each read and write is interrupted once before it is done
   REPORT        a file that gets a line for each write to standard output, "write LIVE", and at the end of the process a line "end"
                 with: "plain", "start" or "none", after who made the first refused request; the place for STARTS; the number of
                 requests for memory, of starts, reads and writes; the live bytes and their peak. */
#define _GNU_SOURCE
#include <dlfcn.h>
#include <errno.h>
#include <fcntl.h>
#include <malloc.h>
#include <pthread.h>
#include <stdatomic.h>
#include <stdbool.h>
#include <stdio.h>
#include <stdlib.h>
#include <string.h>
#include <sys/syscall.h>
#include <unistd.h>

extern void *__libc_malloc(size_t);
extern void *__libc_calloc(size_t, size_t);
extern void *__libc_realloc(void *, size_t);
extern void *__libc_memalign(size_t, size_t);
extern void __libc_free(void *);

struct Choice {
    long first, step;
};

enum { FILES = 1024, UNLIMITED = -1 };

static struct Choice memory, start;
static atomic_long requests, begun, reads, writes, live, peak, place_of_starts;
static _Atomic(const char *) who = "none";
static long starts_before, given_of_read, taken_of_write, room_of_read = UNLIMITED, room_of_write = UNLIMITED;
static int file_of_write = -1, error_of_open, report_file = -1;
static const char *name_of_read, *name_of_open;
static bool is_short, is_interrupted, is_failing_file[FILES];

/* Of this thread: whether it is in a start, its last block, who asked for it, and whether its last read or write was interrupted. */
#define OWN static __thread __attribute__((tls_model("initial-exec")))
OWN bool is_starting, was_interrupted;
OWN void *last_block;
OWN void *last_caller;

static bool is_chosen(struct Choice choice, long number) {
    if (choice.first == 0 || number < choice.first)
        return false;
    return choice.step == 0 ? number == choice.first : (number - choice.first) % choice.step == 0;
}

static long place_of(void *caller) {
    Dl_info found;
    return dladdr(caller, &found) ? (char *)caller - (char *)found.dli_fbase : 0;
}

static bool is_refused(void *caller) {
    if (!is_chosen(memory, atomic_fetch_add(&requests, 1) + 1))
        return false;
    bool is_of_start = is_starting || (starts_before && place_of(caller) == starts_before);
    const char *none = "none";
    if (strcmp(atomic_load(&who), none) == 0)
        atomic_store(&who, is_of_start ? "start" : "plain");
    errno = ENOMEM;
    return true;
}

static void *counted(void *block) {
    if (block) {
        long now = atomic_fetch_add(&live, malloc_usable_size(block)) + malloc_usable_size(block);
        long before = atomic_load(&peak);
        while (now > before && !atomic_compare_exchange_weak(&peak, &before, now))
            ;
    }
    return block;
}

void *malloc(size_t size) {
    last_caller = __builtin_return_address(0);
    return last_block = is_refused(last_caller) ? NULL : counted(__libc_malloc(size));
}

void *calloc(size_t count, size_t size) {
    return is_refused(__builtin_return_address(0)) ? NULL : counted(__libc_calloc(count, size));
}

void *realloc(void *block, size_t size) {
    if (is_refused(__builtin_return_address(0)))
        return NULL;
    long before = block ? malloc_usable_size(block) : 0;
    void *made = __libc_realloc(block, size);
    if (made)
        atomic_fetch_sub(&live, before);
    return counted(made);
}

void *aligned_alloc(size_t alignment, size_t size) {
    return is_refused(__builtin_return_address(0)) ? NULL : counted(__libc_memalign(alignment, size));
}

int posix_memalign(void **block, size_t alignment, size_t size) {
    void *made = aligned_alloc(alignment, size);
    if (made)
        *block = made;
    return made ? 0 : ENOMEM;
}

void free(void *block) {
    if (block)
        atomic_fetch_sub(&live, malloc_usable_size(block));
    __libc_free(block);
}

int pthread_create(pthread_t *thread, const pthread_attr_t *attributes, void *(*body)(void *), void *argument) {
    int (*create)(pthread_t *, const pthread_attr_t *, void *(*)(void *), void *) = dlsym(RTLD_NEXT, "pthread_create");
    if (argument == last_block)
        atomic_store(&place_of_starts, place_of(last_caller));
    if (is_chosen(start, atomic_fetch_add(&begun, 1) + 1))
        return EAGAIN;
    is_starting = true;
    int status = create(thread, attributes, body, argument);
    is_starting = false;
    return status;
}

static bool is_named(const char *name, const char *path) {
    const char *last = path ? strrchr(path, '/') : NULL;
    return name && path && (strcmp(name, path) == 0 || (last && strcmp(name, last + 1) == 0));
}

int open(const char *path, int flags, ...) {
    if (is_named(name_of_open, path)) {
        errno = error_of_open;
        return -1;
    }
    int file = syscall(SYS_openat, AT_FDCWD, path, flags, 0);
    if (file >= 0 && file < FILES)
        is_failing_file[file] = is_named(name_of_read, path);
    return file;
}

/* Says whether a read or a write is interrupted: each is, before it is done. */
static bool interrupts(void) {
    was_interrupted = is_interrupted && !was_interrupted;
    if (was_interrupted)
        errno = EINTR;
    return was_interrupted;
}

ssize_t read(int file, void *bytes, size_t count) {
    if (interrupts())
        return -1;
    atomic_fetch_add(&reads, 1);
    bool is_failing = file >= 0 && file < FILES && is_failing_file[file] && room_of_read != UNLIMITED;
    if (is_failing && given_of_read == room_of_read) {
        errno = EIO;
        return -1;
    }
    if (is_failing && count > (size_t)(room_of_read - given_of_read))
        count = room_of_read - given_of_read;
    ssize_t got = syscall(SYS_read, file, bytes, is_short && count > 1 ? 1 : count);
    if (is_failing && got > 0)
        given_of_read += got;
    return got;
}

static void report(const char *line, int length) {
    if (report_file >= 0)
        (void)!syscall(SYS_write, report_file, line, length);
}

static void report_write(void) {
    char line[64];
    report(line, snprintf(line, sizeof line, "write %ld\n", atomic_load(&live)));
}

ssize_t write(int file, const void *bytes, size_t count) {
    if (interrupts())
        return -1;
    if (file == STDOUT_FILENO) {
        atomic_fetch_add(&writes, 1);
        report_write();
    }
    bool is_failing = file == file_of_write;
    if (is_failing && taken_of_write == room_of_write && count > 0) {
        errno = ENOSPC;
        return -1;
    }
    if (is_failing && count > (size_t)(room_of_write - taken_of_write))
        count = room_of_write - taken_of_write;
    ssize_t took = syscall(SYS_write, file, bytes, is_short && count > 1 ? 1 : count);
    if (is_failing && took > 0)
        taken_of_write += took;
    return took;
}

ssize_t __write(int file, const void *bytes, size_t count) { return write(file, bytes, count); }

void _exit(int status) {
    char line[256];
    report(line, snprintf(line, sizeof line, "end %s %ld %ld %ld %ld %ld %ld %ld\n", atomic_load(&who), atomic_load(&place_of_starts),
                          atomic_load(&requests), atomic_load(&begun), atomic_load(&reads), atomic_load(&writes), atomic_load(&live),
                          atomic_load(&peak)));
    syscall(SYS_exit_group, status);
    __builtin_unreachable();
}

static struct Choice choice_of(const char *name) {
    struct Choice choice = {0, 0};
    const char *text = getenv(name);
    char *rest;
    if (text) {
        choice.first = strtol(text, &rest, 10);
        choice.step = *rest == '+' ? (rest[1] ? atol(rest + 1) : 1) : 0;
    }
    return choice;
}

/* Reads a number and, after a colon, a text. Without the variable the text is NULL. */
static long pair_of(const char *name, const char **text) {
    const char *given = getenv(name), *colon = given ? strchr(given, ':') : NULL;
    *text = colon ? colon + 1 : NULL;
    return given ? atol(given) : UNLIMITED;
}

__attribute__((constructor)) static void begin(void) {
    const char *file, *place = getenv("STARTS"), *path = getenv("REPORT");
    starts_before = place ? atol(place) : 0;
    room_of_read = pair_of("FAIL_READ", &name_of_read);
    error_of_open = pair_of("FAIL_OPEN", &name_of_open);
    room_of_write = pair_of("FAIL_WRITE", &file);
    file_of_write = file ? atoi(file) : -1;
    is_failing_file[STDIN_FILENO] = name_of_read && strcmp(name_of_read, "-") == 0;
    is_short = getenv("SHORT") != NULL;
    is_interrupted = getenv("INTERRUPT") != NULL;
    if (path)
        report_file = syscall(SYS_openat, AT_FDCWD, path, O_WRONLY | O_CREAT | O_APPEND | O_CLOEXEC, 0600);
    atomic_store(&requests, 0);
    atomic_store(&live, 0);
    atomic_store(&peak, 0);
    start = choice_of("FAIL_START");
    memory = choice_of("FAIL_MEMORY");
}
