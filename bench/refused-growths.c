/* Preloaded before a test by bench/refused-growths: counts the requests for memory that are made between two lines which the
   test prints, and refuses one of them.

   The requests are counted from the line "asked" to the next line, for each thread by itself, since threads do not come in the
   same order in each run. The thread that runs first is 0, and the k-th one that thread t starts is 16t + k. REFUSED is a
   thread, a colon, and the number, from 1, of its request that is refused. At that next line, a line on standard error has:
   "none" where no request was refused, "start" where the start of a thread made the refused one, else "plain"; the place in the
   program from which starts ask for the block that they hand to their thread, or 0; and each thread with its requests. STARTS
   is that place: a request from there is a start's. */
#define _GNU_SOURCE
#include <dlfcn.h>
#include <errno.h>
#include <pthread.h>
#include <stdatomic.h>
#include <stdbool.h>
#include <stddef.h>
#include <stdio.h>
#include <stdlib.h>
#include <string.h>
#include <unistd.h>

enum { THREADS = 4096 };

extern void *__libc_malloc(size_t);
extern void *__libc_calloc(size_t, size_t);
extern void *__libc_realloc(void *, size_t);
extern void *__libc_memalign(size_t, size_t);
extern void __libc_free(void *);
extern ssize_t __write(int, const void *, size_t);

static atomic_bool is_asked;
static atomic_long requests[THREADS];
static _Atomic(const char *) outcome = "none";
static atomic_long starts;
static long refused_thread = -1, refused_request, starts_before;

/* Of this thread: its number, how many it started, whether it is in a start, its last block, and who asked for it. */
#define OWN static __thread __attribute__((tls_model("initial-exec")))
OWN long number;
OWN long started;
OWN bool is_starting;
OWN void *last_block;
OWN void *last_caller;

static long place_of(void *caller) {
    Dl_info found;
    return dladdr(caller, &found) ? (char *)caller - (char *)found.dli_fbase : 0;
}

static bool is_refused(void *caller) {
    if (!atomic_load(&is_asked))
        return false;
    long request = atomic_fetch_add(&requests[number], 1) + 1;
    if (number != refused_thread || request != refused_request)
        return false;
    bool is_of_start = is_starting || (starts_before && place_of(caller) == starts_before);
    atomic_store(&outcome, is_of_start ? "start" : "plain");
    errno = ENOMEM;
    return true;
}

void *malloc(size_t size) {
    last_caller = __builtin_return_address(0);
    return last_block = is_refused(last_caller) ? NULL : __libc_malloc(size);
}

void *calloc(size_t count, size_t size) {
    return is_refused(__builtin_return_address(0)) ? NULL : __libc_calloc(count, size);
}

void *realloc(void *block, size_t size) {
    return is_refused(__builtin_return_address(0)) ? NULL : __libc_realloc(block, size);
}

void *memalign(size_t alignment, size_t size) {
    return is_refused(__builtin_return_address(0)) ? NULL : __libc_memalign(alignment, size);
}

void *aligned_alloc(size_t alignment, size_t size) {
    return is_refused(__builtin_return_address(0)) ? NULL : __libc_memalign(alignment, size);
}

int posix_memalign(void **block, size_t alignment, size_t size) {
    void *made = is_refused(__builtin_return_address(0)) ? NULL : __libc_memalign(alignment, size);
    if (!made)
        return ENOMEM;
    *block = made;
    return 0;
}

struct Beginning {
    long number;
    void *(*body)(void *);
    void *argument;
};

static void *begin_thread(void *given) {
    struct Beginning beginning = *(struct Beginning *)given;
    __libc_free(given);
    number = beginning.number;
    return beginning.body(beginning.argument);
}

int pthread_create(pthread_t *thread, const pthread_attr_t *attributes, void *(*body)(void *), void *argument) {
    int (*create)(pthread_t *, const pthread_attr_t *, void *(*)(void *), void *) = dlsym(RTLD_NEXT, "pthread_create");
    struct Beginning *beginning = __libc_malloc(sizeof *beginning);
    *beginning = (struct Beginning){(number * 16 + ++started) % THREADS, body, argument};
    if (argument == last_block)
        atomic_store(&starts, place_of(last_caller));
    is_starting = true;
    int status = create(thread, attributes, begin_thread, beginning);
    is_starting = false;
    if (status)
        __libc_free(beginning);
    return status;
}

static void report(void) {
    char line[4096];
    int length = snprintf(line, sizeof line, "requests %s %ld", atomic_load(&outcome), atomic_load(&starts));
    for (int thread = 0; thread < THREADS; thread++) {
        long count = atomic_load(&requests[thread]);
        if (count && length < (int)sizeof line - 64)
            length += snprintf(line + length, sizeof line - length, " %d:%ld", thread, count);
    }
    line[length++] = '\n';
    (void)!__write(STDERR_FILENO, line, length);
}

ssize_t write(int file, const void *bytes, size_t count) {
    static const char line[] = "asked\n";
    if (file == STDOUT_FILENO) {
        if (atomic_exchange(&is_asked, false))
            report();
        else
            atomic_store(&is_asked, count == sizeof line - 1 && memcmp(bytes, line, count) == 0);
    }
    return __write(file, bytes, count);
}

__attribute__((constructor)) static void begin(void) {
    const char *refused = getenv("REFUSED"), *place = getenv("STARTS");
    if (refused)
        sscanf(refused, "%ld:%ld", &refused_thread, &refused_request);
    starts_before = place ? atol(place) : 0;
}
