// Loaded by LD_PRELOAD, it refuses growths of memory to the program: calls of malloc, calloc, realloc, aligned_alloc and
// posix_memalign, counted from 1 over all threads. The C library's start-up and what the loader takes are not counted.
//
//   REFUSE_FROM=A             the growth A is refused;
//   REFUSE_TO=B REFUSE_EACH=K with both, each K-th from A to B, that is A, A+K, A+2K .. (without REFUSE_EACH each);
//   REFUSE_AT=A,B,C ..        in place of those: these growths, in growing order;
//   REFUSE_COPY=SECONDS       nothing is refused to the program itself. At each growth named above it is copied; the growth is
//                             refused to the copy, which then runs alone to its end, for that time at most;
//   REFUSE_PASS=TEXT          with REFUSE_COPY: what the output of each copy has to end with, beside status 0;
//   REFUSE_LEFT=N             with REFUSE_COPY: how many blocks a copy may hold at its end; with more its status is 124;
//   REFUSE_OUTPUT=FD          with REFUSE_COPY: the file to which the output of all copies goes;
//   REFUSE_REPORT=FD          a file open for reading and writing, into which `struct report` is written as things happen.
//
// It also counts the calls by which a program reaches a thread, a file, a socket or a process, which a copy would share or lack.
#define _GNU_SOURCE
#include <dlfcn.h>
#include <errno.h>
#include <fcntl.h>
#include <pthread.h>
#include <signal.h>
#include <stdatomic.h>
#include <stdint.h>
#include <stdlib.h>
#include <string.h>
#include <sys/mman.h>
#include <sys/time.h>
#include <sys/wait.h>
#include <unistd.h>

#define FAILURES 64

struct failure {
    uint64_t growth;
    int64_t status; // as waitpid gives it; -1 where a copy ended with 0 and had not written REFUSE_PASS last
};

struct report {
    _Atomic uint64_t counted; // growths met by the program
    _Atomic uint64_t refused; // growths refused to it, or copies made
    _Atomic uint64_t reached; // calls that make a thread, a process, or what is read and written
    _Atomic int64_t left;     // blocks that are held, at last those that the program did not give back
    _Atomic uint64_t failed;  // copies that failed
    struct failure failures[FAILURES]; // the first of them
};

static struct report nowhere, *report = &nowhere;
static uint64_t from = UINT64_MAX, to, each = 1, seconds;
static const char *pass;
static char *at; // of REFUSE_AT what is left
static atomic_bool counts, is_copy;
static int64_t may_be_left = INT64_MAX;
static int output = -1;

static void *(*next_malloc)(size_t);
static void *(*next_calloc)(size_t, size_t);
static void *(*next_realloc)(void *, size_t);
static void *(*next_aligned_alloc)(size_t, size_t);
static int (*next_posix_memalign)(void **, size_t, size_t);

// What dlsym itself asks for before the calls above are known. It is never given back.
static char early[8192];
static size_t early_used;

static void *from_early(size_t size) {
    size_t at = (early_used + 15) & ~(size_t)15;
    if (size > sizeof early - at) return NULL;
    early_used = at + size;
    return early + at;
}

static uint64_t number(const char *name, uint64_t otherwise) {
    const char *text = getenv(name);
    return text ? strtoull(text, NULL, 10) : otherwise;
}

static void find(void) {
    next_malloc = dlsym(RTLD_NEXT, "malloc");
    next_realloc = dlsym(RTLD_NEXT, "realloc");
    next_aligned_alloc = dlsym(RTLD_NEXT, "aligned_alloc");
    next_posix_memalign = dlsym(RTLD_NEXT, "posix_memalign");
    next_calloc = dlsym(RTLD_NEXT, "calloc");
}

__attribute__((constructor)) static void begin(void) {
    if (!next_calloc) find();
    from = number("REFUSE_FROM", UINT64_MAX);
    to = number("REFUSE_TO", from);
    each = number("REFUSE_EACH", 1);
    seconds = number("REFUSE_COPY", 0);
    pass = getenv("REFUSE_PASS");
    may_be_left = (int64_t)number("REFUSE_LEFT", INT64_MAX);
    at = getenv("REFUSE_AT");
    int file = (int)number("REFUSE_REPORT", UINT64_MAX);
    if (file >= 0) {
        void *shared = MAP_FAILED;
        if (!ftruncate(file, sizeof *report))
            shared = mmap(NULL, sizeof *report, PROT_READ | PROT_WRITE, MAP_SHARED, file, 0);
        // Without a report nobody could tell what was refused.
        if (shared == MAP_FAILED) _exit(125);
        report = shared;
        close(file);
    }
    if (seconds) {
        output = (int)number("REFUSE_OUTPUT", UINT64_MAX);
        if (lseek(output, 0, SEEK_END) < 0) _exit(125);
    }
    counts = 1;
}

// Whether what was written from a place on ends with the text that says so.
static int passed(off_t start) {
    size_t length = strlen(pass);
    char last[256];
    off_t end = lseek(output, 0, SEEK_END);
    if (length > sizeof last || end - start < (off_t)length) return 0;
    return pread(output, last, length, end - (off_t)length) == (ssize_t)length && !memcmp(last, pass, length);
}

// Returns true in the copy, whose growth is refused, and false in the program once the copy has ended.
static int copies(uint64_t growth) {
    off_t start = lseek(output, 0, SEEK_END);
    pid_t copy = fork();
    if (start < 0 || copy < 0) _exit(125);
    if (copy == 0) {
        nowhere.left = report->left;
        report = &nowhere;
        counts = 0;
        is_copy = 1;
        struct itimerval limit = {.it_value = {.tv_sec = (time_t)seconds}};
        if (dup2(output, 1) < 0 || dup2(output, 2) < 0 || setitimer(ITIMER_REAL, &limit, NULL)) _exit(125);
        return 1;
    }
    int status = 0;
    while (waitpid(copy, &status, 0) < 0)
        if (errno != EINTR) _exit(125);
    int64_t found = status ? status : pass && !passed(start) ? -1 : 0;
    if (found) {
        uint64_t at = report->failed++;
        if (at < FAILURES) report->failures[at] = (struct failure){growth, found};
    }
    return 0;
}

static int is_named(uint64_t growth) {
    if (!at) return growth >= from && growth <= to && (growth - from) % each == 0;
    static pthread_mutex_t one_at_a_time = PTHREAD_MUTEX_INITIALIZER;
    pthread_mutex_lock(&one_at_a_time);
    char *after = at;
    int is = *at && strtoull(at, &after, 10) == growth;
    if (is) at = after + (*after == ',');
    pthread_mutex_unlock(&one_at_a_time);
    return is;
}

// Counts a growth, and returns whether it is to be refused.
static int is_refused(void) {
    if (!counts) return 0;
    uint64_t growth = ++report->counted;
    if (!is_named(growth)) return 0;
    report->refused++;
    int kept = errno, is = seconds ? copies(growth) : 1;
    errno = is ? ENOMEM : kept;
    return is;
}

// Notes a block that was given.
static void *given(void *block) {
    if (block) report->left++;
    return block;
}

void *malloc(size_t size) {
    if (!next_malloc) return from_early(size);
    return is_refused() ? NULL : given(next_malloc(size));
}

void *calloc(size_t n, size_t size) {
    // (never given out before, the early bytes are 0)
    if (!next_calloc) return size && n > SIZE_MAX / size ? NULL : from_early(n * size);
    return is_refused() ? NULL : given(next_calloc(n, size));
}

void *realloc(void *old, size_t size) {
    if (!next_realloc) return NULL;
    if (!old) return is_refused() ? NULL : given(next_realloc(old, size));
    if (!size) report->left--;
    return size && is_refused() ? NULL : next_realloc(old, size);
}

void *aligned_alloc(size_t to_multiple, size_t size) {
    if (!next_aligned_alloc) return NULL;
    return is_refused() ? NULL : given(next_aligned_alloc(to_multiple, size));
}

int posix_memalign(void **made, size_t to_multiple, size_t size) {
    if (!next_posix_memalign || is_refused()) return ENOMEM;
    int status = next_posix_memalign(made, to_multiple, size);
    if (!status) given(*made);
    return status;
}

void free(void *old) {
    static void (*next_free)(void *);
    if ((char *)old >= early && (char *)old < early + sizeof early) return;
    if (!next_free) next_free = dlsym(RTLD_NEXT, "free");
    if (old) report->left--;
    next_free(old);
}

static _Noreturn void end_now(int status) {
    static void (*next_exit)(int);
    if (!next_exit) next_exit = dlsym(RTLD_NEXT, "_exit");
    next_exit(status);
    abort();
}

// A copy that ends well, and holds more than it may, says so by its status.
static int status_of_end(int status) { return status == 0 && is_copy && report->left > may_be_left ? 124 : status; }

void _exit(int status) { end_now(status_of_end(status)); }

__attribute__((destructor)) static void end(void) {
    if (status_of_end(0)) end_now(124);
}

// Each such call takes at most six words, and answers one.
#define REACHES(name)                                                       \
    long reach_##name(long a, long b, long c, long d, long e, long f) __asm__(#name); \
    long reach_##name(long a, long b, long c, long d, long e, long f) {     \
        static long (*next)(long, long, long, long, long, long);            \
        if (!next) next = dlsym(RTLD_NEXT, #name);                          \
        report->reached++;                                                  \
        return next(a, b, c, d, e, f);                                      \
    }
REACHES(pthread_create)
REACHES(posix_spawn)
REACHES(openat)
REACHES(open)
REACHES(mkstemp)
REACHES(socket)
REACHES(socketpair)
REACHES(pipe2)
REACHES(eventfd)
REACHES(epoll_create1)
REACHES(getaddrinfo)
REACHES(unlink)
REACHES(rmdir)
REACHES(mkdir)
REACHES(rename)
REACHES(link)
REACHES(symlink)
REACHES(chmod)
REACHES(chown)
