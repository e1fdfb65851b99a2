// Loaded before the C library (LD_PRELOAD), this has a program judge many documents, each by a call of its `main`.
//
// A request on file descriptor 0 is the number of documents and their bytes in all (two numbers of 8 bytes), then for each
// its length (8 bytes) and its bytes. A process that is made anew for each request gives each document to the program as its
// standard input, and takes what it writes. The answer on file descriptor 1 has for each document the six numbers of `record`
// and then what was written to standard output and to standard error. Where a document ends the process, or takes longer than
// SERVE_SECONDS of processor time, its status is 256 and the signal's number, and another process goes on with the next one.
#define _GNU_SOURCE
#include <dlfcn.h>
#include <errno.h>
#include <malloc.h>
#include <stdint.h>
#include <stdio.h>
#include <stdlib.h>
#include <string.h>
#include <sys/mman.h>
#include <sys/syscall.h>
#include <sys/time.h>
#include <sys/wait.h>
#include <time.h>
#include <unistd.h>

#define ROOM (1UL << 29)
#define MOST_WRITTEN (1UL << 20)
#define MOST_LIVE (1UL << 30)

void *__libc_malloc(size_t n);
void *__libc_realloc(void *p, size_t n);
void __libc_free(void *p);

// what came of a document: its status, how much it wrote to each descriptor, the time it took, the most memory that lived
// beside what lived before, the number of allocations, and what was not freed
struct record { uint64_t status, out, err, nanoseconds, most, allocations, left; };

static int serving;
static const char *input;
static size_t input_left;
static struct record now;
static char *written[3];
static int64_t live, most;
static int (*program)(int, char **, char **);
static int arguments;
static char **argument_list, **environment;

static int64_t kept(void *p) {
    int64_t size = p ? (int64_t)malloc_usable_size(p) : 0;
    live += size;
    if (live > most) most = live;
    return size;
}

void *malloc(size_t n) {
    if (!serving) return __libc_malloc(n);
    now.allocations++;
    if (n > MOST_LIVE || live > (int64_t)MOST_LIVE) return 0;
    void *p = __libc_malloc(n);
    kept(p);
    return p;
}

void *realloc(void *p, size_t n) {
    if (!serving) return __libc_realloc(p, n);
    now.allocations++;
    if (n > MOST_LIVE || live > (int64_t)MOST_LIVE) return 0;
    int64_t before = p ? (int64_t)malloc_usable_size(p) : 0;
    void *q = __libc_realloc(p, n);
    if (q) {
        live -= before;
        kept(q);
    }
    return q;
}

void free(void *p) {
    if (serving && p) live -= (int64_t)malloc_usable_size(p);
    __libc_free(p);
}

ssize_t read(int fd, void *to, size_t n) {
    if (!serving || fd != 0) return syscall(SYS_read, fd, to, n);
    if (n > input_left) n = input_left;
    memcpy(to, input, n);
    input += n;
    input_left -= n;
    return (ssize_t)n;
}

ssize_t write(int fd, const void *from, size_t n) {
    if (!serving || (fd != 1 && fd != 2)) return syscall(SYS_write, fd, from, n);
    uint64_t *count = fd == 1 ? &now.out : &now.err;
    size_t taken = *count + n > MOST_WRITTEN ? MOST_WRITTEN - *count : n;
    memcpy(written[fd] + *count, from, taken);
    *count += taken;
    return (ssize_t)n;
}

off_t lseek(int fd, off_t at, int from) {
    if (!serving) return syscall(SYS_lseek, fd, at, from);
    errno = ESPIPE;
    return -1;
}

static uint64_t clock_now(void) {
    struct timespec t;
    clock_gettime(CLOCK_MONOTONIC, &t);
    return (uint64_t)t.tv_sec * 1000000000u + (uint64_t)t.tv_nsec;
}

static int whole(int fd, char *to, size_t n) {
    while (n) {
        ssize_t got = syscall(SYS_read, fd, to, n);
        if (got < 0 && errno == EINTR) continue;
        if (got <= 0) return 0;
        to += got;
        n -= (size_t)got;
    }
    return 1;
}

static void send(const char *from, size_t n) {
    while (n) {
        ssize_t took = syscall(SYS_write, 1, from, n);
        if (took < 0 && errno == EINTR) continue;
        if (took <= 0) _exit(3);
        from += took;
        n -= (size_t)took;
    }
}

// What the parent and the process that judges share: how many documents are done, and how many bytes their records fill.
struct shared { volatile uint64_t done, filled; char records[]; };

static void judge(struct shared *to, const char *text, size_t length, long seconds) {
    memset(&now, 0, sizeof now);
    struct itimerval limit = {{0, 0}, {seconds, 0}};
    setitimer(ITIMER_PROF, &limit, 0);
    input = text;
    input_left = length;
    int64_t before = live;
    most = live;
    uint64_t from = clock_now();
    serving = 1;
    int status = program(arguments, argument_list, environment);
    serving = 0;
    now.nanoseconds = clock_now() - from;
    now.status = (uint64_t)(status & 255);
    now.most = (uint64_t)(most - before);
    now.left = (uint64_t)(live - before);
    char *at = to->records + to->filled;
    memcpy(at, &now, sizeof now);
    memcpy(at + sizeof now, written[1], now.out);
    memcpy(at + sizeof now + now.out, written[2], now.err);
    to->filled += sizeof now + now.out + now.err;
    to->done++;
}

static void failed(struct shared *to, int status) {
    struct record it = {256 + (uint64_t)(WIFSIGNALED(status) ? WTERMSIG(status) : 0), 0, 0, 0, 0, 0, 0};
    memcpy(to->records + to->filled, &it, sizeof it);
    to->filled += sizeof it;
    to->done++;
}

static void answer(struct shared *to, const char *texts, uint64_t count, long seconds) {
    to->done = to->filled = 0;
    while (to->done < count) {
        pid_t child = fork();
        if (child < 0) _exit(3);
        if (!child) {
            for (uint64_t at = 0; at < count; at++) {
                uint64_t length;
                memcpy(&length, texts, sizeof length);
                if (at >= to->done) judge(to, texts + sizeof length, length, seconds);
                texts += sizeof length + length;
            }
            _exit(0);
        }
        int status = 0;
        while (waitpid(child, &status, 0) < 0 && errno == EINTR) {}
        if (to->done < count) failed(to, status);
    }
    uint64_t filled = to->filled;
    send((char *)&filled, sizeof filled);
    send(to->records, filled);
}

static int serve(int count, char **words, char **settings) {
    const char *most_seconds = getenv("SERVE_SECONDS");
    long seconds = most_seconds ? strtol(most_seconds, 0, 10) : 10;
    arguments = count;
    argument_list = words;
    environment = settings;
    written[1] = __libc_malloc(MOST_WRITTEN);
    written[2] = __libc_malloc(MOST_WRITTEN);
    struct shared *to = mmap(0, ROOM, PROT_READ | PROT_WRITE, MAP_SHARED | MAP_ANONYMOUS | MAP_NORESERVE, -1, 0);
    if (!written[1] || !written[2] || to == MAP_FAILED) return 3;
    uint64_t head[2];
    while (whole(0, (char *)head, sizeof head)) {
        char *texts = __libc_malloc(head[1] + 1);
        if (!texts || !whole(0, texts, head[1])) return 3;
        answer(to, texts, head[0], seconds);
        __libc_free(texts);
    }
    return 0;
}

int __libc_start_main(int (*main)(int, char **, char **), int argc, char **argv, void (*init)(void), void (*fini)(void),
                      void (*ld_fini)(void), void *stack_end) {
    int (*next)(int (*)(int, char **, char **), int, char **, void (*)(void), void (*)(void), void (*)(void), void *) =
        dlsym(RTLD_NEXT, "__libc_start_main");
    program = main;
    return next(serve, argc, argv, init, fini, ld_fini, stack_end);
}
