// A preloaded library for tests: it refuses growths of the process.
//   REFUSE_AT=n    the n-th growth is refused
//   REFUSE_FROM=n  every growth from the n-th on is refused
//   REFUSE_TOLD=F  at the end the file F gets four numbers: the growths that were asked for, those that were refused, the
//                  blocks that were given while growths counted and never given back, and the threads started meanwhile
//   REFUSE_MARKED  where it is set, only growths between the lines `call` and `done` on standard output count
// A growth is a call of malloc, calloc, realloc or an aligned form that asks for room.
#define _GNU_SOURCE
#include <dlfcn.h>
#include <errno.h>
#include <fcntl.h>
#include <pthread.h>
#include <stdatomic.h>
#include <stddef.h>
#include <stdio.h>
#include <stdlib.h>
#include <string.h>
#include <sys/syscall.h>
#include <unistd.h>

extern void *__libc_malloc(size_t);
extern void *__libc_calloc(size_t, size_t);
extern void *__libc_realloc(void *, size_t);
extern void *__libc_memalign(size_t, size_t);
extern void __libc_free(void *);

static atomic_long asked, refused, started;
static long at, from;
static const char *told;
static atomic_int counts;
static int is_marked;

// The blocks that were given while growths counted, until they are given back. Past the most that there is room for, more are
// counted as kept.
#define MOST 65536
static void *given[MOST];
static long kept, unnoted;
static atomic_flag busy = ATOMIC_FLAG_INIT;

static void *note(void *block, int is_counted) {
    if (!block || !is_counted) return block;
    while (atomic_flag_test_and_set(&busy)) {
    }
    if (kept < MOST) given[kept++] = block;
    else unnoted++;
    atomic_flag_clear(&busy);
    return block;
}

static void forget(void *block) {
    if (!block) return;
    while (atomic_flag_test_and_set(&busy)) {
    }
    for (long i = kept - 1; i >= 0; i--) {
        if (given[i] == block) {
            given[i] = given[--kept];
            break;
        }
    }
    atomic_flag_clear(&busy);
}

static long number(const char *name) {
    const char *text = getenv(name);
    return text ? atol(text) : 0;
}

__attribute__((constructor)) static void begin(void) {
    at = number("REFUSE_AT");
    from = number("REFUSE_FROM");
    told = getenv("REFUSE_TOLD");
    is_marked = getenv("REFUSE_MARKED") != NULL;
    counts = !is_marked;
}

// Whether this growth is refused. What the system asks for before the program begins isn't counted.
static int is_refused(void) {
    if (!counts) return 0;
    long place = atomic_fetch_add(&asked, 1) + 1;
    if (place != at && !(from && place >= from)) return 0;
    atomic_fetch_add(&refused, 1);
    errno = ENOMEM;
    return 1;
}

void *malloc(size_t size) { return is_refused() ? NULL : note(__libc_malloc(size), counts); }
void *calloc(size_t count, size_t size) { return is_refused() ? NULL : note(__libc_calloc(count, size), counts); }
void *memalign(size_t align, size_t size) { return is_refused() ? NULL : note(__libc_memalign(align, size), counts); }

// A block leaves the list before it is given back, since another thread may be given it at once.
void free(void *block) {
    forget(block);
    __libc_free(block);
}

void *realloc(void *old, size_t size) {
    if (is_refused()) return NULL;
    forget(old);
    return note(__libc_realloc(old, size), counts);
}

void *aligned_alloc(size_t align, size_t size) { return memalign(align, size); }

int posix_memalign(void **made, size_t align, size_t size) {
    void *room = memalign(align, size);
    if (!room) return ENOMEM;
    *made = room;
    return 0;
}

int pthread_create(pthread_t *thread, const pthread_attr_t *attributes, void *(*work)(void *), void *given_to) {
    int (*create)(pthread_t *, const pthread_attr_t *, void *(*)(void *), void *) =
        (int (*)(pthread_t *, const pthread_attr_t *, void *(*)(void *), void *))dlsym(RTLD_NEXT, "pthread_create");
    int refusal = create(thread, attributes, work, given_to);
    if (refusal == 0 && counts) atomic_fetch_add(&started, 1);
    return refusal;
}

static void tell(void) {
    if (!told) return;
    char text[96];
    int length = snprintf(text, sizeof text, "%ld %ld %ld %ld\n", (long)asked, (long)refused, kept + unnoted, (long)started);
    int file = open(told, O_WRONLY | O_CREAT | O_TRUNC, 0600);
    if (file < 0) return;
    (void)!write(file, text, (size_t)length);
    close(file);
}

// A program with threads ends by this call, which runs no destructor, and one without by its last return.
void _exit(int status) {
    tell();
    for (;;) syscall(SYS_exit_group, status);
}

__attribute__((destructor)) static void end(void) { tell(); }

// The marks are lines that are written whole.
ssize_t write(int file, const void *text, size_t length) {
    if (is_marked && file == STDOUT_FILENO && length == 5) {
        if (memcmp(text, "call\n", 5) == 0) counts = 1;
        if (memcmp(text, "done\n", 5) == 0) counts = 0;
    }
    return syscall(SYS_write, file, text, length);
}
