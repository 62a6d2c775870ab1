// A preloaded library for tests: at the end the file in THREADS_TOLD gets seven numbers: the bytes of the largest stack that a
// thread was given, in microseconds the longest nap below THREADS_LONG and the longest of all, how many naps of THREADS_LONG there
// were, how many as long or longer, and how many of these ended early; and how often a thread rested. A nap is a wait
// that ends within a day. A rest is one that does not, of a thread whose last nap was below THREADS_LONG.
#define _GNU_SOURCE
#include <dlfcn.h>
#include <fcntl.h>
#include <linux/futex.h>
#include <pthread.h>
#include <stdarg.h>
#include <stdatomic.h>
#include <stdio.h>
#include <stdlib.h>
#include <sys/syscall.h>
#include <time.h>
#include <unistd.h>

static atomic_long stack, brief, longest, firsts, longs, roused, rests;
static __thread int napped_briefly;
static long from;
static const char *told;
static long (*call)(long, ...);

#define A_DAY 86400

static void keep_largest(atomic_long *kept, long seen) {
    long before = atomic_load(kept);
    while (seen > before && !atomic_compare_exchange_weak(kept, &before, seen)) {
    }
}

__attribute__((constructor)) static void begin(void) {
    told = getenv("THREADS_TOLD");
    from = getenv("THREADS_LONG") ? atol(getenv("THREADS_LONG")) : 0;
    call = (long (*)(long, ...))dlsym(RTLD_NEXT, "syscall");
}

int pthread_attr_setstacksize(pthread_attr_t *attributes, size_t bytes) {
    int (*set)(pthread_attr_t *, size_t) = (int (*)(pthread_attr_t *, size_t))dlsym(RTLD_NEXT, "pthread_attr_setstacksize");
    keep_largest(&stack, (long)bytes);
    return set(attributes, bytes);
}

long syscall(long number, ...) {
    va_list given;
    va_start(given, number);
    long words[6];
    for (int i = 0; i < 6; i++) words[i] = va_arg(given, long);
    va_end(given);
    if (number == SYS_futex && (words[1] & FUTEX_CMD_MASK) == FUTEX_WAIT && words[3]) {
        const struct timespec *wait = (const struct timespec *)words[3];
        if (wait->tv_sec >= A_DAY) {
            if (napped_briefly) rests++;
            return call(number, words[0], words[1], words[2], words[3], words[4], words[5]);
        }
        long micros = wait->tv_sec * 1000000 + wait->tv_nsec / 1000;
        keep_largest(&longest, micros);
        napped_briefly = micros < from;
        if (napped_briefly) keep_largest(&brief, micros);
        long ended = call(number, words[0], words[1], words[2], words[3], words[4], words[5]);
        if (micros >= from) {
            longs++;
            if (micros == from) firsts++;
            if (ended == 0) roused++;
        }
        return ended;
    }
    return call(number, words[0], words[1], words[2], words[3], words[4], words[5]);
}

// A program with threads ends by this call, which runs no destructor.
void _exit(int status) {
    if (told) {
        char text[256];
        int length = snprintf(text, sizeof text, "%ld %ld %ld %ld %ld %ld %ld\n", (long)stack, (long)brief, (long)longest, (long)firsts,
                              (long)longs, (long)roused, (long)rests);
        int file = open(told, O_WRONLY | O_CREAT | O_TRUNC, 0600);
        if (file >= 0) {
            (void)!write(file, text, (size_t)length);
            close(file);
        }
    }
    for (;;) call(SYS_exit_group, (long)status);
}
