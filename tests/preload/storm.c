// A preloaded library for tests: it stops the threads that a process starts at arbitrary instructions.
//   STORM_SEED=n     what the lengths of all delays and naps are drawn from
//   STORM_THREADS=n  the first n threads begin their work together (after 50 ms at the latest)
// Each of these threads has a timer of its own. When it fires, the thread naps wherever it is, and the timer is set again.
#define _GNU_SOURCE
#include <dlfcn.h>
#include <errno.h>
#include <pthread.h>
#include <signal.h>
#include <stdatomic.h>
#include <stdint.h>
#include <stdlib.h>
#include <sys/syscall.h>
#include <time.h>
#include <unistd.h>

#define SIGNAL SIGRTMAX
#define MICROSECOND 1000L
#ifndef sigev_notify_thread_id
#define sigev_notify_thread_id _sigev_un._tid
#endif

struct start {
    void *(*work)(void *);
    void *given;
};

static atomic_long begun;
static long wanted;
static uint64_t seed;
static __thread uint64_t state;
static __thread timer_t timer;
static __thread int is_timed;

static long number(const char *name) {
    const char *text = getenv(name);
    return text ? atol(text) : 0;
}

static struct timespec duration(long nanoseconds) {
    return (struct timespec){nanoseconds / 1000000000L, nanoseconds % 1000000000L};
}

// A number below the limit, by a xorshift of this thread's own.
static long drawn(long limit) {
    state ^= state << 13;
    state ^= state >> 7;
    state ^= state << 17;
    return (long)(state % (uint64_t)limit);
}

static void set_timer(void) {
    struct itimerspec when = {duration(0), duration((1 + drawn(12)) * MICROSECOND)};
    timer_settime(timer, 0, &when, NULL);
}

// One nap in eight is long enough for others to do a whole visit, or to fall asleep.
static void nap(int signal) {
    (void)signal;
    if (!is_timed) return;
    int kept = errno;
    struct timespec length = duration((drawn(8) ? 20 + drawn(60) : 1 + drawn(700)) * MICROSECOND);
    syscall(SYS_clock_nanosleep, CLOCK_MONOTONIC, 0, &length, NULL);
    set_timer();
    errno = kept;
}

// Waits until all that are to begin together are there, or for 50 ms.
static void begin_together(void) {
    struct timespec step = duration(20 * MICROSECOND);
    for (int turn = 0; begun < wanted && turn < 700; turn++) syscall(SYS_clock_nanosleep, CLOCK_MONOTONIC, 0, &step, NULL);
}

static void *started(void *given) {
    struct start start = *(struct start *)given;
    free(given);
    long place = ++begun;
    state = (seed + 1) * 0x9E3779B97F4A7C15u + (uint64_t)place * 0xD1B54A32D192ED03u;
    for (int turn = 0; turn < 8; turn++) drawn(2);
    begin_together();
    struct sigevent event = {.sigev_notify = SIGEV_THREAD_ID, .sigev_signo = SIGNAL};
    event.sigev_notify_thread_id = (pid_t)syscall(SYS_gettid);
    is_timed = timer_create(CLOCK_MONOTONIC, &event, &timer) == 0;
    if (is_timed) set_timer();
    void *result = start.work(start.given);
    if (is_timed) {
        is_timed = 0;
        timer_delete(timer);
    }
    return result;
}

__attribute__((constructor)) static void begin(void) {
    wanted = number("STORM_THREADS");
    seed = (uint64_t)number("STORM_SEED");
    struct sigaction action = {.sa_handler = nap, .sa_flags = SA_RESTART};
    sigaction(SIGNAL, &action, NULL);
}

int pthread_create(pthread_t *thread, const pthread_attr_t *attributes, void *(*work)(void *), void *given) {
    int (*create)(pthread_t *, const pthread_attr_t *, void *(*)(void *), void *) = dlsym(RTLD_NEXT, "pthread_create");
    struct start *start = malloc(sizeof *start);
    if (!start) return EAGAIN;
    *start = (struct start){work, given};
    int status = create(thread, attributes, started, start);
    if (status) free(start);
    return status;
}
