// A preloaded library for tests: standard input and output of the process behave as its environment says. For IN and OUT:
//   DEVICE_IN_BYTES=n   a call moves n bytes at most
//   DEVICE_IN_WAITS=n   before each call that does anything n calls are interrupted
//   DEVICE_IN_FAILS=n   the n-th call that does anything, and each after it, fails
//   DEVICE_IN_ENDS=1    each call after the one that found the end of the input fails
//   DEVICE_THREADS=n    n threads are started, and no more
//   DEVICE_RANDOM=1     the system has no random bytes
//   DEVICE_TOLD=F       at the end the file F gets two numbers: the reads and the writes that did or failed something
#define _GNU_SOURCE
#include <dlfcn.h>
#include <errno.h>
#include <fcntl.h>
#include <pthread.h>
#include <stdio.h>
#include <stdlib.h>
#include <sys/syscall.h>
#include <unistd.h>

struct device {
    long bytes, waits, fails;
    long interrupted, done;
    long ends, ended;
};

static struct device in, out;
static long started;
static const char *told;

static long number(const char *name) {
    const char *text = getenv(name);
    return text ? atol(text) : 0;
}

__attribute__((constructor)) static void begin(void) {
    in = (struct device){number("DEVICE_IN_BYTES"), number("DEVICE_IN_WAITS"), number("DEVICE_IN_FAILS"), 0, 0, number("DEVICE_IN_ENDS"), 0};
    out = (struct device){number("DEVICE_OUT_BYTES"), number("DEVICE_OUT_WAITS"), number("DEVICE_OUT_FAILS"), 0, 0, 0, 0};
    told = getenv("DEVICE_TOLD");
}

// Moves bytes by this call of the system, or does what the device does instead.
static ssize_t move(struct device *device, long call, int file, void *text, size_t length) {
    if (device->interrupted < device->waits) {
        device->interrupted++;
        errno = EINTR;
        return -1;
    }
    device->interrupted = 0;
    device->done++;
    if ((device->fails && device->done >= device->fails) || device->ended) {
        errno = EIO;
        return -1;
    }
    if (device->bytes && length > (size_t)device->bytes) length = (size_t)device->bytes;
    ssize_t moved = syscall(call, file, text, length);
    if (device->ends && moved == 0 && length > 0) device->ended = 1;
    return moved;
}

ssize_t read(int file, void *text, size_t length) {
    return file == STDIN_FILENO ? move(&in, SYS_read, file, text, length) : syscall(SYS_read, file, text, length);
}

ssize_t write(int file, const void *text, size_t length) {
    return file == STDOUT_FILENO ? move(&out, SYS_write, file, (void *)text, length) : syscall(SYS_write, file, text, length);
}

// Starts a thread, unless there are as many already as may be.
int pthread_create(pthread_t *thread, const pthread_attr_t *attributes, void *(*work)(void *), void *given) {
    int (*create)(pthread_t *, const pthread_attr_t *, void *(*)(void *), void *) = dlsym(RTLD_NEXT, "pthread_create");
    if (getenv("DEVICE_THREADS") && started >= number("DEVICE_THREADS")) return EAGAIN;
    started++;
    return create(thread, attributes, work, given);
}

// Fills the room with random bytes, unless there are none.
int getentropy(void *room, size_t length) {
    int (*filled)(void *, size_t) = dlsym(RTLD_NEXT, "getentropy");
    if (getenv("DEVICE_RANDOM")) {
        errno = ENOSYS;
        return -1;
    }
    return filled(room, length);
}

static void tell(void) {
    if (told) {
        char text[64];
        int length = snprintf(text, sizeof text, "%ld %ld\n", in.done, out.done);
        int file = open(told, O_WRONLY | O_CREAT | O_TRUNC, 0600);
        if (file >= 0) {
            syscall(SYS_write, file, text, (size_t)length);
            close(file);
        }
    }
}

// A program with threads ends by this call, which runs no destructor, and one without by its last return.
void _exit(int status) {
    tell();
    for (;;) syscall(SYS_exit_group, status);
}

__attribute__((destructor)) static void end(void) { tell(); }
