/* Loaded before libc (LD_PRELOAD): chosen system calls fail, as they may at any time.

   FAULT_ACCEPTS=CODE  the first FAULT_TIMES calls that accept a connection fail with this error, after FAULT_AFTER calls
                       that do not; if FAULT_EACH is set, only one of that many calls
   FAULT_READS=CODE    the first FAULT_TIMES calls that read a connection fail with this error
   FAULT_ENDS=CODE     the first FAULT_TIMES calls that would find the end of a connection fail with this error
   FAULT_WRITES=CODE   the FAULT_NTH-th call that writes to a connection fails with this error; if FAULT_CUT is set, the
                       call before it takes at most that many bytes
   FAULT_WATCHES=CODE  the first FAULT_TIMES calls that have the system watch a descriptor fail with this error: a
                       connection, or what FAULT_WATCHED names: `listener`, or `input`, which is standard input
   FAULT_NODELAY=CODE  the first FAULT_TIMES calls that have a connection send each write at once fail with this error
   FAULT_THREAD=N      the Nth thread can't be started
   FAULT_CLOCK=N       the clock runs N times as fast, and sleeps and waits with a time limit are that much shorter
   FAULT_STEP=N        a second after it is first read, the clock of the date goes ahead by N seconds
   FAULT_MEMORY=FILE   while this file exists, requests for memory of FAULT_LEAST bytes or more fail

   Without any of the variables no call fails. */
#define _GNU_SOURCE
#include <dlfcn.h>
#include <errno.h>
#include <linux/futex.h>
#include <netinet/in.h>
#include <netinet/tcp.h>
#include <pthread.h>
#include <stdarg.h>
#include <stdatomic.h>
#include <stdlib.h>
#include <string.h>
#include <sys/epoll.h>
#include <sys/socket.h>
#include <sys/syscall.h>
#include <time.h>
#include <unistd.h>

extern void *__libc_malloc(size_t);
extern void *__libc_realloc(void *, size_t);
extern void *__libc_memalign(size_t, size_t);

static atomic_long accepts, reads, ends, writes, watches, switches, threads, began;
static long accept_code, read_code, end_code, write_code, nth, cut, watch_code, switch_code, after, each, times;
static long refused_thread, speed, step, least;
static const char *watched, *memory;

static long number(const char *name) {
    const char *text = getenv(name);
    return text ? strtol(text, NULL, 10) : 0;
}

__attribute__((constructor)) static void begin(void) {
    accept_code = number("FAULT_ACCEPTS");
    read_code = number("FAULT_READS");
    end_code = number("FAULT_ENDS");
    write_code = number("FAULT_WRITES");
    nth = number("FAULT_NTH");
    cut = number("FAULT_CUT");
    watch_code = number("FAULT_WATCHES");
    switch_code = number("FAULT_NODELAY");
    after = number("FAULT_AFTER");
    each = number("FAULT_EACH");
    times = number("FAULT_TIMES");
    refused_thread = number("FAULT_THREAD");
    speed = number("FAULT_CLOCK") > 1 ? number("FAULT_CLOCK") : 1;
    step = number("FAULT_STEP");
    least = number("FAULT_LEAST");
    watched = getenv("FAULT_WATCHED");
    memory = getenv("FAULT_MEMORY");
}

static int fails(atomic_long *calls, long code, long skipped, long one_in) {
    long call = code ? atomic_fetch_add(calls, 1) - skipped : 0;
    int failed = code && 0 <= call && call % one_in == 0 && call / one_in < times;
    if (failed)
        errno = (int)code;
    return failed;
}

int accept4(int listener, struct sockaddr *peer, socklen_t *length, int flags) {
    int (*libc_accept4)(int, struct sockaddr *, socklen_t *, int) = dlsym(RTLD_NEXT, "accept4");
    return fails(&accepts, accept_code, after, each ? each : 1) ? -1 : libc_accept4(listener, peer, length, flags);
}

ssize_t recv(int socket, void *room, size_t length, int flags) {
    ssize_t (*libc_recv)(int, void *, size_t, int) = dlsym(RTLD_NEXT, "recv");
    if (fails(&reads, read_code, 0, 1))
        return -1;
    ssize_t came = libc_recv(socket, room, length, flags);
    return came == 0 && length && fails(&ends, end_code, 0, 1) ? -1 : came;
}

ssize_t send(int socket, const void *bytes, size_t length, int flags) {
    ssize_t (*libc_send)(int, const void *, size_t, int) = dlsym(RTLD_NEXT, "send");
    long call = write_code ? atomic_fetch_add(&writes, 1) + 1 : 0;
    if (write_code && call == nth) {
        errno = (int)write_code;
        return -1;
    }
    int is_cut = write_code && cut && call + 1 == nth && (size_t)cut < length;
    return libc_send(socket, bytes, is_cut ? (size_t)cut : length, flags);
}

/* Whether this is the kind of descriptor that can't be watched. */
static int is_watched(int file) {
    struct sockaddr_storage peer;
    socklen_t length = sizeof peer;
    int listens = 0;
    socklen_t size = sizeof listens;
    if (!watched)
        return getpeername(file, (struct sockaddr *)&peer, &length) == 0;
    if (!strcmp(watched, "input"))
        return file == 0;
    return getsockopt(file, SOL_SOCKET, SO_ACCEPTCONN, &listens, &size) == 0 && listens;
}

int epoll_ctl(int set, int change, int file, struct epoll_event *event) {
    int (*libc_epoll_ctl)(int, int, int, struct epoll_event *) = dlsym(RTLD_NEXT, "epoll_ctl");
    int is_new = watch_code && change == EPOLL_CTL_ADD && is_watched(file);
    return is_new && fails(&watches, watch_code, 0, 1) ? -1 : libc_epoll_ctl(set, change, file, event);
}

int setsockopt(int socket, int level, int option, const void *value, socklen_t length) {
    int (*libc_setsockopt)(int, int, int, const void *, socklen_t) = dlsym(RTLD_NEXT, "setsockopt");
    int sends_at_once = level == IPPROTO_TCP && option == TCP_NODELAY && *(const int *)value;
    return sends_at_once && fails(&switches, switch_code, 0, 1) ? -1 : libc_setsockopt(socket, level, option, value, length);
}

int pthread_create(pthread_t *thread, const pthread_attr_t *how, void *(*work)(void *), void *given) {
    int (*libc_create)(pthread_t *, const pthread_attr_t *, void *(*)(void *), void *) = dlsym(RTLD_NEXT, "pthread_create");
    if (refused_thread && atomic_fetch_add(&threads, 1) + 1 == refused_thread)
        return EAGAIN;
    return libc_create(thread, how, work, given);
}

/* A wait without a time limit is one of some hundred years. */
static struct timespec shorter(const struct timespec *asked) {
    long long rest = (asked->tv_sec % speed * 1000000000LL + asked->tv_nsec) / speed;
    return (struct timespec){asked->tv_sec / speed + rest / 1000000000, rest % 1000000000};
}

int nanosleep(const struct timespec *asked, struct timespec *left) {
    int (*libc_nanosleep)(const struct timespec *, struct timespec *) = dlsym(RTLD_NEXT, "nanosleep");
    struct timespec mine = shorter(asked);
    return libc_nanosleep(&mine, left);
}

int epoll_wait(int poll, struct epoll_event *events, int most, int wait) {
    int (*libc_wait)(int, struct epoll_event *, int, int) = dlsym(RTLD_NEXT, "epoll_wait");
    return libc_wait(poll, events, most, wait > 0 ? (int)(wait / speed) + 1 : wait);
}

/* The waits of threads for each other: their limit is a duration, or a moment of the clock. */
long syscall(long number, ...) {
    long (*libc_syscall)(long, ...) = dlsym(RTLD_NEXT, "syscall");
    long given[6];
    va_list all;
    va_start(all, number);
    for (int at = 0; at < 6; at++)
        given[at] = va_arg(all, long);
    va_end(all);
    struct timespec mine;
    if (number == SYS_futex && given[3] && ((given[1] & 127) == FUTEX_WAIT || (given[1] & 127) == FUTEX_WAIT_BITSET)) {
        mine = shorter((struct timespec *)given[3]);
        given[3] = (long)&mine;
    }
    return libc_syscall(number, given[0], given[1], given[2], given[3], given[4], given[5]);
}

/* Whether a second has passed since the first call. */
static int is_later(long second) {
    long first = 0;
    atomic_compare_exchange_strong(&began, &first, second);
    return first && second > first + 1;
}

int clock_gettime(clockid_t clock, struct timespec *told) {
    int (*libc_gettime)(clockid_t, struct timespec *) = dlsym(RTLD_NEXT, "clock_gettime");
    int status = libc_gettime(clock, told);
    struct timespec now;
    if (step && !status && !libc_gettime(CLOCK_MONOTONIC, &now) && is_later(now.tv_sec) && clock == CLOCK_REALTIME)
        told->tv_sec += step;
    if (speed > 1 && !status) {
        told->tv_sec *= speed;
        told->tv_nsec *= speed;
        told->tv_sec += told->tv_nsec / 1000000000;
        told->tv_nsec %= 1000000000;
    }
    return status;
}

static int is_refused(size_t size) {
    int refused = memory && size >= (size_t)least && access(memory, F_OK) == 0;
    if (refused)
        errno = ENOMEM;
    return refused;
}

void *malloc(size_t size) { return is_refused(size) ? NULL : __libc_malloc(size); }

void *realloc(void *made, size_t size) { return is_refused(size) ? NULL : __libc_realloc(made, size); }

void *memalign(size_t aligned, size_t size) { return is_refused(size) ? NULL : __libc_memalign(aligned, size); }

void *aligned_alloc(size_t aligned, size_t size) { return memalign(aligned, size); }

int posix_memalign(void **made, size_t aligned, size_t size) {
    *made = memalign(aligned, size);
    return *made ? 0 : ENOMEM;
}
