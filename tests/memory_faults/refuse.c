/* Loaded before libc (LD_PRELOAD): counts the program's allocations, and makes chosen ones fail.

   REFUSE_AT=N      the Nth request fails
   REFUSE_FROM=N    the Nth request and all later ones fail
   REFUSE_EVERY=N   every Nth request fails
   REFUSE_ACCEPTS=N the Nth call that accepts a connection, and all later ones, fail as at a broken listener
   REFUSE_LATER=1   nothing fails or is counted before a signal SIGUSR2, nor after a second one
   REFUSE_TOLD=FILE at the first failure one byte is written to FILE, which has to exist
   REFUSE_MARKS=FILE each time the program writes a line to standard output, the line `requests COUNT`
                    and that line are written to FILE

   A request is a call of malloc, calloc, realloc (unless it returns memory) or an aligned one. Without
   any of the variables nothing fails. */
#define _GNU_SOURCE
#include <dlfcn.h>
#include <errno.h>
#include <fcntl.h>
#include <poll.h>
#include <signal.h>
#include <stdatomic.h>
#include <stddef.h>
#include <stdio.h>
#include <stdlib.h>
#include <string.h>
#include <sys/socket.h>
#include <unistd.h>

extern void *__libc_malloc(size_t);
extern void *__libc_calloc(size_t, size_t);
extern void *__libc_realloc(void *, size_t);
extern void *__libc_memalign(size_t, size_t);

static atomic_ulong requests, accepts;
static atomic_int is_told, is_idle;
static unsigned long at, from, every, last_accepts;
static int told = -1, marks = -1;

static unsigned long number(const char *name) {
    const char *text = getenv(name);
    return text ? strtoul(text, NULL, 10) : 0;
}

static void turn(int signal) {
    (void)signal;
    atomic_store(&is_idle, !atomic_load(&is_idle));
}

/* The count starts with the program, without the allocations of the loader. */
__attribute__((constructor)) static void begin(void) {
    const char *told_to = getenv("REFUSE_TOLD"), *marks_to = getenv("REFUSE_MARKS");
    if (told_to)
        told = open(told_to, O_WRONLY | O_CLOEXEC);
    if (marks_to)
        marks = open(marks_to, O_WRONLY | O_APPEND | O_CLOEXEC);
    from = number("REFUSE_FROM");
    every = number("REFUSE_EVERY");
    at = number("REFUSE_AT");
    last_accepts = number("REFUSE_ACCEPTS");
    atomic_store(&requests, 0);
    if (number("REFUSE_LATER")) {
        struct sigaction by = {.sa_handler = turn, .sa_flags = SA_RESTART};
        sigaction(SIGUSR2, &by, NULL);
        atomic_store(&is_idle, 1);
    }
}

static int is_refused(void) {
    if (atomic_load(&is_idle))
        return 0;
    unsigned long nth = atomic_fetch_add(&requests, 1) + 1;
    int refused = (at && nth == at) || (from && nth >= from) || (every && nth % every == 0);
    if (refused) {
        if (told >= 0 && !atomic_exchange(&is_told, 1) && write(told, "!", 1) < 0)
            _exit(99);
        errno = ENOMEM;
    }
    return refused;
}

void *malloc(size_t size) { return is_refused() ? NULL : __libc_malloc(size); }

void *calloc(size_t count, size_t size) { return is_refused() ? NULL : __libc_calloc(count, size); }

void *realloc(void *old, size_t size) {
    if (old && size == 0)
        return __libc_realloc(old, size);
    return is_refused() ? NULL : __libc_realloc(old, size);
}

void *aligned_alloc(size_t align, size_t size) { return is_refused() ? NULL : __libc_memalign(align, size); }

void *memalign(size_t align, size_t size) { return is_refused() ? NULL : __libc_memalign(align, size); }

int posix_memalign(void **room, size_t align, size_t size) {
    if (is_refused())
        return ENOMEM;
    *room = __libc_memalign(align, size);
    return *room ? 0 : ENOMEM;
}

/* A listener that does not wait is also called when no client has connected, which does not count. */
static int has_nobody(int listener) {
    struct pollfd asked = {.fd = listener, .events = POLLIN};
    return (fcntl(listener, F_GETFL) & O_NONBLOCK) && poll(&asked, 1, 0) == 0;
}

static int has_ended(void) {
    int ended = last_accepts && atomic_fetch_add(&accepts, 1) + 1 >= last_accepts;
    if (ended)
        errno = EINVAL;
    return ended;
}

int accept4(int listener, struct sockaddr *peer, socklen_t *length, int flags) {
    static int (*libc_accept4)(int, struct sockaddr *, socklen_t *, int);
    if (!libc_accept4)
        libc_accept4 = (int (*)(int, struct sockaddr *, socklen_t *, int))dlsym(RTLD_NEXT, "accept4");
    return !has_nobody(listener) && has_ended() ? -1 : libc_accept4(listener, peer, length, flags);
}

int accept(int listener, struct sockaddr *peer, socklen_t *length) { return accept4(listener, peer, length, 0); }

/* Records the program's standard output next to the count, if that is wanted. */
ssize_t write(int file, const void *bytes, size_t length) {
    static ssize_t (*libc_write)(int, const void *, size_t);
    if (!libc_write)
        libc_write = (ssize_t (*)(int, const void *, size_t))dlsym(RTLD_NEXT, "write");
    if (file == 1 && marks >= 0) {
        char head[32];
        int n = snprintf(head, sizeof head, "requests %lu ", atomic_load(&requests));
        if (libc_write(marks, head, (size_t)n) < 0 || libc_write(marks, bytes, length) < 0)
            _exit(98);
    }
    return libc_write(file, bytes, length);
}
