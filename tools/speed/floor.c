/* The floor: what a server on one thread costs by the system alone. It waits by epoll, receives once for each event,
 * and sends each answer by a call of its own, as a server has to whose clients may miss no answer but the last. Its
 * queue is next to nothing: first in, first out in each tube. There are no priorities, delays, leases or limits, and it
 * checks nothing. It serves the loads of load.c and no other client.
 *
 *   floor PORT
 */
#include <arpa/inet.h>
#include <errno.h>
#include <netinet/tcp.h>
#include <stdio.h>
#include <stdlib.h>
#include <string.h>
#include <sys/epoll.h>
#include <sys/socket.h>
#include <unistd.h>

enum { MOST_DESCRIPTORS = 4096, TUBES = 1 << 14, EVENTS = 128, ROOM = 1 << 16 };

typedef struct Job {
    struct Job *next;
    unsigned long id;
    size_t len;
    char body[];            /* with its CR LF */
} Job;

typedef struct Connection {
    int fd;
    int waits;
    struct Tube *used, *watched;
    struct Connection *next_waiting;
    char *in;
    size_t in_len, in_room;
} Connection;

typedef struct Tube {
    char name[204];
    Job *first, **end;
    Connection *waiting, **waiting_end;
} Tube;

static Tube tubes[TUBES];
static Connection *connections[MOST_DESCRIPTORS];
static Job **jobs;
static unsigned long next_id = 1, rooms;

static void fail(const char *what) {
    perror(what);
    exit(1);
}

static Tube *tube_of(const char *name, size_t len) {
    unsigned place = 5381;
    for (size_t i = 0; i < len; i++) place = place * 33 ^ (unsigned char)name[i];
    for (;; place++) {
        Tube *it = &tubes[place % TUBES];
        if (!it->end) {
            memcpy(it->name, name, len);
            it->end = &it->first;
            it->waiting_end = &it->waiting;
            return it;
        }
        if (strlen(it->name) == len && !memcmp(it->name, name, len)) return it;
    }
}

/* Sends an answer. More answers follow if `more` is true, so the system may keep this one for a moment. */
static void answer(Connection *c, const char *bytes, size_t len, int more) {
    while (len) {
        ssize_t n = send(c->fd, bytes, len, MSG_NOSIGNAL | (more ? MSG_MORE : 0));
        if (n < 0 && errno != EAGAIN) return;
        if (n < 0) {
            usleep(50);
            continue;
        }
        bytes += n;
        len -= n;
    }
}

static void give(Connection *c, Job *job, int more) {
    static char text[ROOM + 64];
    size_t head = sprintf(text, "RESERVED %lu %zu\r\n", job->id, job->len);
    memcpy(text + head, job->body, job->len + 2);
    answer(c, text, head + job->len + 2, more);
}

static void put(Connection *c, const char *body, size_t len, int more) {
    char text[64];
    Tube *tube = c->used;
    Job *job = malloc(sizeof *job + len + 2);
    if (next_id >= rooms) jobs = realloc(jobs, sizeof *jobs * (rooms = rooms ? rooms * 2 : 1 << 16));
    if (!job || !jobs) fail("memory");
    job->next = NULL;
    job->id = next_id++;
    job->len = len;
    memcpy(job->body, body, len + 2);
    jobs[job->id] = job;
    answer(c, text, sprintf(text, "INSERTED %lu\r\n", job->id), more);
    if (tube->waiting) {
        Connection *it = tube->waiting;
        tube->waiting = it->next_waiting;
        if (!tube->waiting) tube->waiting_end = &tube->waiting;
        it->waits = 0;
        give(it, job, 0);
    } else {
        *tube->end = job;
        tube->end = &job->next;
    }
}

static void reserve(Connection *c, int more) {
    Tube *tube = c->watched;
    Job *job = tube->first;
    if (job) {
        tube->first = job->next;
        if (!tube->first) tube->end = &tube->first;
        give(c, job, more);
    } else {
        c->waits = 1;
        c->next_waiting = NULL;
        *tube->waiting_end = c;
        tube->waiting_end = &c->next_waiting;
    }
}

/* Carries out the first command of these bytes. Returns how many it has, or 0 if more bytes have to come. */
static size_t carry_out(Connection *c, char *bytes, size_t len) {
    char text[256];
    char *end = memchr(bytes, '\n', len);
    if (!end) return 0;
    size_t line = end - bytes - 1, taken = line + 2, body = 0;
    int is_put = !memcmp(bytes, "put ", 4);
    if (is_put) {
        const char *last = memrchr(bytes, ' ', line);
        body = strtoul(last + 1, NULL, 10);
        if (len < taken + body + 2) return 0;
    }
    size_t whole = taken + (is_put ? body + 2 : 0);
    int more = memchr(bytes + whole, '\n', len - whole) != NULL;
    if (is_put) {
        put(c, bytes + taken, body, more);
    } else if (!memcmp(bytes, "reserve\r", 8)) {
        reserve(c, more);
    } else if (!memcmp(bytes, "delete ", 7)) {
        unsigned long id = strtoul(bytes + 7, NULL, 10);
        free(jobs[id]);
        jobs[id] = NULL;
        answer(c, "DELETED\r\n", 9, more);
    } else if (!memcmp(bytes, "use ", 4)) {
        c->used = tube_of(bytes + 4, line - 4);
        answer(c, text, sprintf(text, "USING %.*s\r\n", (int)line - 4, bytes + 4), more);
    } else if (!memcmp(bytes, "watch ", 6)) {
        c->watched = tube_of(bytes + 6, line - 6);
        answer(c, "WATCHING 2\r\n", 12, more);
    } else if (!memcmp(bytes, "ignore ", 7)) {
        answer(c, "WATCHING 1\r\n", 12, more);
    } else {
        answer(c, "UNKNOWN_COMMAND\r\n", 17, more);
    }
    return whole;
}

static void end(Connection *c) {
    if (c->waits) {
        Connection **it = &c->watched->waiting;
        while (*it && *it != c) it = &(*it)->next_waiting;
        if (*it) *it = c->next_waiting;
        for (it = &c->watched->waiting; *it;) it = &(*it)->next_waiting;
        c->watched->waiting_end = it;
    }
    connections[c->fd] = NULL;
    close(c->fd);
    free(c->in);
    free(c);
}

static void receive(Connection *c) {
    size_t done = 0, taken;
    if (c->in_len == c->in_room) c->in = realloc(c->in, c->in_room *= 2);
    if (!c->in) fail("memory");
    ssize_t n = recv(c->fd, c->in + c->in_len, c->in_room - c->in_len, 0);
    if (n < 0 && errno == EAGAIN) return;
    if (n <= 0) {
        end(c);
        return;
    }
    c->in_len += n;
    while (!c->waits && (taken = carry_out(c, c->in + done, c->in_len - done))) done += taken;
    memmove(c->in, c->in + done, c->in_len - done);
    c->in_len -= done;
}

static void accept_one(int listener, int epoll) {
    int on = 1, fd = accept4(listener, NULL, NULL, SOCK_NONBLOCK);
    if (fd < 0 || fd >= MOST_DESCRIPTORS) return;
    Connection *c = calloc(1, sizeof *c);
    struct epoll_event event = { .events = EPOLLIN, .data.fd = fd };
    setsockopt(fd, IPPROTO_TCP, TCP_NODELAY, &on, sizeof on);
    connections[fd] = c;
    c->fd = fd;
    c->used = c->watched = tube_of("default", 7);
    c->in = malloc(c->in_room = ROOM);
    epoll_ctl(epoll, EPOLL_CTL_ADD, fd, &event);
}

int main(int argc, char **argv) {
    struct sockaddr_in at = { .sin_family = AF_INET, .sin_addr.s_addr = htonl(INADDR_LOOPBACK) };
    struct epoll_event event = { .events = EPOLLIN }, events[EVENTS];
    int on = 1, listener = socket(AF_INET, SOCK_STREAM, 0), epoll = epoll_create1(0);
    if (argc != 2) return 2;
    at.sin_port = htons(atoi(argv[1]));
    event.data.fd = listener;
    setsockopt(listener, SOL_SOCKET, SO_REUSEADDR, &on, sizeof on);
    if (bind(listener, (struct sockaddr *)&at, sizeof at) || listen(listener, 512)) fail("bind");
    epoll_ctl(epoll, EPOLL_CTL_ADD, listener, &event);
    for (;;) {
        int many = epoll_wait(epoll, events, EVENTS, -1);
        for (int i = 0; i < many; i++) {
            int fd = events[i].data.fd;
            if (fd == listener) accept_one(listener, epoll);
            else if (connections[fd]) receive(connections[fd]);
        }
    }
}
