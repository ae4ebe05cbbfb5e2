/* A load on a work queue server, from one thread: a number of connections, each of which sends a batch of commands,
 * reads all answers, and then sends the next batch.
 *
 *   load HOST PORT SCENARIO NUMBER MILLISECONDS
 *
 * It prints how many commands were answered, how many seconds that took, and the median, the 99th and the
 * 99.9th percentile of a batch's time in microseconds. A wrong answer ends it with status 3.
 */
#include <arpa/inet.h>
#include <errno.h>
#include <netinet/tcp.h>
#include <poll.h>
#include <stdint.h>
#include <stdio.h>
#include <stdlib.h>
#include <string.h>
#include <sys/socket.h>
#include <time.h>
#include <unistd.h>

enum { BATCH = 50, MOST_CONNECTIONS = 512, LARGE = 60000, SMALL = 64, MOST_TIMES = 4000000 };

typedef struct {
    int fd;
    int number;
    int phase;            /* which batch of its round comes next */
    int awaited;          /* how many answers are due */
    int waits;            /* its reserve is answered by another client's put */
    char *out;            /* the data to send, and how much of it was sent */
    size_t out_len, sent;
    char *in;             /* data that was read and not parsed yet */
    size_t in_len;
    uint64_t ids[BATCH];  /* the jobs that it has reserved */
    int held;
    double began;
} Connection;

static Connection all[MOST_CONNECTIONS];
static int connections;
static const size_t ROOM = 1 << 18;
static uint64_t commands;
static double *times;
static size_t timed;
static char body[LARGE + 2];

static double now(void) {
    struct timespec t;
    clock_gettime(CLOCK_MONOTONIC, &t);
    return t.tv_sec + t.tv_nsec / 1e9;
}

static void fail(const char *what) {
    fprintf(stderr, "load: %s\n", what);
    exit(3);
}

static uint32_t random_number(void) {
    static uint32_t state = 2463534242u;
    state ^= state << 13;
    state ^= state >> 17;
    state ^= state << 5;
    return state;
}

static Connection *opened(const char *host, int port) {
    Connection *c = &all[connections];
    struct sockaddr_in at = { .sin_family = AF_INET, .sin_port = htons(port) };
    int on = 1;
    if (connections == MOST_CONNECTIONS || !inet_pton(AF_INET, host, &at.sin_addr)) fail("no such address");
    c->fd = socket(AF_INET, SOCK_STREAM, 0);
    if (c->fd < 0 || connect(c->fd, (struct sockaddr *)&at, sizeof at)) fail("cannot connect");
    setsockopt(c->fd, IPPROTO_TCP, TCP_NODELAY, &on, sizeof on);
    c->number = connections++;
    c->out = malloc(ROOM);
    c->in = malloc(ROOM);
    if (!c->out || !c->in) fail("no memory");
    return c;
}

static void say(Connection *c, const char *text) {
    size_t len = strlen(text);
    if (c->out_len + len > ROOM) fail("a batch is too long");
    memcpy(c->out + c->out_len, text, len);
    c->out_len += len;
    c->awaited++;
}

static void put(Connection *c, uint32_t priority, size_t bytes) {
    char line[64];
    snprintf(line, sizeof line, "put %u 0 60 %zu\r\n", priority, bytes);
    say(c, line);
    if (c->out_len + bytes + 2 > ROOM) fail("a batch is too long");
    memcpy(c->out + c->out_len, body, bytes);
    memcpy(c->out + c->out_len + bytes, "\r\n", 2);
    c->out_len += bytes + 2;
}

static void delete_held(Connection *c) {
    char line[64];
    while (c->held > 0) {
        snprintf(line, sizeof line, "delete %llu\r\n", (unsigned long long)c->ids[--c->held]);
        say(c, line);
    }
}

/* Sends the rest of the batch, and waits if the server reads slowly. */
static void flush(Connection *c) {
    while (c->sent < c->out_len) {
        ssize_t n = send(c->fd, c->out + c->sent, c->out_len - c->sent, MSG_NOSIGNAL);
        if (n < 0) fail("a write failed");
        c->sent += n;
    }
    c->sent = c->out_len = 0;
}

/* Parses one complete answer in the buffer. Returns its length, or 0 if more bytes have to come. */
static size_t answer(Connection *c, const char *bytes, size_t len) {
    const char *end = memchr(bytes, '\n', len);
    unsigned long long id, size;
    char line[256];
    if (!end) return 0;
    size_t head = end - bytes + 1;
    if (head >= sizeof line) fail("a line is too long");
    memcpy(line, bytes, head);
    line[head] = 0;
    if (sscanf(line, "RESERVED %llu %llu", &id, &size) == 2) {
        if (len < head + size + 2) return 0;
        if (c->held == BATCH) fail("too many jobs");
        c->ids[c->held++] = id;
        return head + size + 2;
    }
    if (!strncmp(line, "INSERTED", 8) || !strcmp(line, "DELETED\r\n") || !strncmp(line, "USING", 5)
        || !strncmp(line, "WATCHING", 8))
        return head;
    fprintf(stderr, "load: answered %s", line);
    exit(3);
}

/* Reads what has arrived. Returns true if all answers are there. */
static int read_answers(Connection *c) {
    ssize_t n = recv(c->fd, c->in + c->in_len, ROOM - c->in_len, 0);
    size_t done = 0, len;
    if (n <= 0) fail("a connection was closed");
    c->in_len += n;
    while (c->awaited > 0 && (len = answer(c, c->in + done, c->in_len - done)) > 0) {
        done += len;
        c->awaited--;
        commands++;
    }
    memmove(c->in, c->in + done, c->in_len - done);
    c->in_len -= done;
    return c->awaited == 0;
}

static void ask_and_read(Connection *c) {
    flush(c);
    while (!read_answers(c)) {}
}

static void move_to(Connection *c, const char *tube) {
    char line[300];
    snprintf(line, sizeof line, "use %s\r\n", tube);
    say(c, line);
    snprintf(line, sizeof line, "watch %s\r\n", tube);
    say(c, line);
    if (strcmp(tube, "default")) say(c, "ignore default\r\n");
    ask_and_read(c);
}

static void own_tube(Connection *c) {
    char tube[32];
    snprintf(tube, sizeof tube, "of-%d", c->number);
    move_to(c, tube);
}

/* What a scenario does on each of its connections, and the number of connections. */
static const char *scenario;
static int number;

static void next_batch(Connection *c) {
    int i;
    char line[64];
    if (!strcmp(scenario, "pairs") || !strcmp(scenario, "large") || !strcmp(scenario, "deep")) {
        size_t bytes = scenario[0] == 'l' ? LARGE : SMALL;
        switch (c->phase++ % 3) {
        case 0: put(c, scenario[0] == 'd' ? random_number() : 1024, bytes); break;
        case 1: say(c, "reserve\r\n"); break;
        default: delete_held(c);
        }
    } else if (!strcmp(scenario, "ahead") || !strcmp(scenario, "idle")) {
        switch (c->phase++ % 3) {
        case 0: for (i = 0; i < BATCH; i++) put(c, 1024, SMALL); break;
        case 1: for (i = 0; i < BATCH; i++) say(c, "reserve\r\n"); break;
        default: delete_held(c);
        }
    } else if (!strcmp(scenario, "fan")) {
        if (c->waits) {
            if (c->phase++ % 2) delete_held(c); else say(c, "reserve\r\n");
        } else {
            put(c, 1024, SMALL);
        }
    } else if (!strcmp(scenario, "tubes")) {
        snprintf(line, sizeof line, "use tube-%u\r\n", random_number() % number);
        say(c, line);
        put(c, 1024, SMALL);
    } else {
        fail("no such scenario");
    }
    c->began = now();
    flush(c);
}

static void note_time(double seconds) {
    if (timed < MOST_TIMES) times[timed++] = seconds * 1e6;
}

static void serve_until(double end, int from) {
    struct pollfd fds[MOST_CONNECTIONS];
    int i;
    for (i = from; i < connections; i++) {
        fds[i - from].fd = all[i].fd;
        fds[i - from].events = POLLIN;
        next_batch(&all[i]);
    }
    while (now() < end) {
        if (poll(fds, connections - from, 1000) < 0 && errno != EINTR) fail("poll failed");
        for (i = from; i < connections; i++) {
            if (!(fds[i - from].revents & (POLLIN | POLLHUP | POLLERR))) continue;
            if (read_answers(&all[i])) {
                note_time(now() - all[i].began);
                next_batch(&all[i]);
            }
        }
    }
}

/* A put at a random moment, for a waiting worker: measures the time until the worker has the job. */
static void hand_off(double end) {
    Connection *worker = &all[0], *producer = &all[1];
    while (now() < end) {
        double began;
        say(worker, "reserve\r\n");
        flush(worker);
        usleep(200 + random_number() % 3000);
        put(producer, 1024, SMALL);
        began = now();
        flush(producer);
        while (!read_answers(worker)) {}
        note_time(now() - began);
        while (!read_answers(producer)) {}
        delete_held(worker);
        ask_and_read(worker);
    }
}

static int is_less(const void *a, const void *b) {
    double x = *(const double *)a, y = *(const double *)b;
    return (x > y) - (x < y);
}

int main(int argc, char **argv) {
    if (argc != 6) fail("load HOST PORT SCENARIO NUMBER MILLISECONDS");
    const char *host = argv[1];
    int port = atoi(argv[2]), i, from = 0;
    double span = atoi(argv[5]) / 1e3, began;
    scenario = argv[3];
    number = atoi(argv[4]);
    times = malloc(MOST_TIMES * sizeof *times);
    memset(body, 'x', LARGE);
    int many = !strcmp(scenario, "pairs") || !strcmp(scenario, "ahead") ? number
        : !strcmp(scenario, "fan") ? 2 * number : !strcmp(scenario, "handoff") ? 2 : 1;
    if (!strcmp(scenario, "idle"))
        for (; from < number; from++) {
            Connection *c = opened(host, port);
            own_tube(c);
            say(c, "reserve\r\n");
            flush(c);
        }
    for (i = 0; i < many; i++) {
        Connection *c = opened(host, port);
        c->waits = !strcmp(scenario, "fan") && i % 2;
        if (!strcmp(scenario, "fan") || !strcmp(scenario, "handoff") || !strcmp(scenario, "deep")) move_to(c, "shared");
        else own_tube(c);
    }
    if (!strcmp(scenario, "deep"))
        for (i = 0; i < number; i += BATCH) {
            for (int k = 0; k < BATCH; k++) put(&all[0], random_number(), SMALL);
            ask_and_read(&all[0]);
        }
    if (!strcmp(scenario, "tubes"))
        for (i = 0; i < number; i++) {
            char line[64];
            snprintf(line, sizeof line, "watch tube-%d\r\n", i);
            say(&all[0], line);
            ask_and_read(&all[0]);
        }
    commands = 0;
    began = now();
    if (!strcmp(scenario, "handoff")) hand_off(began + span);
    else serve_until(began + span, from);
    double took = now() - began;
    qsort(times, timed, sizeof *times, is_less);
    printf("%llu %.6f %.1f %.1f %.1f\n", (unsigned long long)commands, took, timed ? times[timed / 2] : 0,
           timed ? times[timed * 99 / 100] : 0, timed ? times[timed * 999 / 1000] : 0);
    return 0;
}
