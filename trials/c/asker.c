// Asks this store, etcd (its v2 interface) or redis, and prints requests a second:
//
//     asker store|etcd|redis PUT|GET|REWRITE PORT CONNECTIONS SECONDS [THREADS [FIRST [TOGETHER [REQUESTS [STRIDE]]]]]
//
// Values of 100 bytes under 1,000 keys, over loopback. One request at a time on each connection, or so many TOGETHER: the next are sent
// once the answers to the last ones have come. The connections are shared out among the threads, which wait for answers by epoll: one
// thread, where nothing is said. A write without a context is a sibling of what stands there, so this store's writes go to a further
// bucket after each 1,000, the first of them the bucket with the number FIRST, which is read. Where REQUESTS are said, no more writes are
// sent than that (and those that are sent together), each of a key of its own, in an order that is scattered by STRIDE, a prime (7919),
// and reads go over the keys of such writes again and again until the time is over. REWRITE is for this store alone: each connection
// reads in turn 50 keys of its own, and writes each again in the context that it was told, so that what is stored doesn't grow. A line is
// printed: requests a second, and the microseconds in which half of the answers, and 99 of 100 of them, came. An answer that isn't that
// of a write or a read that succeeded ends it with status 1.
//
//     cc -O2 -pthread -o asker asker.c
#define _GNU_SOURCE
#include <arpa/inet.h>
#include <netinet/tcp.h>
#include <pthread.h>
#include <stdarg.h>
#include <stdatomic.h>
#include <stdio.h>
#include <stdlib.h>
#include <string.h>
#include <sys/epoll.h>
#include <sys/socket.h>
#include <time.h>
#include <unistd.h>

enum { KEYS = 1000, OWN = 50, VALUE = 100, ROOM = 32768, CONTEXT = 600, REQUEST = 2048, SLOWEST = 100000 };
enum { MOST = 4096, EVENTS = 256, MOST_TOGETHER = 64 };

enum server { STORE, ETCD, REDIS };
enum method { PUT, GET, REWRITE };

static enum server server;
static enum method method;
static int port;
static double seconds;
static unsigned long first;
static int together = 1;
static unsigned long requests;
static unsigned long stride = 7919;
static char value[VALUE + 1];
static atomic_ulong asked;

// A connection, what it asks for and how often it asked, how many answers it waits for, the context that it was told last, what came of its
// answers, and when its requests were sent.
struct connection {
    int socket;
    int number;
    enum method method;
    unsigned long asked;
    int waiting;
    size_t length;
    double sent;
    char context[CONTEXT];
    char answer[ROOM + 1];
};

// A thread, its connections, and how many answers took so many microseconds.
struct asker {
    struct connection *connections;
    int count;
    unsigned long told;
    unsigned times[SLOWEST + 1];
};

static void fail(const char *form, ...) {
    va_list words;
    va_start(words, form);
    vfprintf(stderr, form, words);
    va_end(words);
    fputc('\n', stderr);
    exit(1);
}

static double now(void) {
    struct timespec time;
    clock_gettime(CLOCK_MONOTONIC, &time);
    return time.tv_sec + time.tv_nsec / 1e9;
}

static int request(char *to, enum method method, unsigned long turn, unsigned long key) {
    switch (server) {
    case STORE:
        if (method == GET)
            return sprintf(to, "GET /buckets/load%lu/keys/%lu HTTP/1.1\r\nHost: load\r\n\r\n", first + (requests ? turn : 0), key);
        return sprintf(to,
                       "PUT /buckets/load%lu/keys/%lu HTTP/1.1\r\nHost: load\r\nContent-Type: text/plain\r\n"
                       "Content-Length: %d\r\n\r\n%s",
                       first + turn, key, VALUE, value);
    case ETCD:
        if (method == GET)
            return sprintf(to, "GET /v2/keys/load/%lu HTTP/1.1\r\nHost: load\r\n\r\n", key);
        return sprintf(to,
                       "PUT /v2/keys/load/%lu HTTP/1.1\r\nHost: load\r\nContent-Type: application/x-www-form-urlencoded\r\n"
                       "Content-Length: %d\r\n\r\nvalue=%s",
                       key, VALUE + 6, value);
    default:
        if (requests)
            key += turn * KEYS;
        if (method == GET)
            return sprintf(to, "*2\r\n$3\r\nGET\r\n$12\r\nload%08lu\r\n", key);
        return sprintf(to, "*3\r\n$3\r\nSET\r\n$12\r\nload%08lu\r\n$%d\r\n%s\r\n", key, VALUE, value);
    }
}

// The next of a read and a write of each of some keys of its own.
static int rewrite(struct connection *c, char *to) {
    unsigned long key = c->asked / 2 % OWN;
    c->method = c->asked % 2 ? PUT : GET;
    c->asked++;
    if (c->method == GET)
        return sprintf(to, "GET /buckets/own%d/keys/%lu HTTP/1.1\r\nHost: load\r\n\r\n", c->number, key);
    return sprintf(to,
                   "PUT /buckets/own%d/keys/%lu HTTP/1.1\r\nHost: load\r\nContent-Type: text/plain\r\n%s"
                   "Content-Length: %d\r\n\r\n%s",
                   c->number, key, c->context, VALUE, value);
}

// The next request of a connection.
static int next_request(struct connection *c, char *to) {
    if (method == REWRITE)
        return rewrite(c, to);
    unsigned long number = atomic_fetch_add(&asked, 1);
    c->method = method;
    if (requests && (method == GET || number < requests))
        number = number % requests * stride % requests;
    return request(to, method, number / KEYS, number % KEYS);
}

static void ask(struct connection *c) {
    char bytes[MOST_TOGETHER * REQUEST];
    int length = 0;
    for (c->waiting = 0; c->waiting < together; c->waiting++)
        length += next_request(c, bytes + length);
    c->length = 0;
    c->sent = now();
    if (send(c->socket, bytes, length, MSG_NOSIGNAL) != length)
        fail("the connection took no request");
}

// How long an answer over HTTP is, or 0 while that isn't known.
static size_t http_length(const char *answer) {
    const char *end = strstr(answer, "\r\n\r\n");
    if (!end)
        return 0;
    size_t body = 0;
    for (const char *line = answer; line < end; line = strchr(line, '\n') + 1)
        if (!strncasecmp(line, "Content-Length:", 15))
            body = strtoul(line + 15, NULL, 10);
    return end + 4 - answer + body;
}

// How long an answer of redis is, or 0 while that isn't known.
static size_t redis_length(const char *answer) {
    const char *end = strstr(answer, "\r\n");
    if (!end)
        return 0;
    return end + 2 - answer + (answer[0] == '$' && answer[1] != '-' ? strtoul(answer + 1, NULL, 10) + 2 : 0);
}

// The length of the answer that stands in front, or 0 while it isn't whole.
static size_t whole_length(const char *answer, const char *end) {
    size_t length = server == REDIS ? redis_length(answer) : http_length(answer);
    return answer + length <= end ? length : 0;
}

static int is_right(const struct connection *c, const char *answer) {
    if (server == REDIS)
        return c->method == GET ? !strncmp(answer, "$100\r\n", 6) : !strncmp(answer, "+OK", 3);
    int status = atoi(answer + 9);
    if (c->method == GET)
        return status == 200 || (method == REWRITE && status == 404);
    return status == 200 || status == 201 || status == 204;
}

// Keeps the line of the context that a read told.
static void keep_context(struct connection *c, const char *answer) {
    const char *field = strstr(answer, "X-Riak-Vclock:");
    size_t length = field ? strstr(field, "\r\n") + 2 - field : 0;
    if (length >= CONTEXT)
        fail("the context is too long");
    if (length)
        memcpy(c->context, field, length);
    c->context[length] = 0;
}

static void note(struct asker *a, const struct connection *c, double time) {
    unsigned long took = (time - c->sent) * 1e6;
    a->times[took < SLOWEST ? took : SLOWEST]++;
    a->told++;
}

// Takes an answer, which came at this time.
static void take(struct asker *a, struct connection *c, const char *answer, double time) {
    if (!c->waiting || !is_right(c, answer))
        fail("the answer was %s", answer);
    if (method == REWRITE && c->method == GET)
        keep_context(c, answer);
    note(a, c, time);
    c->waiting--;
}

// Reads what has come. Whether all answers have.
static int hear(struct asker *a, struct connection *c) {
    ssize_t n = recv(c->socket, c->answer + c->length, ROOM - c->length, 0);
    if (n <= 0)
        fail("the connection ended");
    double time = now();
    char *next = c->answer, *end = next + c->length + n;
    *end = 0;
    for (size_t whole; (whole = whole_length(next, end)); next += whole)
        take(a, c, next, time);
    c->length = end - next;
    memmove(c->answer, next, c->length + 1);
    if (!c->waiting && c->length)
        fail("the answer was %s", c->answer);
    return !c->waiting;
}

static void *ask_all(void *given) {
    struct asker *a = given;
    struct epoll_event events[EVENTS];
    int waits = epoll_create1(0);
    double end = now() + seconds;
    for (int i = 0; i < a->count; i++) {
        struct epoll_event event = {.events = EPOLLIN, .data.ptr = &a->connections[i]};
        epoll_ctl(waits, EPOLL_CTL_ADD, a->connections[i].socket, &event);
        ask(&a->connections[i]);
    }
    for (int open = a->count; open > 0;) {
        int ready = epoll_wait(waits, events, EVENTS, 10000);
        if (ready <= 0)
            fail("no answer came for ten seconds");
        for (int i = 0; i < ready; i++) {
            struct connection *c = events[i].data.ptr;
            if (!hear(a, c))
                continue;
            if (now() < end && (!requests || method == GET || atomic_load(&asked) < requests))
                ask(c);
            else
                open--;
        }
    }
    close(waits);
    return NULL;
}

static void join(struct connection *c) {
    struct sockaddr_in address = {.sin_family = AF_INET, .sin_port = htons(port), .sin_addr.s_addr = htonl(INADDR_LOOPBACK)};
    int yes = 1;
    c->socket = socket(AF_INET, SOCK_STREAM, 0);
    if (connect(c->socket, (struct sockaddr *)&address, sizeof address))
        fail("no connection to port %d", port);
    setsockopt(c->socket, IPPROTO_TCP, TCP_NODELAY, &yes, sizeof yes);
}

// The microseconds in which this part of all answers came.
static unsigned within(struct asker *askers, int threads, unsigned long told, double part) {
    unsigned long sum = 0;
    for (unsigned took = 0; took < SLOWEST; took++) {
        for (int t = 0; t < threads; t++)
            sum += askers[t].times[took];
        if (sum >= told * part)
            return took;
    }
    return SLOWEST;
}

int main(int count, char **words) {
    if (count < 6)
        fail("asker store|etcd|redis PUT|GET|REWRITE PORT CONNECTIONS SECONDS [THREADS [FIRST [TOGETHER [REQUESTS [STRIDE]]]]]");
    server = words[1][0] == 's' ? STORE : words[1][0] == 'e' ? ETCD : REDIS;
    method = words[2][0] == 'P' ? PUT : words[2][0] == 'G' ? GET : REWRITE;
    port = atoi(words[3]);
    seconds = atof(words[5]);
    first = count > 7 ? strtoul(words[7], NULL, 10) : 0;
    together = count > 8 ? atoi(words[8]) : 1;
    requests = count > 9 ? strtoul(words[9], NULL, 10) : 0;
    stride = count > 10 ? strtoul(words[10], NULL, 10) : stride;
    int connections = atoi(words[4]), threads = count > 6 ? atoi(words[6]) : 1;
    if (server != STORE && method == REWRITE)
        fail("only this store has contexts");
    if (requests && (!stride || requests % stride == 0))
        fail("no multiple of %lu requests", stride);
    if (together < 1 || together > MOST_TOGETHER || (method == REWRITE && (together > 1 || requests)))
        fail("1 to %d requests together, and one where contexts are told", MOST_TOGETHER);
    if (threads < 1 || connections < threads || connections > MOST)
        fail("1 to %d connections, and no more threads than connections", MOST);
    memset(value, 'x', VALUE);
    struct connection *all = calloc(connections, sizeof *all);
    struct asker *askers = calloc(threads, sizeof *askers);
    pthread_t *ids = calloc(threads, sizeof *ids);
    for (int i = 0; i < connections; i++) {
        all[i].number = i;
        join(&all[i]);
    }
    double start = now();
    for (int t = 0, next = 0; t < threads; t++) {
        askers[t].connections = all + next;
        askers[t].count = connections / threads + (t < connections % threads);
        next += askers[t].count;
        if (pthread_create(&ids[t], NULL, ask_all, &askers[t]))
            fail("no thread");
    }
    unsigned long told = 0;
    for (int t = 0; t < threads; t++) {
        pthread_join(ids[t], NULL);
        told += askers[t].told;
    }
    double took = now() - start;
    for (int i = 0; i < connections; i++)
        close(all[i].socket);
    printf("%.0f %u %u\n", told / took, within(askers, threads, told, 0.5), within(askers, threads, told, 0.99));
    return 0;
}
