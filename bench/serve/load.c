/* A load of key-value requests on a cache server, over loopback, by one thread.
 *
 *   load --port P --protocol text|redis [--connections N] [--depth D] [--seconds S | --operations N]
 *        [--sets PERCENT] [--keys K] [--value BYTES] [--fill] [--canned]
 *
 * Each connection writes a batch of `depth` requests in one piece, reads until all answers are there, and writes the next batch.
 * --fill stores all keys first, which is not counted, and with 0 seconds only that. One of 16 answers to `get` is compared with
 * the value that the key has, and each answer's kind and length are looked at; --canned leaves that out, for a server that answers
 * the same to all. It prints one line: operations, seconds, and the waits of half, 99 of 100 and 999 of 1,000 requests in
 * microseconds. The exit status is not 0 where an answer is wrong.
 */
#define _GNU_SOURCE
#include <arpa/inet.h>
#include <errno.h>
#include <fcntl.h>
#include <netinet/in.h>
#include <netinet/tcp.h>
#include <stdint.h>
#include <stdio.h>
#include <stdlib.h>
#include <string.h>
#include <sys/epoll.h>
#include <sys/socket.h>
#include <time.h>
#include <unistd.h>

enum { KEY_BYTES = 14, MOST_WAITS = 1 << 22, ROOM = 1 << 20 };

struct request {
    int is_set, is_compared;
    uint32_t key;
};

struct connection {
    int fd;
    char *in, *out;
    size_t in_length, out_length, out_sent;
    struct request *batch;
    int batch_length, answered;
    double sent_at;
    uint64_t chance;
    long fill_next;
};

static int port = 11211, is_redis, connections = 32, depth = 1, sets = 10, keys = 10000, value_bytes = 100, fills, is_canned;
static double seconds = 1;
static long operations;
static long done, wrong;
static float *waits;
static char *values[26];

static double now(void) {
    struct timespec time;
    clock_gettime(CLOCK_MONOTONIC, &time);
    return time.tv_sec + time.tv_nsec / 1e9;
}

static void fail(const char *what) {
    fprintf(stderr, "load: %s: %s\n", what, strerror(errno));
    exit(1);
}

static uint64_t next_chance(struct connection *c) {
    c->chance ^= c->chance << 13;
    c->chance ^= c->chance >> 7;
    return c->chance ^= c->chance << 17;
}

static const char *value_of(uint32_t key) { return values[key % 26]; }

/* Writes a request of this key. */
static char *write_request(char *at, struct request *request) {
    if (is_redis && request->is_set)
        at += sprintf(at, "*3\r\n$3\r\nSET\r\n$14\r\nkey:%010u\r\n$%d\r\n", request->key, value_bytes);
    else if (is_redis)
        return at + sprintf(at, "*2\r\n$3\r\nGET\r\n$14\r\nkey:%010u\r\n", request->key);
    else if (request->is_set)
        at += sprintf(at, "set key:%010u 0 0 %d\r\n", request->key, value_bytes);
    else
        return at + sprintf(at, "get key:%010u\r\n", request->key);
    memcpy(at, value_of(request->key), value_bytes);
    at += value_bytes;
    *at++ = '\r';
    *at++ = '\n';
    return at;
}

/* The place behind a whole answer to this request, or none where it is not whole. */
static char *read_answer(struct request *request, char *at, char *end) {
    char head[64];
    size_t head_length;
    const char *tail = is_redis ? "\r\n" : "\r\nEND\r\n";
    if (request->is_set) {
        const char *stored = is_redis ? "+OK\r\n" : "STORED\r\n";
        size_t length = strlen(stored);
        if ((size_t)(end - at) < length) return NULL;
        wrong += memcmp(at, stored, length) != 0;
        return at + length;
    }
    head_length = is_redis ? sprintf(head, "$%d\r\n", value_bytes) : sprintf(head, "VALUE key:%010u 0 %d\r\n", request->key, value_bytes);
    size_t whole = head_length + value_bytes + strlen(tail);
    if ((size_t)(end - at) < whole) {
        /* A shorter answer is a wrong one, and none that is still to come. */
        const char *first = is_redis ? "$" : "VALUE";
        if ((size_t)(end - at) >= strlen(first) && memcmp(at, first, strlen(first))) {
            fprintf(stderr, "load: a wrong answer: %.*s\n", (int)(end - at), at);
            exit(5);
        }
        return NULL;
    }
    if (!is_canned) {
        wrong += memcmp(at, head, head_length) != 0 || memcmp(at + whole - strlen(tail), tail, strlen(tail)) != 0;
        if (request->is_compared) wrong += memcmp(at + head_length, value_of(request->key), value_bytes) != 0;
    }
    return at + whole;
}

static void send_out(struct connection *c) {
    while (c->out_sent < c->out_length) {
        ssize_t count = write(c->fd, c->out + c->out_sent, c->out_length - c->out_sent);
        if (count < 0 && errno == EAGAIN) return;
        if (count < 0) fail("write");
        c->out_sent += count;
    }
}

/* Makes the next batch and sends it. Gives how many requests it has. */
static int send_batch(struct connection *c, int number, int is_fill) {
    char *at = c->out;
    int count = is_fill ? 16 : depth;
    c->batch_length = c->answered = 0;
    for (int i = 0; i < count; i++) {
        struct request *request = &c->batch[c->batch_length];
        uint64_t chance = next_chance(c);
        if (is_fill) {
            request->key = number + c->fill_next * connections;
            if (request->key >= (uint32_t)keys) break;
            c->fill_next++;
        } else {
            request->key = (chance >> 32) % keys;
        }
        request->is_set = is_fill || (int)((chance >> 16) % 100) < sets;
        request->is_compared = chance % 16 == 0;
        at = write_request(at, request);
        c->batch_length++;
    }
    c->out_length = at - c->out;
    c->out_sent = 0;
    c->sent_at = now();
    send_out(c);
    return c->batch_length;
}

/* Takes the answers that came. */
static void take_in(struct connection *c, int is_fill) {
    ssize_t count = read(c->fd, c->in + c->in_length, ROOM - c->in_length);
    if (count < 0 && errno == EAGAIN) return;
    if (count <= 0) fail("the server ended a connection");
    c->in_length += count;
    double wait = now() - c->sent_at;
    char *at = c->in, *next;
    while (c->answered < c->batch_length && (next = read_answer(&c->batch[c->answered], at, c->in + c->in_length))) {
        at = next;
        c->answered++;
        if (!is_fill) waits[done++ % MOST_WAITS] = wait;
    }
    c->in_length -= at - c->in;
    memmove(c->in, at, c->in_length);
}

/* Batch after batch on all connections, until the time or the operations are over. */
static void run(int set, struct connection *all, int is_fill) {
    struct epoll_event events[256];
    double end = now() + seconds;
    long begun = 0;
    int busy = 0;
    for (int i = 0; i < connections; i++) {
        int count = send_batch(&all[i], i, is_fill);
        begun += count;
        busy += count > 0;
    }
    while (busy > 0) {
        int count = epoll_wait(set, events, 256, 30000);
        if (count == 0) fail("no answer within 30 seconds");
        for (int i = 0; i < count; i++) {
            struct connection *c = events[i].data.ptr;
            send_out(c);
            take_in(c, is_fill);
            if (c->answered < c->batch_length || c->out_sent < c->out_length) continue;
            int is_over = !is_fill && (operations ? begun >= operations : now() >= end);
            int more = is_over ? 0 : send_batch(c, c - all, is_fill);
            if (is_over) c->batch_length = c->answered = 0;
            begun += more;
            busy -= more == 0;
        }
    }
}

static int in_order(const void *left, const void *right) {
    float a = *(const float *)left, b = *(const float *)right;
    return (a > b) - (a < b);
}

static void read_words(int count, char **words) {
    for (int i = 1; i < count; i++) {
        char *word = words[i];
        if (!strcmp(word, "--fill")) { fills = 1; continue; }
        if (!strcmp(word, "--canned")) { is_canned = 1; continue; }
        if (++i >= count) exit(2);
        char *value = words[i];
        if (!strcmp(word, "--port")) port = atoi(value);
        else if (!strcmp(word, "--protocol")) is_redis = !strcmp(value, "redis");
        else if (!strcmp(word, "--connections")) connections = atoi(value);
        else if (!strcmp(word, "--depth")) depth = atoi(value);
        else if (!strcmp(word, "--seconds")) seconds = atof(value);
        else if (!strcmp(word, "--operations")) operations = atol(value);
        else if (!strcmp(word, "--sets")) sets = atoi(value);
        else if (!strcmp(word, "--keys")) keys = atoi(value);
        else if (!strcmp(word, "--value")) value_bytes = atoi(value);
        else exit(2);
    }
    if (connections < 1 || depth < 1 || keys < connections || (size_t)(depth < 16 ? 16 : depth) * (value_bytes + 128) > ROOM) exit(2);
}

int main(int count, char **words) {
    read_words(count, words);
    waits = malloc(MOST_WAITS * sizeof *waits);
    for (int i = 0; i < 26; i++) memset(values[i] = malloc(value_bytes + 1), 'a' + i, value_bytes);
    struct connection *all = calloc(connections, sizeof *all);
    int set = epoll_create1(0), one = 1;
    for (int i = 0; i < connections; i++) {
        struct sockaddr_in address = {.sin_family = AF_INET, .sin_port = htons(port), .sin_addr.s_addr = htonl(INADDR_LOOPBACK)};
        struct connection *c = &all[i];
        c->fd = socket(AF_INET, SOCK_STREAM, 0);
        if (connect(c->fd, (void *)&address, sizeof address)) fail("connect");
        setsockopt(c->fd, IPPROTO_TCP, TCP_NODELAY, &one, sizeof one);
        fcntl(c->fd, F_SETFL, O_NONBLOCK);
        struct epoll_event event = {.events = EPOLLIN | EPOLLOUT | EPOLLET, .data.ptr = c};
        epoll_ctl(set, EPOLL_CTL_ADD, c->fd, &event);
        c->in = malloc(ROOM);
        c->out = malloc(ROOM);
        c->batch = calloc(depth < 16 ? 16 : depth, sizeof *c->batch);
        c->chance = 0x9e3779b97f4a7c15ull * (i + 1);
    }
    if (fills) run(set, all, 1);
    double begun = now();
    if (seconds > 0 || operations) run(set, all, 0);
    double taken = now() - begun;
    long kept = done < MOST_WAITS ? done : MOST_WAITS;
    qsort(waits, kept, sizeof *waits, in_order);
#define AT(share) (kept ? 1e6 * waits[(long)((kept - 1) * (share))] : 0.0)
    printf("{\"operations\": %ld, \"seconds\": %.4f, \"p50\": %.1f, \"p99\": %.1f, \"p999\": %.1f, \"wrong\": %ld}\n", done, taken, AT(.5), AT(.99), AT(.999), wrong);
    return wrong ? 5 : 0;
}
