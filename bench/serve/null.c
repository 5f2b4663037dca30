/* What sockets allow: a server that reads next to nothing, stores nothing, and answers `STORED` or a value of the right length.
 *
 *   null --port P [--threads T] [--value BYTES]
 *
 * Each thread has an epoll set; one read and one write a batch.
 */
#define _GNU_SOURCE
#include <arpa/inet.h>
#include <errno.h>
#include <fcntl.h>
#include <netinet/in.h>
#include <netinet/tcp.h>
#include <pthread.h>
#include <stdio.h>
#include <stdlib.h>
#include <string.h>
#include <sys/epoll.h>
#include <sys/socket.h>
#include <unistd.h>

enum { ROOM = 1 << 20 };

struct connection {
    int fd, in_value;
    char *in, *out;
    size_t in_length, out_length, out_sent;
};

static int port = 11211, threads = 1, value_bytes = 100;
static char *value;
static size_t value_length;

static void put(struct connection *c, const char *text, size_t length) {
    if (c->out_length + length > ROOM) return;
    memcpy(c->out + c->out_length, text, length);
    c->out_length += length;
}

/* Answers the whole lines. A line behind `set` is its value. */
static void answer(struct connection *c) {
    char *at = c->in, *end = c->in + c->in_length, *line;
    while (at < end && (line = memchr(at, '\n', end - at))) {
        if (c->in_value) {
            put(c, "STORED\r\n", 8);
            c->in_value = 0;
        } else if (*at == 's') {
            c->in_value = 1;
        } else {
            put(c, "VALUE ", 6);
            put(c, at + 4, line - at - 5);
            put(c, value, value_length);
        }
        at = line + 1;
    }
    c->in_length = end - at;
    memmove(c->in, at, c->in_length);
}

static void send_out(struct connection *c) {
    while (c->out_sent < c->out_length) {
        ssize_t count = write(c->fd, c->out + c->out_sent, c->out_length - c->out_sent);
        if (count < 0) return;
        c->out_sent += count;
    }
    c->out_length = c->out_sent = 0;
}

static void *work(void *set) {
    struct epoll_event events[128];
    for (;;) {
        int count = epoll_wait(*(int *)set, events, 128, -1);
        for (int i = 0; i < count; i++) {
            struct connection *c = events[i].data.ptr;
            ssize_t got = read(c->fd, c->in + c->in_length, ROOM - c->in_length);
            if (got == 0 || (got < 0 && errno != EAGAIN)) {
                close(c->fd);
                free(c->in);
                free(c->out);
                free(c);
                continue;
            }
            if (got > 0) c->in_length += got;
            answer(c);
            send_out(c);
        }
    }
    return NULL;
}

int main(int count, char **words) {
    for (int i = 1; i + 1 < count; i += 2) {
        if (!strcmp(words[i], "--port")) port = atoi(words[i + 1]);
        else if (!strcmp(words[i], "--threads")) threads = atoi(words[i + 1]);
        else if (!strcmp(words[i], "--value")) value_bytes = atoi(words[i + 1]);
        else return 2;
    }
    value = malloc(value_bytes + 64);
    value_length = sprintf(value, " 0 %d\r\n", value_bytes);
    memset(value + value_length, 'x', value_bytes);
    value_length += value_bytes + sprintf(value + value_length + value_bytes, "\r\nEND\r\n");
    int listener = socket(AF_INET, SOCK_STREAM, 0), one = 1;
    struct sockaddr_in address = {.sin_family = AF_INET, .sin_port = htons(port), .sin_addr.s_addr = htonl(INADDR_LOOPBACK)};
    setsockopt(listener, SOL_SOCKET, SO_REUSEADDR, &one, sizeof one);
    if (bind(listener, (void *)&address, sizeof address) || listen(listener, 1024)) return perror("null"), 1;
    int *sets = calloc(threads, sizeof *sets);
    pthread_t thread;
    for (int i = 0; i < threads; i++) {
        sets[i] = epoll_create1(0);
        pthread_create(&thread, NULL, work, &sets[i]);
    }
    for (int next = 0;; next++) {
        struct connection *c = calloc(1, sizeof *c);
        c->fd = accept(listener, NULL, NULL);
        if (c->fd < 0) continue;
        c->in = malloc(ROOM);
        c->out = malloc(ROOM);
        setsockopt(c->fd, IPPROTO_TCP, TCP_NODELAY, &one, sizeof one);
        fcntl(c->fd, F_SETFL, O_NONBLOCK);
        struct epoll_event event = {.events = EPOLLIN | EPOLLOUT | EPOLLET, .data.ptr = c};
        epoll_ctl(sets[next % threads], EPOLL_CTL_ADD, c->fd, &event);
    }
}
