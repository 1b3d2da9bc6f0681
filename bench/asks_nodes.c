/* Plays storage nodes for bench/asks: one listener for all addresses of this machine. It gives the byte 5 as often as it is
 * asked for, since a segment of this byte has it in every piece, and takes whatever is put. A node whose address ends in .2
 * never answers. Each burst of asks is told by a line once nothing came for a third of a second:
 *
 *     asks GETS PUTS, seconds from the first byte to the last answer, bytes given and bytes taken, when it began and ended
 *
 *   asks_nodes PORT
 */
#define _GNU_SOURCE
#include <arpa/inet.h>
#include <errno.h>
#include <netinet/in.h>
#include <netinet/tcp.h>
#include <stdint.h>
#include <stdio.h>
#include <stdlib.h>
#include <string.h>
#include <sys/epoll.h>
#include <sys/socket.h>
#include <time.h>
#include <unistd.h>

enum { HEAD = 8192, PIECE = 1 << 22, EVENTS = 256 };

struct conn {
    int fd;
    size_t have;   /* bytes of the head so far */
    size_t left;   /* bytes of a body that are still to come */
    size_t owed;   /* bytes of the answer that are still to go */
    size_t gone;   /* bytes of the answer that went */
    size_t front;  /* bytes of the answer's head */
    int silent, answering;
    char head[HEAD + 1], answer[128];
};

static char bytes[PIECE], scrap[1 << 16];
static long gets, puts_, given, taken;
static double began, ended;

static double now(void) {
    struct timespec t;
    clock_gettime(CLOCK_REALTIME, &t);
    return t.tv_sec + t.tv_nsec / 1e9;
}

static long number_in(const char *head, const char *name) {
    const char *at = strcasestr(head, name);
    return at ? strtol(at + strlen(name), NULL, 10) : 0;
}

static void drop(struct conn *c) {
    close(c->fd);
    free(c);
}

static void answer(struct conn *c, const char *status, size_t body) {
    c->front = (size_t)snprintf(c->answer, sizeof c->answer, "HTTP/1.1 %s\r\ncontent-length: %zu\r\nconnection: close\r\n\r\n", status, body);
    c->owed = c->front + body;
    c->gone = 0;
    c->answering = 1;
}

/* A whole head: what is to be read or answered. */
static void begin(struct conn *c, size_t behind) {
    if (!strncmp(c->head, "PUT ", 4)) {
        size_t len = (size_t)number_in(c->head, "content-length: ");
        puts_++;
        taken += (long)len;
        c->left = len > behind ? len - behind : 0;
        if (!c->left) answer(c, "200 OK", 0);
        return;
    }
    size_t len = (size_t)number_in(c->head, "x-length: ");
    gets++;
    if (len > PIECE) len = PIECE;
    given += (long)len;
    answer(c, "200 OK", len);
}

/* Sends what it can. Whether the connection is done. */
static int send_on(struct conn *c) {
    while (c->gone < c->owed) {
        const char *from = c->gone < c->front ? c->answer + c->gone : bytes;
        size_t len = c->gone < c->front ? c->front - c->gone : c->owed - c->gone;
        ssize_t n = send(c->fd, from, len, MSG_NOSIGNAL | (c->gone < c->front && c->owed > c->front ? MSG_MORE : 0));
        if (n < 0) return errno != EAGAIN;
        c->gone += (size_t)n;
    }
    ended = now();
    shutdown(c->fd, SHUT_WR);
    return 1;
}

/* Reads what is there. Whether the connection is done. */
static int read_on(struct conn *c) {
    for (;;) {
        if (c->answering) return send_on(c);
        int in_head = c->left == 0;
        char *to = in_head ? c->head + c->have : scrap;
        size_t room = in_head ? HEAD - c->have : sizeof scrap;
        ssize_t n = recv(c->fd, to, room, 0);
        if (n == 0 || (n < 0 && errno != EAGAIN)) return 1;
        if (n < 0) return 0;
        if (!began) began = now();
        if (c->silent) continue;
        if (!in_head) {
            c->left -= (size_t)n < c->left ? (size_t)n : c->left;
            if (!c->left) answer(c, "200 OK", 0);
            continue;
        }
        c->have += (size_t)n;
        c->head[c->have] = 0;
        char *end = strstr(c->head, "\r\n\r\n");
        if (!end && c->have == HEAD) return 1;
        if (end) {
            size_t behind = c->have - (size_t)(end + 4 - c->head);
            *end = 0;
            begin(c, behind);
        }
    }
}

int main(int count, char **words) {
    if (count != 2) return 2;
    memset(bytes, 5, sizeof bytes);
    int one = 1, listener = socket(AF_INET, SOCK_STREAM | SOCK_NONBLOCK, 0), poll = epoll_create1(0);
    struct sockaddr_in at = {.sin_family = AF_INET, .sin_port = htons((uint16_t)atoi(words[1]))};
    setsockopt(listener, SOL_SOCKET, SO_REUSEADDR, &one, sizeof one);
    if (bind(listener, (struct sockaddr *)&at, sizeof at) || listen(listener, 4096)) return 1;
    struct epoll_event event = {.events = EPOLLIN}, events[EVENTS];
    epoll_ctl(poll, EPOLL_CTL_ADD, listener, &event);
    for (;;) {
        int n = epoll_wait(poll, events, EVENTS, 333);
        if (n == 0 && began) {
            printf("asks %ld %ld %.6f %ld %ld %.6f %.6f\n", gets, puts_, ended - began, given, taken, began, ended);
            fflush(stdout);
            gets = puts_ = given = taken = 0;
            began = ended = 0;
        }
        for (int i = 0; i < n; i++) {
            struct conn *c = events[i].data.ptr;
            if (c) {
                if (events[i].events & EPOLLOUT && c->answering ? send_on(c) : read_on(c)) drop(c);
                continue;
            }
            int fd;
            while ((fd = accept4(listener, NULL, NULL, SOCK_NONBLOCK)) >= 0) {
                struct sockaddr_in own;
                socklen_t len = sizeof own;
                struct conn *new = calloc(1, sizeof *new);
                if (!new) return 1;
                getsockname(fd, (struct sockaddr *)&own, &len);
                setsockopt(fd, IPPROTO_TCP, TCP_NODELAY, &one, sizeof one);
                new->fd = fd;
                new->silent = (ntohl(own.sin_addr.s_addr) & 255) == 2;
                struct epoll_event both = {.events = EPOLLIN | EPOLLOUT | EPOLLET, .data.ptr = new};
                epoll_ctl(poll, EPOLL_CTL_ADD, fd, &both);
            }
        }
    }
}
