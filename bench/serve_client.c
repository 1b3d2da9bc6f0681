/* A client for bench/serve: asks one port for each request of a file, one connection after another, and times each.
 *
 *   serve_client PORT FILE WORD     FILE holds requests, each behind its length in decimal digits and a line's end
 *
 * It prints the seconds in all, and the microseconds of the one in the middle and of the 99th of 100. An answer without WORD
 * ends it with status 1. */
#include <arpa/inet.h>
#include <netinet/in.h>
#include <stdio.h>
#include <stdlib.h>
#include <string.h>
#include <sys/socket.h>
#include <time.h>
#include <unistd.h>

static double now(void) {
    struct timespec t;
    clock_gettime(CLOCK_MONOTONIC, &t);
    return t.tv_sec + t.tv_nsec * 1e-9;
}

static int by_value(const void *a, const void *b) {
    double x = *(const double *)a, y = *(const double *)b;
    return (x > y) - (x < y);
}

static void give_up(const char *why) {
    fprintf(stderr, "serve_client: %s\n", why);
    exit(1);
}

static void ask(int port, const char *text, size_t len, const char *word) {
    struct sockaddr_in at = {.sin_family = AF_INET, .sin_port = htons(port), .sin_addr.s_addr = htonl(INADDR_LOOPBACK)};
    char answer[8192];
    size_t got = 0;
    ssize_t n;
    int s = socket(AF_INET, SOCK_STREAM, 0);
    if (s < 0 || connect(s, (struct sockaddr *)&at, sizeof at)) give_up("no connection");
    while (len) {
        if ((n = send(s, text, len, MSG_NOSIGNAL)) <= 0) give_up("a send failed");
        text += n, len -= n;
    }
    while (got < sizeof answer - 1 && (n = recv(s, answer + got, sizeof answer - 1 - got, 0)) > 0) got += n;
    answer[got] = 0;
    close(s);
    if (!strstr(answer, word)) give_up(answer);
}

int main(int argc, char **argv) {
    if (argc != 4) give_up("PORT FILE WORD");
    FILE *in = fopen(argv[2], "rb");
    size_t room = 1024, count = 0, len;
    double *took = malloc(room * sizeof *took);
    char *text = malloc(1 << 17);
    if (!in || !took || !text) give_up("no file, or no memory");
    double begin = now();
    while (fscanf(in, "%zu", &len) == 1) {
        fgetc(in);
        if (len >= 1 << 17 || fread(text, 1, len, in) != len) give_up("a short file");
        if (count == room && !(took = realloc(took, (room *= 2) * sizeof *took))) give_up("no memory");
        double start = now();
        ask(atoi(argv[1]), text, len, argv[3]);
        took[count++] = now() - start;
    }
    double all = now() - begin;
    if (!count) give_up("no request");
    qsort(took, count, sizeof *took, by_value);
    printf("%f %.0f %.0f\n", all, took[count / 2] * 1e6, took[count - 1 - count / 100] * 1e6);
    return 0;
}
