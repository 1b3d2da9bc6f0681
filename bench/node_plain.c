/* What a storage node's work takes without a storage node: a file is read and written to a socket, or written, synced and renamed.
 *
 *   node_plain fetch FILE TIMES      prints how many seconds each took
 *   node_plain put FOLDER BYTES TIMES
 */
#include <arpa/inet.h>
#include <fcntl.h>
#include <netinet/in.h>
#include <stdio.h>
#include <stdlib.h>
#include <string.h>
#include <sys/socket.h>
#include <sys/stat.h>
#include <sys/wait.h>
#include <time.h>
#include <unistd.h>

static void must(int holds, const char *what)
{
    if (!holds) {
        perror(what);
        exit(1);
    }
}

static double now(void)
{
    struct timespec t;
    clock_gettime(CLOCK_MONOTONIC, &t);
    return t.tv_sec + t.tv_nsec / 1e9;
}

static void write_all(int to, const char *bytes, size_t size)
{
    while (size > 0) {
        ssize_t n = write(to, bytes, size);
        must(n > 0, "write");
        bytes += n;
        size -= n;
    }
}

/* One connection a time, as a node has it: the other side asks with one byte and reads to the end. */
static void fetch(const char *file, int times)
{
    int listener = socket(AF_INET, SOCK_STREAM, 0);
    struct sockaddr_in at = {.sin_family = AF_INET, .sin_addr.s_addr = htonl(INADDR_LOOPBACK)};
    socklen_t size = sizeof at;
    must(bind(listener, (struct sockaddr *)&at, size) == 0 && listen(listener, 16) == 0, "listen");
    must(getsockname(listener, (struct sockaddr *)&at, &size) == 0, "name");
    if (fork() == 0) {
        for (int i = 0; i < times; i++) {
            int link = accept(listener, 0, 0), from = open(file, O_RDONLY);
            struct stat about;
            char one;
            must(link >= 0 && from >= 0 && fstat(from, &about) == 0 && read(link, &one, 1) == 1, "serve");
            char *bytes = malloc(about.st_size);
            must(read(from, bytes, about.st_size) == about.st_size, "read");
            write_all(link, bytes, about.st_size);
            free(bytes);
            close(from);
            close(link);
        }
        exit(0);
    }
    char *room = malloc(1 << 20);
    double start = now();
    for (int i = 0; i < times; i++) {
        int link = socket(AF_INET, SOCK_STREAM, 0);
        must(connect(link, (struct sockaddr *)&at, size) == 0 && write(link, "x", 1) == 1, "ask");
        while (read(link, room, 1 << 20) > 0) {
        }
        close(link);
    }
    printf("%.9f\n", (now() - start) / times);
    wait(0);
}

static void put(const char *folder, size_t size, int times)
{
    char part[4096], path[4096], *bytes = malloc(size);
    memset(bytes, 7, size);
    snprintf(part, sizeof part, "%s/plain.part", folder);
    snprintf(path, sizeof path, "%s/plain", folder);
    double start = now();
    for (int i = 0; i < times; i++) {
        int to = open(part, O_WRONLY | O_CREAT | O_EXCL, 0600);
        must(to >= 0, "open");
        write_all(to, bytes, size);
        must(fsync(to) == 0 && close(to) == 0 && rename(part, path) == 0, "keep");
        int names = open(folder, O_RDONLY);
        must(names >= 0 && fsync(names) == 0 && close(names) == 0, "folder");
    }
    printf("%.9f\n", (now() - start) / times);
}

int main(int count, char **words)
{
    if (count == 4 && strcmp(words[1], "fetch") == 0)
        fetch(words[2], atoi(words[3]));
    else if (count == 5 && strcmp(words[1], "put") == 0)
        put(words[2], atol(words[3]), atoi(words[4]));
    else
        return 2;
    return 0;
}
