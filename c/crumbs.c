/*
 * For the test of the relay: sends standard input in crumbs of 1 to MOST bytes, to standard output or to a TCP port of
 * this machine.
 *
 * Usage: crumbs MOST [PORT]
 */
#define _GNU_SOURCE
#include <arpa/inet.h>
#include <errno.h>
#include <netinet/in.h>
#include <netinet/tcp.h>
#include <stdint.h>
#include <stdio.h>
#include <stdlib.h>
#include <string.h>
#include <sys/socket.h>
#include <unistd.h>

static int connect_here(const char *port)
{
    struct sockaddr_in where;
    int on = 1;
    int fd = socket(AF_INET, SOCK_STREAM, 0);
    memset(&where, 0, sizeof where);
    where.sin_family = AF_INET;
    where.sin_addr.s_addr = htonl(INADDR_LOOPBACK);
    where.sin_port = htons((uint16_t)strtoul(port, NULL, 10));
    if (fd < 0 || setsockopt(fd, IPPROTO_TCP, TCP_NODELAY, &on, sizeof on) != 0 ||
        connect(fd, (struct sockaddr *)&where, sizeof where) != 0) {
        perror("crumbs");
        exit(1);
    }
    return fd;
}

static void send_all(int fd, const uint8_t *bytes, size_t n)
{
    while (n > 0) {
        ssize_t sent = write(fd, bytes, n);
        if (sent < 0 && errno == EINTR)
            continue;
        if (sent < 0) {
            perror("crumbs");
            exit(1);
        }
        bytes += sent;
        n -= (size_t)sent;
    }
}

int main(int argc, char **argv)
{
    uint8_t crumb[4096];
    uint32_t random = 12345;
    size_t most = argc > 1 ? strtoul(argv[1], NULL, 10) : 1;
    if (most < 1 || most > sizeof crumb) {
        fputs("usage: crumbs MOST [PORT]\n", stderr);
        return 2;
    }
    int fd = argc > 2 ? connect_here(argv[2]) : STDOUT_FILENO;
    size_t n;
    do {
        random = random * 1664525 + 1013904223;
        n = fread(crumb, 1, 1 + (random >> 16) % most, stdin);
        send_all(fd, crumb, n);
    } while (n > 0);
    return 0;
}
