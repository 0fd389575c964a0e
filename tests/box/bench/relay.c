/* A plain relay, to hold the box against: copies the bytes of one line to 1 to 16 others, and knows nothing of them.
 *
 *     relay ABOVE PORT COUNT
 *
 * connects to 127.0.0.1:ABOVE and listens on PORT to PORT + COUNT - 1, as a box does. It begins to read when all are
 * connected; what a line doesn't take waits, and nothing is read before every line has taken all. Ends with the line
 * above.
 */
#define _POSIX_C_SOURCE 200809L
#include <arpa/inet.h>
#include <errno.h>
#include <fcntl.h>
#include <netinet/in.h>
#include <netinet/tcp.h>
#include <poll.h>
#include <signal.h>
#include <stdio.h>
#include <stdlib.h>
#include <string.h>
#include <sys/socket.h>
#include <sys/types.h>
#include <time.h>
#include <unistd.h>

enum { MOST = 16, ROOM = 65536 };

static char bytes[ROOM];

static void fail(const char *what) {
    perror(what);
    exit(1);
}

static struct sockaddr_in address_of(int port) {
    struct sockaddr_in address;

    memset(&address, 0, sizeof address);
    address.sin_family = AF_INET;
    address.sin_port = htons((unsigned short)port);
    address.sin_addr.s_addr = htonl(INADDR_LOOPBACK);
    return address;
}

static void set_up(int fd) {
    int one = 1;

    setsockopt(fd, IPPROTO_TCP, TCP_NODELAY, &one, sizeof one);
    if (fcntl(fd, F_SETFL, O_NONBLOCK) != 0)
        fail("fcntl");
}

static int connect_to(int port) {
    struct sockaddr_in address = address_of(port);
    int tries;

    for (tries = 0; tries < 200; tries++) {
        struct timespec pause = {0, 20000000};
        int fd = socket(AF_INET, SOCK_STREAM, 0);

        if (fd < 0)
            fail("socket");
        if (connect(fd, (struct sockaddr *)&address, sizeof address) == 0) {
            set_up(fd);
            return fd;
        }
        close(fd);
        nanosleep(&pause, NULL);
    }
    fail("connect");
    return -1;
}

static int listen_on(int port) {
    struct sockaddr_in address = address_of(port);
    int fd = socket(AF_INET, SOCK_STREAM, 0), one = 1;

    if (fd < 0)
        fail("socket");
    setsockopt(fd, SOL_SOCKET, SO_REUSEADDR, &one, sizeof one);
    if (bind(fd, (struct sockaddr *)&address, sizeof address) != 0 || listen(fd, 4) != 0)
        fail("listen");
    return fd;
}

int main(int argc, char **argv) {
    struct pollfd ends[MOST + 1];
    size_t sent[MOST], used = 0;
    int listeners[MOST], count, i;

    if (argc != 4 || (count = atoi(argv[3])) < 1 || count > MOST) {
        fprintf(stderr, "usage: relay ABOVE PORT COUNT\n");
        return 2;
    }
    signal(SIGPIPE, SIG_IGN);
    for (i = 0; i < count; i++)
        listeners[i] = listen_on(atoi(argv[2]) + i);
    ends[count].fd = connect_to(atoi(argv[1]));
    for (i = 0; i < count; i++) {
        ends[i].fd = accept(listeners[i], NULL, NULL);
        if (ends[i].fd < 0)
            fail("accept");
        set_up(ends[i].fd);
        sent[i] = 0;
    }
    for (;;) {
        int waiting = 0;

        for (i = 0; i < count; i++) {
            while (sent[i] < used) {
                ssize_t n = send(ends[i].fd, bytes + sent[i], used - sent[i], 0);

                if (n < 0 && errno != EAGAIN && errno != EWOULDBLOCK)
                    return 0;
                if (n < 0)
                    break;
                sent[i] += (size_t)n;
            }
            ends[i].events = sent[i] < used ? POLLOUT : 0;
            waiting += sent[i] < used;
        }
        if (waiting == 0) {
            ssize_t n = recv(ends[count].fd, bytes, sizeof bytes, 0);

            if (n == 0 || (n < 0 && errno != EAGAIN && errno != EWOULDBLOCK))
                return 0;
            used = n > 0 ? (size_t)n : 0;
            memset(sent, 0, sizeof sent);
            if (n > 0)
                continue;
        }
        ends[count].events = waiting == 0 ? POLLIN : 0;
        if (poll(ends, (nfds_t)count + 1, -1) < 0 && errno != EINTR)
            fail("poll");
    }
}
