/* Sends messages into one end of a row of programs and takes the time at the other.
 *
 *     meter COUNT RATE PACKET SOURCE SINK ..
 *
 * COUNT messages, RATE a second (0: as fast as they are taken), each the bytes PACKET (hexadecimal: a message packet
 * with one field) with its number and, as the field's first 8 bytes, the time put in.
 * SOURCE is `listen:PORT[:ANSWER]`, where a program connects (ANSWER: what is answered to its login packet,
 * hexadecimal), or `publish:PATH:SERIES`, a file to which lines for ftdexchange are written.
 * SINK is `connect:PORT[:LOGIN]` (LOGIN: what is sent at first, as often as the line is closed before its answer), or
 * `lines:PATH`, lines as ftdseat prints them.
 *
 * Every sink has to get every message, in order. Prints: messages a second, from the first one sent to the last one
 * received at the last sink, and the 50th and 99th percentile of the time from sending to receiving, in microseconds.
 */
#define _GNU_SOURCE /* ppoll */
#include <arpa/inet.h>
#include <errno.h>
#include <fcntl.h>
#include <netinet/in.h>
#include <netinet/tcp.h>
#include <poll.h>
#include <signal.h>
#include <stdint.h>
#include <stdio.h>
#include <stdlib.h>
#include <string.h>
#include <sys/socket.h>
#include <sys/types.h>
#include <time.h>
#include <unistd.h>

enum { MOST = 16, ROOM = 1 << 18, HEAD = 4, BODY = 16, FIELD = 6, LOGIN = 0x16, PATIENCE = 60 };

static uint64_t now(void) {
    struct timespec time;

    clock_gettime(CLOCK_MONOTONIC, &time);
    return (uint64_t)time.tv_sec * 1000000000u + (uint64_t)time.tv_nsec;
}

static void fail(const char *words) {
    fprintf(stderr, "meter: %s\n", words);
    exit(1);
}

static void rest(void) {
    struct timespec pause = {0, 10000000};

    nanosleep(&pause, NULL);
}

static uint64_t number_of(const uint8_t *bytes, size_t count) {
    uint64_t number = 0;

    while (count-- > 0)
        number = number << 8 | *bytes++;
    return number;
}

static void put_number(uint8_t *bytes, size_t count, uint64_t number) {
    while (count > 0) {
        bytes[--count] = (uint8_t)number;
        number >>= 8;
    }
}

static int digit(char c) {
    if (c >= '0' && c <= '9')
        return c - '0';
    return c >= 'a' && c <= 'f' ? c - 'a' + 10 : c >= 'A' && c <= 'F' ? c - 'A' + 10 : -1;
}

static size_t from_hex(const char *text, size_t digits, uint8_t *bytes) {
    size_t i;

    for (i = 0; i + 1 < digits && digit(text[i]) >= 0 && digit(text[i + 1]) >= 0; i += 2)
        bytes[i / 2] = (uint8_t)(digit(text[i]) << 4 | digit(text[i + 1]));
    return i / 2;
}

static void set_up(int fd) {
    int one = 1;

    setsockopt(fd, IPPROTO_TCP, TCP_NODELAY, &one, sizeof one);
    if (fcntl(fd, F_SETFL, O_NONBLOCK) != 0)
        fail("fcntl");
}

static struct sockaddr_in address_of(int port) {
    struct sockaddr_in address;

    memset(&address, 0, sizeof address);
    address.sin_family = AF_INET;
    address.sin_port = htons((unsigned short)port);
    address.sin_addr.s_addr = htonl(INADDR_LOOPBACK);
    return address;
}

/* ---- The source ---- */

static uint8_t packet[4096];
static size_t packet_len, number_at, time_at;
static int source;
static const char *publish; /* the series, where lines for ftdexchange are written */
static uint8_t waiting[ROOM];
static size_t waiting_from, waiting_to;

static void read_whole(int fd, uint8_t *bytes, size_t count) {
    while (count > 0) {
        ssize_t n = recv(fd, bytes, count, MSG_WAITALL);

        if (n <= 0)
            fail("the program above has closed its line before its login");
        bytes += n;
        count -= (size_t)n;
    }
}

static void open_source(const char *word) {
    if (strncmp(word, "publish:", 8) == 0) {
        char path[1024];
        const char *end = strrchr(word, ':');

        snprintf(path, sizeof path, "%.*s", (int)(end - word - 8), word + 8);
        publish = end + 1;
        source = open(path, O_WRONLY);
        if (source < 0 || fcntl(source, F_SETFL, O_NONBLOCK) != 0)
            fail("the file for lines to publish can't be opened");
    } else {
        static uint8_t login[65794], answer[4096];
        const char *colon = strchr(word + 7, ':');
        struct sockaddr_in address = address_of(atoi(word + 7));
        int fd = socket(AF_INET, SOCK_STREAM, 0), one = 1;

        setsockopt(fd, SOL_SOCKET, SO_REUSEADDR, &one, sizeof one);
        if (bind(fd, (struct sockaddr *)&address, sizeof address) != 0 || listen(fd, 4) != 0)
            fail("can't listen");
        source = accept(fd, NULL, NULL);
        if (source < 0)
            fail("accept");
        if (colon != NULL) {
            size_t count = from_hex(colon + 1, strlen(colon + 1), answer);

            read_whole(source, login, HEAD);
            read_whole(source, login + HEAD, login[1] + (size_t)number_of(login + 2, 2));
            if (send(source, answer, count, 0) != (ssize_t)count)
                fail("the answer wasn't taken");
        }
        set_up(source);
    }
}

/* Puts a message behind what waits, where there is room for it. */
static int put_message(uint64_t number) {
    static const char digits[] = "0123456789abcdef";
    size_t content = HEAD + packet[1] + BODY, i;

    if (sizeof waiting - waiting_to < 2 * packet_len + 64)
        return 0;
    put_number(packet + number_at, 4, number);
    put_number(packet + time_at, 8, now());
    if (publish == NULL) {
        memcpy(waiting + waiting_to, packet, packet_len);
        waiting_to += packet_len;
        return 1;
    }
    waiting_to += (size_t)sprintf((char *)waiting + waiting_to, "publish %s 7777 ", publish);
    for (i = content; i < packet_len; i++) {
        waiting[waiting_to++] = (uint8_t)digits[packet[i] >> 4];
        waiting[waiting_to++] = (uint8_t)digits[packet[i] & 15];
    }
    waiting[waiting_to++] = '\n';
    return 1;
}

/* Writes what the source takes. Where all is written, there is room for more from the start. */
static void write_waiting(void) {
    ssize_t n;

    if (waiting_from == waiting_to)
        return;
    n = write(source, waiting + waiting_from, waiting_to - waiting_from);
    if (n < 0 && errno != EAGAIN && errno != EWOULDBLOCK && errno != EINTR)
        fail("the source's line is broken");
    if (n > 0)
        waiting_from += (size_t)n;
    if (waiting_from == waiting_to)
        waiting_from = waiting_to = 0;
}

/* ---- The sinks ---- */

struct sink {
    int fd;
    int lines;
    uint8_t bytes[ROOM];
    size_t used;
    uint64_t got;
};

static struct sink sinks[MOST];
static uint32_t *times; /* nanoseconds from sending to receiving, of all sinks */
static size_t taken;

static void take(struct sink *sink, uint64_t number, uint64_t sent, uint64_t at) {
    if (number != sink->got + 1)
        fail("a sink got a message out of order");
    sink->got = number;
    times[taken++] = (uint32_t)(at - sent);
}

static size_t said_length(const struct sink *sink, size_t from) {
    return sink->used - from < HEAD ? 0 : HEAD + sink->bytes[from + 1] + (size_t)number_of(sink->bytes + from + 2, 2);
}

static void take_packets(struct sink *sink, uint64_t at) {
    size_t from = 0, length;

    while ((length = said_length(sink, from)) > 0 && sink->used - from >= length) {
        const uint8_t *body = sink->bytes + from + HEAD + sink->bytes[from + 1];

        if (sink->bytes[from] == 1 && length > HEAD + (size_t)sink->bytes[from + 1] && number_of(body + 1, 4) != LOGIN)
            take(sink, number_of(body + 8, 4), number_of(body + BODY + FIELD, 8), at);
        from += length;
    }
    memmove(sink->bytes, sink->bytes + from, sink->used - from);
    sink->used -= from;
}

static void take_lines(struct sink *sink, uint64_t at) {
    size_t from = 0;
    uint8_t *end;

    while ((end = memchr(sink->bytes + from, '\n', sink->used - from)) != NULL) {
        const char *word = (const char *)sink->bytes + from;
        uint8_t content[FIELD + 8];
        uint64_t number;
        int words;

        for (words = 0; words < 2; words++)
            word = strchr(word, ' ') + 1;
        number = strtoul(word, NULL, 10);
        for (words = 0; words < 2; words++)
            word = strchr(word, ' ') + 1;
        if (from_hex(word, 2 * sizeof content, content) != sizeof content)
            fail("a line has too short a content");
        take(sink, number, number_of(content + FIELD, 8), at);
        from = (size_t)(end - sink->bytes) + 1;
    }
    memmove(sink->bytes, sink->bytes + from, sink->used - from);
    sink->used -= from;
}

static void read_sink(struct sink *sink) {
    ssize_t n = read(sink->fd, sink->bytes + sink->used, sizeof sink->bytes - sink->used);

    if (n < 0 && (errno == EAGAIN || errno == EWOULDBLOCK || errno == EINTR))
        return;
    if (n <= 0)
        fail("a sink's line is broken");
    sink->used += (size_t)n;
    if (sink->lines)
        take_lines(sink, now());
    else
        take_packets(sink, now());
}

/* Connects, and logs in where a login packet is given; again until it is answered. */
static void open_sink(struct sink *sink, const char *word) {
    static uint8_t login[4096];
    const char *colon;
    struct sockaddr_in address;
    int tries;

    if (strncmp(word, "lines:", 6) == 0) {
        sink->lines = 1;
        sink->fd = open(word + 6, O_RDONLY);
        if (sink->fd < 0 || fcntl(sink->fd, F_SETFL, O_NONBLOCK) != 0)
            fail("the file of lines can't be opened");
        return;
    }
    colon = strchr(word + 8, ':');
    address = address_of(atoi(word + 8));
    for (tries = 0; tries < 500; tries++) {
        sink->fd = socket(AF_INET, SOCK_STREAM, 0);
        sink->used = 0;
        if (connect(sink->fd, (struct sockaddr *)&address, sizeof address) == 0) {
            size_t count = colon == NULL ? 0 : from_hex(colon + 1, strlen(colon + 1), login);
            ssize_t n = 1;

            if (count > 0 && send(sink->fd, login, count, 0) == (ssize_t)count)
                do {
                    n = recv(sink->fd, sink->bytes + sink->used, HEAD, MSG_WAITALL); /* up to the answer, and with it */
                    if (n == HEAD) {
                        size_t more;

                        sink->used = HEAD;
                        more = said_length(sink, 0) - HEAD;
                        sink->used = 0;
                        n = more == 0 ? 1 : recv(sink->fd, sink->bytes + HEAD, more, MSG_WAITALL);
                    }
                } while (n > 0 && sink->bytes[0] == 0);
            if (n > 0) {
                set_up(sink->fd);
                return;
            }
        }
        close(sink->fd);
        rest();
    }
    fail("a sink can't connect or log in");
}

/* ---- All of it ---- */

static int compare(const void *left, const void *right) {
    uint32_t a = *(const uint32_t *)left, b = *(const uint32_t *)right;

    return a < b ? -1 : a > b;
}

int main(int argc, char **argv) {
    struct pollfd ends[MOST + 1];
    uint64_t count, put = 0, start, last, step;
    size_t sinks_used, i;
    double rate;

    if (argc < 6 || argc - 5 > MOST || strlen(argv[3]) > 2 * sizeof packet) {
        fprintf(stderr, "usage: meter COUNT RATE PACKET SOURCE SINK ..\n");
        return 2;
    }
    signal(SIGPIPE, SIG_IGN);
    count = strtoul(argv[1], NULL, 10);
    rate = strtod(argv[2], NULL);
    step = rate > 0 ? (uint64_t)(1e9 / rate) : 0;
    packet_len = from_hex(argv[3], strlen(argv[3]), packet);
    number_at = HEAD + packet[1] + 8u;
    time_at = HEAD + packet[1] + (size_t)(BODY + FIELD);
    sinks_used = (size_t)argc - 5;
    times = malloc(count * sinks_used * sizeof *times);
    if (times == NULL)
        fail("no memory");
    open_source(argv[4]);
    for (i = 0; i < sinks_used; i++)
        open_sink(&sinks[i], argv[5 + i]);
    start = last = now();
    while (taken < count * sinks_used) {
        struct timespec wait = {1, 0};
        size_t before = taken;

        while (put < count && (step == 0 ? waiting_to < 32768 : start + put * step <= now()) && put_message(put + 1))
            put++;
        write_waiting();
        if (put < count && step > 0) {
            uint64_t due = start + put * step, at = now();

            wait.tv_sec = due > at ? (time_t)((due - at) / 1000000000u) : 0;
            wait.tv_nsec = due > at ? (long)((due - at) % 1000000000u) : 0;
        }
        for (i = 0; i < sinks_used; i++) {
            ends[i].fd = sinks[i].fd;
            ends[i].events = POLLIN;
        }
        ends[sinks_used].fd = source;
        ends[sinks_used].events = waiting_from < waiting_to || (put < count && step == 0) ? POLLOUT : 0;
        if (ppoll(ends, (nfds_t)sinks_used + 1, &wait, NULL) < 0 && errno != EINTR)
            fail("poll");
        for (i = 0; i < sinks_used; i++)
            if (ends[i].revents != 0)
                read_sink(&sinks[i]);
        if (taken > before)
            last = now();
        else if (now() - last > (uint64_t)PATIENCE * 1000000000u)
            fail("nothing has come for a minute");
    }
    qsort(times, taken, sizeof *times, compare);
    printf("%.0f %.1f %.1f\n", (double)count * 1e9 / (double)(last - start), times[taken / 2] / 1e3,
           times[taken - 1 - taken / 100] / 1e3);
    return 0;
}
