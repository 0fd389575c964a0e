/* What ftdbox, ftdexchange and ftdseat share: refusals by name, log lines, the stop by a signal, options, login
 * contents, and lines: a socket with its input and output, its heartbeats, and the rules of either side of it.
 *
 * A line is asked for by the receiving side (struct above: the box towards above, a seat's end) and taken by the
 * serving side (struct seat: a seat of the box, the exchange). Which library calls are made on it, on which state, is
 * said by the program; when they are made is said here, once for all three.
 *
 * Everything is non-blocking; the program waits in one poll(2). Memory is taken at the start and touched, so that it
 * is there and stays the same. */
#ifndef LINES_H
#define LINES_H

#ifndef _POSIX_C_SOURCE
#define _POSIX_C_SOURCE 200809L
#endif
#include "../include/ftd.h"
#include <netdb.h>
#include <poll.h>
#include <signal.h>
#include <sys/socket.h>
#include <sys/types.h>

/* ---- Log lines and ends of the program ---- */

/* The program's name stands in front of each of its lines; quiet: only errors that end it are said. */
extern const char *program;
extern int quiet;

/* One log line on standard error. Where nobody takes it, it is dropped: a log that isn't read holds up no line. */
void say(const char *format, ...);
/* What ends the program, with status 1. */
void fail(const char *format, ...);
/* A wrong command line: what is wrong, the usage, status 2. */
void wrong(const char *format, ...);

/* A refusal by name: "wrong start". */
const char *refusal_name(uint8_t refusal);
/* "WHAT refused, 19 (wrong start)"; kept until the next call. */
const char *refused(const char *what, uint8_t refusal);
/* For calls that are refused only where the program is wrong. */
void must(const char *call, uint8_t refusal);

/* ---- Start and stop ---- */

/* Sets the signals up: SIGTERM and SIGINT ask for a stop, SIGPIPE is ignored. Gives the end of the pipe on which the
 * stop comes, for poll. */
int start_signals(void);
extern volatile sig_atomic_t stopping; /* a stop was asked for */

/* So many descriptors may be open; ends the program where the machine doesn't allow it. */
void need_descriptors(unsigned count);

/* Memory that is there from now on; ends the program where there is none. */
void *take_memory(size_t bytes);
void touch(void *bytes, size_t count);

/* Milliseconds, from some time on. */
int64_t now_ms(void);
#define NEVER INT64_MAX
/* Waits in poll until something is reported, or until then. */
void wait_for(struct pollfd *fds, size_t count, int64_t due);

/* ---- Options ---- */

struct options {
    int argc, at;
    char **argv;
    const char *name;  /* the option taken last, without its two dashes */
    const char *value; /* what stands behind an '=' in the same word */
};

/* The usage text: printed for --help, and behind what is wrong. */
extern const char *usage;

struct options start_options(int argc, char **argv);
/* Takes the next option; 0: there is none. --help prints the usage, and ends the program. */
int next_option(struct options *options);
/* The option is that one. */
int is_option(const struct options *options, const char *name);
const char *option_text(struct options *options);
uint64_t option_number(struct options *options, uint64_t least, uint64_t most);
int64_t option_seconds(struct options *options); /* with a fraction, as milliseconds; 0: NEVER */
void option_pause(struct options *options, int64_t *first, int64_t *most);
/* No such option: the usage, status 2. */
void unknown_option(const struct options *options);

/* A decimal number and nothing else; 0: it is none, or not from least to most. */
int read_number(const char *text, uint64_t least, uint64_t most, uint64_t *number);
/* Series with commas between them; gives how many, and ends the program where they are wrong. */
size_t read_series(const char *text, uint16_t series[FTD_MOST_SERIES]);

/* ---- Contents ---- */

struct content {
    uint8_t bytes[FTD_MOST_CONTENT];
    size_t used;
};

/* Pairs of hexadecimal digits to bytes, at most `room`; 0: they are none, or too many. */
int read_hex(const char *text, size_t len, uint8_t *bytes, size_t room, size_t *used);
/* Lower-case digits, two for each byte. */
void write_hex(const uint8_t *bytes, size_t count, char *text);

/* What --login and --answer say, checked; what is there without them: a ReqUserLoginField, a RspUserLoginField. */
void login_content(const char *text, struct content *content);
void answer_content(const char *text, struct content *content);

/* ---- Lines ---- */

enum {
    LOGIN_TID = 0x0016, /* TID of login packets and their answers */
#ifdef PLANT_REPEAT
    LINE_OUTPUT = 2 * FTD_MOST_OUTPUT
#else
    LINE_OUTPUT = FTD_MOST_OUTPUT /* all packets of a message; also the login packets of eight series */
#endif
};

struct line {
    int socket;         /* -1: there is no line */
    size_t used;        /* bytes of `in` that came and aren't taken yet */
    size_t out_at, out; /* of `output` the bytes from out_at up to out are still to be written; 0, 0 where none are */
    int64_t came, sent; /* when bytes came and were sent last */
    uint8_t in[FTD_MOST_BYTES];
    uint8_t output[LINE_OUTPUT];
};

/* The times of all lines of the program: a heartbeat where nothing was sent for `beat`, an end where nothing came for
 * `silence`. Milliseconds, or NEVER. */
extern int64_t beat, silence;

/* When something is due on the line if nothing moves: a heartbeat, or its end. */
int64_t line_due(const struct line *line, int may_beat);

/* A socket that listens there; ends the program where it can't. */
int listen_at(const char *address, unsigned port);

/* ---- The serving side ---- */

/* The calls of a serving side, for one of its seats. The answers are those of the box. */
struct serving {
    uint16_t series[FTD_MOST_SERIES]; /* the first `count` are open */
    size_t count;
    struct ftd_written (*login)(size_t seat, uint16_t series, const uint8_t *packet, size_t packet_len, uint8_t *output,
                                size_t room, uint64_t *next); /* next: where it goes on */
    struct ftd_box_sent (*send)(size_t seat, uint16_t series, uint8_t *output, size_t room);
    struct ftd_box_sent_packet (*send_packet)(size_t seat, uint16_t series, uint8_t *output, size_t room);
};

struct seat {
    struct line line;
    const struct serving *serving;
    size_t number;
    char name[16];                      /* in log lines */
    int listener;                       /* where its connections come in */
    int64_t accept_after;               /* none is taken before: the machine had no room for one */
    uint8_t logged_in[FTD_MOST_SERIES]; /* a login of the series was answered on this connection */
    size_t turn;                        /* place of the series that is sent next, or has a message under way */
    int by_packets;                     /* the socket didn't take all: go on packet by packet */
    int under_way;                      /* a message is written in part: nothing else goes between its packets */
    int more;                           /* its turn was over before there was nothing left */
};

void seat_start(struct seat *seat, const struct serving *serving, size_t number, const char *name, int listener);
/* Two places for poll: the listener and the line. Gives when something is due. */
int64_t seat_wait(const struct seat *seat, struct pollfd fds[2]);
/* What poll reported: takes a new connection, reads, answers logins, and sends as much as a turn allows. */
void seat_work(struct seat *seat, const struct pollfd fds[2]);
void seat_close(struct seat *seat, const char *why);

/* ---- The receiving side ---- */

enum { MOST_ADDRESSES = 4 };

struct above {
    struct line line;
    const char *name; /* in log lines */
    const char *text; /* HOST:PORT */
    struct sockaddr_storage addresses[MOST_ADDRESSES];
    socklen_t lengths[MOST_ADDRESSES];
    size_t address_count, address; /* the one that is tried next */
    int connecting;
    int64_t first, most, pause; /* pauses between two tries; the next one */
    int64_t next_try;
    int64_t asked;          /* when the logins were asked for */
    const uint16_t *series; /* one login for each, in this order */
    size_t count;
    size_t answered; /* so many of them are confirmed on this line */

    /* The calls on the program's own state. */
    void (*connect)(void);
    struct ftd_written (*request)(uint16_t series, uint8_t *output, size_t room);
    uint8_t (*confirm)(uint16_t series, const uint8_t *packet, size_t packet_len);
    /* Takes all whole packets of a bufferful, up to a refused one and with it; 0, or the refusal. */
    uint8_t (*receive)(const uint8_t *packets, size_t count, size_t *taken);
};

/* Finds the address of HOST:PORT; ends the program where there is none. The calls and pauses are set by the program. */
void above_start(struct above *above, const char *text);
int64_t above_wait(const struct above *above, struct pollfd *fd);
void above_work(struct above *above, const struct pollfd *fd);
void above_close(struct above *above, const char *why);

#endif
