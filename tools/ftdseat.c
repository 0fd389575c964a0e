/* A receiving end on a real line: it prints the messages that it is handed on, each once, wherever lines break.
 *
 *     make tools && target/tools/ftdseat --help
 */
#include "lines.h"
#include <errno.h>
#include <fcntl.h>
#include <limits.h>
#include <stdio.h>
#include <stdlib.h>
#include <string.h>
#include <unistd.h>

static const char usage_text[] =
    "usage: ftdseat --box HOST:PORT --series S,S.. [option]..\n"
    "\n"
    "Takes the flows that a box, or an exchange, serves, and prints each message once.\n"
    "\n"
    "  --box HOST:PORT      the box's port for this seat\n"
    "  --series S,S..       the series, 1 to 8 numbers from 1 to 65535\n"
    "  --state FILE         keeps trade date and last number of each series there, across a restart\n"
    "  --login HEX|FILE     content of the login packets (a ReqUserLoginField with texts of its own)\n"
    "  --pause MS[:MOST]    milliseconds until the line is tried again, doubled each time up to MOST (100:5000)\n"
    "  --beat SECONDS       a heartbeat where nothing was sent for so long (10; 0: none)\n"
    "  --silence SECONDS    the line is closed where nothing came for so long (30; 0: never)\n"
    "  --quiet              no log lines but errors that end the program\n"
    "  --help               this text\n"
    "\n"
    "HEX is an even number of hexadecimal digits; anything else names a file. Seconds may have a fraction.\n"
    "\n"
    "Standard output has a line for each message: SERIES DATE NUMBER TID HEXCONTENT, with - for an empty content.\n"
    "With --state a message is printed first and then noted in the file, which is replaced as a whole (FILE.new is\n"
    "written, and renamed). So a crash between the two, or within a line, prints that one line again after the\n"
    "restart, and none is ever left out. The file is not forced to the disk: it outlasts a crash, not a power cut.\n"
    "Log lines go to standard error. Status: 0 after a stop by SIGTERM or SIGINT, 2 for a wrong option, else 1.\n";

static struct ftd_receiver end;
static uint16_t series[FTD_MOST_SERIES];
static size_t series_count;
static uint8_t *buffer; /* the reassembly buffer */
static size_t buffer_len;
static struct content login;
static struct above above;
static const char *state_file;
static char new_file[4096];
static char text[2 * FTD_MOST_CONTENT + 64]; /* of a message */

/* ---- What is kept across a restart ---- */

enum { STATE_BYTES = 4096 };

/* Writes all; 0: it can't. */
static int write_all(int fd, const char *bytes, size_t count) {
    while (count > 0) {
        ssize_t n = write(fd, bytes, count);

        if (n < 0 && errno == EINTR)
            continue;
        if (n < 0)
            return 0;
        bytes += n;
        count -= (size_t)n;
    }
    return 1;
}

static size_t state_text(char state[STATE_BYTES]) {
    size_t used = (size_t)snprintf(state, STATE_BYTES, "ftdseat 1\n"), i;

    for (i = 0; i < end.count; i++) {
        const struct ftd_kept *kept = &end.series[i];

        if (kept->dated)
            used += (size_t)snprintf(state + used, STATE_BYTES - used, "series %u date %lu last %lu\n",
                                     (unsigned)kept->series, (unsigned long)kept->date, (unsigned long)kept->last);
    }
    return used + (size_t)snprintf(state + used, STATE_BYTES - used, "end\n");
}

static void keep_state(void) {
    char state[STATE_BYTES];
    size_t used;
    int fd;

    if (state_file == NULL)
        return;
    used = state_text(state);
    fd = open(new_file, O_WRONLY | O_CREAT | O_TRUNC, 0666);
    if (fd < 0 || !write_all(fd, state, used) || close(fd) != 0)
        fail("%s can't be written: %s", new_file, strerror(errno));
    if (rename(new_file, state_file) != 0)
        fail("%s can't be replaced: %s", state_file, strerror(errno));
}

/* A line "series S date D last N" of the file; what is wrong with it, or NULL. */
static const char *take_state_line(const char *at) {
    unsigned long number, date, last;
    char again[80];
    size_t i;

    if (sscanf(at, "series %5lu date %10lu last %7lu", &number, &date, &last) != 3)
        return "a line is not of the form: series S date D last N";
    snprintf(again, sizeof again, "series %lu date %lu last %lu", number, date, last);
    if (strcmp(again, at) != 0 || date > UINT32_MAX || last > FTD_MOST_MESSAGES)
        return "a number is wrong";
    for (i = 0; i < end.count && end.series[i].series != number; i++)
        ;
    if (i == end.count)
        return "it has a series that --series doesn't have";
    if (end.series[i].dated)
        return "a series stands twice";
    end.series[i].dated = 1;
    end.series[i].date = (uint32_t)date;
    end.series[i].last = (uint32_t)last;
    return NULL;
}

static const char *take_state(char *state) {
    const char *why = NULL;
    char *at = state, *newline;
    int first = 1;

    while ((newline = strchr(at, '\n')) != NULL) {
        *newline = '\0';
        if (first && strcmp(at, "ftdseat 1") != 0)
            return "the first line is not: ftdseat 1";
        if (!first && strcmp(at, "end") == 0)
            return newline[1] == '\0' ? NULL : "there is something behind its end";
        if (!first && (why = take_state_line(at)) != NULL)
            return why;
        first = 0;
        at = newline + 1;
    }
    return "it has no end";
}

/* Where there is no file yet, nothing is known of any series. */
static void read_state(void) {
    static char state[STATE_BYTES + 1];
    const char *why;
    FILE *file;
    size_t used;

    if (state_file == NULL)
        return;
    file = fopen(state_file, "rb");
    if (file == NULL && errno == ENOENT) {
        keep_state(); /* so that one that can't be written is known now */
        return;
    }
    if (file == NULL)
        fail("%s can't be read: %s", state_file, strerror(errno));
    used = fread(state, 1, STATE_BYTES, file);
    if (ferror(file))
        fail("%s can't be read: %s", state_file, strerror(errno));
    fclose(file);
    state[used] = '\0';
    why = strlen(state) == used ? take_state(state) : "it has a byte 0";
    if (why != NULL)
        fail("%s is no state of this program: %s", state_file, why);
}

/* ---- Messages ---- */

enum { STOP_TIME = 1000 }; /* milliseconds that a stop waits for standard output */

/* Prints the line, in one write where standard output takes it. Where a stop is asked for while nobody takes it, it is
 * left out: it is not noted, and comes again. */
static void print(size_t count) {
    struct pollfd ready;
    size_t at = 0;

    ready.fd = STDOUT_FILENO;
    ready.events = POLLOUT;
    while (at < count) {
        int late = stopping && poll(&ready, 1, STOP_TIME) <= 0;
        ssize_t n;

        if (late && at == 0)
            exit(0);
        if (late)
            fail("standard output takes no more, a line is cut");
        n = write(STDOUT_FILENO, text + at, stopping && count - at > PIPE_BUF ? PIPE_BUF : count - at);
        if (n >= 0)
            at += (size_t)n;
        else if (errno == EAGAIN)
            poll(&ready, 1, STOP_TIME);
        else if (errno != EINTR)
            fail("standard output: %s", strerror(errno));
    }
}

static void hand_on(const struct ftd_kept *kept, uint32_t tid, const uint8_t *bytes, size_t count) {
    size_t used = (size_t)snprintf(text, sizeof text, "%u %lu %lu %08lx ", (unsigned)kept->series,
                                   (unsigned long)kept->date, (unsigned long)kept->last, (unsigned long)tid);

    if (count == 0)
        text[used++] = '-';
    write_hex(bytes, count, text + used);
    used += 2 * count;
    text[used++] = '\n';
    print(used);
    keep_state();
}

/* ---- The line ---- */

static void connect_seat(void) {
    end = ftd_connect(end);
#ifdef PLANT_FORGET
    for (size_t i = 0; i < end.count; i++)
        end.series[i].last = 0; /* planted: a new line starts from nothing */
#endif
}

static struct ftd_written request_seat(uint16_t wanted, uint8_t *output, size_t room) {
    return ftd_request_login(end, wanted, login.bytes, login.used, output, room);
}

static uint8_t confirm_seat(uint16_t wanted, const uint8_t *packet, size_t packet_len) {
    struct ftd_confirmed confirmed = ftd_confirm_login(end, wanted, packet, packet_len);
    size_t i;

    end = confirmed.end;
    if (confirmed.refusal != 0)
        return confirmed.refusal;
    for (i = 0; i < end.count; i++)
        if (end.series[i].series == wanted)
            say("logged in to series %u of day %lu, from number %lu", (unsigned)wanted,
                (unsigned long)end.series[i].date, (unsigned long)confirmed.last + 1);
    keep_state();
    return 0;
}

/* The series of a message that was handed on: the one whose last number rose. */
static const struct ftd_kept *series_of(const struct ftd_receiver *before, const struct ftd_receiver *after) {
    size_t i = 0;

    while (i + 1 < after->count && after->series[i].last == before->series[i].last)
        i++;
    return &after->series[i];
}

static uint8_t receive_seat(const uint8_t *packets, size_t count, size_t *taken) {
    struct ftd_received_several received;

    *taken = 0;
    do {
        const uint8_t *at = packets + *taken;
        struct ftd_receiver before = end;

        received = ftd_receive_several(end, at, count - *taken, buffer, buffer_len);
        end = received.end;
        *taken += received.taken;
        if (received.answer == FTD_SEVERAL_MESSAGE)
            hand_on(series_of(&before, &end), received.tid,
                    (received.origin == FTD_IN_BUFFER ? buffer : at) + received.content.start, received.content.len);
    } while (received.answer == FTD_SEVERAL_MESSAGE);
    return received.refusal;
}

/* ---- All ---- */

static void take_options(int argc, char **argv) {
    struct options options = start_options(argc, argv);
    const char *box_text = NULL, *series_text = NULL, *login_text = NULL;

    above.first = 100;
    above.most = 5000;
    while (next_option(&options)) {
        if (is_option(&options, "box"))
            box_text = option_text(&options);
        else if (is_option(&options, "series"))
            series_text = option_text(&options);
        else if (is_option(&options, "state"))
            state_file = option_text(&options);
        else if (is_option(&options, "login"))
            login_text = option_text(&options);
        else if (is_option(&options, "pause"))
            option_pause(&options, &above.first, &above.most);
        else if (is_option(&options, "beat"))
            beat = option_seconds(&options);
        else if (is_option(&options, "silence"))
            silence = option_seconds(&options);
        else if (is_option(&options, "quiet"))
            quiet = 1;
        else
            unknown_option(&options);
    }
    if (box_text == NULL || series_text == NULL)
        wrong("--%s is missing", box_text == NULL ? "box" : "series");
    if (state_file != NULL && (size_t)snprintf(new_file, sizeof new_file, "%s.new", state_file) >= sizeof new_file)
        wrong("--state: the name is too long");
    series_count = read_series(series_text, series);
    login_content(login_text, &login);
    above_start(&above, box_text);
}

int main(int argc, char **argv) {
    struct ftd_receiver_opened opened;
    struct pollfd fds[2];

    program = "ftdseat";
    usage = usage_text;
    take_options(argc, argv);
    fds[0].fd = start_signals();
    fds[0].events = POLLIN;
    opened = ftd_receiver_open(ftd_receiver_fresh(), series, series_count);
    must("ftd_receiver_open", opened.refusal);
    end = opened.end;
    read_state();
    buffer_len = series_count * FTD_MOST_CONTENT;
    buffer = take_memory(buffer_len);
    touch(text, sizeof text);
    above.name = "line";
    above.series = series;
    above.count = series_count;
    above.connect = connect_seat;
    above.request = request_seat;
    above.confirm = confirm_seat;
    above.receive = receive_seat;
    while (!stopping) {
        wait_for(fds, 2, above_wait(&above, &fds[1]));
        above_work(&above, &fds[1]);
    }
    say("stopped");
    return 0;
}
