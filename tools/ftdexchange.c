/* A serving end on a real line: it opens days and publishes messages as its standard input says, and serves them to
 * one receiving end, a box or a seat's end.
 *
 *     make tools && target/tools/ftdexchange --help
 */
#include "lines.h"
#include <errno.h>
#include <limits.h>
#include <stdarg.h>
#include <stdio.h>
#include <stdlib.h>
#include <string.h>
#include <unistd.h>

static const char usage_text[] =
    "usage: ftdexchange --port PORT [option]..\n"
    "\n"
    "Serves the flows that its standard input says to one receiving end: a box, or a seat's end.\n"
    "\n"
    "  --port PORT          where it listens\n"
    "  --log BYTES          bytes of the log, which has to hold a day: 16 and the content for each message (67108864)\n"
    "  --answer HEX|FILE    content of the login answers (a RspUserLoginField with texts of its own)\n"
    "  --bind ADDRESS       address at which it listens, in numbers (127.0.0.1; 0.0.0.0 is all)\n"
    "  --beat SECONDS       a heartbeat where nothing was sent for so long (10; 0: none)\n"
    "  --silence SECONDS    the line is closed where nothing came for so long (30; 0: never)\n"
    "  --quiet              no log lines but errors that end the program\n"
    "  --help               this text\n"
    "\n"
    "HEX is an even number of hexadecimal digits; anything else names a file. Seconds may have a fraction.\n"
    "\n"
    "Standard input has a command a line; blank lines and those that begin with # are passed over:\n"
    "\n"
    "  open DATE SERIES[:RESERVE]..       opens a day: trade date, series, bytes of the log reserved for each\n"
    "  publish SERIES TID HEXCONTENT      publishes a message; TID in hexadecimal digits, - for no content\n"
    "\n"
    "For each it prints a line: opened DATE, published SERIES DATE NUMBER, refused N WORDS, or bad line N: WHY, and\n"
    "goes on. A new day closes the line. At the end of its input it goes on serving.\n"
    "Log lines go to standard error. Status: 0 after a stop by SIGTERM or SIGINT, 2 for a wrong option, else 1.\n";

enum {
    INPUT = 1 << 17,   /* bytes of the input; a command with the longest content has half of it */
    PRINTED = 1 << 16, /* bytes that wait for standard output to take them */
    LONGEST = 200      /* and at most so many are printed for a command */
};

static struct ftd_sender end;
static uint8_t *day_log;
static size_t log_len = 67108864;
static struct content answer, content;
static struct serving serving;
static struct seat line;

static char input[INPUT + 1];
static size_t input_used;
static int input_ended, too_long;
static unsigned long input_line;
static char printed[PRINTED];
static size_t printed_used;

/* ---- The line ---- */

static struct ftd_written login_line(size_t seat, uint16_t series, const uint8_t *packet, size_t packet_len,
                                     uint8_t *output, size_t room, uint64_t *next) {
    struct ftd_logged_in login = ftd_login(end, series, packet, packet_len, answer.bytes, answer.used, output, room);
    struct ftd_written written;
    size_t i;

    (void)seat;
    end = login.end;
    for (i = 0; i < end.count; i++)
        if (end.series[i].series == series)
            *next = end.series[i].next;
    written.bytes = login.bytes;
    written.refusal = login.refusal;
    return written;
}

static struct ftd_box_sent send_line(size_t seat, uint16_t series, uint8_t *output, size_t room) {
    struct ftd_sent sent = ftd_send(end, series, day_log, log_len, output, room);
    struct ftd_box_sent answered;

    (void)seat;
    end = sent.end;
    answered.bytes = sent.bytes;
    answered.number = sent.number;
    answered.answer = sent.answer;
    answered.refusal = sent.refusal;
    return answered;
}

static struct ftd_box_sent_packet send_packet_line(size_t seat, uint16_t series, uint8_t *output, size_t room) {
    struct ftd_sent_packet sent = ftd_send_packet(end, series, day_log, log_len, output, room);
    struct ftd_box_sent_packet answered;

    (void)seat;
    end = sent.end;
    answered.bytes = sent.bytes;
    answered.number = sent.number;
    answered.answer = sent.answer;
    answered.refusal = sent.refusal;
    answered.last = sent.last;
    return answered;
}

/* ---- Commands ---- */

static void print(const char *format, ...) {
    va_list rest;
    int n;

    va_start(rest, format);
    n = vsnprintf(printed + printed_used, LONGEST, format, rest);
    va_end(rest);
    if (n >= LONGEST) { /* cut, with its end */
        n = LONGEST - 1;
        printed[printed_used + LONGEST - 2] = '\n';
    }
    printed_used += (size_t)n;
}

static void bad_line(const char *why) {
    print("bad line %lu: %s\n", input_line, why);
}

static void print_refused(uint8_t refusal) {
    print("refused %u %s\n", (unsigned)refusal, refusal_name(refusal));
}

/* The next word of the line; NULL: there is none. */
static char *next_word(char **at) {
    char *word = *at + strspn(*at, " \t");

    if (*word == '\0')
        return NULL;
    *at = word + strcspn(word, " \t");
    if (**at != '\0')
        *(*at)++ = '\0';
    return word;
}

/* open DATE SERIES[:RESERVE].. */
static void open_day(char *rest) {
    uint16_t series[FTD_MOST_SERIES];
    size_t reserves[FTD_MOST_SERIES], count = 0, i;
    struct ftd_sender_opened opened;
    char *word = next_word(&rest);
    uint64_t date = 0, number = 0;

    if (word == NULL || !read_number(word, 0, UINT32_MAX, &date)) {
        bad_line("the date is no number up to 4294967295");
        return;
    }
    while ((word = next_word(&rest)) != NULL) {
        char *colon = strchr(word, ':');
        uint64_t reserve = 0;

        if (colon != NULL)
            *colon = '\0';
        if (!read_number(word, 0, 65535, &number) ||
            (colon != NULL && !read_number(colon + 1, 0, SIZE_MAX, &reserve))) {
            bad_line("a series is no number up to 65535, or its reserve none");
            return;
        }
        if (count == FTD_MOST_SERIES) {
            print_refused(FTD_OPENING);
            return;
        }
        series[count] = (uint16_t)number;
        reserves[count++] = (size_t)reserve;
    }
    opened = ftd_sender_open(end, (uint32_t)date, series, count, reserves, count, day_log, log_len);
    end = opened.end;
    if (opened.refusal != 0) {
        print_refused(opened.refusal);
        return;
    }
    for (i = 0; i < count; i++)
        serving.series[i] = series[i];
    serving.count = count;
    print("opened %lu\n", (unsigned long)date);
    say("day %lu opened", (unsigned long)date);
    seat_close(&line, "a new day, it has to log in anew");
}

/* publish SERIES TID HEXCONTENT */
static void publish(char *rest) {
    char *series_word = next_word(&rest), *tid_word = next_word(&rest), *hex = next_word(&rest);
    struct ftd_published published;
    uint64_t series = 0;
    uint32_t tid;
    size_t len;

    if (series_word == NULL || !read_number(series_word, 0, 65535, &series)) {
        bad_line("the series is no number up to 65535");
        return;
    }
    if (tid_word != NULL && tid_word[0] == '0' && (tid_word[1] == 'x' || tid_word[1] == 'X'))
        tid_word += 2;
    len = tid_word == NULL ? 0 : strlen(tid_word);
    if (len == 0 || len > 8 || strspn(tid_word, "0123456789abcdefABCDEF") != len) {
        bad_line("the TID is not 1 to 8 hexadecimal digits");
        return;
    }
    tid = (uint32_t)strtoul(tid_word, NULL, 16);
    if (hex == NULL || next_word(&rest) != NULL) {
        bad_line(hex == NULL ? "there is no content (- for an empty one)" : "there are words behind the content");
        return;
    }
    content.used = 0;
    if (strcmp(hex, "-") != 0 && !read_hex(hex, strlen(hex), content.bytes, sizeof content.bytes, &content.used)) {
        bad_line(strlen(hex) > 2 * sizeof content.bytes ? "the content has more than 32768 bytes"
                                                        : "the content is not an even number of hexadecimal digits");
        return;
    }
    published = ftd_publish(end, (uint16_t)series, tid, content.bytes, content.used, day_log, log_len);
    end = published.end;
    if (published.refusal == FTD_DAMAGED_LOG)
        must("ftd_publish", published.refusal);
    if (published.refusal != 0)
        print_refused(published.refusal);
    else
        print("published %u %lu %lu\n", (unsigned)series, (unsigned long)end.date, (unsigned long)published.number);
}

static void run_command(char *text) {
    char *word;

    input_line++;
    text[strcspn(text, "\r")] = '\0';
    word = next_word(&text);
    if (word == NULL || word[0] == '#')
        return;
    if (strcmp(word, "open") == 0)
        open_day(text);
    else if (strcmp(word, "publish") == 0)
        publish(text);
    else
        bad_line("neither open nor publish");
}

/* Runs the whole lines that are there, as far as there is room for what they print; 1: there was too little. */
static int run_commands(void) {
    size_t at = 0;

    while (sizeof printed - printed_used >= LONGEST && at < input_used) {
        char *newline = memchr(input + at, '\n', input_used - at);

        if (newline == NULL && !input_ended) {
            if (at == 0 && input_used == INPUT) { /* what is there of a line that is too long is dropped */
                too_long = 1;
                at = input_used;
            }
            break;
        }
        if (newline == NULL)
            newline = input + input_used;
        *newline = '\0';
        if (too_long) {
            input_line++;
            bad_line("it is too long");
        } else if (strlen(input + at) != (size_t)(newline - (input + at))) {
            input_line++;
            bad_line("it has a byte 0");
        } else {
            run_command(input + at);
        }
        too_long = 0;
        at = (size_t)(newline - input) + 1;
        if (at > input_used)
            at = input_used;
    }
    memmove(input, input + at, input_used - at);
    input_used -= at;
    return input_used > 0 && sizeof printed - printed_used < LONGEST;
}

static void read_input(void) {
    ssize_t n = read(STDIN_FILENO, input + input_used, INPUT - input_used);

    if (n > 0)
        input_used += (size_t)n;
    else if (n == 0 || (errno != EINTR && errno != EAGAIN)) {
        if (n < 0)
            say("standard input: %s", strerror(errno));
        say("end of the commands, serving goes on");
        input_ended = 1;
    }
}

/* Standard output takes so many bytes without a wait where poll says that it takes some. */
static void write_printed(void) {
    struct pollfd ready;
    ssize_t n;

    ready.fd = STDOUT_FILENO;
    ready.events = POLLOUT;
    while (printed_used > 0 && poll(&ready, 1, 0) > 0) {
        n = write(STDOUT_FILENO, printed, printed_used < PIPE_BUF ? printed_used : PIPE_BUF);
        if (n < 0 && errno == EAGAIN)
            return;
        if (n < 0 && errno != EINTR)
            fail("standard output: %s", strerror(errno));
        if (n > 0) {
            memmove(printed, printed + n, printed_used - (size_t)n);
            printed_used -= (size_t)n;
        }
    }
}

/* ---- Both ---- */

static unsigned take_options(int argc, char **argv, const char **bind_address) {
    struct options options = start_options(argc, argv);
    const char *answer_text = NULL;
    unsigned port = 0;

    *bind_address = "127.0.0.1";
    while (next_option(&options)) {
        if (is_option(&options, "port"))
            port = (unsigned)option_number(&options, 1, 65535);
        else if (is_option(&options, "log"))
            log_len = (size_t)option_number(&options, 0, (uint64_t)1 << 40);
        else if (is_option(&options, "answer"))
            answer_text = option_text(&options);
        else if (is_option(&options, "bind"))
            *bind_address = option_text(&options);
        else if (is_option(&options, "beat"))
            beat = option_seconds(&options);
        else if (is_option(&options, "silence"))
            silence = option_seconds(&options);
        else if (is_option(&options, "quiet"))
            quiet = 1;
        else
            unknown_option(&options);
    }
    if (port == 0)
        wrong("--port is missing");
    answer_content(answer_text, &answer);
    return port;
}

int main(int argc, char **argv) {
    struct pollfd fds[5];
    const char *bind_address;
    unsigned port;
    int stop, left = 0; /* commands are left that wait for nothing but room */

    program = "ftdexchange";
    usage = usage_text;
    port = take_options(argc, argv, &bind_address);
    stop = start_signals();
    end = ftd_sender_fresh();
    day_log = take_memory(log_len);
    touch(input, sizeof input);
    touch(printed, sizeof printed);
    touch(&content, sizeof content);
    serving.login = login_line;
    serving.send = send_line;
    serving.send_packet = send_packet_line;
    seat_start(&line, &serving, 0, "line", listen_at(bind_address, port));
    say("listens at port %u of %s", port, bind_address);
    while (!stopping) {
        int64_t due = seat_wait(&line, &fds[3]);

        fds[0].fd = stop;
        fds[0].events = POLLIN;
        fds[1].fd = input_ended || input_used == INPUT ? -1 : STDIN_FILENO;
        fds[1].events = POLLIN;
        fds[2].fd = printed_used > 0 ? STDOUT_FILENO : -1;
        fds[2].events = POLLOUT;
        wait_for(fds, 5, left && printed_used == 0 ? now_ms() : due);
        if (fds[1].revents != 0)
            read_input();
        left = run_commands();
        write_printed();
        seat_work(&line, &fds[3]);
    }
    say("stopped");
    return 0;
}
