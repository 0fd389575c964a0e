/* The box on real lines: one line up, to an exchange or to another box, and 16 ports below, one for each seat.
 *
 * What comes from above is published below by the library's call, under the same number; each seat is sent what it
 * has not had yet, as fast as its own line takes it. The log is the queue of all seats.
 *
 *     make tools && target/tools/ftdbox --help
 */
#include "lines.h"
#include <stdio.h>
#include <stdlib.h>
#include <string.h>

static const char usage_text[] =
    "usage: ftdbox --above HOST:PORT --seats PORT --series S,S.. [option]..\n"
    "\n"
    "Takes the flows of an exchange (or of another box) over one line and serves them to 16 seats.\n"
    "\n"
    "  --above HOST:PORT    where the exchange listens\n"
    "  --seats PORT         the port of seat 0; seats 1 to 15 have the 15 ports behind it\n"
    "  --series S,S..       the series, 1 to 8 numbers from 1 to 65535\n"
    "  --reserve S=BYTES    bytes of the log that only series S fills (0); once for each series\n"
    "  --log BYTES          bytes of the log, which has to hold a day: 16 and the content for each message (67108864)\n"
    "  --login HEX|FILE     content of the login packets upward (a ReqUserLoginField with texts of its own)\n"
    "  --answer HEX|FILE    content of the login answers to the seats (a RspUserLoginField, likewise)\n"
    "  --bind ADDRESS       address at which the seats' ports listen, in numbers (127.0.0.1; 0.0.0.0 is all)\n"
    "  --beat SECONDS       a heartbeat on each line on which nothing was sent for so long (10; 0: none)\n"
    "  --silence SECONDS    a line on which nothing came for so long is closed (30; 0: never)\n"
    "  --pause MS[:MOST]    milliseconds until the line up is tried again, doubled each time up to MOST (100:5000)\n"
    "  --counts N           a log line with the counts every N messages (1000; 0: none)\n"
    "  --quiet              no log lines but errors that end the program\n"
    "  --help               this text\n"
    "\n"
    "HEX is an even number of hexadecimal digits; anything else names a file. Seconds may have a fraction.\n"
    "Log lines go to standard error. Status: 0 after a stop by SIGTERM or SIGINT, 2 for a wrong option, else 1.\n"
    "All memory is taken at the start: the log, 32768 bytes for each series, and 100000 for each seat.\n";

enum { DESCRIPTORS = 2 * FTD_SEATS + 16 }; /* ports, seats' lines, and some more */

static struct ftd_box box;
static uint64_t places[FTD_PLACES];
static uint16_t series[FTD_MOST_SERIES];
static size_t series_count;
static size_t reserves[FTD_MOST_SERIES];
static uint8_t *day_log;
static size_t log_len = 67108864;
static uint8_t *buffer; /* the reassembly buffer */
static size_t buffer_len;
static struct content login, answer;

static struct above above;
static struct serving serving;
static struct seat seats[FTD_SEATS];
static uint64_t counts = 1000, messages;
/* By the series' places: */
static uint8_t stands_still[FTD_MOST_SERIES]; /* its next message can't be taken; of this line */
static uint32_t turned_down[FTD_MOST_SERIES]; /* the number of a message of the day whose content was refused, or 0 */

static size_t place_of(uint16_t wanted) {
    size_t i = 0;

    while (i < series_count && series[i] != wanted)
        i++;
    return i;
}

/* ---- Towards above ---- */

static void connect_above(void) {
    box = ftd_box_connect(box);
    memset(stands_still, 0, sizeof stands_still);
}

static struct ftd_written request_above(uint16_t wanted, uint8_t *output, size_t room) {
    return ftd_box_request_login(box, wanted, login.bytes, login.used, output, room);
}

/* An answer with a new date opens its day below: the library has logged all seats out, so their lines are closed. */
static uint8_t confirm_above(uint16_t wanted, const uint8_t *packet, size_t packet_len) {
    uint8_t was_dated = box.day.dated;
    uint32_t date = box.day.date;
    struct ftd_box_confirmed confirmed =
        ftd_box_confirm_login(box, wanted, packet, packet_len, day_log, log_len, places);
    size_t i;

    box = confirmed.box;
    if (confirmed.refusal != 0)
        return confirmed.refusal;
    say("above: logged in to series %u, from number %lu", (unsigned)wanted, (unsigned long)confirmed.last + 1);
    if (box.day.dated != was_dated || box.day.date != date) {
        say("day %lu opened", (unsigned long)box.day.date);
        memset(turned_down, 0, sizeof turned_down);
        for (i = 0; i < FTD_SEATS; i++)
            seat_close(&seats[i], "a new day, it has to log in anew");
    }
    return 0;
}

static void count_message(void) {
    char text[FTD_MOST_SERIES * 32];
    size_t used = 0, up = 0, i;

    if (++messages % (counts > 0 ? counts : UINT64_MAX) != 0)
        return;
    for (i = 0; i < series_count; i++)
        used += (size_t)snprintf(text + used, sizeof text - used, " series %u: %lu,", (unsigned)series[i],
                                 (unsigned long)box.day.series[i].published);
    for (i = 0; i < FTD_SEATS; i++)
        up += seats[i].line.socket >= 0;
    say("counts:%s seats connected: %zu", text, up);
}

/* A message that the box can't take stays the next one of its series: the series stands still, with what follows of it
 * on this line; the others go on, and so does the line. So it is where there is no room, or no number left, and where
 * its content is refused for the second time: the first time the line may be at fault, and is closed.
 * `packets` ends with the refused one. */
static int passed_over(const uint8_t *packets, size_t count, uint8_t refusal) {
    size_t at = 0, next, i;
    struct ftd_packet read;

    while ((next = at + ftd_said_length(packets + at, count - at)) < count)
        at = next;
    read = ftd_read(packets + at, count - at);
    i = read.answer == FTD_MESSAGE ? place_of(read.series) : series_count;
    if (i == series_count)
        return 0;
    if (refusal == FTD_OUT_OF_LINE || refusal == FTD_BROKEN_CHAIN) /* what follows, or the rest of a chain */
        return stands_still[i];
    if (refusal >= FTD_FIELD_RUN && refusal <= FTD_COMPOSITION && turned_down[i] != read.number) {
        turned_down[i] = read.number;
        return 0;
    }
    if (refusal > FTD_COMPOSITION && refusal != FTD_TOO_SMALL && refusal != FTD_DAY_FULL)
        return 0;
    if (!stands_still[i])
        say("above: series %u stands still: message %lu %s", (unsigned)series[i], (unsigned long)read.number,
            refused("is", refusal));
    stands_still[i] = 1;
    return 1;
}

static uint8_t receive_above(const uint8_t *packets, size_t count, size_t *taken) {
    struct ftd_box_received_several received;
    int goes_on;

    *taken = 0;
    do {
        received = ftd_box_receive_several(box, packets + *taken, count - *taken, day_log, log_len, buffer, buffer_len);
        box = received.box;
        goes_on =
            received.answer == FTD_SEVERAL_MESSAGE ||
            (received.answer == FTD_SEVERAL_REFUSED && passed_over(packets + *taken, received.taken, received.refusal));
        *taken += received.taken;
        if (received.answer == FTD_SEVERAL_MESSAGE)
            count_message();
    } while (goes_on);
    if (received.refusal == FTD_DAMAGED_LOG)
        must("a message from above", received.refusal);
    return received.refusal;
}

/* ---- Towards the seats ---- */

static struct ftd_written login_seat(size_t seat, uint16_t wanted, const uint8_t *packet, size_t packet_len,
                                     uint8_t *output, size_t room, uint64_t *next) {
    struct ftd_written written =
        ftd_box_login(box, seat, wanted, packet, packet_len, answer.bytes, answer.used, places, output, room);

    if (written.refusal == 0)
        *next = places[24 * seat + 3 * place_of(wanted) + 1];
    return written;
}

static struct ftd_box_sent send_seat(size_t seat, uint16_t wanted, uint8_t *output, size_t room) {
    return ftd_box_send(box, seat, wanted, places, day_log, log_len, output, room);
}

static struct ftd_box_sent_packet send_packet_seat(size_t seat, uint16_t wanted, uint8_t *output, size_t room) {
    return ftd_box_send_packet(box, seat, wanted, places, day_log, log_len, output, room);
}

/* ---- Both ---- */

struct reserve {
    const char *text;
    uint16_t series;
    size_t bytes;
};

/* S=BYTES */
static struct reserve read_reserve(const char *text) {
    struct reserve reserve;
    char front[8] = "";
    size_t len = strcspn(text, "=");
    uint64_t number = 0, bytes = 0;

    if (len < sizeof front)
        memcpy(front, text, len);
    if (text[len] != '=' || !read_number(front, 1, 65535, &number) || !read_number(text + len + 1, 0, SIZE_MAX, &bytes))
        wrong("--reserve: %s is not S=BYTES", text);
    reserve.text = text;
    reserve.series = (uint16_t)number;
    reserve.bytes = (size_t)bytes;
    return reserve;
}

/* Gives what the command line says besides what is kept above: the first port of the seats, and where they listen. */
static unsigned take_options(int argc, char **argv, const char **bind_address) {
    struct options options = start_options(argc, argv);
    const char *above_text = NULL, *series_text = NULL, *login_text = NULL, *answer_text = NULL;
    struct reserve given[FTD_MOST_SERIES];
    size_t given_count = 0, total = 0, i;
    unsigned port = 0;

    above.first = 100;
    above.most = 5000;
    *bind_address = "127.0.0.1";
    while (next_option(&options)) {
        if (is_option(&options, "above"))
            above_text = option_text(&options);
        else if (is_option(&options, "seats"))
            port = (unsigned)option_number(&options, 1, 65535 - (FTD_SEATS - 1));
        else if (is_option(&options, "series"))
            series_text = option_text(&options);
        else if (is_option(&options, "reserve")) {
            if (given_count == FTD_MOST_SERIES)
                wrong("--reserve: more than %d of them", FTD_MOST_SERIES);
            given[given_count++] = read_reserve(option_text(&options));
        } else if (is_option(&options, "log"))
            log_len = (size_t)option_number(&options, 0, (uint64_t)1 << 40);
        else if (is_option(&options, "login"))
            login_text = option_text(&options);
        else if (is_option(&options, "answer"))
            answer_text = option_text(&options);
        else if (is_option(&options, "bind"))
            *bind_address = option_text(&options);
        else if (is_option(&options, "beat"))
            beat = option_seconds(&options);
        else if (is_option(&options, "silence"))
            silence = option_seconds(&options);
        else if (is_option(&options, "pause"))
            option_pause(&options, &above.first, &above.most);
        else if (is_option(&options, "counts"))
            counts = option_number(&options, 0, UINT64_MAX);
        else if (is_option(&options, "quiet"))
            quiet = 1;
        else
            unknown_option(&options);
    }
    if (above_text == NULL || port == 0 || series_text == NULL)
        wrong("--%s is missing", above_text == NULL ? "above" : port == 0 ? "seats" : "series");
    series_count = read_series(series_text, series);
    for (i = 0; i < given_count; i++) {
        if (place_of(given[i].series) == series_count)
            wrong("--reserve: %s is of no series of --series", given[i].text);
        reserves[place_of(given[i].series)] = given[i].bytes;
    }
    for (i = 0; i < series_count; i++) {
        if (reserves[i] > log_len - total)
            wrong("--reserve: the reserves together are above the log's %zu bytes", log_len);
        total += reserves[i];
    }
    login_content(login_text, &login);
    answer_content(answer_text, &answer);
    above_start(&above, above_text);
    return port;
}

static void start_box(unsigned port, const char *bind_address) {
    struct ftd_box_opened opened = ftd_box_open(ftd_box_fresh(), series, series_count, reserves, series_count);
    size_t i;

    must("ftd_box_open", opened.refusal);
    box = opened.box;
    day_log = take_memory(log_len);
    buffer_len = series_count * FTD_MOST_CONTENT;
    buffer = take_memory(buffer_len);
    above.name = "above";
    above.series = series;
    above.count = series_count;
    above.connect = connect_above;
    above.request = request_above;
    above.confirm = confirm_above;
    above.receive = receive_above;
    memcpy(serving.series, series, sizeof series);
    serving.count = series_count;
    serving.login = login_seat;
    serving.send = send_seat;
    serving.send_packet = send_packet_seat;
    for (i = 0; i < FTD_SEATS; i++) {
        char name[16];

        snprintf(name, sizeof name, "seat %zu", i);
        seat_start(&seats[i], &serving, i, name, listen_at(bind_address, port + (unsigned)i));
    }
}

int main(int argc, char **argv) {
    struct pollfd fds[2 + 2 * FTD_SEATS];
    const char *bind_address;
    unsigned port;
    int stop;
    size_t i;

    program = "ftdbox";
    usage = usage_text;
    port = take_options(argc, argv, &bind_address);
    need_descriptors(DESCRIPTORS);
    stop = start_signals();
    start_box(port, bind_address);
    say("seats 0 to %d at ports %u to %u of %s", FTD_SEATS - 1, port, port + FTD_SEATS - 1, bind_address);
    while (!stopping) {
        int64_t due = above_wait(&above, &fds[1]), seat_due;

        fds[0].fd = stop;
        fds[0].events = POLLIN;
        for (i = 0; i < FTD_SEATS; i++) {
            seat_due = seat_wait(&seats[i], &fds[2 + 2 * i]);
            due = seat_due < due ? seat_due : due;
        }
        wait_for(fds, 2 + 2 * FTD_SEATS, due);
        above_work(&above, &fds[1]);
        for (i = 0; i < FTD_SEATS; i++)
            seat_work(&seats[i], &fds[2 + 2 * i]);
    }
    say("stopped");
    return 0;
}
