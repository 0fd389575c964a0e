/* An example driver: a serving and a receiving end, each in a process of its own, over lines that break and lose
 * packets.
 *
 * The serving process publishes messages of two series, answers logins and sends: the private series packet by packet,
 * as a slow line takes them, the broadcast one in whole messages. Of the log it reserves what the private series needs:
 * a bulletin too many is turned down, a trade return never. The first line breaks within a message of five packets; on
 * the second, single packets are lost, repeated and late, as where packets go their own ways: by their places, which
 * both ends write and compare, that is noticed, and nothing wrong is handed on. On each line both sides go on where the
 * one before it left them, and the message is sent anew; the third brings all. The receiving process reads what is
 * there, wherever that cuts a packet, hands it over and keeps the rest; it prints what it is handed.
 * Where there are three socket pairs here a driver has its sockets; the rest can be taken over.
 *
 *     make example && target/example/driver
 */
#define _POSIX_C_SOURCE 200809L
#include "ftd.h"
#include <errno.h>
#include <poll.h>
#include <stdio.h>
#include <stdlib.h>
#include <string.h>
#include <sys/socket.h>
#include <sys/types.h>
#include <sys/wait.h>
#include <unistd.h>

enum {
    PRIVATE = 1, /* the series that the two sides have agreed on */
    BROADCAST = 2,
    SERIES = 2,
    LINES = 3,
    TRADE_DATE = 20041231,
    LOGIN = 0x0016,    /* TID of login packets and their answers */
    BULLETIN = 0x2003, /* TID and FID of a message of the standard: MarketBulletin, BulletinField */
    BULLETIN_FIELD = 0x0001,
    OTHER = 0x7777, /* TID and FID of a message that the standard doesn't have: its bytes are free */
    OTHER_FIELD = 0x7001,
    TRADES = 4,          /* so many private messages are expected on the day at most */
    TRADE_BYTES = 20100, /* and so many bytes of content in each */
    PRIVATE_SHARE = TRADES * (TRADE_BYTES + FTD_LOG_HEAD), /* bytes of the log for them */
    LOG_SIZE = PRIVATE_SHARE + 1500, /* bytes for the day's messages; so few for bulletins only to show a full log */
    RECORDS = 1 << 16, /* bytes for messages that are published together: content and FTD_RECORD_HEAD of each */
    SLOW = 1500        /* so many bytes are written at most where the line is slow; only here to show it */
};

static const uint16_t open_series[SERIES] = {PRIVATE, BROADCAST};
/* What is reserved of the log for each: the private messages must go in, and the others have the rest. */
static const size_t reserves[SERIES] = {PRIVATE_SHARE, 0};

/* ---- Refusals ---- */

static const char *refusal_name(uint8_t refusal) {
    static const char *const names[] = {
        "none",           "long extension", "broken tag",    "body length", "version",     "chain letter",
        "content length", "field run",      "field length",  "item",        "make-up",     "opening",
        "not one packet", "unknown series", "not logged in", "other day",   "out of line", "broken chain",
        "too small",      "wrong start",    "damaged log",   "day full"};
    return refusal < sizeof names / sizeof names[0] ? names[refusal] : "not plain";
}

static void report(const char *call, uint8_t refusal) {
    fprintf(stderr, "%s: refused, %u (%s)\n", call, refusal, refusal_name(refusal));
}

/* For calls that are refused only where this program is wrong. */
static void must(const char *call, uint8_t refusal) {
    if (refusal != 0) {
        report(call, refusal);
        exit(1);
    }
}

/* ---- The line ---- */

struct line {
    int socket;
    size_t left;  /* so many bytes can still be written until it breaks; only here to show a break */
    size_t piece; /* so many bytes are read at most; only here to show packets cut anywhere */
    int loose;    /* it may lose, repeat and reorder single packets */
    int packets;  /* how many were to be written to a loose line; only here to show its faults */
    size_t late;  /* bytes of a packet that is held back; likewise */
    int refused;  /* how many packets a loose line has brought that had to be passed over */
};

/* Reads so many bytes; 0: the line is broken. */
static int read_bytes(struct line *line, uint8_t *bytes, size_t count) {
    while (count > 0) {
        ssize_t n = recv(line->socket, bytes, count, MSG_WAITALL);
        if (n < 0 && errno == EINTR)
            continue;
        if (n <= 0)
            return 0;
        bytes += n;
        count -= (size_t)n;
    }
    return 1;
}

/* Reads one packet: always as many bytes as are certainly missing, so its first four and then the rest, and never a byte
 * of the next one. Gives its length; 0: the line is broken. What isn't a packet at all is left to the call that gets it:
 * it refuses it. */
static size_t read_packet(struct line *line, uint8_t packet[FTD_MOST_BYTES]) {
    size_t size = 0;
    struct ftd_packet read = ftd_read(packet, size);

    while (read.answer == FTD_SHORT) {
        if (!read_bytes(line, packet + size, read.missing))
            return 0;
        size += read.missing;
        read = ftd_read(packet, size);
    }
    return size;
}

/* What was read from a line and isn't taken yet. Behind a call that takes all it can this is less than a packet, so
 * that there is always room for more. */
struct kept {
    uint8_t bytes[FTD_MOST_BYTES];
    size_t used;
};

/* Reads what is there, behind what is kept: some packets, or a part of one; 0: the line is broken. */
static int read_more(struct line *line, struct kept *kept) {
    size_t room = sizeof kept->bytes - kept->used;
    ssize_t n;

    line->piece = (5 * line->piece + 3) % 2003 + 1;
    do
        n = recv(line->socket, kept->bytes + kept->used, room < line->piece ? room : line->piece, 0);
    while (n < 0 && errno == EINTR);
    if (n <= 0)
        return 0;
    kept->used += (size_t)n;
    return 1;
}

/* The first bytes are taken. */
static void drop(struct kept *kept, size_t taken) {
    memmove(kept->bytes, kept->bytes + taken, kept->used - taken);
    kept->used -= taken;
}

/* Writes so many bytes; 0: the line is broken. */
static int write_bytes(struct line *line, const uint8_t *bytes, size_t count) {
    size_t rest = count < line->left ? count : line->left;
    int whole = rest == count;

    line->left -= rest;
    while (rest > 0) {
        ssize_t n = send(line->socket, bytes, rest, MSG_NOSIGNAL);
        if (n < 0 && errno == EINTR)
            continue;
        if (n <= 0)
            return 0;
        bytes += n;
        rest -= (size_t)n;
    }
    return whole;
}

/* Waits until the line takes more, and writes what it takes: at most so many bytes. Gives how many; 0: the line is
 * broken. */
static size_t write_some(struct line *line, const uint8_t *bytes, size_t count) {
    struct pollfd ready;
    ssize_t n;

    if (count > SLOW)
        count = SLOW;
    if (count > line->left)
        count = line->left;
    if (count == 0)
        return 0;
    ready.fd = line->socket;
    ready.events = POLLOUT;
    do {
        poll(&ready, 1, -1); /* where a driver has many lines, it waits for all of them here */
        n = send(line->socket, bytes, count, MSG_NOSIGNAL | MSG_DONTWAIT);
    } while (n < 0 && (errno == EINTR || errno == EAGAIN || errno == EWOULDBLOCK));
    if (n <= 0)
        return 0;
    line->left -= (size_t)n;
    return (size_t)n;
}

/* Writes so many bytes as the line takes them; 0: the line is broken. */
static int write_slowly(struct line *line, const uint8_t *bytes, size_t count) {
    while (count > 0) {
        size_t n = write_some(line, bytes, count);

        if (n == 0)
            return 0;
        bytes += n;
        count -= n;
    }
    return 1;
}

/* Writes a packet to a loose line, which loses the second and the fourth, brings the sixth twice and the seventh behind
 * the eighth; 0: the line is broken. */
static int write_loose(struct line *line, const uint8_t *packet, size_t count) {
    static uint8_t late[FTD_MOST_PACKET];
    int n = ++line->packets;

    if (n == 2 || n == 4)
        return 1;
    if (n == 7) {
        memcpy(late, packet, count);
        line->late = count;
        return 1;
    }
    if (!write_bytes(line, packet, count))
        return 0;
    return n == 6 ? write_bytes(line, packet, count) : n != 8 || write_bytes(line, late, line->late);
}

/* ---- Contents: data fields, and fields of items ---- */

struct content {
    uint8_t bytes[FTD_MOST_CONTENT];
    size_t used;
};

static void add_field(struct content *content, uint32_t fid, const uint8_t *bytes, size_t count) {
    struct ftd_written written =
        ftd_write_field(fid, bytes, count, content->bytes + content->used, sizeof content->bytes - content->used);
    must("ftd_write_field", written.refusal);
    content->used += written.bytes;
}

/* A field of the standard: its items are written one behind the other, from the first on. */
struct items {
    uint32_t fid;
    size_t count; /* written so far */
    uint8_t bytes[FTD_FIELD_CONTENT];
    size_t used;
};

static void start_items(struct items *items, uint32_t fid) {
    items->fid = fid;
    items->count = 0;
    items->used = 0;
}

static void add_item(struct items *items, struct ftd_item value, const char *text) {
    struct ftd_written written = ftd_write_item(items->fid, items->count, value, (const uint8_t *)text, strlen(text),
                                                items->bytes + items->used, sizeof items->bytes - items->used);
    must("ftd_write_item", written.refusal);
    items->used += written.bytes;
    items->count++;
}

static void add_text(struct items *items, const char *text) {
    struct ftd_item value;

    memset(&value, 0, sizeof value);
    value.kind = FTD_TEXT;
    add_item(items, value, text);
}

/* FTD_CHAR or FTD_NUMBER. */
static void add_value(struct items *items, uint8_t kind, uint64_t number) {
    struct ftd_item value;

    memset(&value, 0, sizeof value);
    value.kind = kind;
    value.value = number;
    add_item(items, value, "");
}

/* The field is all of the content. */
static void end_items(const struct items *items, struct content *content) {
    content->used = 0;
    add_field(content, items->fid, items->bytes, items->used);
}

/* What a member sends to log in. The items of each field: Appendix D, crates/ftd/specs/Table.antt. */
static void request_content(struct content *content, uint16_t series) {
    struct items items;

    start_items(&items, 0x0023);                            /* ReqUserLoginField */
    add_value(&items, FTD_CHAR, series == PRIVATE ? 1 : 2); /* DataFlowFlag */
    add_text(&items, "0042");                               /* ParticipantId */
    add_text(&items, "seat1");                              /* UserId */
    add_text(&items, "");                                   /* Password */
    add_text(&items, "1");                                  /* ConnectionReference */
    add_text(&items, "example");                            /* ServerAppName */
    add_text(&items, "1.0");                                /* ProtocolVersion */
    add_value(&items, FTD_NUMBER, 30);                      /* TimeOut */
    add_text(&items, "10.0.0.42");                          /* IpAddr */
    end_items(&items, content);
}

/* What an exchange answers to a login. */
static void answer_content(struct content *content, uint16_t series) {
    struct items items;

    start_items(&items, 0x0027);                            /* RspUserLoginField */
    add_value(&items, FTD_CHAR, series == PRIVATE ? 1 : 2); /* DataFlowFlag */
    add_text(&items, "0042");                               /* ParticipantId */
    add_text(&items, "seat1");                              /* UserId */
    add_text(&items, "");                                   /* Password */
    add_text(&items, "2004-12-31 09:00:00");                /* ExchangeDateTime */
    add_value(&items, FTD_NUMBER, 0);                       /* TimeSpan */
    add_text(&items, "10.0.0.1");                           /* IpAddr */
    add_text(&items, "0");                                  /* MaxOrderLocalId */
    end_items(&items, content);
}

static void bulletin_content(struct content *content, const char *text) {
    struct items items;

    start_items(&items, BULLETIN_FIELD);
    add_text(&items, "001");        /* NewsType */
    add_value(&items, FTD_CHAR, 0); /* NewsUrgency */
    add_text(&items, "09:15:00");   /* SendTime */
    add_text(&items, text);         /* Abstract */
    add_text(&items, "exchange");   /* ComeFrom */
    add_text(&items, "");           /* MarketId */
    add_text(&items, "");           /* Content */
    add_text(&items, "");           /* URLLink */
    end_items(&items, content);
}

/* So many fields of the same length; any bytes will do, as the FID is unknown. */
static void other_content(struct content *content, size_t fields, size_t length) {
    static uint8_t bytes[FTD_FIELD_CONTENT];
    size_t i, j;

    content->used = 0;
    for (i = 0; i < fields; i++) {
        for (j = 0; j < length; j++)
            bytes[j] = (uint8_t)(7 * i + j);
        add_field(content, OTHER_FIELD, bytes, length);
    }
}

/* ---- Buffers; each process has its own ---- */

static struct content content;                    /* what is given to a call */
static uint8_t output[FTD_MOST_OUTPUT];           /* what is written to the line */
static uint8_t packet[FTD_MOST_BYTES];            /* serving: what was read from the line */
static uint8_t records[RECORDS];                  /* serving: messages that are published together */
static uint8_t day_log[LOG_SIZE];                 /* serving: the log */
static struct kept kept;                          /* receiving: what was read from the line */
static uint8_t buffer[SERIES * FTD_MOST_CONTENT]; /* receiving: the reassembly buffer */

/* ---- The serving side ---- */

static void publish(struct ftd_sender *end, uint16_t series, uint32_t tid) {
    struct ftd_published published =
        ftd_publish(*end, series, tid, content.bytes, content.used, day_log, sizeof day_log);

    must("ftd_publish", published.refusal);
    *end = published.end;
}

/* Publishes a bulletin, if there is still room that isn't reserved; 0: there is none. (Private messages within their
 * reserve are never refused for want of room.) */
static int publish_bulletin(struct ftd_sender *end, const char *text) {
    struct ftd_published published;

    bulletin_content(&content, text);
    published = ftd_publish(*end, BROADCAST, BULLETIN, content.bytes, content.used, day_log, sizeof day_log);
    *end = published.end;
    if (published.refusal == FTD_TOO_SMALL)
        return 0;
    must("ftd_publish", published.refusal);
    return 1;
}

static void put_number(uint8_t *bytes, size_t count, uint32_t number) {
    while (count > 0) {
        bytes[--count] = (uint8_t)number;
        number >>= 8;
    }
}

/* Puts the content's message behind the records; gives how many bytes they have then. */
static size_t add_record(size_t used, uint16_t series, uint32_t tid) {
    uint8_t *record = records + used;

    if (sizeof records - used < FTD_RECORD_HEAD + content.used)
        must("add_record", FTD_TOO_SMALL);
    put_number(record, 2, series);
    put_number(record + 2, 4, tid);
    put_number(record + 6, 4, (uint32_t)content.used);
    memcpy(record + FTD_RECORD_HEAD, content.bytes, content.used);
    return used + FTD_RECORD_HEAD + content.used;
}

/* Publishes so many bytes of records. They are whole, so that the answer is the end or a refusal. */
static void publish_records(struct ftd_sender *end, size_t used) {
    struct ftd_published_several published = ftd_publish_several(*end, records, used, day_log, sizeof day_log);

    must("ftd_publish_several", published.refusal);
    *end = published.end;
}

/* Takes a login packet from the line, logs its series in and writes the answer; 0: the line is to be closed. */
static int serve_login(struct ftd_sender *end, struct line *line) {
    struct ftd_packet read;
    struct ftd_resume start;
    struct ftd_logged_in login;
    size_t size;

    do {
        size = read_packet(line, packet);
        if (size == 0)
            return 0;
        read = ftd_read(packet, size);
    } while (read.answer == FTD_LINK || read.answer == FTD_SKIPPED);
    start = ftd_find_resume(packet + read.content.start, read.content.len);
    answer_content(&content, start.series);
    login = ftd_login(*end, start.series, packet, size, content.bytes, content.used, output, sizeof output);
    *end = login.end;
    if (login.refusal != 0) {
        report("ftd_login", login.refusal);
        return 0;
    }
    return write_bytes(line, output, login.bytes);
}

/* What else there is to do while a message is under way: here one more is published, once. */
static void work_between(struct ftd_sender *end) {
    static int done;

    if (!done) {
        other_content(&content, 2, 10);
        publish(end, PRIVATE, OTHER);
    }
    done = 1;
}

/* Sends all that is left of a series packet by packet: the next one when the line has taken the last; 0: the line is
 * broken. What is left of the message then isn't sent on the next line: its login starts the message anew. */
static int serve_packets(struct ftd_sender *end, struct line *line, uint16_t series) {
    for (;;) {
        struct ftd_sent_packet sent =
            ftd_send_packet(*end, series, day_log, sizeof day_log, output, FTD_MOST_PACKET);

        must("ftd_send_packet", sent.refusal);
        *end = sent.end;
        if (sent.answer == FTD_SEND_NONE)
            return 1;
        if (line->loose ? !write_loose(line, output, sent.bytes) : !write_slowly(line, output, sent.bytes))
            return 0;
        if (!sent.last)
            work_between(end);
    }
}

/* Sends all that is left of a series, message by message; 0: the line is broken. */
static int serve_messages(struct ftd_sender *end, struct line *line, uint16_t series) {
    for (;;) {
        struct ftd_sent sent = ftd_send(*end, series, day_log, sizeof day_log, output, sizeof output);
        size_t at, n;

        must("ftd_send", sent.refusal);
        *end = sent.end;
        if (sent.answer == FTD_SEND_NONE)
            return 1;
        if (!line->loose) {
            if (!write_bytes(line, output, sent.bytes))
                return 0;
            continue;
        }
        for (at = 0; at < sent.bytes; at += n) { /* packet by packet, each on its own way */
            n = ftd_said_length(output + at, sent.bytes - at);
            if (!write_loose(line, output + at, n))
                return 0;
        }
    }
}

/* All that is done on a line, until it breaks or nothing is left. */
static void serve_line(struct ftd_sender *end, struct line *line) {
    static const uint8_t keep_alive[] = {4, 0}; /* the tag of a heartbeat */
    static const uint8_t body[] = {1, 2, 3};
    struct ftd_written heartbeat, unknown;
    size_t i;

    for (i = 0; i < SERIES; i++)
        if (!serve_login(end, line))
            return;
    heartbeat = ftd_write_plain(0, keep_alive, sizeof keep_alive, NULL, 0, output, sizeof output);
    must("ftd_write_plain", heartbeat.refusal);
    if (!write_bytes(line, output, heartbeat.bytes))
        return;
    unknown = ftd_write_plain(9, NULL, 0, body, sizeof body, output, sizeof output); /* a type that isn't known yet */
    must("ftd_write_plain", unknown.refusal);
    if (!write_bytes(line, output, unknown.bytes))
        return;
    if (!serve_packets(end, line, PRIVATE))
        return;
    serve_messages(end, line, BROADCAST);
}

static void serve(struct line lines[LINES]) {
    struct ftd_sender_opened opened = ftd_sender_open(ftd_sender_fresh(), TRADE_DATE, open_series, SERIES, reserves,
                                                      SERIES, day_log, sizeof day_log);
    struct ftd_sender end = opened.end;
    size_t used = 0, i;

    must("ftd_sender_open", opened.refusal);
    other_content(&content, 1, 20); /* one packet */
    used = add_record(used, PRIVATE, OTHER);
    other_content(&content, 5, 4000); /* five */
    used = add_record(used, PRIVATE, OTHER);
    bulletin_content(&content, "Margins as of today: 7 percent");
    used = add_record(used, BROADCAST, BULLETIN);
    publish_records(&end, used);
    if (publish_bulletin(&end, "One bulletin too many")) {
        fprintf(stderr, "a bulletin lies in what is reserved\n");
        exit(1);
    }

    serve_line(&end, &lines[0]);
    close(lines[0].socket);

    other_content(&content, 0, 0); /* published while there is no line; a message may have no field */
    publish(&end, PRIVATE, OTHER);

    for (i = 1; i < LINES; i++) {
        serve_line(&end, &lines[i]);
        close(lines[i].socket);
    }
}

/* ---- The receiving side ---- */

/* A sum that shows a difference in any byte (FNV-1a). */
static unsigned sum_of(const uint8_t *bytes, size_t count) {
    uint32_t sum = 2166136261u;
    size_t i;

    for (i = 0; i < count; i++)
        sum = (sum ^ bytes[i]) * 16777619u;
    return (unsigned)sum;
}

/* A message that is handed on: here it is printed, field by field. */
static void hand_on(unsigned series, uint32_t number, uint32_t tid, const uint8_t *bytes, size_t count) {
    struct ftd_step field;
    size_t at;

    printf("message %u of series %u: TID %04X, %zu bytes, sum %08X\n", (unsigned)number, series, (unsigned)tid, count,
           sum_of(bytes, count));
    for (at = 0; (field = ftd_field_at(bytes, count, at)).found; at += 6 + field.len) {
        const uint8_t *value = bytes + at + 6;

        printf("  field %04X: %zu bytes, sum %08X\n", (unsigned)field.fid, field.len, sum_of(value, field.len));
        if (field.fid == BULLETIN_FIELD) {
            struct ftd_item text = ftd_read_item(field.fid, 3, value, field.len); /* Abstract */

            if (text.kind == FTD_TEXT)
                printf("    \"%.*s\"\n", (int)text.len, (const char *)value + text.start);
        }
    }
}

/* The series of a message that was handed on: the one whose last number rose. */
static unsigned series_of(const struct ftd_receiver *before, const struct ftd_receiver *after) {
    size_t i = 0;

    while (i + 1 < after->count && after->series[i].last == before->series[i].last)
        i++;
    return after->series[i].series;
}

/* On a loose line a packet that doesn't fit is passed over: what is lacking is sent anew after the next login. On any
 * other it means that something is wrong with the line. */
static int passed_over(struct line *line, const struct ftd_received_several *received) {
    int passed = received->answer == FTD_SEVERAL_REFUSED && line->loose &&
                 (received->refusal == FTD_OUT_OF_LINE || received->refusal == FTD_BROKEN_CHAIN);

    line->refused += passed;
    return passed;
}

/* Hands the first `count` bytes that are kept over until they are through, and drops what was taken: all packets that
 * are whole. 0: the line is to be closed. */
static int take_packets(struct ftd_receiver *end, struct line *line, size_t count) {
    struct ftd_received_several received;
    size_t at = 0;

    do {
        const uint8_t *packets = kept.bytes + at, *from;

        received = ftd_receive_several(*end, packets, count - at, buffer, sizeof buffer);
        from = received.origin == FTD_IN_BUFFER ? buffer : packets;
        if (received.answer == FTD_SEVERAL_MESSAGE)
            hand_on(series_of(end, &received.end), received.last, received.tid, from + received.content.start,
                    received.content.len);
        *end = received.end; /* also where a packet is refused */
        at += received.taken;
    } while (received.answer == FTD_SEVERAL_MESSAGE || passed_over(line, &received));
    drop(&kept, at);
    if (received.answer == FTD_SEVERAL_REFUSED)
        report("ftd_receive_several", received.refusal);
    return received.answer != FTD_SEVERAL_REFUSED;
}

/* Logs a series in. Other packets may come before the answer. 0: the line is to be closed. */
static int log_in(struct ftd_receiver *end, struct line *line, uint16_t series) {
    struct ftd_written request;
    struct ftd_packet read;
    struct ftd_confirmed confirmed;

    request_content(&content, series);
    request = ftd_request_login(*end, series, content.bytes, content.used, output, sizeof output);
    must("ftd_request_login", request.refusal);
    if (!write_bytes(line, output, request.bytes))
        return 0;
    for (;;) {
        read = ftd_read(kept.bytes, kept.used);
        if (read.answer == FTD_SHORT) {
            if (!read_more(line, &kept))
                return 0;
        } else if (read.answer == FTD_REFUSED) {
            report("ftd_read", read.refusal);
            return 0;
        } else if (read.tid == LOGIN) {
            break;
        } else if (!take_packets(end, line, read.size)) {
            return 0;
        }
    }
    confirmed = ftd_confirm_login(*end, series, kept.bytes, read.size);
    *end = confirmed.end;
    if (confirmed.refusal != 0) {
        report("ftd_confirm_login", confirmed.refusal);
        return 0;
    }
    drop(&kept, read.size);
    printf("logged in to series %u, last number %u\n", series, (unsigned)confirmed.last);
    return 1;
}

/* All that is done on a line, until it breaks. What a broken line brought of a packet is of no use. */
static void receive_line(struct ftd_receiver *end, struct line *line) {
    size_t i;

    *end = ftd_connect(*end);
    kept.used = 0;
    for (i = 0; i < SERIES; i++)
        if (!log_in(end, line, open_series[i]))
            return;
    while (take_packets(end, line, kept.used) && read_more(line, &kept))
        ;
}

static void receive(struct line lines[LINES]) {
    struct ftd_receiver_opened opened = ftd_receiver_open(ftd_receiver_fresh(), open_series, SERIES);
    struct ftd_receiver end = opened.end;
    size_t i;

    must("ftd_receiver_open", opened.refusal);
    for (i = 0; i < LINES; i++) {
        printf("line %zu\n", i + 1);
        receive_line(&end, &lines[i]);
        close(lines[i].socket);
        printf("line %zu is closed, %zu bytes of a packet left, %d packets passed over\n", i + 1, kept.used,
               lines[i].refused);
    }
}

/* ---- Both ---- */

int main(void) {
    static const size_t breaks_after[LINES] = {10000, SIZE_MAX, SIZE_MAX}; /* bytes that the serving side can write */
    struct line serving[LINES], receiving[LINES];
    int sockets[2], status;
    pid_t server;
    size_t i;

    for (i = 0; i < LINES; i++) {
        if (socketpair(AF_UNIX, SOCK_STREAM, 0, sockets) != 0) {
            perror("socketpair");
            return 1;
        }
        memset(&serving[i], 0, sizeof serving[i]);
        memset(&receiving[i], 0, sizeof receiving[i]);
        serving[i].socket = sockets[0];
        serving[i].left = breaks_after[i];
        receiving[i].socket = sockets[1];
        receiving[i].left = SIZE_MAX;
        serving[i].loose = receiving[i].loose = i == 1;
    }
    server = fork();
    if (server < 0) {
        perror("fork");
        return 1;
    }
    for (i = 0; i < LINES; i++)
        close(server == 0 ? receiving[i].socket : serving[i].socket);
    if (server == 0) {
        serve(serving);
        return 0;
    }
    receive(receiving);
    if (waitpid(server, &status, 0) != server || !WIFEXITED(status) || WEXITSTATUS(status) != 0) {
        fprintf(stderr, "the serving side failed\n");
        return 1;
    }
    return 0;
}
