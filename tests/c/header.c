/* The header's use from C and C++: sizes of its structs, calls of each function with the answer that they have to give,
 * each refusal by its name, a null pointer with count 0 for each slice that is lent, and states of any values. */
#include "ftd.h"
#include <stdio.h>
#include <string.h>

static int failed;

static void expect(int right, const char *what, int line) {
    if (!right) {
        printf("header.c:%d: not so: %s\n", line, what);
        failed = 1;
    }
}

#define EXPECT(right) expect(right, #right, __LINE__)

/* A message packet: TID 0x2004, S, series 1, number 2, one field with FID 0x4000 and two bytes, behind a trade date. */
static const uint8_t dated[34] = {1, 6, 0, 24, 5, 4, 0, 0, 0, 9, 1, 0,    0, 0x20, 4, 'S', 0,
                                  1, 0, 0, 0,  2, 0, 1, 0, 8, 0, 0, 0x40, 0, 0,    2, 7,   8};
static const uint8_t *const dated_content = dated + 26;
static const uint8_t heart[6] = {0, 2, 0, 0, 4, 0};
static const uint8_t skipped[7] = {7, 1, 0, 2, 9, 8, 8};

/* ---- Sizes ---- */

static void sizes(void) {
    EXPECT(sizeof(struct ftd_span) == 16);
    EXPECT(sizeof(struct ftd_written) == 16);
    EXPECT(sizeof(struct ftd_packet) == 72);
    EXPECT(sizeof(struct ftd_date) == 8);
    EXPECT(sizeof(struct ftd_message) == 16);
    EXPECT(sizeof(struct ftd_size) == 24);
    EXPECT(sizeof(struct ftd_field) == 24);
    EXPECT(sizeof(struct ftd_step) == 16);
    EXPECT(sizeof(struct ftd_item) == 32);
    EXPECT(sizeof(struct ftd_resume) == 8);
    EXPECT(sizeof(struct ftd_served) == 40 && offsetof(struct ftd_served, piece) == 8);
    EXPECT(offsetof(struct ftd_served, reserve) == 16 && offsetof(struct ftd_served, used) == 24);
    EXPECT(offsetof(struct ftd_served, published) == 32 && offsetof(struct ftd_served, login) == 38);
    EXPECT(sizeof(struct ftd_sender) == 344);
    EXPECT(sizeof(struct ftd_sender_opened) == 352);
    EXPECT(sizeof(struct ftd_published) == 352);
    EXPECT(sizeof(struct ftd_published_several) == 368);
    EXPECT(sizeof(struct ftd_logged_in) == 360);
    EXPECT(sizeof(struct ftd_sent) == 360);
    EXPECT(sizeof(struct ftd_sent_packet) == 360 && offsetof(struct ftd_sent_packet, number) == 352);
    EXPECT(offsetof(struct ftd_sent_packet, answer) == 356 && offsetof(struct ftd_sent_packet, last) == 358);
    EXPECT(offsetof(struct ftd_packet, place) == 64 && offsetof(struct ftd_packet, answer) == 66);
    EXPECT(offsetof(struct ftd_packet, dated) == 70 && offsetof(struct ftd_packet, placed) == 71);
    EXPECT(sizeof(struct ftd_kept) == 32 && offsetof(struct ftd_kept, pieces) == 20);
    EXPECT(offsetof(struct ftd_kept, series) == 24 && offsetof(struct ftd_kept, chain) == 28);
    EXPECT(sizeof(struct ftd_receiver) == 264);
    EXPECT(sizeof(struct ftd_receiver_opened) == 272);
    EXPECT(sizeof(struct ftd_confirmed) == 272);
    EXPECT(sizeof(struct ftd_received) == 296);
    EXPECT(sizeof(struct ftd_received_several) == 312);
    EXPECT(sizeof(struct ftd_checkpoint_series) == 12 && offsetof(struct ftd_checkpoint_series, last) == 4);
    EXPECT(offsetof(struct ftd_checkpoint_series, series) == 8 && offsetof(struct ftd_checkpoint_series, dated) == 10);
    EXPECT(sizeof(struct ftd_checkpoint) == 112 && offsetof(struct ftd_checkpoint, count) == 8);
    EXPECT(offsetof(struct ftd_checkpoint, series) == 16);
    EXPECT(sizeof(struct ftd_checkpoints) == 456 && offsetof(struct ftd_checkpoints, places) == 8);
    EXPECT(sizeof(struct ftd_kept_step) == 464 && offsetof(struct ftd_kept_step, refusal) == 456);
    EXPECT(sizeof(struct ftd_returned) == 272 && offsetof(struct ftd_returned, refusal) == 264);
    EXPECT(sizeof(struct ftd_day_series) == 24 && offsetof(struct ftd_day_series, series) == 20);
    EXPECT(sizeof(struct ftd_day) == 216 && offsetof(struct ftd_day, dated) == 212);
    EXPECT(sizeof(struct ftd_box) == 544 && offsetof(struct ftd_box, reserves) == 264);
    EXPECT(offsetof(struct ftd_box, day) == 328);
    EXPECT(sizeof(struct ftd_box_opened) == 552 && sizeof(struct ftd_box_confirmed) == 552);
    EXPECT(sizeof(struct ftd_box_received) == 576 && sizeof(struct ftd_box_received_several) == 592);
    EXPECT(sizeof(struct ftd_box_sent) == 16 && sizeof(struct ftd_box_sent_packet) == 16);
    EXPECT(sizeof(struct ftd_order) == 8 && offsetof(struct ftd_order, number) == 0);
    EXPECT(offsetof(struct ftd_order, answer) == 4 && offsetof(struct ftd_order, refusal) == 5);
    EXPECT(sizeof(struct ftd_calendar) == 224);
    EXPECT(sizeof(struct ftd_calendar_step) == 228);
    EXPECT(sizeof(struct ftd_trade_time) == 8);
    EXPECT(sizeof(struct ftd_level) == 16);
    EXPECT(sizeof(struct ftd_book) == 2080 && offsetof(struct ftd_book, buying) == 16);
    EXPECT(offsetof(struct ftd_book, selling) == 1040 && offsetof(struct ftd_book, turnover) == 2064);
    EXPECT(sizeof(struct ftd_book_step) == 2088);
    EXPECT(sizeof(struct ftd_listed) == 16);
    EXPECT(sizeof(struct ftd_mean) == 16);
    EXPECT(sizeof(struct ftd_reading) == 72 && offsetof(struct ftd_reading, answer) == 64);
    EXPECT(sizeof(struct ftd_tagged) == 24);
    EXPECT(sizeof(struct ftd_number) == 8);
}

/* ---- Packets ---- */

static void packets_read(void) {
    struct ftd_packet p = ftd_read(dated, sizeof dated);
    struct ftd_packet link = ftd_read(heart, sizeof heart);
    struct ftd_packet other = ftd_read(skipped, sizeof skipped);
    struct ftd_date date = ftd_trade_date(dated + 4, 6);

    EXPECT(p.answer == FTD_MESSAGE && p.refusal == 0 && p.kind == 1 && p.size == sizeof dated);
    EXPECT(p.extension.start == 4 && p.extension.len == 6 && p.content.start == 26 && p.content.len == 8);
    EXPECT(p.tid == 0x2004 && p.chain == 'S' && p.series == 1 && p.number == 2 && p.fields == 1);
    EXPECT(p.dated == 1 && p.date == 9 && p.placed == 0 && p.place == 0);
    EXPECT(link.answer == FTD_LINK && link.kind == 0 && link.size == 6 && link.extension.len == 2 && link.dated == 0);
    EXPECT(link.placed == 0 && link.place == 0);
    EXPECT(other.answer == FTD_SKIPPED && other.kind == 7 && other.size == 7 && other.content.start == 5 &&
           other.content.len == 2);
    EXPECT(ftd_read(dated, 33).answer == FTD_SHORT && ftd_read(dated, 33).size == 0);
    EXPECT(p.missing == 0 && ftd_read(dated, 33).missing == 1 && ftd_read(dated, 4).missing == 30 &&
           ftd_read(dated, 1).missing == 3 && ftd_read(dated, 0).missing == 4);
    EXPECT(ftd_said_length(dated, 4) == 34 && ftd_said_length(dated, 3) == 0);
    EXPECT(date.dated == 1 && date.date == 9 && ftd_trade_date(heart + 4, 2).dated == 0);
    EXPECT(ftd_keep_alive(heart + 4, 2) == 1 && ftd_keep_alive(dated + 4, 6) == 0);
}

/* The packet with another byte at a place, as ftd_read refuses it. */
static uint8_t refused_with(size_t at, uint8_t byte) {
    uint8_t bytes[sizeof dated];
    struct ftd_packet p;

    memcpy(bytes, dated, sizeof dated);
    bytes[at] = byte;
    p = ftd_read(bytes, sizeof bytes);
    EXPECT(p.answer == FTD_REFUSED && p.size == 0 && p.tid == 0 && p.dated == 0);
    return p.refusal;
}

static void packets_refused(void) {
    EXPECT(refused_with(1, 128) == FTD_LONG_EXTENSION);
    EXPECT(refused_with(5, 3) == FTD_BROKEN_TAG);
    EXPECT(refused_with(3, 15) == FTD_BODY_LENGTH);
    EXPECT(refused_with(10, 2) == FTD_VERSION);
    EXPECT(refused_with(15, 's') == FTD_CHAIN_LETTER);
    EXPECT(refused_with(25, 9) == FTD_CONTENT_LENGTH);
    EXPECT(refused_with(23, 2) == FTD_FIELD_RUN);
}

static void packets_written(void) {
    const struct ftd_message message = {0x2004, 2, 9, 1, 1};
    uint8_t out[64];
    struct ftd_size size = ftd_message_size(message, dated_content, 8);
    struct ftd_written written;

    memset(out, 0xA5, sizeof out);
    written = ftd_write_message(message, dated_content, 8, out, 33);
    EXPECT(written.refusal == FTD_TOO_SMALL && written.bytes == 0 && out[0] == 0xA5);
    written = ftd_write_message(message, dated_content, 8, out, sizeof out);
    EXPECT(written.refusal == 0 && written.bytes == sizeof dated && memcmp(out, dated, sizeof dated) == 0);
    EXPECT(out[sizeof dated] == 0xA5);
    EXPECT(size.refusal == 0 && size.packets == 1 && size.bytes == sizeof dated);
    EXPECT(ftd_message_size(message, dated_content, 7).refusal == FTD_FIELD_RUN);
    EXPECT(ftd_write_message(message, dated_content, 7, out, sizeof out).refusal == FTD_FIELD_RUN);
    EXPECT(ftd_write_plain(0, heart + 4, 2, NULL, 0, out, 6).bytes == 6 && memcmp(out, heart, 6) == 0);
    EXPECT(ftd_write_plain(7, skipped + 4, 1, skipped + 5, 2, out, 7).bytes == 7 && memcmp(out, skipped, 7) == 0);
    EXPECT(ftd_write_plain(7, skipped + 4, 1, skipped + 5, 2, out, 6).refusal == FTD_TOO_SMALL);
    EXPECT(ftd_write_plain(0, skipped + 4, 1, NULL, 0, out, sizeof out).refusal == FTD_BROKEN_TAG);
    EXPECT(ftd_write_plain(1, NULL, 0, dated, 15, out, sizeof out).refusal == FTD_BODY_LENGTH);
    EXPECT(ftd_write_plain(1, NULL, 0, dated, 16, out, sizeof out).refusal == FTD_NOT_PLAIN);
}

/* ---- Data fields and items ---- */

static void fields(void) {
    uint8_t out[16];
    struct ftd_field field = ftd_find_field(dated, sizeof dated, 0);
    struct ftd_step step = ftd_field_at(dated_content, 8, 0);

    EXPECT(field.found == 1 && field.fid == 0x4000 && field.start == 32 && field.len == 2);
    EXPECT(ftd_find_field(dated, sizeof dated, 1).found == 0 && ftd_find_field(heart, 6, 0).found == 0);
    EXPECT(step.found == 1 && step.fid == 0x4000 && step.len == 2);
    EXPECT(ftd_field_at(dated_content, 8, 1).found == 0 && ftd_field_at(dated_content, 8, 8).found == 0);
    EXPECT(ftd_field_at(dated_content, 8, SIZE_MAX).found == 0);
    EXPECT(ftd_write_field(0x4000, dated + 32, 2, out, 8).bytes == 8 && memcmp(out, dated_content, 8) == 0);
    EXPECT(ftd_write_field(0x4000, dated + 32, 2, out, 7).refusal == FTD_TOO_SMALL);
}

static void contents_checked(void) {
    static const uint8_t narrow[] = {0, 0, 0, 4, 0, 1, 0};
    static const uint8_t wrong[] = {0, 0, 0, 0x2D, 0, 44, 0x7F, 0, 0, 0, 0, 0, 0, 0, 0, 0, 0, 0, 0, 0, 0, 0, 0, 0, 0,
                                    0, 0, 0, 0,    0, 0,  0,    0, 0, 0, 0, 0, 0, 0, 0, 0, 0, 0, 0, 0, 0, 0, 0, 0, 0};

    EXPECT(sizeof wrong == 50);
    EXPECT(ftd_check(0x2004, FTD_DOWN, dated_content, 8, FTD_PACKET_CONTENT) == 0);
    EXPECT(ftd_check(0x2004, FTD_DOWN, dated_content, 8, 7) == FTD_FIELD_RUN);
    EXPECT(ftd_check(0x7777, FTD_DOWN, narrow, sizeof narrow, FTD_PACKET_CONTENT) == FTD_FIELD_LENGTH);
    EXPECT(ftd_check(0x7777, FTD_DOWN, wrong, sizeof wrong, FTD_PACKET_CONTENT) == FTD_ITEM);
    EXPECT(ftd_check(0x2003, FTD_DOWN, dated_content, 8, FTD_PACKET_CONTENT) == FTD_COMPOSITION);
    EXPECT(ftd_check(0x2003, FTD_UP, dated_content, 8, FTD_PACKET_CONTENT) == 0);
    EXPECT(ftd_mode_of(0x1003) == FTD_PRIVATE && ftd_mode_of(0x2001) == FTD_BROADCAST);
    EXPECT(ftd_mode_of(0x16) == FTD_MANAGEMENT && ftd_mode_of(1) == FTD_DIALOG && ftd_mode_of(0x1004) == FTD_UNKNOWN);
}

static void items(void) {
    /* The first items of a DepositField (FID 3): ParticipantId, ParticipantType, TradeDate, InitMargin. */
    static const char deposit[] = "MEMBER  \00120041231-0000000012.50";
    const uint8_t *field = (const uint8_t *)deposit;
    const struct ftd_item margin = {0, 0, 1250, 0, 0, 0, FTD_FLOAT, 1};
    const struct ftd_item text = {0, 0, 0, 0, 0, 0, FTD_TEXT, 0};
    const struct ftd_item unused = {0, 0, 0, 0, 0, 0, FTD_UNUSED, 0};
    struct ftd_item name = ftd_read_item(3, 0, field, 31), type = ftd_read_item(3, 1, field, 31);
    struct ftd_item date = ftd_read_item(3, 2, field, 31), units = ftd_read_item(3, 3, field, 31);
    uint8_t out[16];

    EXPECT(name.kind == FTD_TEXT && name.start == 0 && name.len == 6);
    EXPECT(type.kind == FTD_CHAR && type.value == 1);
    EXPECT(date.kind == FTD_DAY && date.year == 2004 && date.month == 12 && date.day == 31);
    EXPECT(units.kind == FTD_FLOAT && units.negative == 1 && units.value == 1250);
    EXPECT(ftd_read_item(3, 3, field, 30).kind == FTD_NO_ITEM);
    EXPECT(ftd_read_item(3, 3, field + 1, 31).kind == FTD_NO_VALUE);
    EXPECT(ftd_write_item(3, 3, margin, NULL, 0, out, 14).bytes == 14 && memcmp(out, field + 17, 14) == 0);
    EXPECT(ftd_write_item(3, 0, text, field, 6, out, 16).bytes == 8 && memcmp(out, field, 8) == 0);
    EXPECT(ftd_write_item(3, 2, unused, NULL, 0, out, 8).bytes == 8 && memcmp(out, "        ", 8) == 0);
    EXPECT(ftd_write_item(3, 0, text, field, 7, out, 16).refusal == FTD_ITEM);
    EXPECT(ftd_write_item(3, 3, margin, NULL, 0, out, 13).refusal == FTD_TOO_SMALL);
}

static void start_fields(void) {
    static const uint8_t field[] = {0, 0, 0, 4, 0, 6, 1, 2, 0, 0, 0, 3};
    static const uint8_t wrong[] = {0, 0, 0, 4, 0, 0};
    uint8_t two[24];
    struct ftd_resume start = ftd_find_resume(field, sizeof field);

    EXPECT(start.answer == FTD_START && start.series == 0x0102 && start.number == 3);
    EXPECT(ftd_find_resume(field, 11).answer == FTD_NO_START && ftd_find_resume(wrong, 6).answer == FTD_BAD_START);
    EXPECT(ftd_write_resume(0x0102, 3, two, 12).bytes == 12 && memcmp(two, field, 12) == 0);
    EXPECT(ftd_write_resume(0x0102, 3, two, 11).refusal == FTD_TOO_SMALL);
    memcpy(two + 12, field, 12);
    EXPECT(ftd_find_resume(two, 24).answer == FTD_SEVERAL_START);
}

/* ---- The two ends ---- */

static const uint16_t series[2] = {7, 3};
static uint8_t request[126], answer[137], large[3 * 4006];
static uint8_t day_log[2 * FTD_MOST_CONTENT], buffer[2 * FTD_MOST_CONTENT];
static uint8_t login[256], output[FTD_MOST_OUTPUT];
static size_t login_bytes;

/* Contents: ReqUserLoginField and RspUserLoginField, of spaces but for a Char and a Number; three fields of 4,000 bytes
 * with an unknown FID, which take three packets. */
static void make_contents(void) {
    size_t i;

    memset(request, ' ', sizeof request);
    memcpy(request, "\0\0\0\x23\0\x78\1", 7);
    memcpy(request + 6 + 97, "030", 3);
    memset(answer, ' ', sizeof answer);
    memcpy(answer, "\0\0\0\x27\0\x83\1", 7);
    memcpy(answer + 6 + 84, "-08", 3);
    for (i = 0; i < 3; i++) {
        memset(large + i * 4006, (int)('a' + i), 4006);
        memcpy(large + i * 4006, "\0\0\x70\1\x0F\xA0", 6);
    }
    EXPECT(ftd_check(0x16, FTD_UP, request, sizeof request, FTD_REQUEST_CONTENT) == 0);
    EXPECT(ftd_check(0x16, FTD_DOWN, answer, sizeof answer, FTD_PACKET_CONTENT) == 0);
}

/* The first of the series opened, so many, with these reserves of the log. */
static struct ftd_sender_opened day_open(struct ftd_sender end, uint32_t date, size_t count, size_t first,
                                         size_t second) {
    size_t reserves[2];

    reserves[0] = first;
    reserves[1] = second;
    return ftd_sender_open(end, date, series, count, reserves, count, day_log, sizeof day_log);
}

/* Both series opened at trade date 100; in series 3 a short message and one of three packets. */
static struct ftd_sender serving(void) {
    struct ftd_sender fresh = ftd_sender_fresh();
    struct ftd_sender_opened opened = day_open(fresh, 100, 2, 0, 0);
    struct ftd_published first, second;

    EXPECT(fresh.count == 0 && fresh.dated == 0 && fresh.used == 0);
    EXPECT(opened.refusal == 0 && opened.end.count == 2 && opened.end.dated == 1 && opened.end.date == 100);
    EXPECT(opened.end.series[0].series == 7 && opened.end.series[1].series == 3 && opened.end.series[1].login == 0);
    EXPECT(opened.end.series[0].reserve == 0 && opened.end.series[1].reserve == 0);
    EXPECT(day_open(opened.end, 100, 2, 0, 0).refusal == FTD_OPENING);
    EXPECT(ftd_publish(opened.end, 5, 0x7777, large, 4006, day_log, sizeof day_log).refusal == FTD_UNKNOWN_SERIES);
    first = ftd_publish(opened.end, 3, 0x7777, large, 4006, day_log, sizeof day_log);
    EXPECT(first.refusal == 0 && first.number == 1 && first.end.used == 4006 + FTD_LOG_HEAD);
    EXPECT(memcmp(day_log, "\0\3\0\0\0\0\x77\x77\0\0\0\1\0\0\x0F\xA6", FTD_LOG_HEAD) == 0);
    EXPECT(memcmp(day_log + FTD_LOG_HEAD, large, 4006) == 0);
    second = ftd_publish(first.end, 3, 0x7778, large, sizeof large, day_log, sizeof day_log);
    EXPECT(second.refusal == 0 && second.number == 2 && second.end.series[1].published == 2);
    EXPECT(second.end.series[1].used == second.end.used && second.end.series[0].used == 0);
    EXPECT(ftd_publish(second.end, 3, 0x2003, large, 4006, day_log, sizeof day_log).refusal == FTD_COMPOSITION);
    return second.end;
}

static struct ftd_receiver receiving(void) {
    struct ftd_receiver fresh = ftd_receiver_fresh();
    struct ftd_receiver_opened opened = ftd_receiver_open(fresh, series, 2);

    EXPECT(fresh.count == 0 && opened.refusal == 0 && opened.end.count == 2 && opened.end.series[1].series == 3);
    EXPECT(opened.end.series[1].dated == 0 && opened.end.series[1].last == 0 && opened.end.series[1].login == 0);
    EXPECT(ftd_receiver_open(opened.end, series, 2).refusal == FTD_OPENING);
    return opened.end;
}

/* Series 3 is logged in at both ends. */
static void log_in(struct ftd_sender *sender, struct ftd_receiver *receiver) {
    struct ftd_written asked = ftd_request_login(*receiver, 3, request, sizeof request, login, sizeof login);
    struct ftd_logged_in in;
    struct ftd_confirmed confirmed;

    EXPECT(asked.refusal == 0 && ftd_find_resume(login + asked.bytes - 12, 12).series == 3);
    login_bytes = asked.bytes;
    in = ftd_login(*sender, 3, login, asked.bytes, answer, sizeof answer, output, sizeof output);
    EXPECT(in.refusal == 0 && in.bytes == 26 + sizeof answer && in.end.series[1].login == 1);
    EXPECT(ftd_read(output, in.bytes).tid == 0x16 && ftd_read(output, in.bytes).date == 100);
    confirmed = ftd_confirm_login(*receiver, 3, output, in.bytes);
    EXPECT(confirmed.refusal == 0 && confirmed.end.series[1].login == 1 && confirmed.end.series[1].date == 100);
    EXPECT(confirmed.last == receiver->series[1].last);
    *sender = in.end;
    *receiver = confirmed.end;
}

enum { AROUND = 30, PACKET = AROUND + 4006 }; /* bytes of a packet around its content; with one of the fields */

/* The first message, in one packet. */
static void first_message(struct ftd_sender *sender, struct ftd_receiver *receiver) {
    struct ftd_sent sent = ftd_send(*sender, 3, day_log, sizeof day_log, output, sizeof output);
    struct ftd_received got = ftd_receive(*receiver, output, sent.bytes, buffer, sizeof buffer);

    EXPECT(sent.answer == FTD_SEND_MESSAGE && sent.number == 1 && sent.bytes == PACKET);
    EXPECT(got.answer == FTD_RECEIVE_MESSAGE && got.origin == FTD_IN_PACKET && got.last == 1 && got.tid == 0x7777);
    EXPECT(got.content.start == AROUND && got.content.len == 4006 && memcmp(output + AROUND, large, 4006) == 0);
    EXPECT(ftd_receive(got.end, output, sent.bytes, buffer, sizeof buffer).answer == FTD_RECEIVE_AGAIN);
    EXPECT(ftd_receive(got.end, heart, sizeof heart, buffer, sizeof buffer).answer == FTD_RECEIVE_IDLE);
    *sender = sent.end;
    *receiver = got.end;
}

/* So many packets of the second message; what the last of them is answered. */
static struct ftd_received second_message(struct ftd_sender *sender, struct ftd_receiver *receiver, size_t packets) {
    struct ftd_sent sent = ftd_send(*sender, 3, day_log, sizeof day_log, output, sizeof output);
    struct ftd_received got;
    size_t i;

    EXPECT(sent.answer == FTD_SEND_MESSAGE && sent.number == 2 && sent.bytes == 3 * PACKET);
    memset(&got, 0, sizeof got);
    for (i = 0; i < packets; i++) {
        got = ftd_receive(*receiver, output + i * PACKET, PACKET, buffer, sizeof buffer);
        EXPECT(i == 2 || (got.answer == FTD_RECEIVE_HELD && got.last == 1));
        *receiver = got.end;
    }
    *sender = sent.end;
    return got;
}

/* Of the second message two of three packets come before the line breaks; then all. */
static void flow(void) {
    struct ftd_sender sender = serving();
    struct ftd_receiver receiver = receiving();
    struct ftd_received got;

    log_in(&sender, &receiver);
    first_message(&sender, &receiver);
    second_message(&sender, &receiver, 2);
    EXPECT(receiver.series[1].chain == 1 && receiver.series[1].held == 2 * 4006 && receiver.series[1].tid == 0x7778);
    EXPECT(receiver.series[1].pieces == 2);
    receiver = ftd_connect(receiver);
    EXPECT(receiver.series[1].chain == 0 && receiver.series[1].login == 0 && receiver.series[1].last == 1);
    EXPECT(receiver.series[1].pieces == 0 && receiver.series[1].held == 0);
    log_in(&sender, &receiver);
    got = second_message(&sender, &receiver, 3);
    EXPECT(got.answer == FTD_RECEIVE_MESSAGE && got.origin == FTD_IN_BUFFER && got.last == 2 && got.tid == 0x7778);
    EXPECT(got.content.start == FTD_MOST_CONTENT && got.content.len == sizeof large);
    EXPECT(memcmp(buffer + got.content.start, large, sizeof large) == 0);
    EXPECT(receiver.series[1].last == 2 && receiver.series[1].chain == 0 && receiver.series[1].login == 1);
    EXPECT(ftd_send(sender, 3, day_log, sizeof day_log, output, sizeof output).answer == FTD_SEND_NONE);
}

static void refusals_of_serving(void) {
    struct ftd_sender sender = serving(), full;
    struct ftd_receiver receiver = receiving();
    struct ftd_sent sent;
    struct ftd_logged_in in;

    sent = ftd_send(sender, 3, day_log, sizeof day_log, output, sizeof output);
    EXPECT(sent.answer == FTD_SEND_REFUSED && sent.refusal == FTD_NOT_LOGGED_IN && sent.bytes == 0);
    EXPECT(ftd_send(sender, 9, day_log, sizeof day_log, output, sizeof output).refusal == FTD_UNKNOWN_SERIES);
    log_in(&sender, &receiver);
    EXPECT(ftd_send(sender, 3, day_log, sizeof day_log, output, AROUND + 4005).refusal == FTD_TOO_SMALL);
    EXPECT(ftd_send(sender, 3, day_log, sender.used - 1, output, sizeof output).refusal == FTD_DAMAGED_LOG);
    EXPECT(ftd_publish(sender, 3, 0x7777, large, 4006, day_log, sender.used).refusal == FTD_TOO_SMALL);
    EXPECT(ftd_publish(sender, 3, 0x7777, large, 4005, day_log, sizeof day_log).refusal == FTD_FIELD_RUN);
    full = sender;
    full.series[1].published = FTD_MOST_MESSAGES;
    EXPECT(ftd_publish(full, 3, 0x7777, large, 4006, day_log, sizeof day_log).refusal == FTD_DAY_FULL);
    in = ftd_login(sender, 3, login, login_bytes - 1, answer, sizeof answer, output, sizeof output);
    EXPECT(in.refusal == FTD_NOT_ONE_PACKET && in.bytes == 0);
    EXPECT(in.end.series[1].next == sender.series[1].next && in.end.used == sender.used);
    EXPECT(ftd_login(sender, 7, login, login_bytes, answer, sizeof answer, output, sizeof output).refusal ==
           FTD_UNKNOWN_SERIES);
    EXPECT(ftd_login(sender, 3, login, login_bytes, request, sizeof request, output, sizeof output).refusal ==
           FTD_COMPOSITION);
    login[login_bytes - 1] = 4; /* the next number wanted: two are published */
    EXPECT(ftd_login(sender, 3, login, login_bytes, answer, sizeof answer, output, sizeof output).refusal ==
           FTD_WRONG_START);
    receiver.series[1].date = 101;
    login_bytes = ftd_request_login(receiver, 3, request, sizeof request, login, sizeof login).bytes;
    EXPECT(ftd_login(sender, 3, login, login_bytes, answer, sizeof answer, output, sizeof output).refusal ==
           FTD_OTHER_DAY);
}

/* ---- One packet a call ---- */

static uint8_t whole[FTD_MOST_OUTPUT];

/* One packet of series 3 into an output of so many bytes, where nothing is changed behind what is written. */
static struct ftd_sent_packet packet_of(struct ftd_sender end, size_t room) {
    struct ftd_sent_packet sent;
    size_t i;

    memset(output, 0xA5, sizeof output);
    sent = ftd_send_packet(end, 3, day_log, sizeof day_log, output, room);
    for (i = sent.bytes; i < sizeof output && output[i] == 0xA5; i++)
        ;
    EXPECT(i == sizeof output);
    EXPECT(sent.answer == FTD_SEND_MESSAGE || (sent.bytes == 0 && sent.number == 0 && sent.last == 0));
    EXPECT((sent.answer == FTD_SEND_REFUSED) == (sent.refusal != 0));
    return sent;
}

/* The packet is this one of the second message, of three. */
static void is_piece(const struct ftd_sent_packet *sent, size_t i) {
    EXPECT(sent->answer == FTD_SEND_MESSAGE && sent->number == 2 && sent->bytes == PACKET && sent->last == (i == 2));
    EXPECT(sent->end.series[1].next == (i == 2 ? 3 : 2) && sent->end.series[1].piece == (i == 2 ? 0 : i + 1));
    EXPECT(memcmp(output, whole + i * PACKET, PACKET) == 0);
}

/* Logged in, the first message is sent; what the whole Send would write of the second one is laid aside. */
static struct ftd_sender at_the_second(struct ftd_receiver *receiver) {
    struct ftd_sender sender = serving();
    struct ftd_sent_packet sent;

    *receiver = receiving();
    EXPECT(packet_of(sender, sizeof output).refusal == FTD_NOT_LOGGED_IN);
    log_in(&sender, receiver);
    sent = packet_of(sender, FTD_MOST_PACKET);
    EXPECT(sent.answer == FTD_SEND_MESSAGE && sent.number == 1 && sent.bytes == PACKET && sent.last == 1);
    EXPECT(sent.end.series[1].next == 2 && sent.end.series[1].piece == 0);
    EXPECT(ftd_send(sent.end, 3, day_log, sizeof day_log, whole, sizeof whole).bytes == 3 * PACKET);
    *receiver = ftd_receive(*receiver, output, PACKET, buffer, sizeof buffer).end;
    return sent.end;
}

/* The packets are those of the whole Send, wherever something is published between; the message is handed on. */
static void packet_by_packet(void) {
    struct ftd_receiver receiver;
    struct ftd_sender sender = at_the_second(&receiver);
    struct ftd_sent_packet sent;
    struct ftd_received got;
    struct ftd_published published;
    size_t i;

    for (i = 0; i < 3; i++) {
        sent = packet_of(sender, FTD_MOST_PACKET);
        is_piece(&sent, i);
        got = ftd_receive(receiver, output, sent.bytes, buffer, sizeof buffer);
        EXPECT(got.answer == (i == 2 ? FTD_RECEIVE_MESSAGE : FTD_RECEIVE_HELD));
        receiver = got.end;
        published = ftd_publish(sent.end, i == 1 ? 7 : 3, 0x7777, large, 4006, day_log, sizeof day_log);
        EXPECT(published.refusal == 0 && published.end.series[1].piece == sent.end.series[1].piece);
        sender = published.end;
    }
    EXPECT(got.last == 2 && got.tid == 0x7778 && got.content.len == sizeof large);
    EXPECT(memcmp(buffer + got.content.start, large, sizeof large) == 0);
    for (i = 3; i < 5; i++) {
        sent = packet_of(sender, PACKET);
        EXPECT(sent.answer == FTD_SEND_MESSAGE && sent.number == i && sent.last == 1);
        sender = sent.end;
    }
    EXPECT(packet_of(sender, sizeof output).answer == FTD_SEND_NONE);
}

/* A login of the series, an opening and a whole Send end it, and refused calls and another series' login don't. */
static void packets_ended(void) {
    struct ftd_receiver receiver;
    struct ftd_sender sender = at_the_second(&receiver);
    struct ftd_sent_packet first = packet_of(sender, PACKET), again, second;
    struct ftd_sender_opened opened;
    struct ftd_logged_in in;
    struct ftd_sent sent;

    is_piece(&first, 0);
    /* A login that starts at the very number. */
    login_bytes = ftd_request_login(receiver, 3, request, sizeof request, login, sizeof login).bytes;
    in = ftd_login(first.end, 3, login, login_bytes, answer, sizeof answer, output, sizeof output);
    EXPECT(in.refusal == 0 && in.end.series[1].next == 2 && in.end.series[1].piece == 0);
    again = packet_of(in.end, PACKET);
    is_piece(&again, 0);
    /* Refused ones; that of series 7. */
    in = ftd_login(first.end, 3, login, login_bytes, answer, sizeof answer, output, 25);
    EXPECT(in.refusal == FTD_TOO_SMALL && in.end.series[1].piece == 1);
    login_bytes = ftd_request_login(receiver, 7, request, sizeof request, login, sizeof login).bytes;
    in = ftd_login(first.end, 7, login, login_bytes, answer, sizeof answer, output, sizeof output);
    EXPECT(in.refusal == 0 && in.end.series[1].piece == 1 && in.end.series[0].piece == 0);
    EXPECT(ftd_send_packet(in.end, 7, day_log, sizeof day_log, output, sizeof output).answer == FTD_SEND_NONE);
    second = packet_of(in.end, PACKET);
    is_piece(&second, 1);
    /* The whole Send: from the first packet on. */
    sent = ftd_send(second.end, 3, day_log, sizeof day_log, output, 3 * PACKET - 1);
    EXPECT(sent.refusal == FTD_TOO_SMALL && sent.end.series[1].piece == 2);
    sent = ftd_send(second.end, 3, day_log, sizeof day_log, output, 3 * PACKET);
    EXPECT(sent.answer == FTD_SEND_MESSAGE && sent.number == 2 && memcmp(output, whole, 3 * PACKET) == 0);
    EXPECT(sent.end.series[1].next == 3 && sent.end.series[1].piece == 0);
    EXPECT(packet_of(sent.end, PACKET).answer == FTD_SEND_NONE);
    /* An opening. */
    opened = day_open(second.end, 100, 2, 0, 0);
    EXPECT(opened.refusal == FTD_OPENING && opened.end.series[1].piece == 2);
    opened = day_open(second.end, 101, 2, 0, 0);
    EXPECT(opened.refusal == 0 && opened.end.series[1].piece == 0);
    EXPECT(packet_of(opened.end, PACKET).refusal == FTD_NOT_LOGGED_IN);
}

/* 13, 14, 20, 18 and none; a refused packet is simply asked for again. */
static void packets_turned_down(void) {
    struct ftd_receiver receiver;
    struct ftd_sender sender = at_the_second(&receiver), any;
    struct ftd_sent_packet sent;
    uint8_t *content_length = day_log + (FTD_LOG_HEAD + 4006) + 12; /* of the second entry */
    size_t i;

    EXPECT(ftd_send_packet(sender, 9, day_log, sizeof day_log, output, sizeof output).refusal == FTD_UNKNOWN_SERIES);
    EXPECT(ftd_send_packet(sender, 7, day_log, sizeof day_log, output, sizeof output).refusal == FTD_NOT_LOGGED_IN);
    for (i = 0; i < 3; i++) {
        sent = packet_of(sender, PACKET - 1);
        EXPECT(sent.refusal == FTD_TOO_SMALL && sent.end.series[1].piece == i && sent.end.series[1].next == 2);
        sent = ftd_send_packet(sender, 3, day_log, sender.used - 1, output, 0);
        EXPECT(sent.refusal == FTD_DAMAGED_LOG && sent.end.series[1].piece == i && sent.end.series[1].next == 2);
        sent = packet_of(sender, PACKET);
        is_piece(&sent, i);
        sender = sent.end;
    }
    EXPECT(packet_of(sender, 0).answer == FTD_SEND_NONE);
    /* The entry has one field, so one packet, and two of three are written. */
    any = sender;
    any.series[1].next = 2;
    any.series[1].piece = 2;
    memcpy(content_length, "\0\0\x0F\xA6", 4);
    EXPECT(packet_of(any, PACKET).refusal == FTD_DAMAGED_LOG);
    EXPECT(ftd_send(any, 3, day_log, sizeof day_log, output, sizeof output).bytes == PACKET);
    /* A place that no call made. */
    any.series[1].piece = UINT64_MAX;
    sent = packet_of(any, PACKET);
    EXPECT(sent.refusal == FTD_DAMAGED_LOG && sent.end.series[1].piece == UINT64_MAX);
    any.series[1].piece = 0;
    sent = packet_of(any, PACKET);
    EXPECT(sent.answer == FTD_SEND_MESSAGE && sent.last == 1 && output[19] == 'S');
}

/* ---- Every piece counted ---- */

/* Packet i of the second message. */
static uint8_t received_piece(struct ftd_receiver *end, size_t i) {
    struct ftd_received got = ftd_receive(*end, whole + i * PACKET, PACKET, buffer, sizeof buffer);

    EXPECT(got.refusal == 0 || (got.end.series[1].chain == 0 && got.end.series[1].pieces == 0));
    EXPECT(got.answer != FTD_RECEIVE_HELD || got.end.series[1].pieces == i + 1);
    *end = got.end;
    return got.answer == FTD_RECEIVE_REFUSED ? got.refusal : got.answer == FTD_RECEIVE_MESSAGE ? 100 : 0;
}

/* A packet of the second message without content, with this place; without any where it is above 65535. */
static uint8_t received_place(struct ftd_receiver *end, char chain, unsigned long place) {
    static const uint8_t tag[] = {0x70, 2}, head[] = {1, 0, 0, 0x77, 0x78, 0, 0, 3, 0, 0, 0, 2, 0, 0, 0, 0};
    uint8_t bytes[24] = {1, 0, 0, sizeof head};
    size_t at = 4;
    struct ftd_received got;

    if (place <= 65535) {
        bytes[1] = 4;
        memcpy(bytes + at, tag, sizeof tag);
        bytes[6] = (uint8_t)(place >> 8);
        bytes[7] = (uint8_t)place;
        at += 4;
    }
    memcpy(bytes + at, head, sizeof head);
    bytes[at + 5] = (uint8_t)chain;
    got = ftd_receive(*end, bytes, at + sizeof head, buffer, sizeof buffer);
    *end = got.end;
    return got.refusal;
}

/* Both Sends write the place behind the trade date; packets lost, repeated and late are 17, until the first one comes
 * again. */
static void places_compared(void) {
    struct ftd_receiver start, end;
    struct ftd_sender sender = at_the_second(&start);
    struct ftd_sent_packet sent;
    struct ftd_packet read;
    size_t i;

    for (i = 0; i < 3; i++) {
        static const uint8_t tags[] = {5, 4, 0, 0, 0, 100, 0x70, 2, 0};

        sent = packet_of(sender, PACKET);
        is_piece(&sent, i);
        sender = sent.end;
        EXPECT(output[1] == 10 && memcmp(output + 4, tags, sizeof tags) == 0 && output[13] == i);
        read = ftd_read(output, sent.bytes);
        EXPECT(read.placed == 1 && read.place == i && read.dated == 1 && read.date == 100);
    }
    end = start;
    EXPECT(received_piece(&end, 0) == 0 && received_piece(&end, 2) == FTD_BROKEN_CHAIN); /* the middle one is lost */
    EXPECT(received_piece(&end, 1) == FTD_BROKEN_CHAIN && received_piece(&end, 2) == FTD_BROKEN_CHAIN);
    EXPECT(received_piece(&end, 0) == 0 && received_piece(&end, 1) == 0);
    EXPECT(received_piece(&end, 1) == FTD_BROKEN_CHAIN); /* again */
    EXPECT(received_piece(&end, 0) == 0 && received_piece(&end, 1) == 0 && received_piece(&end, 0) == 0);
    EXPECT(end.series[1].pieces == 1 && end.series[1].held == 4006); /* the first one replaces what is held */
    EXPECT(received_piece(&end, 1) == 0 && received_piece(&end, 2) == 100);
    EXPECT(memcmp(buffer + FTD_MOST_CONTENT, large, sizeof large) == 0 && end.series[1].pieces == 0);
    EXPECT(received_piece(&end, 2) == 0 && end.series[1].last == 2); /* again, whatever the place */
    end = start;
    EXPECT(received_place(&end, 'S', 1) == FTD_BROKEN_CHAIN && received_place(&end, 'F', 1) == FTD_BROKEN_CHAIN);
    EXPECT(received_place(&end, 'F', 0) == 0 && received_place(&end, 'C', 65536) == 0 && end.series[1].pieces == 2);
    EXPECT(received_place(&end, 'L', 2) == 0 && end.series[1].last == 2);
}

/* The count stops at 65536, with which no place agrees; a count above it is one that no call made. */
static void places_counted(void) {
    struct ftd_receiver start, end;

    at_the_second(&start);
    EXPECT(received_place(&start, 'F', 0) == 0);
    start.series[1].pieces = FTD_MOST_PIECES - 1;
    end = start;
    EXPECT(received_place(&end, 'C', 65534) == FTD_BROKEN_CHAIN);
    end = start;
    EXPECT(received_place(&end, 'C', 65535) == 0 && end.series[1].pieces == FTD_MOST_PIECES);
    EXPECT(received_place(&end, 'C', 65536) == 0 && end.series[1].pieces == FTD_MOST_PIECES);
    start = end;
    EXPECT(received_place(&end, 'C', 0) == FTD_BROKEN_CHAIN);
    end = start;
    EXPECT(received_place(&end, 'L', 65535) == FTD_BROKEN_CHAIN && end.series[1].last == 1);
    start.series[1].pieces = UINT32_MAX;
    end = start;
    EXPECT(received_place(&end, 'C', 65535) == FTD_BROKEN_CHAIN);
    end = start;
    EXPECT(received_place(&end, 'C', 65536) == 0 && end.series[1].pieces == FTD_MOST_PIECES);
    EXPECT(received_place(&end, 'L', 65536) == 0 && end.series[1].last == 2);
}

/* Another length, or two of them, is 2, in link packets too; skipped ones are kept unread. */
static void places_refused(void) {
    static const uint8_t right[] = {1, 4, 0, 0, 0x70, 2, 1, 2}, longer[] = {0, 5, 0, 0, 0x70, 3, 0, 0, 0};
    static const uint8_t twice[] = {1, 8, 0, 0, 0x70, 2, 0, 0, 0x70, 2, 0, 0}, unread[] = {2, 2, 0, 0, 0x70, 0};
    struct ftd_packet read = ftd_read(right, sizeof right);

    EXPECT(read.answer == FTD_LINK && read.placed == 1 && read.place == 0x0102 && read.dated == 0);
    read = ftd_read(twice, sizeof twice);
    EXPECT(read.refusal == FTD_BROKEN_TAG && read.placed == 0 && read.place == 0);
    EXPECT(ftd_read(longer, sizeof longer).refusal == FTD_BROKEN_TAG);
    EXPECT(ftd_read(unread, sizeof unread).answer == FTD_SKIPPED && ftd_read(unread, sizeof unread).placed == 0);
    EXPECT(ftd_write_plain(1, twice + 4, 8, NULL, 0, output, sizeof output).refusal == FTD_BROKEN_TAG);
    EXPECT(ftd_write_plain(1, twice + 4, 4, NULL, 0, output, sizeof output).bytes == 8);
}

static size_t buffer_len = sizeof buffer; /* as it is lent in what follows */

/* What ftd_receive says of a packet of series 3 with this chain letter, number and trade date. */
static uint8_t received(struct ftd_receiver end, char chain, uint8_t number, uint8_t date) {
    uint8_t bytes[34];
    struct ftd_received got;

    memcpy(bytes, dated, sizeof bytes);
    bytes[9] = date;
    bytes[15] = (uint8_t)chain;
    bytes[17] = 3;
    bytes[21] = number;
    got = ftd_receive(end, bytes, sizeof bytes, buffer_len == 0 ? NULL : buffer, buffer_len);
    EXPECT((got.answer == FTD_RECEIVE_REFUSED) == (got.refusal != 0));
    EXPECT(got.refusal < FTD_OTHER_DAY || got.end.series[1].chain == 0);
    return got.refusal;
}

static void refusals_of_receiving(void) {
    struct ftd_sender sender = serving();
    struct ftd_receiver receiver = receiving(), later;

    EXPECT(received(receiver, 'S', 1, 100) == FTD_NOT_LOGGED_IN);
    EXPECT(ftd_receive(receiver, dated, sizeof dated, buffer, sizeof buffer).refusal == FTD_UNKNOWN_SERIES);
    EXPECT(ftd_request_login(receiver, 9, request, sizeof request, login, sizeof login).refusal == FTD_UNKNOWN_SERIES);
    EXPECT(ftd_request_login(receiver, 3, answer, sizeof answer, login, sizeof login).refusal == FTD_COMPOSITION);
    EXPECT(ftd_request_login(receiver, 3, request, sizeof request, login, 10).refusal == FTD_TOO_SMALL);
    log_in(&sender, &receiver);
    receiver.series[1].chain = 1;
    EXPECT(received(receiver, 'S', 1, 100) == 0 && received(receiver, 'F', 1, 100) == 0);
    EXPECT(received(receiver, 'S', 1, 99) == FTD_OTHER_DAY);
    EXPECT(received(receiver, 'S', 2, 100) == FTD_OUT_OF_LINE && received(receiver, 'S', 0, 100) == FTD_OUT_OF_LINE);
    EXPECT(received(receiver, 'C', 1, 100) == FTD_BROKEN_CHAIN); /* the open chain has TID 0 */
    receiver.series[1].tid = 0x2004;
    receiver.series[1].held = FTD_MOST_CONTENT - 8;
    EXPECT(received(receiver, 'L', 1, 100) == 0);
    receiver.series[1].held++;
    EXPECT(received(receiver, 'L', 1, 100) == FTD_TOO_SMALL);
    buffer_len--;
    EXPECT(received(receiver, 'F', 1, 100) == FTD_TOO_SMALL);
    buffer_len = 0;
    EXPECT(received(receiver, 'F', 1, 100) == FTD_TOO_SMALL && received(receiver, 'S', 1, 100) == 0);
    EXPECT(ftd_receive(receiver, dated, 33, buffer, sizeof buffer).refusal == FTD_NOT_ONE_PACKET);
    EXPECT(ftd_confirm_login(receiver, 3, dated, sizeof dated).refusal == FTD_COMPOSITION);
    later = receiver;
    later.series[1].date = 101;
    EXPECT(ftd_confirm_login(later, 3, output, 26 + sizeof answer).refusal == FTD_OTHER_DAY);
    EXPECT(ftd_confirm_login(receiver, 3, output, 26 + sizeof answer).refusal == 0);
    output[17] = 1; /* the header's series */
    output[16] = 1;
    EXPECT(ftd_confirm_login(receiver, 3, output, 26 + sizeof answer).refusal == FTD_OUT_OF_LINE);
}

/* ---- A bufferful ---- */

/* A heartbeat, the first message, a skipped packet, and the three packets of the second one. */
enum { FIRST = 6 + PACKET, SECOND = 7 + 3 * PACKET };
static uint8_t stream[FIRST + SECOND];

static void make_stream(struct ftd_sender *sender) {
    struct ftd_sent sent = ftd_send(*sender, 3, day_log, sizeof day_log, output, sizeof output);

    memcpy(stream, heart, 6);
    memcpy(stream + 6, output, PACKET);
    memcpy(stream + FIRST, skipped, 7);
    sent = ftd_send(sent.end, 3, day_log, sizeof day_log, output, sizeof output);
    memcpy(stream + FIRST + 7, output, 3 * PACKET);
    EXPECT(sent.number == 2 && sent.bytes == 3 * PACKET);
    *sender = sent.end;
}

/* What ftd_receive_several says of so many bytes. */
static struct ftd_received_several taken_of(struct ftd_receiver end, const uint8_t *bytes, size_t count) {
    struct ftd_received_several got = ftd_receive_several(end, bytes, count, buffer, sizeof buffer);

    EXPECT((got.answer == FTD_SEVERAL_REFUSED) == (got.refusal != 0));
    EXPECT((got.answer == FTD_SEVERAL_SHORT) == (got.missing != 0));
    EXPECT((got.answer == FTD_SEVERAL_MESSAGE) == (got.tid != 0) && (got.last != 0) == (got.tid != 0));
    EXPECT(got.taken <= count && (got.taken == count || got.answer != FTD_SEVERAL_END));
    return got;
}

/* Until it is through: a message in its packet, one that is cut within its last packet, and all of it again. */
static void several_received(void) {
    struct ftd_sender sender = serving();
    struct ftd_receiver receiver = receiving();
    struct ftd_received_several got;

    log_in(&sender, &receiver);
    make_stream(&sender);
    got = taken_of(receiver, stream, sizeof stream);
    EXPECT(got.answer == FTD_SEVERAL_MESSAGE && got.taken == FIRST && got.last == 1 && got.tid == 0x7777);
    EXPECT(got.origin == FTD_IN_PACKET && got.content.start == 6 + AROUND && got.content.len == 4006);
    EXPECT(got.end.series[1].last == 1 && memcmp(stream + got.content.start, large, 4006) == 0);
    got = taken_of(got.end, stream + FIRST, SECOND - 1);
    EXPECT(got.answer == FTD_SEVERAL_SHORT && got.taken == 7 + 2 * PACKET && got.missing == 1);
    EXPECT(got.end.series[1].chain == 1 && got.end.series[1].held == 2 * 4006 && got.end.series[1].last == 1);
    EXPECT(got.end.series[1].pieces == 2);
    got = taken_of(got.end, stream + FIRST + got.taken, PACKET);
    EXPECT(got.answer == FTD_SEVERAL_MESSAGE && got.taken == PACKET && got.last == 2 && got.tid == 0x7778);
    EXPECT(got.origin == FTD_IN_BUFFER && got.content.start == FTD_MOST_CONTENT && got.content.len == sizeof large);
    EXPECT(memcmp(buffer + got.content.start, large, sizeof large) == 0);
    got = taken_of(got.end, stream, 0);
    EXPECT(got.answer == FTD_SEVERAL_END && got.taken == 0 && got.end.series[1].last == 2);
    got = taken_of(got.end, stream, sizeof stream);
    EXPECT(got.answer == FTD_SEVERAL_END && got.taken == sizeof stream && got.end.series[1].last == 2);
}

/* A refused packet is taken, and the call stops at it; the next call goes on behind it. */
static void several_refused(void) {
    struct ftd_sender sender = serving();
    struct ftd_receiver receiver = receiving();
    struct ftd_received_several got;

    log_in(&sender, &receiver);
    make_stream(&sender);
    memcpy(stream, dated, sizeof dated); /* series 1 isn't open */
    memcpy(stream + sizeof dated, output, 2 * PACKET);
    memcpy(stream + sizeof dated + 2 * PACKET, dated, sizeof dated);
    got = taken_of(receiver, stream, 2 * sizeof dated + 2 * PACKET);
    EXPECT(got.answer == FTD_SEVERAL_REFUSED && got.refusal == FTD_UNKNOWN_SERIES && got.taken == sizeof dated);
    EXPECT(got.content.len == 0 && got.last == 0 && got.missing == 0);
    got = taken_of(got.end, stream + got.taken, sizeof dated + 2 * PACKET);
    EXPECT(got.refusal == FTD_OUT_OF_LINE && got.taken == PACKET); /* number 2 before number 1 */
    receiver.series[1].last = 1;
    got = taken_of(receiver, stream + sizeof dated, sizeof dated + 2 * PACKET);
    EXPECT(got.refusal == FTD_UNKNOWN_SERIES && got.taken == sizeof dated + 2 * PACKET);
    EXPECT(got.end.series[1].chain == 1 && got.end.series[1].held == 2 * 4006); /* the packets before it are received */
}

/* Short comes before 1 and 3, which come when the bytes are there; then they are taken. */
static void several_short(void) {
    static const uint8_t most[4] = {1, 255, 255, 255};
    static uint8_t extension[132 + 6], body[19 + 6];
    struct ftd_receiver receiver = receiving();
    struct ftd_received_several got;
    size_t i;

    for (i = 1; i < 4; i++)
        EXPECT(taken_of(receiver, most, i).missing == 4 - i);
    got = taken_of(receiver, most, 4);
    EXPECT(got.answer == FTD_SEVERAL_SHORT && got.missing == FTD_MOST_BYTES - 4 && got.taken == 0);
    extension[0] = body[0] = 1;
    extension[1] = 128;
    body[3] = 15;
    memcpy(extension + 132, heart, 6);
    memcpy(body + 19, heart, 6);
    EXPECT(ftd_read(extension, 4).refusal == FTD_LONG_EXTENSION && ftd_read(body, 4).refusal == FTD_BODY_LENGTH);
    for (i = 4; i < 132; i++)
        EXPECT(taken_of(receiver, extension, i).missing == 132 - i && taken_of(receiver, extension, i).taken == 0);
    for (i = 4; i < 19; i++)
        EXPECT(taken_of(receiver, body, i).missing == 19 - i && taken_of(receiver, body, i).taken == 0);
    got = taken_of(receiver, extension, sizeof extension);
    EXPECT(got.refusal == FTD_LONG_EXTENSION && got.taken == 132);
    got = taken_of(receiver, body, sizeof body);
    EXPECT(got.refusal == FTD_BODY_LENGTH && got.taken == 19);
    got = taken_of(got.end, body + got.taken, 6);
    EXPECT(got.answer == FTD_SEVERAL_END && got.taken == 6);
}

static uint8_t records[3 * (FTD_RECORD_HEAD + 4006) + FTD_RECORD_HEAD + FTD_MOST_CONTENT + 1];

/* Puts a record behind others, with so many bytes of `large`; gives where it ends. */
static size_t record_at(size_t at, uint8_t of_series, uint32_t tid, size_t count) {
    uint8_t *head = records + at;

    memset(head, 0, FTD_RECORD_HEAD);
    head[1] = of_series;
    head[4] = (uint8_t)(tid >> 8);
    head[5] = (uint8_t)tid;
    head[7] = (uint8_t)(count >> 16);
    head[8] = (uint8_t)(count >> 8);
    head[9] = (uint8_t)count;
    memcpy(head + FTD_RECORD_HEAD, large, count < sizeof large ? count : sizeof large);
    return at + FTD_RECORD_HEAD + count;
}

static struct ftd_published_several publish_records(struct ftd_sender end, size_t from, size_t to) {
    struct ftd_published_several got = ftd_publish_several(end, records + from, to - from, day_log, sizeof day_log);

    EXPECT((got.answer == FTD_SEVERAL_REFUSED) == (got.refusal != 0));
    EXPECT((got.answer == FTD_SEVERAL_SHORT) == (got.missing != 0));
    EXPECT(got.taken <= to - from && (got.taken == to - from || got.answer != FTD_SEVERAL_END));
    return got;
}

/* Two records, a refused one and another: those before the refused one are in, and it is taken. */
static void several_published(void) {
    struct ftd_sender sender = day_open(ftd_sender_fresh(), 100, 2, 0, 0).end;
    struct ftd_published_several got;
    struct ftd_published one;
    size_t second = record_at(0, 3, 0x7777, 4006), third = record_at(second, 7, 0x7778, 0);
    size_t fourth = record_at(third, 3, 0x2003, 4006), end = record_at(fourth, 3, 0x7779, 4006);
    static uint8_t other[sizeof day_log];

    got = publish_records(sender, 0, end);
    EXPECT(got.answer == FTD_SEVERAL_REFUSED && got.refusal == FTD_COMPOSITION && got.taken == fourth);
    EXPECT(got.end.series[1].published == 1 && got.end.series[0].published == 1);
    got = publish_records(got.end, fourth, end);
    EXPECT(got.answer == FTD_SEVERAL_END && got.taken == end - fourth && got.end.series[1].published == 2);
    one = ftd_publish(sender, 3, 0x7777, large, 4006, other, sizeof other);
    one = ftd_publish(one.end, 7, 0x7778, NULL, 0, other, sizeof other);
    one = ftd_publish(one.end, 3, 0x7779, large, 4006, other, sizeof other);
    EXPECT(got.end.used == one.end.used && memcmp(day_log, other, one.end.used) == 0);
    got = publish_records(sender, 0, 0);
    EXPECT(got.answer == FTD_SEVERAL_END && got.taken == 0 && got.end.used == 0);
}

/* Short comes before 7, which comes when the bytes are there. */
static void several_records_short(void) {
    static const uint8_t most[FTD_RECORD_HEAD] = {0, 3, 0, 0, 0x77, 0x77, 255, 255, 255, 255};
    struct ftd_sender sender = day_open(ftd_sender_fresh(), 100, 2, 0, 0).end;
    struct ftd_published_several got;
    size_t i, second = record_at(0, 3, 0x7777, 4006), end = record_at(second, 3, 0x7777, FTD_MOST_CONTENT + 1);

    for (i = 1; i < FTD_RECORD_HEAD; i++) {
        got = publish_records(sender, 0, i);
        EXPECT(got.missing == FTD_RECORD_HEAD - i && got.taken == 0);
    }
    EXPECT(publish_records(sender, 0, FTD_RECORD_HEAD).missing == 4006);
    got = publish_records(sender, 0, second - 1);
    EXPECT(got.missing == 1 && got.taken == 0 && got.end.used == 0);
    got = publish_records(sender, 0, end - 1);
    EXPECT(got.answer == FTD_SEVERAL_SHORT && got.missing == 1 && got.taken == second);
    EXPECT(got.end.series[1].published == 1 && got.end.used == 4006 + FTD_LOG_HEAD);
    got = publish_records(sender, 0, end);
    EXPECT(got.refusal == FTD_FIELD_RUN && got.taken == end && got.end.series[1].published == 1);
    got = ftd_publish_several(sender, most, sizeof most, day_log, sizeof day_log);
    EXPECT(got.answer == FTD_SEVERAL_SHORT && got.missing == UINT32_MAX && got.taken == 0);
}

/* ---- A share of the log for each series (02, No. 11) ---- */

/* Openings: as many reserves as series, together at most the log's length; sums that pass the type are no less. */
static void reserves_opened(void) {
    static uint8_t before[sizeof day_log];
    const size_t all = sizeof day_log, half = SIZE_MAX / 2 + 1, three[3] = {0, 0, 0};
    struct ftd_sender fresh = ftd_sender_fresh();
    struct ftd_sender_opened opened;

    memset(day_log, 0x5A, sizeof day_log);
    memcpy(before, day_log, sizeof before);
    opened = day_open(fresh, 100, 2, all - 40, 40);
    EXPECT(opened.refusal == 0 && opened.end.series[0].reserve == all - 40 && opened.end.series[1].reserve == 40);
    EXPECT(opened.end.series[0].used == 0 && opened.end.series[1].used == 0 && opened.end.used == 0);
    EXPECT(day_open(fresh, 100, 1, all, 0).refusal == 0 && day_open(fresh, 100, 1, all + 1, 0).refusal == FTD_OPENING);
    EXPECT(day_open(fresh, 100, 2, all - 40, 41).refusal == FTD_OPENING);
    EXPECT(day_open(fresh, 100, 2, 0, all + 1).refusal == FTD_OPENING);
    EXPECT(day_open(fresh, 100, 2, SIZE_MAX, 1).refusal == FTD_OPENING);
    EXPECT(day_open(fresh, 100, 2, half, half).refusal == FTD_OPENING);
    EXPECT(ftd_sender_open(fresh, 100, series, 2, three, 1, day_log, all).refusal == FTD_OPENING);
    EXPECT(ftd_sender_open(fresh, 100, series, 2, three, 3, day_log, all).refusal == FTD_OPENING);
    /* A refused opening leaves the reserves; a new day brings new ones. */
    opened = day_open(opened.end, 101, 2, all, 1);
    EXPECT(opened.refusal == FTD_OPENING && opened.end.date == 100 && opened.end.series[0].reserve == all - 40);
    opened = day_open(opened.end, 101, 2, 1, all - 1);
    EXPECT(opened.refusal == 0 && opened.end.series[0].reserve == 1 && opened.end.series[1].reserve == all - 1);
    EXPECT(memcmp(day_log, before, sizeof before) == 0);
}

/* The accounts of both series are the same. */
static int same_accounts(const struct ftd_sender *a, const struct ftd_sender *b) {
    int i, same = a->used == b->used;

    for (i = 0; i < 2; i++)
        same = same && a->series[i].used == b->series[i].used && a->series[i].reserve == b->series[i].reserve &&
               a->series[i].published == b->series[i].published;
    return same;
}

/* An entry of so many bytes for a series, in a log of so many. Where it is refused, the accounts stay. */
static uint8_t entry(struct ftd_sender *end, uint16_t of, size_t bytes, size_t log_len) {
    uint8_t content[128] = {0, 0, 0x70, 1, 0, 0};
    struct ftd_published published;

    content[5] = (uint8_t)(bytes - FTD_LOG_HEAD - 6);
    published = ftd_publish(*end, of, 0x7777, content, bytes - FTD_LOG_HEAD, day_log, log_len);
    EXPECT(published.refusal == 0 || same_accounts(&published.end, end));
    *end = published.end;
    return published.refusal;
}

/* 100 bytes of log, 60 of them reserved for series 3: series 7 has 40, and series 3 its 60 whatever series 7 does. */
static void shares_published(void) {
    const size_t reserves[2] = {0, 60};
    struct ftd_sender end = ftd_sender_open(ftd_sender_fresh(), 100, series, 2, reserves, 2, day_log, 100).end, full;

    EXPECT(entry(&end, 7, 41, 100) == FTD_TOO_SMALL && entry(&end, 7, 40, 100) == 0);
    EXPECT(end.used == 40 && end.series[0].used == 40 && end.series[1].used == 0);
    EXPECT(entry(&end, 7, 22, 100) == FTD_TOO_SMALL && entry(&end, 3, 61, 100) == FTD_TOO_SMALL);
    EXPECT(entry(&end, 3, 38, 100) == 0 && end.used == 78 && end.series[1].used == 38);
    /* The log has 22 bytes left; they are reserved. */
    EXPECT(entry(&end, 7, 22, 100) == FTD_TOO_SMALL && entry(&end, 3, 23, 100) == FTD_TOO_SMALL);
    /* In a shorter one 18 meets series 3 too, below the used part it is 20; in a longer one there is more room. */
    full = end;
    EXPECT(entry(&end, 3, 22, 99) == FTD_TOO_SMALL && entry(&end, 3, 22, 78) == FTD_TOO_SMALL);
    EXPECT(entry(&end, 3, 22, 77) == FTD_DAMAGED_LOG && entry(&full, 7, 22, 122) == 0 && full.series[0].used == 62);
    EXPECT(entry(&end, 3, 22, 100) == 0 && end.used == 100 && end.series[1].used == 60);
    EXPECT(entry(&end, 3, 22, 100) == FTD_TOO_SMALL);
}

/* Beyond its reserve a series has what the others' shares leave; a full series keeps its reserve; 18 before 21. */
static void shares_beyond(void) {
    const size_t reserves[2] = {30, 20};
    struct ftd_sender end = ftd_sender_open(ftd_sender_fresh(), 100, series, 2, reserves, 2, day_log, 100).end;

    EXPECT(entry(&end, 7, 81, 100) == FTD_TOO_SMALL && entry(&end, 7, 58, 100) == 0);
    EXPECT(entry(&end, 7, 23, 100) == FTD_TOO_SMALL && entry(&end, 7, 22, 100) == 0 && end.series[0].used == 80);
    EXPECT(end.series[0].reserve == 30);
    end.series[1].published = FTD_MOST_MESSAGES;
    EXPECT(ftd_publish(end, 3, 0x7777, NULL, 0, day_log, 100).refusal == FTD_DAY_FULL);
    EXPECT(entry(&end, 3, 22, 100) == FTD_TOO_SMALL);
    EXPECT(ftd_publish(end, 7, 0x7777, NULL, 0, day_log, 100).refusal == FTD_TOO_SMALL);
    /* Accounts that no call left, up to the type's limit. */
    end.series[0].reserve = end.series[1].reserve = SIZE_MAX / 2 + 1;
    EXPECT(ftd_publish(end, 7, 0x7777, NULL, 0, day_log, sizeof day_log).refusal == FTD_TOO_SMALL);
    end.series[0].reserve = end.series[1].reserve = 0;
    end.series[0].used = SIZE_MAX;
    EXPECT(ftd_publish(end, 7, 0x7777, NULL, 0, day_log, sizeof day_log).refusal == FTD_TOO_SMALL);
}

/* ---- Named places of a receiving end ---- */

static int same_checkpoint(const struct ftd_checkpoint *a, const struct ftd_checkpoint *b) {
    int i, same = a->name == b->name && a->count == b->count;

    for (i = 0; i < FTD_MOST_SERIES; i++)
        same = same && a->series[i].date == b->series[i].date && a->series[i].last == b->series[i].last &&
               a->series[i].series == b->series[i].series && a->series[i].dated == b->series[i].dated;
    return same;
}

static int same_checkpoints(const struct ftd_checkpoints *a, const struct ftd_checkpoints *b) {
    int i, same = a->count == b->count;

    for (i = 0; i < FTD_MOST_NAMES; i++)
        same = same && same_checkpoint(&a->places[i], &b->places[i]);
    return same;
}

static int same_end(const struct ftd_receiver *a, const struct ftd_receiver *b) {
    int i, same = a->count == b->count;

    for (i = 0; i < FTD_MOST_SERIES; i++)
        same = same && a->series[i].held == b->series[i].held && a->series[i].date == b->series[i].date &&
               a->series[i].last == b->series[i].last && a->series[i].tid == b->series[i].tid &&
               a->series[i].pieces == b->series[i].pieces && a->series[i].series == b->series[i].series &&
               a->series[i].dated == b->series[i].dated && a->series[i].login == b->series[i].login &&
               a->series[i].chain == b->series[i].chain;
    return same;
}

/* Keeping under the first letters of a text, so many. What is refused changes nothing. */
static uint8_t keep_letters(struct ftd_checkpoints *of, struct ftd_receiver end, const char *name, size_t count) {
    struct ftd_kept_step step = ftd_keep(*of, end, (const uint8_t *)name, count);

    EXPECT(step.refusal == 0 || same_checkpoints(&step.checkpoints, of));
    *of = step.checkpoints;
    return step.refusal;
}

static uint8_t keep(struct ftd_checkpoints *of, struct ftd_receiver end, const char *name) {
    return keep_letters(of, end, name, strlen(name));
}

/* Likewise a return. */
static uint8_t go_back(struct ftd_checkpoints of, struct ftd_receiver *end, const char *name) {
    struct ftd_returned left = ftd_return(of, *end, (const uint8_t *)name, strlen(name));

    EXPECT(left.refusal == 0 || same_end(&left.end, end));
    *end = left.end;
    return left.refusal;
}

/* Series 3 at a trade date and number, logged in and within a chain; series 7 as it was opened. */
static struct ftd_receiver at_number(uint32_t date, uint32_t last) {
    struct ftd_receiver end = receiving();

    end.series[1].dated = end.series[1].login = end.series[1].chain = 1;
    end.series[1].date = date;
    end.series[1].last = last;
    end.series[1].tid = 0x7778;
    end.series[1].held = 4006;
    end.series[1].pieces = 1;
    return end;
}

/* Series 3 has trade date and number, no login and no chain. */
static int rests_at(const struct ftd_receiver *end, uint32_t date, uint32_t last) {
    struct ftd_receiver right = receiving();

    right.series[1].dated = date != 0;
    right.series[1].date = date;
    right.series[1].last = last;
    return same_end(end, &right);
}

/* A before the opening, B at number 5, C and D at 6. */
static struct ftd_checkpoints four_kept(void) {
    struct ftd_checkpoints all = ftd_checkpoints_fresh();

    EXPECT(all.count == 0 && all.places[0].name == 0 && all.places[3].count == 0 && all.places[3].series[7].dated == 0);
    EXPECT(keep(&all, ftd_receiver_fresh(), "A") == 0 && keep(&all, at_number(9, 5), "B") == 0);
    EXPECT(keep(&all, at_number(9, 6), "C") == 0 && keep(&all, at_number(9, 6), "D") == 0);
    return all;
}

static void names(void) {
    static const char *const wrong[] = {"", "AAAAAAAAA", "@", "[", "A@", "[A", "a", "Aa", "A ", " A", "A1", "AAAAAAA@"};
    struct ftd_checkpoints all = ftd_checkpoints_fresh(), full = four_kept();
    struct ftd_receiver end = at_number(9, 7);
    size_t i;

    for (i = 0; i < sizeof wrong / sizeof wrong[0]; i++) {
        EXPECT(keep(&all, end, wrong[i]) == FTD_WRONG_NAME && go_back(all, &end, wrong[i]) == FTD_WRONG_NAME);
        EXPECT(keep(&full, end, wrong[i]) == FTD_WRONG_NAME && go_back(full, &end, wrong[i]) == FTD_WRONG_NAME);
    }
    EXPECT(keep_letters(&all, end, "A", 2) == FTD_WRONG_NAME && keep_letters(&all, end, "ABC", 2) == 0);
    EXPECT(all.count == 1 && all.places[0].name == 0x4241 && all.places[1].name == 0);
    EXPECT(go_back(all, &end, "A") == FTD_UNKNOWN_NAME && go_back(all, &end, "ABC") == FTD_UNKNOWN_NAME);
    EXPECT(keep(&all, end, "ABCDEFGH") == 0 && keep(&all, end, "ZZZZZZZZ") == 0 && keep(&all, end, "Z") == 0);
    EXPECT(all.count == 4 && all.places[1].name == 0x4847464544434241 && all.places[2].name == 0x5A5A5A5A5A5A5A5A);
    EXPECT(all.places[3].name == 0x5A && keep(&all, end, "ZZ") == FTD_FIFTH_NAME);
    EXPECT(go_back(ftd_checkpoints_fresh(), &end, "A") == FTD_UNKNOWN_NAME);
}

static void places_kept(void) {
    struct ftd_checkpoints all = four_kept(), before = all;

    EXPECT(all.count == 4 && all.places[0].name == 'A' && all.places[0].count == 0 && all.places[1].name == 'B');
    EXPECT(all.places[1].count == 2 && all.places[1].series[0].series == 7 && all.places[1].series[0].dated == 0);
    EXPECT(all.places[1].series[1].series == 3 && all.places[1].series[1].dated == 1);
    EXPECT(all.places[1].series[1].date == 9 && all.places[1].series[1].last == 5);
    EXPECT(keep(&all, at_number(9, 7), "E") == FTD_FIFTH_NAME && same_checkpoints(&all, &before));
    /* A used name's own place, and no other. */
    EXPECT(keep(&all, at_number(10, 1), "B") == 0 && all.count == 4 && all.places[1].name == 'B');
    EXPECT(all.places[1].series[1].date == 10 && all.places[1].series[1].last == 1);
    all.places[1] = before.places[1];
    EXPECT(same_checkpoints(&all, &before));
}

static void places_returned(void) {
    struct ftd_checkpoints all = four_kept();
    struct ftd_receiver end = at_number(9, 7), fresh = ftd_receiver_fresh();

    EXPECT(go_back(all, &end, "E") == FTD_UNKNOWN_NAME);
    EXPECT(go_back(all, &end, "B") == 0 && rests_at(&end, 9, 5));
    EXPECT(go_back(all, &end, "D") == 0 && rests_at(&end, 9, 6));
    EXPECT(go_back(all, &end, "A") == 0 && rests_at(&end, 0, 0));
    EXPECT(go_back(all, &end, "C") == 0 && rests_at(&end, 9, 6));
    end = at_number(12, 1);
    EXPECT(go_back(all, &end, "C") == 0 && rests_at(&end, 9, 6));
    EXPECT(go_back(all, &fresh, "B") == 0 && fresh.count == 0);
    EXPECT(ftd_receiver_open(fresh, series, 2).refusal == 0);
    /* Of another end: by the series' numbers. */
    end = at_number(9, 7);
    end.series[0] = end.series[1];
    end.series[0].series = 3;
    end.series[1].series = 5;
    EXPECT(go_back(all, &end, "B") == 0 && end.series[0].series == 3 && end.series[0].last == 5);
    EXPECT(end.series[1].series == 5 && end.series[1].dated == 0 && end.series[1].last == 0);
}

/* A line test: kept within the second message, which comes twice; asked for before the return, nothing comes. */
static void line_test(void) {
    struct ftd_sender sender = serving();
    struct ftd_receiver receiver = receiving();
    struct ftd_checkpoints all = ftd_checkpoints_fresh();
    uint8_t too_high[sizeof login];
    struct ftd_written asked;

    log_in(&sender, &receiver);
    first_message(&sender, &receiver);
    second_message(&sender, &receiver, 2);
    EXPECT(keep(&all, receiver, "TEST") == 0 && receiver.series[1].chain == 1);
    EXPECT(ftd_receive(receiver, output + 2 * PACKET, PACKET, buffer, sizeof buffer).answer == FTD_RECEIVE_MESSAGE);
    receiver = ftd_receive(receiver, output + 2 * PACKET, PACKET, buffer, sizeof buffer).end;
    asked = ftd_request_login(receiver, 3, request, sizeof request, too_high, sizeof too_high);
    EXPECT(go_back(all, &receiver, "TEST") == 0 && rests_at(&receiver, 100, 1));
    EXPECT(ftd_receive(receiver, output, PACKET, buffer, sizeof buffer).refusal == FTD_NOT_LOGGED_IN);
    sender = ftd_login(sender, 3, too_high, asked.bytes, answer, sizeof answer, output, sizeof output).end;
    EXPECT(ftd_send(sender, 3, day_log, sizeof day_log, output, sizeof output).answer == FTD_SEND_NONE);
    log_in(&sender, &receiver);
    EXPECT(second_message(&sender, &receiver, 3).answer == FTD_RECEIVE_MESSAGE && receiver.series[1].last == 2);
    EXPECT(ftd_send(sender, 3, day_log, sizeof day_log, output, sizeof output).answer == FTD_SEND_NONE);
}

/* A count above 4 is four names, of equal ones the first place counts; a kept count above 8 is eight; a flag is any
 * number but 0. */
static void places_of_any_state(void) {
    struct ftd_checkpoints all = four_kept(), left;
    struct ftd_receiver end = at_number(9, 7);

    all.count = SIZE_MAX;
    EXPECT(keep(&all, end, "E") == FTD_FIFTH_NAME && keep(&all, end, "D") == 0 && all.count == SIZE_MAX);
    EXPECT(all.places[3].series[1].last == 7);
    all.places[2].name = 'B';
    EXPECT(go_back(all, &end, "B") == 0 && rests_at(&end, 9, 5) && go_back(all, &end, "C") == FTD_UNKNOWN_NAME);
    all.count = 1;
    EXPECT(go_back(all, &end, "B") == FTD_UNKNOWN_NAME && keep(&all, at_number(9, 8), "B") == 0 && all.count == 2);
    memset(&all, 255, sizeof all);
    all.places[0].name = 'A';
    all.places[0].series[7].series = 3;
    all.places[0].series[7].last = 4;
    EXPECT(go_back(all, &end, "A") == 0 && end.series[1].dated == 1 && end.series[1].date == UINT32_MAX);
    EXPECT(end.series[1].last == 4 && end.series[0].dated == 0 && end.series[0].last == 0);
    all.places[1].series[2].dated = 0;
    left = ftd_keep(all, end, (const uint8_t *)"A", 1).checkpoints;
    EXPECT(left.count == SIZE_MAX && left.places[0].count == 2 && left.places[0].series[0].date == 0);
    EXPECT(left.places[1].count == SIZE_MAX && left.places[1].series[1].dated == 1);
    EXPECT(left.places[1].series[2].dated == 0 && left.places[1].series[2].date == 0);
    EXPECT(left.places[1].series[2].last == UINT32_MAX && left.places[3].series[7].date == UINT32_MAX);
    /* An end of any values is kept and returned to. */
    memset(&end, 255, sizeof end);
    EXPECT(ftd_keep(ftd_checkpoints_fresh(), end, (const uint8_t *)"A", 1).checkpoints.places[0].count == SIZE_MAX);
    EXPECT(ftd_return(left, end, (const uint8_t *)"A", 1).end.series[7].login == 0);
    EXPECT(ftd_return(left, end, (const uint8_t *)"B", 1).end.series[7].login == 1);
}

/* ---- The box ---- */

static uint64_t places[FTD_PLACES];
static uint8_t box_log[2 * FTD_MOST_CONTENT], box_buffer[2 * FTD_MOST_CONTENT], below[FTD_MOST_OUTPUT];

/* A box with both series, logged in to series 3 at the exchange; its day is the exchange's. */
static struct ftd_box box_in(struct ftd_sender *sender) {
    static const size_t reserves[2] = {0, 0};
    struct ftd_box_opened opened = ftd_box_open(ftd_box_fresh(), series, 2, reserves, 2);
    struct ftd_written asked = ftd_box_request_login(opened.box, 3, request, sizeof request, login, sizeof login);
    struct ftd_logged_in in;
    struct ftd_box_confirmed confirmed;

    EXPECT(opened.refusal == 0 && opened.box.receiver.count == 2 && opened.box.day.count == 0);
    EXPECT(ftd_box_open(opened.box, series, 2, reserves, 2).refusal == FTD_OPENING);
    EXPECT(ftd_box_open(ftd_box_fresh(), series, 2, reserves, 1).refusal == FTD_OPENING);
    in = ftd_login(*sender, 3, login, asked.bytes, answer, sizeof answer, output, sizeof output);
    EXPECT(asked.refusal == 0 && in.refusal == 0);
    memset(places, 1, sizeof places);
    confirmed = ftd_box_confirm_login(opened.box, 3, output, in.bytes, box_log, sizeof box_log, places);
    EXPECT(confirmed.refusal == 0 && confirmed.last == 0 && confirmed.box.day.dated == 1);
    EXPECT(confirmed.box.day.date == 100 && confirmed.box.day.count == 2 && confirmed.box.day.series[1].series == 3);
    EXPECT(places[0] == 0 && places[FTD_PLACES - 1] == 0);
    places[0] = 7;
    EXPECT(ftd_box_confirm_login(confirmed.box, 3, output, in.bytes, box_log, sizeof box_log, places).refusal == 0);
    EXPECT(places[0] == 7);
    places[0] = 0;
    *sender = in.end;
    return confirmed.box;
}

/* The exchange's two messages come in, the second in three packets; its publication is refused first. */
static struct ftd_box box_fed(struct ftd_sender *sender) {
    struct ftd_box box = box_in(sender);
    struct ftd_sent sent = ftd_send(*sender, 3, day_log, sizeof day_log, output, sizeof output);
    struct ftd_box_received got = ftd_box_receive(box, output, sent.bytes, box_log, sizeof box_log, box_buffer,
                                                  sizeof box_buffer);
    struct ftd_box_received_several taken;

    EXPECT(got.answer == FTD_RECEIVE_MESSAGE && got.origin == FTD_IN_PACKET && got.last == 1 && got.tid == 0x7777);
    EXPECT(got.box.day.series[1].published == 1 && got.box.day.used == 4006 + FTD_LOG_HEAD);
    EXPECT(memcmp(box_log, day_log, 4006 + FTD_LOG_HEAD) == 0);
    sent = ftd_send(sent.end, 3, day_log, sizeof day_log, output, sizeof output);
    taken = ftd_box_receive_several(got.box, output, 2 * PACKET, box_log, sizeof box_log, box_buffer, sizeof box_buffer);
    EXPECT(taken.answer == FTD_SEVERAL_END && taken.taken == 2 * PACKET && taken.box.receiver.series[1].pieces == 2);
    memset(box_buffer + FTD_MOST_CONTENT + 2 * 4006, 'z', 4006);
    got = ftd_box_receive(taken.box, output + 2 * PACKET, PACKET, box_log, got.box.day.used + 100, box_buffer,
                          sizeof box_buffer);
    EXPECT(got.refusal == FTD_TOO_SMALL && got.box.receiver.series[1].chain == 0 && got.box.day.used == 4006 + FTD_LOG_HEAD);
    EXPECT(box_buffer[FTD_MOST_CONTENT + 2 * 4006] == 'z' && box_buffer[FTD_MOST_CONTENT + 3 * 4006 - 1] == 'z');
    got = ftd_box_receive(taken.box, output + 2 * PACKET, PACKET, box_log, sizeof box_log, box_buffer, sizeof box_buffer);
    EXPECT(got.answer == FTD_RECEIVE_MESSAGE && got.origin == FTD_IN_BUFFER && got.last == 2 && got.tid == 0x7778);
    EXPECT(got.content.len == sizeof large && memcmp(box_buffer + got.content.start, large, sizeof large) == 0);
    EXPECT(got.box.day.series[1].published == 2);
    *sender = sent.end;
    return got.box;
}

/* Seat 4 is sent what the exchange sent, byte for byte; no number of another place changes. */
static void box_seats(void) {
    struct ftd_sender sender = serving();
    struct ftd_box box = box_fed(&sender);
    struct ftd_receiver end = receiving();
    struct ftd_written asked = ftd_request_login(end, 3, request, sizeof request, login, sizeof login);
    struct ftd_written in;
    struct ftd_box_sent sent;
    struct ftd_box_sent_packet piece;
    size_t i, others = 0, at = 4 * 24 + 3;

    in = ftd_box_login(box, 16, 3, login, asked.bytes, answer, sizeof answer, places, below, sizeof below);
    EXPECT(in.refusal == FTD_NO_SEAT);
    EXPECT(ftd_box_send(box, 16, 9, places, box_log, sizeof box_log, below, sizeof below).refusal == FTD_NO_SEAT);
    EXPECT(ftd_box_send(box, 4, 3, places, box_log, sizeof box_log, below, sizeof below).refusal == FTD_NOT_LOGGED_IN);
    in = ftd_box_login(box, 4, 3, login, asked.bytes, answer, sizeof answer, places, below, sizeof below);
    EXPECT(in.refusal == 0 && places[at] == 1 && places[at + 1] == 1 && places[at + 2] == 0);
    EXPECT(ftd_confirm_login(end, 3, below, in.bytes).refusal == 0);
    sent = ftd_box_send(box, 4, 3, places, box_log, sizeof box_log, below, sizeof below);
    EXPECT(sent.answer == FTD_SEND_MESSAGE && sent.number == 1 && sent.bytes == PACKET && places[at + 1] == 2);
    piece = ftd_box_send_packet(box, 4, 3, places, box_log, sizeof box_log, below, sizeof below);
    EXPECT(piece.answer == FTD_SEND_MESSAGE && piece.number == 2 && piece.last == 0 && places[at + 2] == 1);
    EXPECT(memcmp(below, output, PACKET) == 0);
    sent = ftd_box_send(box, 4, 3, places, box_log, sizeof box_log, below, sizeof below);
    EXPECT(sent.number == 2 && sent.bytes == 3 * PACKET && memcmp(below, output, 3 * PACKET) == 0);
    EXPECT(places[at + 1] == 3 && places[at + 2] == 0);
    EXPECT(ftd_box_send(box, 4, 3, places, box_log, sizeof box_log, below, sizeof below).answer == FTD_SEND_NONE);
    EXPECT(ftd_box_connect(box).receiver.series[1].login == 0 && ftd_box_connect(box).day.used == box.day.used);
    for (i = 0; i < FTD_PLACES; i++)
        others += i / 3 != at / 3 && places[i] != 0;
    EXPECT(others == 0);
}

/* ---- The order of two serving ends ---- */

static uint8_t one_log[100], two_log[100];
static size_t one_len = sizeof one_log, two_len = sizeof two_log;

enum { ORDER_ENTRY = FTD_LOG_HEAD + 7 }; /* bytes of a message here */

/* An end at a trade date, both series opened, that has published these letters: small ones in series 7, others in 3. */
static struct ftd_sender lettered(uint32_t date, const char *letters, uint8_t *log, size_t log_len) {
    struct ftd_sender end = day_open(ftd_sender_fresh(), date, 2, 0, 0).end;
    uint8_t content[7] = {0, 0, 0x77, 0x77, 0, 1, 0};

    for (; *letters; letters++) {
        struct ftd_published step;

        content[6] = (uint8_t)*letters;
        step = ftd_publish(end, *letters >= 'a' ? 7 : 3, 0x7777, content, sizeof content, log, log_len);
        EXPECT(step.refusal == 0);
        end = step.end;
    }
    return end;
}

static struct ftd_sender one_end(const char *letters) { return lettered(5, letters, one_log, sizeof one_log); }

static struct ftd_sender two_end(const char *letters) { return lettered(5, letters, two_log, sizeof two_log); }

/* The order of both in a series, and with the ends exchanged. */
static int in_order(struct ftd_sender one, struct ftd_sender two, uint16_t of, uint8_t said, uint32_t number) {
    struct ftd_order given = ftd_order(one, one_log, one_len, two, two_log, two_len, of);
    struct ftd_order back = ftd_order(two, two_log, two_len, one, one_log, one_len, of);
    int starts = said == FTD_ORDER_FIRST_START || said == FTD_ORDER_SECOND_START;

    return given.answer == said && given.number == number && given.refusal == 0 && back.number == number &&
           back.answer == (starts ? FTD_ORDER_FIRST_START + FTD_ORDER_SECOND_START - said : said) && back.refusal == 0;
}

/* The refusal, the same with the ends exchanged; 0: none. */
static uint8_t no_order(struct ftd_sender one, struct ftd_sender two, uint16_t of) {
    struct ftd_order given = ftd_order(one, one_log, one_len, two, two_log, two_len, of);
    struct ftd_order back = ftd_order(two, two_log, two_len, one, one_log, one_len, of);

    EXPECT(given.answer == FTD_ORDER_REFUSED && back.answer == FTD_ORDER_REFUSED);
    EXPECT(given.refusal == back.refusal && given.number == 0 && back.number == 0);
    return given.refusal;
}

static void order_answers(void) {
    struct ftd_sender one = one_end("aXb");

    EXPECT(in_order(one, two_end("ab"), 7, FTD_ORDER_SAME, 0));
    EXPECT(in_order(one, two_end("a"), 7, FTD_ORDER_SECOND_START, 0));
    EXPECT(in_order(one, two_end("ab"), 3, FTD_ORDER_SECOND_START, 0));
    EXPECT(in_order(one, two_end("aXbX"), 7, FTD_ORDER_SAME, 0));
    EXPECT(in_order(one, two_end("aXbX"), 3, FTD_ORDER_FIRST_START, 0));
    EXPECT(in_order(one, two_end("aa"), 7, FTD_ORDER_DIFFER, 2));
    EXPECT(in_order(one, two_end("bb"), 7, FTD_ORDER_DIFFER, 1));
    EXPECT(in_order(one, two_end("aca"), 7, FTD_ORDER_DIFFER, 2));
    EXPECT(in_order(one_end(""), two_end(""), 7, FTD_ORDER_SAME, 0));
    EXPECT(in_order(one_end(""), two_end("aXb"), 7, FTD_ORDER_FIRST_START, 0));
    one = one_end("aXb");
    two_end("aXb");
    two_log[2 * ORDER_ENTRY + 7] ^= 1; /* b's TID */
    EXPECT(in_order(one, one, 7, FTD_ORDER_DIFFER, 2) && in_order(one, one, 3, FTD_ORDER_SAME, 0));
}

/* 13 before 15, 15 before 20, and 20 before the lists are compared. */
static void order_refused(void) {
    static const size_t heads[7] = {0, 1, 2, 3, 8, 11, 12};
    struct ftd_sender one = one_end("aXb"), two = two_end("bX"), later = day_open(ftd_sender_fresh(), 6, 1, 0, 0).end;
    size_t i, entry;

    EXPECT(no_order(one, two, 5) == FTD_UNKNOWN_SERIES && no_order(one, ftd_sender_fresh(), 7) == FTD_UNKNOWN_SERIES);
    EXPECT(no_order(one, day_open(ftd_sender_fresh(), 5, 1, 0, 0).end, 3) == FTD_UNKNOWN_SERIES);
    EXPECT(no_order(one, later, 3) == FTD_UNKNOWN_SERIES && no_order(one, later, 7) == FTD_OTHER_DAY);
    for (entry = 0; entry < 3; entry++)
        for (i = 0; i < 7; i++) {
            one_log[entry * ORDER_ENTRY + heads[i]] ^= 8;
            EXPECT(no_order(one, two, 7) == FTD_DAMAGED_LOG && no_order(one, later, 7) == FTD_OTHER_DAY);
            /* b's entry stands behind the last one of series 3. */
            if (entry == 2)
                EXPECT(in_order(one, two, 3, FTD_ORDER_SAME, 0));
            else
                EXPECT(no_order(one, two, 3) == FTD_DAMAGED_LOG);
            one_log[entry * ORDER_ENTRY + heads[i]] ^= 8;
        }
    EXPECT(in_order(one, two, 7, FTD_ORDER_DIFFER, 1));
    one_len = one.used - 1;
    EXPECT(no_order(one, two, 7) == FTD_DAMAGED_LOG && no_order(one, two, 3) == FTD_DAMAGED_LOG);
    one_len = one.used;
    EXPECT(in_order(one, two, 7, FTD_ORDER_DIFFER, 1));
    one_len = sizeof one_log;
    one.used -= 1;
    EXPECT(no_order(one, two, 7) == FTD_DAMAGED_LOG && in_order(one, two, 3, FTD_ORDER_SAME, 0));
}

/* Without a message in the series no byte of a log is looked at. */
static void order_of_nulls(void) {
    struct ftd_sender empty = one_end(""), one = one_end("a");

    one_len = 3;
    EXPECT(in_order(one, empty, 3, FTD_ORDER_SAME, 0) && no_order(one, empty, 7) == FTD_DAMAGED_LOG);
    one_len = sizeof one_log;
    EXPECT(ftd_order(empty, NULL, 0, empty, NULL, 0, 7).answer == FTD_ORDER_SAME);
    EXPECT(ftd_order(empty, NULL, 0, one, one_log, one_len, 7).answer == FTD_ORDER_FIRST_START);
    EXPECT(ftd_order(one, NULL, 0, empty, NULL, 0, 7).refusal == FTD_DAMAGED_LOG);
    EXPECT(ftd_order(ftd_sender_fresh(), NULL, 0, empty, NULL, 0, 7).refusal == FTD_UNKNOWN_SERIES);
    EXPECT(ftd_box_order(ftd_box_fresh(), NULL, 0, ftd_box_fresh(), NULL, 0, 7).refusal == FTD_UNKNOWN_SERIES);
    EXPECT(ftd_box_order_with(ftd_box_fresh(), NULL, 0, empty, NULL, 0, 7).refusal == FTD_UNKNOWN_SERIES);
    memset(&one, 255, sizeof one);
    EXPECT(ftd_order(one, one_log, one_len, one, one_log, one_len, 65535).refusal == FTD_DAMAGED_LOG);
}

/* A box before and behind the exchange's two messages, and the exchange. */
static void order_of_boxes(void) {
    struct ftd_sender sender = serving();
    struct ftd_box empty = box_in(&sender), box = box_fed(&sender);
    size_t log = sizeof box_log, day = sizeof day_log;

    EXPECT(ftd_box_order(box, box_log, log, box, box_log, log, 3).answer == FTD_ORDER_SAME);
    EXPECT(ftd_box_order(empty, box_log, log, box, box_log, log, 3).answer == FTD_ORDER_FIRST_START);
    EXPECT(ftd_box_order(box, box_log, log, empty, box_log, log, 3).answer == FTD_ORDER_SECOND_START);
    EXPECT(ftd_box_order(box, box_log, log, box, box_log, log, 5).refusal == FTD_UNKNOWN_SERIES);
    EXPECT(ftd_box_order(box, box_log, log, box, day_log, day, 3).answer == FTD_ORDER_SAME);
    EXPECT(ftd_box_order_with(box, box_log, log, sender, day_log, day, 3).answer == FTD_ORDER_SAME);
    EXPECT(ftd_box_order_with(empty, box_log, log, sender, day_log, day, 3).answer == FTD_ORDER_FIRST_START);
    box_log[FTD_LOG_HEAD + 4006 + 7] ^= 1; /* the TID of the second message */
    EXPECT(ftd_box_order_with(box, box_log, log, sender, day_log, day, 3).answer == FTD_ORDER_DIFFER);
    EXPECT(ftd_box_order_with(box, box_log, log, sender, day_log, day, 3).number == 2);
    EXPECT(ftd_box_order(box, day_log, day, box, box_log, log, 3).number == 2);
    box_log[2] = 1;
    EXPECT(ftd_box_order_with(box, box_log, log, sender, day_log, day, 3).refusal == FTD_DAMAGED_LOG);
    EXPECT(ftd_box_order(box, day_log, day, box, box_log, log, 3).refusal == FTD_DAMAGED_LOG);
    sender.date = 101;
    EXPECT(ftd_box_order_with(box, box_log, log, sender, day_log, day, 3).refusal == FTD_OTHER_DAY);
    box.day.date = 101;
    EXPECT(ftd_box_order(empty, box_log, log, box, box_log, log, 3).refusal == FTD_OTHER_DAY);
}

/* ---- The trading calendar ---- */

/* Four sessions, the first late, and eight holidays. */
static const uint32_t hours[12] = {75600, 86400, 1, 32400, 36900, 0, 37800, 41400, 0, 48600, 54000, 0};
static const uint32_t closed[8] = {20240101, 20240212, 20240213, 20240214, 20240215, 20240216, 20240404, 20240405};

/* What ftd_set_calendar says of one session and one holiday; refused, the calendar is as it was. */
static uint8_t set_one(uint32_t first, uint32_t last, uint32_t late, uint32_t holiday) {
    const uint32_t session[3] = {first, last, late};
    struct ftd_calendar fresh = ftd_calendar_fresh(), before = ftd_set_calendar(fresh, hours, 12, closed, 8).calendar;
    struct ftd_calendar_step step = ftd_set_calendar(before, session, 3, &holiday, 1);

    if (step.refusal != 0)
        EXPECT(memcmp(&step.calendar, &before, sizeof before) == 0);
    return step.refusal;
}

static void calendar_set(void) {
    static const uint32_t overlap[6] = {100, 200, 0, 0, 101, 1}, touch[6] = {100, 200, 0, 0, 100, 1};
    uint32_t many[3 * (FTD_MOST_SESSIONS + 1)], days[FTD_MOST_HOLIDAYS + 1];
    struct ftd_calendar fresh = ftd_calendar_fresh();
    struct ftd_calendar_step step = ftd_set_calendar(fresh, hours, 12, closed, 8);
    uint32_t i;

    for (i = 0; i <= FTD_MOST_SESSIONS; i++) {
        many[3 * i] = 100 * i;
        many[3 * i + 1] = 100 * i + 100;
        many[3 * i + 2] = i % 2;
    }
    for (i = 0; i <= FTD_MOST_HOLIDAYS; i++)
        days[i] = 20240101;
    EXPECT(fresh.sessions[0] == 0 && fresh.sessions[23] == 0 && fresh.holidays[0] == 0 && fresh.holidays[31] == 0);
    EXPECT(step.refusal == 0 && memcmp(step.calendar.sessions, hours, sizeof hours) == 0);
    EXPECT(memcmp(step.calendar.holidays, closed, sizeof closed) == 0);
    EXPECT(step.calendar.sessions[12] == 0 && step.calendar.sessions[23] == 0 && step.calendar.holidays[8] == 0);
    EXPECT(set_one(86399, 86400, 0, 20240229) == 0 && set_one(0, 86400, 1, 16010101) == 0);
    EXPECT(set_one(100, 100, 0, 20240101) == FTD_SESSIONS && set_one(75600, 9000, 1, 20240101) == FTD_SESSIONS);
    EXPECT(set_one(86399, 86401, 0, 20240101) == FTD_SESSIONS && set_one(100, 100, 0, 20230229) == FTD_SESSIONS);
    EXPECT(set_one(0, 100, 0, 20230229) == FTD_HOLIDAY && set_one(0, 100, 0, 21000229) == FTD_HOLIDAY);
    EXPECT(set_one(0, 100, 0, 16001231) == FTD_HOLIDAY && set_one(0, 100, 0, 100000101) == FTD_HOLIDAY);
    EXPECT(set_one(0, 100, 0, 0) == FTD_HOLIDAY && set_one(0, 100, 0, 99991231) == 0);
    EXPECT(ftd_set_calendar(fresh, touch, 6, closed, 8).refusal == 0);
    EXPECT(ftd_set_calendar(fresh, overlap, 6, closed, 8).refusal == FTD_SESSIONS);
    EXPECT(ftd_set_calendar(fresh, hours, 11, closed, 8).refusal == FTD_SESSIONS);
    EXPECT(ftd_set_calendar(fresh, many, 24, days, FTD_MOST_HOLIDAYS).refusal == 0);
    EXPECT(ftd_set_calendar(fresh, many, 27, days, FTD_MOST_HOLIDAYS + 1).refusal == FTD_SESSIONS);
    EXPECT(ftd_set_calendar(fresh, many, 24, days, FTD_MOST_HOLIDAYS + 1).refusal == FTD_HOLIDAY);
}

/* The trade date of a time, 0 where it is outside. */
static uint32_t asked(struct ftd_calendar calendar, uint32_t seconds) {
    struct ftd_trade_time time = ftd_ask_calendar(calendar, seconds);

    EXPECT(time.inside == (time.date != 0));
    return time.date;
}

static void calendar_asked(void) {
    static const uint32_t always[3] = {0, 86400, 0}, late[3] = {0, 86400, 1};
    struct ftd_calendar fresh = ftd_calendar_fresh();
    struct ftd_calendar k = ftd_set_calendar(fresh, hours, 12, closed, 8).calendar, l;
    uint32_t days[FTD_MOST_HOLIDAYS], day, n = 0;

    EXPECT(asked(k, 1707397199) == 0 && asked(k, 1707397200) == 20240209);        /* Thursday 20:59:59, 21:00:00 */
    EXPECT(asked(k, 1707483600) == 20240219 && asked(k, 1707494399) == 20240219); /* Friday before the holidays */
    EXPECT(asked(k, 1707494400) == 0 && asked(k, 1707699600) == 0);               /* Saturday 0:00:00, a holiday */
    EXPECT(asked(k, 1708088400) == 0 && asked(k, 1708261200) == 0);        /* nights of a holiday and of a Sunday */
    EXPECT(asked(k, 1708304399) == 0 && asked(k, 1708304400) == 20240219); /* Monday 9:00:00 */
    EXPECT(asked(k, 1708308899) == 20240219 && asked(k, 1708308900) == 0); /* 10:14:59, 10:15:00 */
    EXPECT(asked(k, 1712152800) == 20240408 && asked(k, 1703858400) == 20240102);
    EXPECT(asked(k, 0) == 0 && asked(k, 3600) == 19700101 && asked(k, 520563600) == 19860701);
    EXPECT(asked(k, 4294818000) == 21060208 && asked(k, UINT32_MAX) == 0);
    EXPECT(asked(fresh, 1708304400) == 0);
    l = ftd_set_calendar(fresh, always, 3, NULL, 0).calendar;
    EXPECT(asked(l, 0) == 19700101 && asked(l, 1704470399) == 20240105 && asked(l, 1704470400) == 0);
    /* All weekdays from the 4th of January 2024, a Thursday, to the 16th of February. */
    for (day = 4; day <= 47; day++)
        if (day % 7 != 6 && day % 7 != 0)
            days[n++] = day <= 31 ? 20240100 + day : 20240200 + day - 31;
    EXPECT(n == FTD_MOST_HOLIDAYS);
    l = ftd_set_calendar(fresh, late, 3, days, n).calendar;
    EXPECT(asked(l, 1704254400) == 20240219); /* Wednesday the 3rd: 47 days on */
}

static void marks(void) {
    EXPECT(ftd_mark_date(0) == 19700101 && ftd_mark_date(57599) == 19700101 && ftd_mark_date(57600) == 19700102);
    EXPECT(ftd_mark_date(951753599) == 20000228 && ftd_mark_date(951753600) == 20000229);
    EXPECT(ftd_mark_date(951839999) == 20000229 && ftd_mark_date(951840000) == 20000301);
    EXPECT(ftd_mark_date(1704038399) == 20231231 && ftd_mark_date(1704038400) == 20240101);
    EXPECT(ftd_mark_date(2147483648u) == 20380119 && ftd_mark_date(UINT32_MAX) == 21060207);
    EXPECT(ftd_mark_date(4107513599u) == 21000228 && ftd_mark_date(4107513600u) == 21000301);
}

/* ---- The book of a contract ---- */

enum { QUOTES = 0x2001, MATCHES = 0x2002, P = 1234500 };

static const uint8_t own[FTD_CODE + 1] = "cu0405    ", other[FTD_CODE + 1] = "cu0406    ";
static uint8_t message[FTD_MOST_CONTENT];
static size_t message_bytes;

/* Units of 0.0001 as the twelve bytes of a price. */
static void put_price(uint8_t *to, int64_t units) {
    uint64_t left = units < 0 ? (uint64_t)-units : (uint64_t)units;
    int i;

    for (i = 11; i >= 0; i--) {
        if (i == 7)
            to[i] = '.';
        else {
            to[i] = (uint8_t)('0' + left % 10);
            left /= 10;
        }
    }
    if (units < 0)
        to[0] = '-';
}

static void put_number(uint8_t *to, uint32_t number) {
    to[0] = (uint8_t)(number >> 24);
    to[1] = (uint8_t)(number >> 16);
    to[2] = (uint8_t)(number >> 8);
    to[3] = (uint8_t)number;
}

/* A quotation (side 0 is buying on the line, 1 selling; kind 0 is an increment, 1 absolute) or a match behind the
 * others of the message. */
static void quote(const uint8_t *code, uint8_t kind, uint8_t side, uint32_t volume, int64_t price) {
    uint8_t bytes[33];

    memset(bytes, 0, sizeof bytes);
    memcpy(bytes, code, FTD_CODE);
    bytes[11] = kind;
    bytes[12] = side;
    put_price(bytes + 13, price);
    put_number(bytes + 25, volume);
    message_bytes += ftd_write_field(0x000D, bytes, 33, message + message_bytes, sizeof message - message_bytes).bytes;
}

static void match(const uint8_t *code, uint32_t volume, int64_t price) {
    uint8_t bytes[29];

    memset(bytes, 0, sizeof bytes);
    memcpy(bytes, code, FTD_CODE);
    put_price(bytes + 12, price);
    put_number(bytes + 24, volume);
    message_bytes += ftd_write_field(0x000A, bytes, 29, message + message_bytes, sizeof message - message_bytes).bytes;
}

/* All members are the same. */
static int same_book(const struct ftd_book *a, const struct ftd_book *b) {
    int same = memcmp(a->code, b->code, FTD_CODE) == 0 && a->turnover == b->turnover && a->volume == b->volume;
    int i;

    for (i = 0; i < FTD_MOST_LEVELS; i++)
        same = same && a->buying[i].price == b->buying[i].price && a->buying[i].quantity == b->buying[i].quantity &&
               a->selling[i].price == b->selling[i].price && a->selling[i].quantity == b->selling[i].quantity;
    return same;
}

/* Gives the message to the book; refused, the book stays as it was. */
static uint8_t give(struct ftd_book *book, uint32_t tid) {
    struct ftd_book_step step = ftd_book_take(*book, tid, message, message_bytes);

    EXPECT(step.refusal == 0 || same_book(&step.book, book));
    *book = step.book;
    message_bytes = 0;
    return step.refusal;
}

/* The quantity as the wire's four bytes: an absolute one of buying, an increment of it, an absolute one of selling. */
static uint8_t bid(struct ftd_book *book, uint32_t quantity, int64_t price) {
    quote(own, 1, 0, quantity, price);
    return give(book, QUOTES);
}

static uint8_t bid_more(struct ftd_book *book, uint32_t increment, int64_t price) {
    quote(own, 0, 0, increment, price);
    return give(book, QUOTES);
}

static uint8_t offer(struct ftd_book *book, uint32_t quantity, int64_t price) {
    quote(own, 1, 1, quantity, price);
    return give(book, QUOTES);
}

static uint8_t trade(struct ftd_book *book, uint32_t volume, int64_t price) {
    match(own, volume, price);
    return give(book, MATCHES);
}

/* That pair stands there, by the call and in the state; price 0 and quantity 0: none. */
static int stands(struct ftd_book book, uint8_t side, size_t place, int64_t price, uint32_t quantity) {
    struct ftd_listed listed = ftd_book_level(book, side, place);
    const struct ftd_level *levels = side == FTD_BUYING ? book.buying : book.selling;

    return listed.found == (quantity != 0) && listed.price == price && listed.quantity == quantity &&
           levels[place].price == price && levels[place].quantity == quantity;
}

static int mean_is(struct ftd_book book, int64_t price) {
    struct ftd_mean mean = ftd_book_mean(book);

    return mean.found == 1 && mean.price == price;
}

static struct ftd_book started(void) {
    struct ftd_book_step step = ftd_book_start(ftd_book_fresh(), own, FTD_CODE);

    EXPECT(step.refusal == 0 && memcmp(step.book.code, own, FTD_CODE) == 0);
    EXPECT(stands(step.book, FTD_BUYING, 0, 0, 0) && stands(step.book, FTD_SELLING, 0, 0, 0));
    EXPECT(step.book.turnover == 0 && step.book.volume == 0 && ftd_book_mean(step.book).found == 0);
    return step.book;
}

static void book_started(void) {
    static const uint8_t bytes[4] = {0, 0x1F, 0x7F, 0xFF};
    struct ftd_book fresh = ftd_book_fresh(), book = started();
    struct ftd_book_step step;
    uint8_t code[FTD_CODE];
    size_t i;

    EXPECT(fresh.code[0] == 0 && fresh.code[9] == 0 && stands(fresh, FTD_BUYING, 0, 0, 0));
    EXPECT(bid(&fresh, 5, P) == 0 && stands(fresh, FTD_BUYING, 0, 0, 0));
    EXPECT(bid(&book, 5, P) == 0 && trade(&book, 1, P) == 0);
    for (i = 0; i < 4; i++) {
        memcpy(code, own, FTD_CODE);
        code[i] = bytes[i];
        step = ftd_book_start(book, code, FTD_CODE);
        EXPECT(step.refusal == (i == 3 ? 0 : FTD_ITEM));
        EXPECT(stands(step.book, FTD_BUYING, 0, i == 3 ? 0 : P, i == 3 ? 0 : 4));
    }
    EXPECT(ftd_book_start(book, own, 6).refusal == FTD_ITEM && ftd_book_start(book, own, 11).refusal == FTD_ITEM);
    EXPECT(ftd_book_start(book, (const uint8_t *)"          ", FTD_CODE).refusal == 0);
    EXPECT(ftd_book_start(book, own, FTD_CODE).book.volume == 0);
}

static void book_levels(void) {
    struct ftd_book book = started();

    EXPECT(bid(&book, 10, P) == 0 && bid(&book, 4, 1235000) == 0 && bid(&book, 7, 1200000) == 0);
    EXPECT(offer(&book, 2, 1240000) == 0 && offer(&book, 9, 1239000) == 0);
    EXPECT(stands(book, FTD_BUYING, 0, 1235000, 4) && stands(book, FTD_BUYING, 1, P, 10));
    EXPECT(stands(book, FTD_BUYING, 2, 1200000, 7) && stands(book, FTD_BUYING, 3, 0, 0));
    EXPECT(stands(book, FTD_SELLING, 0, 1239000, 9) && stands(book, FTD_SELLING, 1, 1240000, 2));
    EXPECT(stands(book, 255, 1, 1240000, 2) && ftd_book_level(book, FTD_BUYING, 64).found == 0);
    /* The bytes of a quotation's Direction: 0 buying, 1 selling (bid, offer). */
    EXPECT(stands(book, 0, 0, 1235000, 4) && stands(book, 1, 0, 1239000, 9));
    EXPECT(ftd_book_level(book, FTD_BUYING, SIZE_MAX).found == 0);
    /* Below zero: in one message with the highest prices and the lowest. */
    book = started();
    quote(own, 1, 0, 1, -10000);
    quote(own, 1, 0, 2, 99999999999);
    quote(own, 1, 0, 3, 0);
    quote(own, 1, 1, 4, 99999999999);
    quote(own, 1, 1, 5, -9999999999);
    EXPECT(give(&book, QUOTES) == 0 && stands(book, FTD_BUYING, 0, 99999999999, 2));
    EXPECT(stands(book, FTD_BUYING, 1, 0, 3) && stands(book, FTD_BUYING, 2, -10000, 1));
    EXPECT(stands(book, FTD_SELLING, 0, -9999999999, 5) && stands(book, FTD_SELLING, 1, 99999999999, 4));
}

static void book_quantities(void) {
    struct ftd_book book = started();

    EXPECT(bid(&book, 10, P) == 0 && bid_more(&book, (uint32_t)-3, P) == 0 && stands(book, FTD_BUYING, 0, P, 7));
    EXPECT(bid_more(&book, (uint32_t)-8, P) == FTD_QUANTITY && bid_more(&book, (uint32_t)-7, P) == 0);
    EXPECT(stands(book, FTD_BUYING, 0, 0, 0) && bid_more(&book, (uint32_t)-1, P) == FTD_QUANTITY);
    EXPECT(bid(&book, UINT32_MAX, P) == 0 && bid_more(&book, 1, P) == FTD_QUANTITY);
    EXPECT(bid_more(&book, 0x80000000u, P) == 0 && stands(book, FTD_BUYING, 0, P, 0x7FFFFFFF));
    EXPECT(bid_more(&book, 0x7FFFFFFF, P) == 0 && bid_more(&book, 2, P) == FTD_QUANTITY);
    EXPECT(bid_more(&book, 1, P) == 0 && trade(&book, UINT32_MAX, P) == FTD_VOLUME);
}

static void book_matches(void) {
    struct ftd_book book = started();

    EXPECT(bid(&book, 5, P) == 0 && offer(&book, 3, P) == 0 && trade(&book, 4, P) == FTD_QUANTITY);
    EXPECT(trade(&book, 3, P) == 0 && stands(book, FTD_BUYING, 0, P, 2) && stands(book, FTD_SELLING, 0, 0, 0));
    EXPECT(trade(&book, 1, P) == 0 && trade(&book, 2, P) == FTD_QUANTITY && mean_is(book, P));
    EXPECT(trade(&book, 1, P) == 0 && trade(&book, 3, P) == 0 && book.volume == 8 && mean_is(book, P));
    /* 22 before 24 in a field, but field by field. */
    EXPECT(bid(&book, 5, P) == 0 && trade(&book, 1000001, P) == FTD_QUANTITY);
    match(own, FTD_MOST_VOLUME + 1, 10000);
    match(own, 9, P);
    EXPECT(give(&book, MATCHES) == FTD_VOLUME);
    match(own, 9, P);
    match(own, FTD_MOST_VOLUME + 1, 10000);
    EXPECT(give(&book, MATCHES) == FTD_QUANTITY && book.volume == 8);
    EXPECT(bid(&book, 2000000, P) == 0 && trade(&book, 1000001, P) == FTD_VOLUME);
    EXPECT(trade(&book, FTD_MOST_VOLUME, P) == 0 && stands(book, FTD_BUYING, 0, P, 1000000));
}

static void book_full(void) {
    struct ftd_book book = started();
    int64_t i;

    for (i = 1; i <= FTD_MOST_LEVELS; i++)
        quote(own, 1, 0, 1, i * 10000);
    EXPECT(give(&book, QUOTES) == 0 && stands(book, FTD_BUYING, 63, 10000, 1));
    EXPECT(bid(&book, 1, 650000) == FTD_LEVELS && bid_more(&book, 1, 650000) == FTD_LEVELS);
    EXPECT(bid(&book, 0, 650000) == 0 && bid_more(&book, UINT32_MAX, 650000) == FTD_QUANTITY);
    EXPECT(offer(&book, 1, 650000) == 0 && bid(&book, 9, 640000) == 0 && stands(book, FTD_BUYING, 0, 640000, 9));
    quote(own, 1, 0, 1, 650000);
    quote(own, 1, 0, 0, 10000);
    EXPECT(give(&book, QUOTES) == FTD_LEVELS && stands(book, FTD_BUYING, 63, 10000, 1));
    quote(own, 1, 0, 0, 10000);
    quote(own, 1, 0, 1, 650000);
    EXPECT(give(&book, QUOTES) == 0 && stands(book, FTD_BUYING, 0, 650000, 1));
    EXPECT(stands(book, FTD_BUYING, 63, 20000, 1));
}

static void book_sums(void) {
    struct ftd_book book = started();
    int i;

    EXPECT(trade(&book, 0, P) == 0 && ftd_book_mean(book).found == 0 && trade(&book, 5, P) == 0);
    EXPECT(trade(&book, 3, 1234600) == 0 && book.turnover == 9876300 && book.volume == 8 && mean_is(book, 1234538));
    book = started();
    EXPECT(trade(&book, 1, -1) == 0 && mean_is(book, -1) && trade(&book, 1, 0) == 0 && mean_is(book, 0));
    EXPECT(trade(&book, 1, -4) == 0 && mean_is(book, -2)); /* -5 units over 3 */
    book = started();
    for (i = 0; i < 90; i++)
        match(own, FTD_MOST_VOLUME, 99999999999);
    EXPECT(give(&book, MATCHES) == 0 && book.turnover == 8999999999910000000);
    EXPECT(trade(&book, FTD_MOST_VOLUME, 99999999999) == FTD_VOLUME && trade(&book, FTD_MOST_VOLUME, 90) == 0);
    EXPECT(book.turnover == 9000000000000000000 && mean_is(book, 98901098901) && trade(&book, 1, 1) == FTD_VOLUME);
    match(own, 1, 1);
    match(own, 1, -1);
    EXPECT(give(&book, MATCHES) == FTD_VOLUME && trade(&book, 1, -1) == 0);
    book = started();
    for (i = 0; i < 900; i++)
        match(own, FTD_MOST_VOLUME, -9999999999);
    EXPECT(give(&book, MATCHES) == 0 && book.turnover == -8999999999100000000);
    EXPECT(trade(&book, 900000, -1000) == 0 && trade(&book, 1, -1) == FTD_VOLUME);
    EXPECT(book.turnover == -9000000000000000000 && mean_is(book, -9990009990));
}

static void book_of_others(void) {
    struct ftd_book book = started();

    quote(other, 1, 0, 5, P);
    quote(other, 0, 0, UINT32_MAX, P);
    EXPECT(give(&book, QUOTES) == 0 && stands(book, FTD_BUYING, 0, 0, 0));
    match(other, FTD_MOST_VOLUME + 1, P);
    match(own, 1, P);
    EXPECT(give(&book, MATCHES) == 0 && book.volume == 1 && mean_is(book, P));
    quote(own, 1, 0, 5, P);
    EXPECT(give(&book, 0x7777) == 0);
    quote(own, 1, 0, 5, P);
    EXPECT(give(&book, 0x2003) == FTD_COMPOSITION);
    match(own, 5, P);
    EXPECT(give(&book, QUOTES) == FTD_COMPOSITION && give(&book, QUOTES) == FTD_COMPOSITION);
    quote(own, 1, 2, 5, P);
    EXPECT(give(&book, QUOTES) == FTD_ITEM);
    quote(own, 0, 0, UINT32_MAX, P);
    quote(own, 2, 0, 5, P);
    message[39 + 5] = 32;
    message_bytes--;
    EXPECT(give(&book, QUOTES) == FTD_FIELD_LENGTH);
    quote(own, 1, 0, 5, P);
    message_bytes--;
    EXPECT(give(&book, QUOTES) == FTD_FIELD_RUN && stands(book, FTD_BUYING, 0, 0, 0) && book.volume == 1);
}

/* ---- Frames of JR/T 0087 ---- */

/* Worked frames, `|` for the byte 1: the expected number, the answer, the refusal, and the number expected then. */
static const struct {
    const char *frame;
    uint32_t expected;
    uint8_t answer;
    uint8_t refusal;
    uint32_t after;
} worked[] = {
    {"8=FIX.4.2|9=61|35=A|49=FUND|56=BROKER|34=1|52=20121226-01:00:00|98=0|108=30|10=016|",
     1, FTD_FRAME_NEXT, 0, 2}, /* logon */
    {"8=FIX.4.2|9=49|35=0|49=FUND|56=BROKER|34=5|52=20121226-01:00:00|10=240|",
     5, FTD_FRAME_NEXT, 0, 6}, /* heartbeat, equal */
    {"8=FIX.4.2|9=49|35=0|49=FUND|56=BROKER|34=5|52=20121226-01:00:00|10=240|",
     3, FTD_FRAME_GAP, 0, 3}, /* heartbeat, higher */
    {"8=FIX.4.2|9=49|35=0|49=FUND|56=BROKER|34=5|52=20121226-01:00:00|10=240|",
     9, FTD_FRAME_REFUSED, FTD_LOW_NUMBER, 9}, /* heartbeat, lower, no flag */
    {"8=FIX.4.2|9=54|35=0|49=FUND|56=BROKER|34=5|52=20121226-01:00:00|43=Y|10=234|",
     9, FTD_FRAME_AGAIN, 0, 9}, /* heartbeat, lower, flag */
    {"8=FIX.4.2|9=54|35=0|49=FUND|56=BROKER|34=5|52=20121226-01:00:00|43=N|10=223|",
     9, FTD_FRAME_REFUSED, FTD_LOW_NUMBER, 9}, /* heartbeat, lower, flag N */
    {"8=FIX.4.2|9=51|35=0|49=FUND|56=BROKER|34=005|52=20121226-01:00:00|10=073|",
     5, FTD_FRAME_NEXT, 0, 6}, /* number with zeros in front */
    {"8=FIX.4.2|9=56|35=1|49=FUND|56=BROKER|34=5|52=20121226-01:00:00|112=T1|10=070|",
     5, FTD_FRAME_NEXT, 0, 6}, /* test request */
    {"8=FIX.4.2|9=49|35=1|49=FUND|56=BROKER|34=5|52=20121226-01:00:00|10=241|",
     5, FTD_FRAME_REFUSED, FTD_REQUIRED_TAG, 5}, /* test request, 112 missing */
    {"8=FIX.4.2|9=58|35=2|49=FUND|56=BROKER|34=5|52=20121226-01:00:00|7=3|16=0|10=111|",
     5, FTD_FRAME_NEXT, 0, 6}, /* resend request, all that follow */
    {"8=FIX.4.2|9=58|35=2|49=FUND|56=BROKER|34=5|52=20121226-01:00:00|7=4|16=3|10=115|",
     5, FTD_FRAME_REFUSED, FTD_NOT_ONE_FRAME, 5}, /* resend request, last below first */
    {"8=FIX.4.2|9=60|35=4|49=FUND|56=BROKER|34=5|52=20121226-01:00:00|123=Y|36=9|10=250|",
     5, FTD_FRAME_NEXT, 0, 6}, /* gap fill, equal */
    {"8=FIX.4.2|9=60|35=4|49=FUND|56=BROKER|34=5|52=20121226-01:00:00|123=Y|36=9|10=250|",
     7, FTD_FRAME_REFUSED, FTD_LOW_NUMBER, 7}, /* gap fill, lower, no flag */
    {"8=FIX.4.2|9=54|35=4|49=FUND|56=BROKER|34=5|52=20121226-01:00:00|36=9|10=208|",
     7, FTD_FRAME_RESET, 0, 7}, /* reset, lower, no flag */
    {"8=FIX.4.2|9=56|35=5|49=FUND|56=BROKER|34=5|52=20121226-01:00:00|58=bye|10=222|",
     5, FTD_FRAME_NEXT, 0, 6}, /* logout */
    {"8=FIX.4.2|9=75|35=A|49=FUND|56=BROKER|34=5|52=20121226-01:00:00|98=0|108=30|95=5|96=a|b=c|10=011|",
     5, FTD_FRAME_NEXT, 0, 6}, /* raw data with SOH inside */
    {"8=FIX.4.2|9=75|35=A|49=FUND|56=BROKER|34=5|52=20121226-01:00:00|98=0|108=30|95=4|96=a|b=c|10=010|",
     5, FTD_FRAME_REFUSED, FTD_NOT_ONE_FRAME, 5}, /* raw data, length one less */
    {"8=FIX.4.2|9=10|35=D|34=5|10=187|", 5, FTD_FRAME_NEXT, 0, 6}, /* order, only the number */
    {"8=FIX.4.2|9=13|35=D|49=FUND|10=188|", 5, FTD_FRAME_REFUSED, FTD_REQUIRED_TAG, 5}, /* order, no number */
    {"8=FIX.4.2|9=15|35=D|34=5|34=5|10=154|", 5, FTD_FRAME_REFUSED, FTD_REQUIRED_TAG, 5}, /* order, 34 twice */
    {"8=FIX.4.2|9=20|35=D|34=5|43=Y|43=Y|10=184|", 5, FTD_FRAME_REFUSED, FTD_REQUIRED_TAG, 5}, /* order, flag twice */
    {"8=FIX.4.2|9=15|35=D|34=5|35=D|10=170|", 5, FTD_FRAME_REFUSED, FTD_REQUIRED_TAG, 5}, /* order, type twice */
    {"8=FIX.4.2|9=15|35=D|34=5|34=x|10=221|",
     5, FTD_FRAME_REFUSED, FTD_NOT_ONE_FRAME, 5}, /* order, 34 twice, one no number */
    {"8=FIX.4.2|9=11|35=D|034=5|10=236|", 5, FTD_FRAME_REFUSED, FTD_NOT_ONE_FRAME, 5}, /* tag with a zero in front */
    {"8=FIX.4.2|9=010|35=D|34=5|10=235|",
     5, FTD_FRAME_REFUSED, FTD_NOT_ONE_FRAME, 5}, /* body length with a zero in front */
    {"8=FIX.4.2|9=19|35=D|34=0000000005|10=116|", 5, FTD_FRAME_REFUSED, FTD_NOT_ONE_FRAME, 5}, /* ten digits */
    {"8=FIX.4.2|9=14|35=D|34=5|58=|10=106|", 5, FTD_FRAME_REFUSED, FTD_NOT_ONE_FRAME, 5}, /* empty text */
    {"8=FIX.4.2|9=10|35=D|34=5|10=188|", 5, FTD_FRAME_REFUSED, FTD_NOT_ONE_FRAME, 5}, /* checksum one more */
    {"8=CSIFP.1.0.0|9=10|35=D|34=5|10=162|", 5, FTD_FRAME_REFUSED, FTD_NOT_ONE_FRAME, 5}, /* other begin string */
    {"8=FIX.4.2|9=18|35=D|34=999999999|10=143|",
     999999999, FTD_FRAME_NEXT, 0, 1000000000}, /* the last number there is */
    {"8=FIX.4.2|9=18|35=D|34=999999999|10=143|",
     1000000000, FTD_FRAME_REFUSED, FTD_LOW_NUMBER, 1000000000}, /* nothing is next any more */
    {"8=FIX.4.2|9=10|35=D|34=5|10=187|8=FIX.4.2|9=10|35=D|34=6|10=188|",
     5, FTD_FRAME_REFUSED, FTD_NOT_ONE_FRAME, 5}, /* two frames */
};

/* The bytes that a text with `|` stands for. */
static size_t bytes_of(const char *text, uint8_t *bytes) {
    size_t i, n = strlen(text);

    for (i = 0; i < n; i++)
        bytes[i] = text[i] == '|' ? 1 : (uint8_t)text[i];
    return n;
}

static struct ftd_reading frame_read(const char *text, uint32_t expected) {
    uint8_t bytes[256];
    size_t n = bytes_of(text, bytes);

    return ftd_frame_read(bytes, n, expected);
}

/* A type and a run of fields, both with `|`, written and held to a frame with `|`. */
static int frame_is(const char *name, const char *fields, const char *frame) {
    uint8_t type[64], run[256], right[512], out[512];
    size_t types = bytes_of(name, type), runs = bytes_of(fields, run), n = bytes_of(frame, right);
    struct ftd_written written;

    memset(out, 0xA5, sizeof out);
    written = ftd_frame_write(type, types, run, runs, out, sizeof out);
    return written.refusal == 0 && written.bytes == n && memcmp(out, right, n) == 0 && out[n] == 0xA5;
}

static uint8_t frame_refused(const char *name, const char *fields, size_t room) {
    uint8_t type[64], run[256], out[512];
    size_t types = bytes_of(name, type), runs = bytes_of(fields, run);
    struct ftd_written written;

    memset(out, 0xA5, sizeof out);
    written = ftd_frame_write(type, types, run, runs, out, room);
    EXPECT(written.bytes == 0 && out[0] == 0xA5 && out[sizeof out - 1] == 0xA5);
    return written.refusal;
}

/* Each worked frame as it is judged; where it isn't refused, written again it is the same bytes, and one byte less of
 * room, or of the frame, is one too few. */
static void frames_judged(void) {
    size_t i;

    for (i = 0; i < sizeof worked / sizeof worked[0]; i++) {
        uint8_t bytes[256], out[256];
        size_t n = bytes_of(worked[i].frame, bytes);
        struct ftd_reading r = ftd_frame_read(bytes, n, worked[i].expected);
        struct ftd_written written;

        expect(r.answer == worked[i].answer && r.refusal == worked[i].refusal && r.expected == worked[i].after,
               worked[i].frame, __LINE__);
        EXPECT(ftd_frame_read(bytes, n - 1, worked[i].expected).refusal == FTD_NOT_ONE_FRAME);
        if (r.answer == FTD_FRAME_REFUSED) {
            EXPECT(r.name.len == 0 && r.fields.start == 0 && r.fields.len == 0 && r.text.len == 0 && r.number == 0);
            EXPECT(r.first == 0 && r.second == 0 && r.kind == 0 && r.fill == 0);
            continue;
        }
        written = ftd_frame_write(bytes + r.name.start, r.name.len, bytes + r.fields.start, r.fields.len, out, n);
        expect(written.refusal == 0 && written.bytes == n && memcmp(out, bytes, n) == 0, worked[i].frame, __LINE__);
        written = ftd_frame_write(bytes + r.name.start, r.name.len, bytes + r.fields.start, r.fields.len, out, n - 1);
        EXPECT(written.refusal == FTD_TOO_SMALL && written.bytes == 0);
    }
}

#define HEAD "49=FUND|56=BROKER|34=5|52=20121226-01:00:00|"

/* What a frame says: its type, its number and its own values. */
static void frames_say(void) {
    struct ftd_reading r = frame_read(worked[0].frame, 1); /* logon */

    EXPECT(r.kind == FTD_FRAME_LOGON && r.number == 1 && r.first == 0 && r.second == 30 && r.fill == 0);
    EXPECT(r.name.start == 18 && r.name.len == 1 && r.fields.start == 20 && r.fields.len == 56);
    EXPECT(worked[0].frame[r.text.start] == '0' && r.text.len == 1);
    r = frame_read(worked[1].frame, 5); /* heartbeat */
    EXPECT(r.kind == FTD_FRAME_HEARTBEAT && r.number == 5 && r.first == 0 && r.second == 0 && r.text.len == 0);
    EXPECT(frame_read(worked[6].frame, 5).number == 5); /* 005 */
    r = frame_read(worked[7].frame, 5); /* test request */
    EXPECT(r.kind == FTD_FRAME_TEST_REQUEST && r.first == 0 && r.text.len == 2);
    EXPECT(strncmp(worked[7].frame + r.text.start, "T1|", 3) == 0);
    r = frame_read(worked[9].frame, 5); /* resend request */
    EXPECT(r.kind == FTD_FRAME_RESEND_REQUEST && r.first == 3 && r.second == 0);
    r = frame_read(worked[11].frame, 5); /* gap fill */
    EXPECT(r.kind == FTD_FRAME_SEQUENCE_RESET && r.first == 9 && r.fill == 1);
    r = frame_read(worked[13].frame, 7); /* reset */
    EXPECT(r.kind == FTD_FRAME_SEQUENCE_RESET && r.first == 9 && r.fill == 0 && r.number == 5 && r.expected == 7);
    r = frame_read(worked[14].frame, 5); /* logout */
    EXPECT(r.kind == FTD_FRAME_LOGOUT && r.first == 0 && r.text.len == 0);
    r = frame_read(worked[17].frame, 5); /* order */
    EXPECT(r.kind == FTD_FRAME_OTHER && r.number == 5 && r.fields.len == 5 && worked[17].frame[r.name.start] == 'D');
}

static void frame_fields(void) {
    uint8_t run[64];
    size_t n = bytes_of("34=005|95=5|96=a|b=c|95=7|58=x=y|0=z|", run);
    struct ftd_tagged f = ftd_frame_field(run, n, 0);

    EXPECT(f.found == 1 && f.tag == 34 && f.start == 3 && f.len == 3);
    EXPECT(ftd_frame_number(run + f.start, f.len).number == 5 && ftd_frame_number(run + f.start, f.len).found == 1);
    f = ftd_frame_field(run, n, 2); /* data with the byte 1 inside */
    EXPECT(f.found == 1 && f.tag == 96 && f.start == 15 && f.len == 5 && ftd_frame_number(run + 15, 5).found == 0);
    f = ftd_frame_field(run, n, 4);
    EXPECT(f.found == 1 && f.tag == 58 && f.start == 29 && f.len == 3);
    f = ftd_frame_field(run, n, 5); /* no field has the tag 0 */
    EXPECT(f.found == 0 && f.tag == 0 && f.start == 0 && f.len == 0 && ftd_frame_field(run, n, SIZE_MAX).found == 0);
    f = ftd_frame_first(run, n, 95);
    EXPECT(f.found == 1 && f.tag == 95 && f.start == 10 && f.len == 1);
    EXPECT(ftd_frame_first(run, n, 43).found == 0 && ftd_frame_first(run, n, 0).found == 0);
    EXPECT(ftd_frame_first(run, n - 5, 58).found == 0); /* not closed */
    n = bytes_of("9999999990000000000", run);
    EXPECT(ftd_frame_number(run, 9).number == FTD_MOST_NUMBER && ftd_frame_number(run, 10).found == 0);
    EXPECT(ftd_frame_number(run + 10, 9).found == 1 && ftd_frame_number(run + 10, 9).number == 0);
}

static void frames_written(void) {
    EXPECT(frame_is("0", HEAD, worked[1].frame) && frame_is("1", HEAD "112=T1|", worked[7].frame));
    EXPECT(frame_is("D", "34=5|", worked[17].frame));
    EXPECT(frame_refused("", HEAD, 512) == FTD_NOT_ONE_FRAME && frame_refused("0|", HEAD, 512) == FTD_NOT_ONE_FRAME);
    EXPECT(frame_refused("0", HEAD "58=a", 512) == FTD_NOT_ONE_FRAME);
    EXPECT(frame_refused("0", HEAD "58=|", 512) == FTD_NOT_ONE_FRAME);
    EXPECT(frame_refused("0", HEAD "96=a|", 512) == FTD_NOT_ONE_FRAME);
    EXPECT(frame_refused("2", HEAD "7=4|16=3|", 512) == FTD_NOT_ONE_FRAME);
    EXPECT(frame_refused("1", HEAD, 512) == FTD_REQUIRED_TAG && frame_refused("1", HEAD, 70) == FTD_TOO_SMALL);
    EXPECT(frame_refused("0", HEAD "10=240|", 512) == FTD_REQUIRED_TAG);
    EXPECT(frame_refused("D", "34=5|35=D|", 512) == FTD_REQUIRED_TAG);
    EXPECT(frame_refused("D", "34=5|43=Y|43=Y|", 512) == FTD_REQUIRED_TAG);
}

/* The longest frame, read and written, and one byte more. */
static void frames_limit(void) {
    static uint8_t run[FTD_MOST_FRAME], out[FTD_MOST_FRAME + 1];
    const uint8_t order = 'D';
    size_t n = bytes_of("34=5|58=", run);
    struct ftd_written written;

    memset(run + n, 'x', 4067 - n);
    run[4066] = 1;
    written = ftd_frame_write(&order, 1, run, 4067, out, sizeof out);
    EXPECT(written.refusal == 0 && written.bytes == FTD_MOST_FRAME);
    EXPECT(ftd_frame_read(out, FTD_MOST_FRAME, 5).answer == FTD_FRAME_NEXT);
    EXPECT(ftd_frame_read(out, FTD_MOST_FRAME + 1, 5).refusal == FTD_NOT_ONE_FRAME);
    run[4066] = 'x';
    run[4067] = 1;
    EXPECT(ftd_frame_write(&order, 1, run, 4068, out, sizeof out).refusal == FTD_NOT_ONE_FRAME);
}

/* ---- Null pointers, and states of any values ---- */

static void nulls_below(void) {
    const struct ftd_message message = {0x7777, 1, 0, 1, 0};
    const struct ftd_item text = {0, 0, 0, 0, 0, 0, FTD_TEXT, 0};
    uint8_t out[32];

    EXPECT(ftd_read(NULL, 0).answer == FTD_SHORT && ftd_said_length(NULL, 0) == 0);
    EXPECT(ftd_trade_date(NULL, 0).dated == 0 && ftd_keep_alive(NULL, 0) == 0);
    EXPECT(ftd_message_size(message, NULL, 0).bytes == 20);
    EXPECT(ftd_write_message(message, NULL, 0, out, sizeof out).bytes == 20);
    EXPECT(ftd_write_message(message, NULL, 0, NULL, 0).refusal == FTD_TOO_SMALL);
    EXPECT(ftd_write_plain(0, NULL, 0, NULL, 0, out, sizeof out).bytes == 4 && memcmp(out, "\0\0\0", 4) == 0);
    EXPECT(ftd_write_plain(0, NULL, 0, NULL, 0, NULL, 0).refusal == FTD_TOO_SMALL);
    EXPECT(ftd_find_field(NULL, 0, 0).found == 0 && ftd_field_at(NULL, 0, 0).found == 0);
    EXPECT(ftd_write_field(1, NULL, 0, out, sizeof out).bytes == 6);
    EXPECT(ftd_write_field(1, NULL, 0, NULL, 0).refusal == FTD_TOO_SMALL);
    EXPECT(ftd_check(0x7777, FTD_DOWN, NULL, 0, FTD_MOST_CONTENT) == 0);
    EXPECT(ftd_read_item(3, 0, NULL, 0).kind == FTD_NO_ITEM);
    EXPECT(ftd_write_item(3, 0, text, NULL, 0, out, sizeof out).bytes == 8 && memcmp(out, "        ", 8) == 0);
    EXPECT(ftd_write_item(3, 0, text, NULL, 0, NULL, 0).refusal == FTD_TOO_SMALL);
    EXPECT(ftd_find_resume(NULL, 0).answer == FTD_NO_START && ftd_write_resume(1, 1, NULL, 0).refusal == FTD_TOO_SMALL);
}

static void nulls_at_the_ends(void) {
    struct ftd_sender sender = serving();
    struct ftd_receiver receiver = receiving();
    struct ftd_published empty;
    const size_t none[2] = {0, 0};

    EXPECT(ftd_sender_open(sender, 101, NULL, 0, NULL, 0, NULL, 0).refusal == FTD_OPENING);
    EXPECT(ftd_sender_open(sender, 101, series, 2, NULL, 0, NULL, 0).refusal == FTD_OPENING);
    EXPECT(ftd_sender_open(sender, 101, series, 2, none, 2, NULL, 0).refusal == 0);
    EXPECT(ftd_receiver_open(ftd_receiver_fresh(), NULL, 0).refusal == FTD_OPENING);
    empty = ftd_publish(sender, 7, 0x7777, NULL, 0, day_log, sizeof day_log);
    EXPECT(empty.refusal == 0 && empty.number == 1 && empty.end.used == sender.used + FTD_LOG_HEAD);
    EXPECT(ftd_publish(day_open(sender, 101, 1, 0, 0).end, 7, 0x7777, NULL, 0, NULL, 0).refusal ==
           FTD_TOO_SMALL);
    EXPECT(ftd_request_login(receiver, 3, NULL, 0, login, sizeof login).refusal == FTD_COMPOSITION);
    EXPECT(ftd_request_login(receiver, 3, request, sizeof request, NULL, 0).refusal == FTD_TOO_SMALL);
    EXPECT(ftd_receive(receiver, NULL, 0, NULL, 0).refusal == FTD_NOT_ONE_PACKET);
    EXPECT(ftd_receive_several(receiver, NULL, 0, NULL, 0).answer == FTD_SEVERAL_END);
    EXPECT(ftd_publish_several(sender, NULL, 0, NULL, 0).answer == FTD_SEVERAL_END);
    EXPECT(ftd_confirm_login(receiver, 3, NULL, 0).refusal == FTD_NOT_ONE_PACKET);
    log_in(&sender, &receiver);
    EXPECT(ftd_login(sender, 3, NULL, 0, answer, sizeof answer, output, sizeof output).refusal == FTD_NOT_ONE_PACKET);
    EXPECT(ftd_login(sender, 3, login, login_bytes, NULL, 0, output, sizeof output).refusal == FTD_COMPOSITION);
    EXPECT(ftd_login(sender, 3, login, login_bytes, answer, sizeof answer, NULL, 0).refusal == FTD_TOO_SMALL);
    EXPECT(ftd_send(sender, 3, NULL, 0, output, sizeof output).refusal == FTD_DAMAGED_LOG);
    EXPECT(ftd_send(sender, 3, day_log, sizeof day_log, NULL, 0).refusal == FTD_TOO_SMALL);
    EXPECT(ftd_send_packet(sender, 3, NULL, 0, output, sizeof output).refusal == FTD_DAMAGED_LOG);
    EXPECT(ftd_send_packet(sender, 3, day_log, sizeof day_log, NULL, 0).refusal == FTD_TOO_SMALL);
    sender.series[1].next = 3;
    EXPECT(ftd_send(sender, 3, NULL, 0, NULL, 0).answer == FTD_SEND_NONE);
    EXPECT(ftd_send_packet(sender, 3, NULL, 0, NULL, 0).answer == FTD_SEND_NONE);
    EXPECT(ftd_receive(receiver, heart, sizeof heart, NULL, 0).answer == FTD_RECEIVE_IDLE);
    EXPECT(ftd_keep(ftd_checkpoints_fresh(), receiver, NULL, 0).refusal == FTD_WRONG_NAME);
    EXPECT(ftd_return(ftd_checkpoints_fresh(), receiver, NULL, 0).refusal == FTD_WRONG_NAME);
}

static void nulls_in_a_calendar(void) {
    struct ftd_calendar fresh = ftd_calendar_fresh();
    struct ftd_calendar k = ftd_set_calendar(fresh, hours, 12, closed, 8).calendar;
    struct ftd_calendar_step step = ftd_set_calendar(k, NULL, 0, NULL, 0);

    EXPECT(step.refusal == 0 && memcmp(&step.calendar, &fresh, sizeof fresh) == 0);
    EXPECT(memcmp(ftd_set_calendar(k, hours, 12, NULL, 0).calendar.sessions, k.sessions, sizeof k.sessions) == 0);
    EXPECT(memcmp(ftd_set_calendar(k, NULL, 0, closed, 8).calendar.holidays, k.holidays, sizeof k.holidays) == 0);
}

static void nulls_in_a_book(void) {
    struct ftd_book book = started();

    EXPECT(ftd_book_start(book, NULL, 0).refusal == FTD_ITEM && ftd_book_take(book, 0x7777, NULL, 0).refusal == 0);
    EXPECT(ftd_book_take(book, QUOTES, NULL, 0).refusal == FTD_COMPOSITION);
}

static void nulls_in_frames(void) {
    const uint8_t order = 'D', number[] = {'3', '4', '=', '5', 1};
    uint8_t out[64];

    EXPECT(ftd_frame_read(NULL, 0, 5).refusal == FTD_NOT_ONE_FRAME && ftd_frame_read(NULL, 0, 5).expected == 5);
    EXPECT(ftd_frame_write(NULL, 0, number, 5, out, sizeof out).refusal == FTD_NOT_ONE_FRAME);
    EXPECT(ftd_frame_write(&order, 1, NULL, 0, out, sizeof out).refusal == FTD_REQUIRED_TAG);
    EXPECT(ftd_frame_write(&order, 1, number, 5, NULL, 0).refusal == FTD_TOO_SMALL);
    EXPECT(ftd_frame_field(NULL, 0, 0).found == 0 && ftd_frame_first(NULL, 0, 34).found == 0);
    EXPECT(ftd_frame_number(NULL, 0).found == 0);
}

/* No call goes wrong on a state that none has made: all bytes are 255, so that each count and place is too high. */
static void any_state(void) {
    struct ftd_sender sender;
    struct ftd_receiver receiver;
    struct ftd_calendar calendar;
    struct ftd_book book;
    uint8_t bytes[34];

    memset(&sender, 255, sizeof sender);
    memset(&receiver, 255, sizeof receiver);
    memset(&calendar, 255, sizeof calendar);
    memcpy(bytes, dated, sizeof bytes);
    bytes[15] = 'C';
    bytes[16] = bytes[17] = 255;
    EXPECT(ftd_publish(sender, 65535, 0x7777, NULL, 0, day_log, sizeof day_log).refusal == FTD_DAMAGED_LOG);
    EXPECT(ftd_send(sender, 65535, day_log, sizeof day_log, output, sizeof output).answer == FTD_SEND_NONE);
    EXPECT(ftd_send_packet(sender, 65535, day_log, sizeof day_log, output, sizeof output).answer == FTD_SEND_NONE);
    EXPECT(ftd_login(sender, 65535, login, login_bytes, answer, sizeof answer, output, sizeof output).refusal ==
           FTD_UNKNOWN_SERIES);
    EXPECT(day_open(sender, 5, 2, 0, 0).refusal == FTD_OPENING);
    EXPECT(ftd_receiver_open(receiver, series, 2).refusal == FTD_OPENING);
    EXPECT(ftd_receive(receiver, bytes, sizeof bytes, buffer, sizeof buffer).refusal == FTD_OTHER_DAY);
    EXPECT(ftd_receive_several(receiver, bytes, sizeof bytes, buffer, sizeof buffer).refusal == FTD_OTHER_DAY);
    memset(records, 255, FTD_RECORD_HEAD);
    memset(records + 6, 0, 4);
    EXPECT(ftd_publish_several(sender, records, FTD_RECORD_HEAD, day_log, sizeof day_log).refusal == FTD_DAMAGED_LOG);
    EXPECT(ftd_request_login(receiver, 65535, request, sizeof request, login, sizeof login).refusal == 0);
    EXPECT(ftd_connect(receiver).series[7].login == 0 && ftd_connect(receiver).series[7].last == UINT32_MAX);
    EXPECT(asked(calendar, 1708304400) == 0);
    memset(calendar.sessions, 0, 4);
    EXPECT(asked(calendar, 1708304400) == 20240220); /* from second 0 on, late */
    EXPECT(ftd_set_calendar(calendar, NULL, 0, NULL, 0).calendar.holidays[31] == 0);
    /* 64 levels of the price -1, and sums of -1. */
    memset(&book, 255, sizeof book);
    memcpy(book.code, own, FTD_CODE);
    EXPECT(stands(book, FTD_SELLING, 63, -1, UINT32_MAX) && ftd_book_mean(book).found == 0);
    EXPECT(offer(&book, 1, 0) == FTD_LEVELS && offer(&book, 1, -1) == 0 && stands(book, FTD_SELLING, 0, -1, 1));
    EXPECT(trade(&book, 1, -1) == 0 && book.volume == 0 && book.turnover == -2);
    book.volume = book.turnover = INT64_MAX;
    EXPECT(trade(&book, 0, 5) == FTD_VOLUME && mean_is(book, 1));
}

int main(void) {
    sizes();
    packets_read();
    packets_refused();
    packets_written();
    fields();
    contents_checked();
    items();
    start_fields();
    make_contents();
    flow();
    refusals_of_serving();
    packet_by_packet();
    packets_ended();
    packets_turned_down();
    places_compared();
    places_counted();
    places_refused();
    refusals_of_receiving();
    several_received();
    several_refused();
    several_short();
    several_published();
    several_records_short();
    reserves_opened();
    shares_published();
    shares_beyond();
    names();
    places_kept();
    places_returned();
    line_test();
    places_of_any_state();
    box_seats();
    order_answers();
    order_refused();
    order_of_nulls();
    order_of_boxes();
    calendar_set();
    calendar_asked();
    marks();
    book_started();
    book_levels();
    book_quantities();
    book_matches();
    book_full();
    book_sums();
    book_of_others();
    frames_judged();
    frames_say();
    frame_fields();
    frames_written();
    frames_limit();
    nulls_below();
    nulls_at_the_ends();
    nulls_in_a_calendar();
    nulls_in_a_book();
    nulls_in_frames();
    any_state();
    if (!failed)
        printf("header: ok\n");
    return failed;
}
