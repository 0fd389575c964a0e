/* How many bytes of stack calls with large inputs take: a painted stack of its own for each call, and how far down it was used.
 * What is printed is less than what stack.py says of the same functions, but for the structs by value, which lie in the caller's
 * frame and are counted here.
 *
 *     cc -O2 -I include tests/stack/measure.c libftd.a -o measure && ./measure && python3 tests/stack/stack.py libftd.a
 */
#define _GNU_SOURCE
#include <stdio.h>
#include <string.h>
#include <ucontext.h>

#include "ftd.h"

enum { ROOM = 1 << 17, LOG = 1 << 17 };

static uint8_t stack[ROOM], content[FTD_MOST_CONTENT], text[FTD_PACKET_CONTENT], login[FTD_PACKET_CONTENT], answer[8192];
static uint8_t log_bytes[LOG], output[FTD_MOST_OUTPUT], packet[8192], buffer[FTD_MOST_SERIES * FTD_MOST_CONTENT];
static uint8_t quotes[FTD_MOST_CONTENT];
static size_t filled, texts, logins, quoted;
static const uint16_t series[] = {1, 2, 3, 4, 5, 6, 7, 8};
static const size_t reserves[] = {1000, 1000, 1000, 1000, 1000, 1000, 1000, 40000};
static struct ftd_sender sender;
static struct ftd_receiver receiver;
static struct ftd_book book;
static struct ftd_box box;
static struct ftd_box_confirmed box_confirmed;
static struct ftd_box_received box_received;
static struct ftd_box_received_several box_taken;
static uint64_t places[FTD_PLACES];
static uint8_t box_log[LOG];
static volatile uint8_t refusal;

/* A field of n bytes in all behind the others of a content. */
static void field(uint8_t *to, size_t *at, uint32_t fid, const uint8_t *bytes, size_t n)
{
    *at += ftd_write_field(fid, bytes, n - 6, to + *at, FTD_MOST_CONTENT).bytes;
}

/* A field of a known FID, each item a text, a number or a zero that its type can have. */
static size_t known(uint32_t fid, uint8_t *to)
{
    static uint8_t item[512];
    size_t n = 0;
    for (size_t i = 0;; i++) {
        size_t at = 0;
        for (uint8_t kind = 2; kind < 10 && at == 0; kind++) {
            struct ftd_item x = {0, 0, 0, 2004, 1, 1, kind, 0};
            at = ftd_write_item(fid, i, x, item, 0, to + 6 + n, 512).bytes;
        }
        if (at == 0)
            break;
        n += at;
    }
    static uint8_t whole[4096];
    memcpy(whole, to + 6, n);
    return ftd_write_field(fid, whole, n, to, 4096).bytes;
}

/* The calls: each leaves the ends as they are, and main takes on what it left. */
static struct ftd_sender_opened opened;
static struct ftd_receiver_opened end_opened;
static struct ftd_published published;
static struct ftd_written asked;
static struct ftd_logged_in logged_in;
static struct ftd_confirmed confirmed;
static struct ftd_sent sent;
static struct ftd_sent_packet sent_packet;
static struct ftd_received received;
static struct ftd_received_several several;
static struct ftd_published_several published_several;
static uint8_t records[FTD_RECORD_HEAD + FTD_MOST_CONTENT];

static void nothing(void) {}
static void check(void) { refusal = ftd_check(0x7777, FTD_DOWN, content, filled, FTD_MOST_CONTENT); }
static void check_known(void) { refusal = ftd_check(0x0016, FTD_DOWN, text, texts, FTD_PACKET_CONTENT); }
static void item(void) { refusal = ftd_read_item(0x0027, 3, text + 6, texts - 6).kind == FTD_NO_ITEM; }
static void message(void)
{
    struct ftd_message m = {0x7777, 1, 20040101, 1, 1};
    refusal = ftd_write_message(m, content, filled, output, sizeof output).refusal;
}
static void broken(void)
{
    struct ftd_message m = {0x7777, 1, 20040101, 1, 1};
    refusal = ftd_write_message(m, content, 8 * 4081 + 7, output, sizeof output).refusal;
}
static void open_sender(void)
{
    opened = ftd_sender_open(sender, 20040101, series, 8, reserves, 8, log_bytes, sizeof log_bytes);
    refusal = opened.refusal;
}
static void open_receiver(void)
{
    end_opened = ftd_receiver_open(receiver, series, 8);
    refusal = end_opened.refusal;
}
static void publish(void)
{
    published = ftd_publish(sender, 8, 0x7777, content, filled, log_bytes, sizeof log_bytes);
    refusal = published.refusal;
}
static void ask(void)
{
    asked = ftd_request_login(receiver, 8, login, logins, packet, sizeof packet);
    refusal = asked.refusal;
}
static void log_in(void)
{
    logged_in = ftd_login(sender, 8, packet, asked.bytes, text, texts, answer, sizeof answer);
    refusal = logged_in.refusal;
}
static void confirm(void)
{
    confirmed = ftd_confirm_login(receiver, 8, answer, logged_in.bytes);
    refusal = confirmed.refusal;
}
static void send_next(void)
{
    sent = ftd_send(sender, 8, log_bytes, sizeof log_bytes, output, sizeof output);
    refusal = sent.refusal;
}
static void send_packets(void)
{
    sent_packet.end = sender;
    do {
        sent_packet = ftd_send_packet(sent_packet.end, 8, log_bytes, sizeof log_bytes, output, sizeof output);
        refusal = sent_packet.refusal;
    } while (sent_packet.answer == FTD_SEND_MESSAGE && !sent_packet.last);
}
static void receive_all(void)
{
    received.end = receiver;
    for (size_t at = 0, n; at < sent.bytes; at += n) {
        n = ftd_said_length(output + at, sent.bytes - at);
        received = ftd_receive(received.end, output + at, n, buffer, sizeof buffer);
        refusal = received.refusal;
    }
}
static void box_confirm(void)
{
    box_confirmed = ftd_box_confirm_login(box, 8, answer, logged_in.bytes, box_log, sizeof box_log, places);
    refusal = box_confirmed.refusal;
}
static void box_receive(void)
{
    box_received.box = box;
    for (size_t at = 0, n; at < sent.bytes; at += n) {
        n = ftd_said_length(output + at, sent.bytes - at);
        box_received = ftd_box_receive(box_received.box, output + at, n, box_log, sizeof box_log, buffer, sizeof buffer);
        refusal = box_received.refusal;
    }
}
static void box_several(void)
{
    box_taken = ftd_box_receive_several(box, output, sent.bytes, box_log, sizeof box_log, buffer, sizeof buffer);
    refusal = box_taken.refusal;
}
static void box_login(void)
{
    refusal = ftd_box_login(box, 15, 8, packet, asked.bytes, text, texts, places, answer, sizeof answer).refusal;
}
static void box_send(void)
{
    refusal = ftd_box_send(box, 15, 8, places, box_log, sizeof box_log, output, sizeof output).refusal;
}
static void take(void)
{
    struct ftd_book_step step = ftd_book_take(book, 0x2001, quotes, quoted);
    refusal = step.refusal;
}
static void receive_several(void)
{
    several = ftd_receive_several(receiver, output, sent.bytes, buffer, sizeof buffer);
    refusal = several.refusal;
}
static void publish_several(void)
{
    records[1] = 8;
    records[5] = 0x77;
    records[8] = (uint8_t)(filled >> 8);
    records[9] = (uint8_t)filled;
    memcpy(records + FTD_RECORD_HEAD, content, filled);
    published_several = ftd_publish_several(sender, records, FTD_RECORD_HEAD + filled, log_bytes, sizeof log_bytes);
    refusal = published_several.refusal;
}
static uint8_t run[FTD_MOST_FRAME], frame[FTD_MOST_FRAME];
static size_t framed;
static void write_frame(void)
{
    struct ftd_written written = ftd_frame_write((const uint8_t *)"A", 1, run, framed - 29, frame, sizeof frame);
    refusal = written.refusal;
}
static void read_frame(void)
{
    struct ftd_reading read = ftd_frame_read(frame, framed, 5);
    refusal = read.refusal;
}
static void reconnect(void) { receiver = ftd_connect(receiver); }
static struct ftd_kept_step kept;
static void keep(void)
{
    kept = ftd_keep(kept.checkpoints, receiver, (const uint8_t *)"BEFORE", 6);
    refusal = kept.refusal;
}
static struct ftd_returned returned;
static void go_back(void)
{
    returned = ftd_return(kept.checkpoints, receiver, (const uint8_t *)"BEFORE", 6);
    refusal = returned.refusal;
}

static size_t used(void (*body)(void))
{
    static ucontext_t here, there;
    memset(stack, 0xA5, sizeof stack);
    getcontext(&there);
    there.uc_stack.ss_sp = stack;
    there.uc_stack.ss_size = sizeof stack;
    there.uc_link = &here;
    makecontext(&there, body, 0);
    swapcontext(&here, &there);
    size_t low = 0;
    while (low < sizeof stack && stack[low] == 0xA5)
        low++;
    return sizeof stack - low;
}

static void row(const char *name, void (*body)(void))
{
    body(); /* so that the C library's functions are bound */
    size_t n = used(body) - used(nothing);
    printf("%-19s %6zu%s\n", name, n, refusal ? "  refused" : "");
}

int main(void)
{
    static uint8_t some[FTD_FIELD_CONTENT];
    for (int i = 0; i < 8; i++) { /* 17 packets: no two fields fit into one */
        field(content, &filled, 0x7777, some, 6);
        field(content, &filled, 0x7777, some, 4075);
    }
    field(content, &filled, 0x7777, some, 120);
    logins = known(0x0023, login);
    texts = known(0x0027, text);
    sender = ftd_sender_fresh();
    receiver = ftd_receiver_fresh();
    row("ftd_check", check);
    row("ftd_check", check_known);
    row("ftd_read_item", item);
    row("ftd_write_message", message);
    content[8 * 4081 + 5] = 0; /* 17 packets, and one byte of a field behind them */
    row("ftd_write_message", broken);
    content[8 * 4081 + 5] = 114;
    row("ftd_sender_open", open_sender);
    sender = opened.end;
    row("ftd_publish_several", publish_several);
    if (published_several.answer != FTD_SEVERAL_END)
        puts("not all in");
    row("ftd_publish", publish);
    sender = published.end;
    row("ftd_receiver_open", open_receiver);
    receiver = end_opened.end;
    row("ftd_request_login", ask);
    row("ftd_login", log_in);
    sender = logged_in.end;
    row("ftd_confirm_login", confirm);
    receiver = confirmed.end;
    row("ftd_send_packet", send_packets);
    if (!sent_packet.last)
        puts("not sent");
    row("ftd_send", send_next);
    row("ftd_receive", receive_all);
    if (received.answer != FTD_RECEIVE_MESSAGE || received.content.len != filled)
        puts("not handed on");
    row("ftd_receive_several", receive_several);
    if (several.answer != FTD_SEVERAL_MESSAGE || several.content.len != filled)
        puts("not handed on");
    row("ftd_keep", keep);
    row("ftd_return", go_back);
    row("ftd_connect", reconnect);
    box = ftd_box_open(ftd_box_fresh(), series, 8, reserves, 8).box;
    row("ftd_box_confirm_login", box_confirm);
    box = box_confirmed.box;
    row("ftd_box_receive_several", box_several);
    if (box_taken.answer != FTD_SEVERAL_MESSAGE)
        puts("not handed on");
    row("ftd_box_receive", box_receive);
    if (box_received.answer != FTD_RECEIVE_MESSAGE || box_received.content.len != filled)
        puts("not handed on");
    box = box_received.box;
    row("ftd_box_login", box_login);
    row("ftd_box_send", box_send);
    for (uint8_t i = 0; i < 64; i++) { /* buying, absolute, each at a price of its own */
        uint8_t bytes[33] = "cu0405    \0\1\0" "0000010.0000\0\0\0\7\0\0\0";
        bytes[18] = '1' + i / 8;
        bytes[19] = '1' + i % 8;
        field(quotes, &quoted, 0x000D, bytes, 39);
    }
    book = ftd_book_start(ftd_book_fresh(), (const uint8_t *)"cu0405    ", 10).book;
    row("ftd_book_take", take);
    static const char head[] = "49=F\00156=B\00134=5\00152=T\00198=0\001108=30\00158="; /* a frame of the most bytes */
    memcpy(run, head, sizeof head - 1);
    framed = FTD_MOST_FRAME;
    memset(run + sizeof head - 1, 'x', framed - 29 - (sizeof head - 1));
    run[framed - 30] = 1;
    row("ftd_frame_write", write_frame);
    row("ftd_frame_read", read_frame);
    return 0;
}
