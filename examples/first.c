/* The shortest whole flow: a serving end opens a day and publishes, a receiving end asks, is answered and receives;
 * the line breaks, one more is published, and on the next line only that one comes. Both ends are in one program here,
 * and `wire` stands for the line: what is written there a driver writes to its socket and reads from it
 * (examples/driver.c).
 *
 *     make example && target/example/first
 */
#include "ftd_names.h"
#include <stdio.h>
#include <stdlib.h>
#include <string.h>

/* A TID and a FID that the standard doesn't have: what is in the field is free. */
enum { SERIES = 1, TRADE_DATE = 20041231, MY_TID = 0x7777, MY_FID = 0x7001 };

static struct ftd_sender serving;        /* all that the serving end keeps, besides its log */
static uint8_t log_bytes[4096];          /* each message takes its content and FTD_LOG_HEAD bytes */
static struct ftd_receiver receiving;    /* all that the receiving end keeps; it outlasts the line */
static uint8_t buffer[FTD_MOST_CONTENT]; /* where chains are joined; so many bytes for each series */
static uint8_t wire[FTD_MOST_OUTPUT];    /* as many bytes as a message can take on the line */

static void must(uint8_t refusal) { /* every refusal here is a mistake of this program */
    if (refusal != 0) {
        fprintf(stderr, "refused, %u: %s\n", refusal, ftd_refusal_words(refusal));
        exit(1);
    }
}

/* A data field of the standard whose items are all empty or 0; a driver puts its own values in. Gives its bytes. */
static size_t empty_field(uint32_t fid, uint8_t content[400]) {
    uint8_t items[400];
    size_t used = 0, i;

    for (i = 0; ftd_item_names_of(fid, i) != NULL; i++) {
        struct ftd_item value = {0, 0, 0, 0, 0, 0, 0, 0};
        value.kind = ftd_item_names_of(fid, i)->kind;
        used += ftd_write_item(fid, i, value, NULL, 0, items + used, sizeof items - used).bytes;
    }
    return ftd_write_field(fid, items, used, content, 400).bytes;
}

static void publish(const char *text) {
    uint8_t content[100];
    struct ftd_written field = ftd_write_field(MY_FID, (const uint8_t *)text, strlen(text), content, sizeof content);
    struct ftd_published done = ftd_publish(serving, SERIES, MY_TID, content, field.bytes, log_bytes, sizeof log_bytes);

    must(done.refusal);
    serving = done.end; /* the state of the answer counts from now on, here and below */
    printf("published %u: %s\n", (unsigned)done.number, text);
}

/* A new line, from the login until nothing is left to send. */
static void run_line(void) {
    uint8_t content[400], answer[500];
    size_t count = empty_field(FTD_FID_REQ_USER_LOGIN, content);
    struct ftd_written request;
    struct ftd_logged_in login;
    struct ftd_confirmed confirmed;

    receiving = ftd_connect(receiving);
    /* The login packet asks for the number behind the last one that was received. */
    request = ftd_request_login(receiving, SERIES, content, count, wire, sizeof wire);
    must(request.refusal);
    count = empty_field(FTD_FID_RSP_USER_LOGIN, content);
    login = ftd_login(serving, SERIES, wire, request.bytes, content, count, answer, sizeof answer);
    must(login.refusal);
    serving = login.end;
    confirmed = ftd_confirm_login(receiving, SERIES, answer, login.bytes);
    must(confirmed.refusal);
    receiving = confirmed.end;
    printf("logged in, has up to %u\n", (unsigned)confirmed.last);
    for (;;) {
        struct ftd_sent sent = ftd_send(serving, SERIES, log_bytes, sizeof log_bytes, wire, sizeof wire);
        struct ftd_received got;

        must(sent.refusal);
        serving = sent.end;
        if (sent.answer == FTD_SEND_NONE) /* a driver waits here until more is published */
            return;
        /* Each message is one packet here, and is handed on from there; what a real line brings, in pieces and with
         * messages of several packets, ftd_receive_several takes. The content is one field: FID, length and the text.
         */
        got = ftd_receive(receiving, wire, sent.bytes, buffer, sizeof buffer);
        must(got.refusal);
        receiving = got.end;
        printf("received %u: %.*s\n", (unsigned)got.last, (int)got.content.len - 6,
               (const char *)wire + got.content.start + 6);
    }
}

int main(void) {
    static const uint16_t series[1] = {SERIES};
    static const size_t reserves[1] = {0};
    struct ftd_sender_opened day =
        ftd_sender_open(ftd_sender_fresh(), TRADE_DATE, series, 1, reserves, 1, log_bytes, sizeof log_bytes);
    struct ftd_receiver_opened open = ftd_receiver_open(ftd_receiver_fresh(), series, 1);

    must(day.refusal);
    must(open.refusal);
    serving = day.end;
    receiving = open.end;
    publish("bought 5");
    publish("sold 2");
    run_line();
    printf("the line breaks\n");
    publish("sold 3");
    run_line();
    return 0;
}
