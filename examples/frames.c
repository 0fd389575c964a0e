/* An example of a session of frames (JR/T 0087, after FIX 4.2): the side that is logged on to.
 *
 * It answers a logon with a logon, a test request with a heartbeat, a resend request with a gap fill and a logout with
 * a logout; of a gap it asks once for what is missing, and it applies resets. What the other side sends stands in a
 * script here, one frame behind the other as a line brings them; a driver has its socket there, and the rest can be
 * taken over. Printed are the frames that come (<) and go (>), `|` for the byte 1, and what is made of them.
 *
 *     make example && target/example/frames
 */
#include "ftd.h"
#include <stdio.h>
#include <stdlib.h>
#include <string.h>

enum {
    CHECKSUM = 7, /* bytes of the field 10 */
    LENGTH = 12   /* bytes of "8=FIX.4.2|9=", behind which the body length stands */
};

/* The tags that are used here by name. */
enum {
    FIRST = 7,
    LAST = 16,
    NUMBER = 34,
    NEW_NUMBER = 36,
    DUPLICATE = 43,
    SENDER = 49,
    TIME = 52,
    TARGET = 56,
    REASON = 58,
    ENCRYPTION = 98,
    SECONDS = 108,
    TEST = 112,
    FILL = 123,
    ANEW = 141
};

/* ---- Frames that go ---- */

/* A run of fields: TAG=TEXT and the byte 1, one behind the other. */
struct run {
    uint8_t bytes[FTD_MOST_FRAME];
    size_t used;
};

static void add_text(struct run *run, uint32_t tag, const void *text, size_t count) {
    char head[16];
    size_t n = (size_t)sprintf(head, "%lu=", (unsigned long)tag);

    if (count + n + 1 > sizeof run->bytes - run->used) {
        fprintf(stderr, "a run of fields is too long\n");
        exit(1);
    }
    memcpy(run->bytes + run->used, head, n);
    memcpy(run->bytes + run->used + n, text, count);
    run->used += n + count + 1;
    run->bytes[run->used - 1] = 1;
}

static void add_number(struct run *run, uint32_t tag, uint32_t number) {
    char text[16];

    add_text(run, tag, text, (size_t)sprintf(text, "%lu", (unsigned long)number));
}

static void print_frame(char way, const uint8_t *bytes, size_t count) {
    size_t i;

    printf("%c ", way);
    for (i = 0; i < count; i++)
        putchar(bytes[i] == 1 ? '|' : bytes[i]);
    putchar('\n');
}

/* All that there is of a session. */
struct session {
    uint32_t expected; /* the number that comes next */
    uint32_t next;     /* the number that goes next */
    uint32_t until;    /* what is below was asked for, and comes again */
    int open;
};

/* The fields that every frame has. A clock stands still here, so that the example always prints the same. */
static void start(struct run *run, uint32_t number) {
    run->used = 0;
    add_text(run, SENDER, "BROKER", 6);
    add_text(run, TARGET, "FUND", 4);
    add_number(run, NUMBER, number);
    add_text(run, TIME, "20121226-01:00:00", 17);
}

static void send_frame(const char *type, const struct run *run) {
    uint8_t frame[FTD_MOST_FRAME];
    struct ftd_written written =
        ftd_frame_write((const uint8_t *)type, strlen(type), run->bytes, run->used, frame, sizeof frame);

    if (written.refusal != 0) {
        fprintf(stderr, "ftd_frame_write: refused, %u\n", written.refusal);
        exit(1);
    }
    print_frame('>', frame, written.bytes);
}

static void send_logon(struct session *session, const struct ftd_reading *read, int anew) {
    struct run run;

    start(&run, session->next++);
    add_number(&run, ENCRYPTION, read->first);
    add_number(&run, SECONDS, read->second);
    if (anew)
        add_text(&run, ANEW, "Y", 1);
    send_frame("A", &run);
    session->open = 1;
}

static void send_heartbeat(struct session *session, const uint8_t *test, size_t count) {
    struct run run;

    start(&run, session->next++);
    add_text(&run, TEST, test, count);
    send_frame("0", &run);
}

/* From the expected number on, all that follow. */
static void send_resend_request(struct session *session) {
    struct run run;

    start(&run, session->next++);
    add_number(&run, FIRST, session->expected);
    add_number(&run, LAST, 0);
    send_frame("2", &run);
}

/* What this side sent was nothing that has to be sent again: the next number is told instead. */
static void send_gap_fill(const struct session *session, uint32_t first) {
    struct run run;

    start(&run, first);
    add_text(&run, DUPLICATE, "Y", 1);
    add_text(&run, FILL, "Y", 1);
    add_number(&run, NEW_NUMBER, session->next);
    send_frame("4", &run);
}

static void send_logout(struct session *session, const char *reason) {
    struct run run;

    start(&run, session->next++);
    if (reason[0] != 0)
        add_text(&run, REASON, reason, strlen(reason));
    send_frame("5", &run);
    session->open = 0;
}

/* ---- Frames that come ---- */

/* The fields say TAG=Y. */
static int says_yes(const uint8_t *frame, const struct ftd_reading *read, uint32_t tag) {
    const uint8_t *fields = frame + read->fields.start;
    struct ftd_tagged field = ftd_frame_first(fields, read->fields.len, tag);

    return field.found && field.len == 1 && fields[field.start] == 'Y';
}

/* A frame with the expected number. */
static void taken(struct session *session, const uint8_t *frame, const struct ftd_reading *read) {
    int anew = says_yes(frame, read, ANEW);

    switch (read->kind) {
    case FTD_FRAME_LOGON:
        printf("  logon, a heartbeat every %lu s\n", (unsigned long)read->second);
        if (anew)
            session->next = 1;
        send_logon(session, read, anew);
        break;
    case FTD_FRAME_TEST_REQUEST:
        printf("  test request\n");
        send_heartbeat(session, frame + read->text.start, read->text.len);
        break;
    case FTD_FRAME_RESEND_REQUEST:
        printf("  resend request from %lu on\n", (unsigned long)read->first);
        if (read->first < session->next)
            send_gap_fill(session, read->first);
        break;
    case FTD_FRAME_SEQUENCE_RESET: /* a gap fill */
        if (read->first > session->expected)
            session->expected = read->first;
        printf("  gap fill, expected is %lu\n", (unsigned long)session->expected);
        break;
    case FTD_FRAME_LOGOUT:
        printf("  logout\n");
        send_logout(session, "");
        break;
    case FTD_FRAME_HEARTBEAT:
        printf("  heartbeat\n");
        break;
    default: /* handed on to whoever knows its type */
        printf("  message %lu of type %.*s\n", (unsigned long)read->number, (int)read->name.len,
               (const char *)frame + read->name.start);
    }
}

/* A logon that starts the numbers anew is obeyed whatever number was expected: read with 1 expected it is next. */
static int starts_anew(struct session *session, const uint8_t *frame, size_t size) {
    struct ftd_reading read = ftd_frame_read(frame, size, 1);

    if (read.answer != FTD_FRAME_NEXT || read.kind != FTD_FRAME_LOGON || !says_yes(frame, &read, ANEW))
        return 0;
    session->expected = read.expected;
    session->until = 0;
    printf("  the numbers start anew\n");
    taken(session, frame, &read);
    return 1;
}

static void receive(struct session *session, const uint8_t *frame, size_t size) {
    struct ftd_reading read = ftd_frame_read(frame, size, session->expected);

    print_frame('<', frame, size);
    session->expected = read.expected;
    switch (read.answer) {
    case FTD_FRAME_NEXT:
        taken(session, frame, &read);
        break;
    case FTD_FRAME_AGAIN:
        printf("  %lu again\n", (unsigned long)read.number);
        break;
    case FTD_FRAME_GAP:
        printf("  a gap, %lu to %lu\n", (unsigned long)read.expected, (unsigned long)read.number - 1);
        if (session->expected >= session->until)
            send_resend_request(session);
        if (read.number >= session->until)
            session->until = read.number + 1;
        break;
    case FTD_FRAME_RESET:
        session->expected = read.first;
        session->until = 0;
        printf("  reset, expected is %lu\n", (unsigned long)session->expected);
        break;
    default:
        if (read.refusal == FTD_LOW_NUMBER && !starts_anew(session, frame, size)) {
            printf("  refused, a low number\n");
            send_logout(session, "low number");
        } else if (read.refusal != FTD_LOW_NUMBER) {
            printf("  refused, %s\n", read.refusal == FTD_REQUIRED_TAG ? "a required tag" : "not one frame");
        }
    }
}

/* How many bytes the frame at the front of a line has, as its body length says; 0: that isn't there yet, or is none. */
static size_t frame_size(const uint8_t *line, size_t count) {
    size_t n = 0;
    struct ftd_number length;

    while (n <= 4 && LENGTH + n < count && line[LENGTH + n] != 1)
        n++;
    if (LENGTH + n >= count || line[LENGTH + n] != 1)
        return 0;
    length = ftd_frame_number(line + LENGTH, n);
    return length.found ? LENGTH + n + 1 + length.number + CHECKSUM : 0;
}

/* ---- The other side ---- */

#define HEAD "49=FUND|56=BROKER|52=20121226-01:00:00|"

/* Types and fields, `|` for the byte 1. */
static const char *const script[][2] = {
    {"A", HEAD "34=1|98=0|108=30|"},
    {"1", HEAD "34=2|112=are you there|"},
    {"D", HEAD "34=6|11=six|"}, /* 3 to 5 are lost */
    {"D", HEAD "34=7|11=seven|"},
    {"D", HEAD "34=3|43=Y|11=three|"}, /* what was asked for: 3, a gap fill for 4 and 5, 6 and 7 */
    {"4", HEAD "34=4|43=Y|123=Y|36=6|"},
    {"D", HEAD "34=6|43=Y|11=six|"},
    {"D", HEAD "34=7|43=Y|11=seven|"},
    {"D", HEAD "34=3|43=Y|11=three|"},
    {"2", HEAD "34=8|7=2|16=0|"},
    {"4", HEAD "34=9|36=20|"},
    {"0", HEAD "34=20|"},
    {"0", HEAD "34=21|"}, /* damaged on the line */
    {"5", HEAD "34=21|"},
    {"A", HEAD "34=1|98=0|108=30|141=Y|"},
    {"0", HEAD "34=2|"},
    {"D", HEAD "34=1|11=one|"} /* without the flag */
};

enum { FRAMES = sizeof script / sizeof script[0], DAMAGED = 12 };

static size_t write_script(uint8_t *line, size_t room) {
    size_t used = 0, i, k;

    for (i = 0; i < FRAMES; i++) {
        uint8_t run[256];
        size_t count = strlen(script[i][1]);
        struct ftd_written written;

        for (k = 0; k < count; k++)
            run[k] = script[i][1][k] == '|' ? 1 : (uint8_t)script[i][1][k];
        written = ftd_frame_write((const uint8_t *)script[i][0], strlen(script[i][0]), run, count, line + used,
                                  room - used);
        if (written.refusal != 0) {
            fprintf(stderr, "frame %lu of the script: refused, %u\n", (unsigned long)i, written.refusal);
            exit(1);
        }
        if (i == DAMAGED)
            line[used + 20] ^= 1;
        used += written.bytes;
    }
    return used;
}

int main(void) {
    static uint8_t line[FRAMES * 256];
    struct session session = {1, 1, 0, 0};
    size_t count = write_script(line, sizeof line), at = 0, size;

    while ((size = frame_size(line + at, count - at)) != 0 && size <= count - at) {
        receive(&session, line + at, size);
        at += size;
    }
    printf("%lu bytes left, expected is %lu, the next number is %lu, the session is %s\n", (unsigned long)(count - at),
           (unsigned long)session.expected, (unsigned long)session.next, session.open ? "open" : "closed");
    return 0;
}
