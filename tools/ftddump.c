/* A decoder for captures of FTD lines: the packets of a file, or the messages that they join to, with the names of the
 * standard and its values in words.
 *
 *     make tools && target/tools/ftddump --help
 */
#include "../include/ftd_names.h"
#include <errno.h>
#include <fcntl.h>
#include <inttypes.h>
#include <stdarg.h>
#include <stdio.h>
#include <stdlib.h>
#include <string.h>
#include <unistd.h>

static const char usage_text[] =
    "usage: ftddump [option].. [FILE]..\n"
    "\n"
    "Prints the packets of captures, a block each; of standard input where no file is named, or where it is -.\n"
    "\n"
    "  --series S    only message packets of this series\n"
    "  --tid T       only message packets with this TID: a number (0x2003), or the standard's name (MarketBulletin)\n"
    "  --refused     only what is refused\n"
    "  --messages    joins the packets to messages, a block each; link packets and skipped ones are left out\n"
    "  -x            the bytes too, in hexadecimal\n"
    "  --help        this text\n"
    "\n"
    "A block starts with the packet's offset in the file. Fields have their offset too, items their name and value;\n"
    "a text is in quotes, with \\xNN for a byte outside ASCII. The content of a message packet is checked as one\n"
    "that is sent down, or up where it is made up so, and what is wrong has the refusal's number and words. How\n"
    "often fields occur is checked where a message is whole: in one packet, or with --messages.\n"
    "A packet that is refused as such ends the file, as nobody knows where the next one starts; it is printed\n"
    "whatever the filters say, as is a rest that is too short for a packet.\n"
    "With --messages each series starts at the first number that the file has, and each trade date anew. Up to 64\n"
    "series of a file are joined.\n"
    "\n"
    "Exit status: 0 where all was read and nothing was refused, whether printed or not; 1 where something was\n"
    "refused, too short, not whole, missing or can't be read; 2 for a wrong option.\n";

enum { ROOM = 2 * FTD_MOST_BYTES, MOST_JOINED = 64, ROW = 16 };

/* ---- What is asked for, and what was found ---- */

static struct {
    int series_given, tid_given;
    uint16_t series;
    uint32_t tid;
    int refused, messages, bytes;
} want;

static int status; /* the exit status */

static void complain(const char *format, ...) {
    va_list arguments;

    va_start(arguments, format);
    fflush(stdout);
    fputs("ftddump: ", stderr);
    vfprintf(stderr, format, arguments);
    fputc('\n', stderr);
    va_end(arguments);
    status = 1;
}

static int wanted_series(uint16_t series) { return !want.series_given || series == want.series; }

static int wanted(uint16_t series, uint32_t tid) {
    return wanted_series(series) && (!want.tid_given || tid == want.tid);
}

/* ---- Parts of a block ---- */

static void print_text(const uint8_t *bytes, size_t count) {
    size_t i;

    putchar('"');
    for (i = 0; i < count; i++) {
        if (bytes[i] < 0x20 || bytes[i] > 0x7E) {
            printf("\\x%02X", bytes[i]);
        } else {
            if (bytes[i] == '"' || bytes[i] == '\\')
                putchar('\\');
            putchar(bytes[i]);
        }
    }
    putchar('"');
}

/* With the offset of each row. */
static void print_bytes(uint64_t offset, const uint8_t *bytes, size_t count) {
    size_t i;

    if (!want.bytes)
        return;
    for (i = 0; i < count; i++) {
        if (i % ROW == 0)
            printf("    bytes %" PRIu64 ":", offset + i);
        printf(" %02X", bytes[i]);
        if (i % ROW == ROW - 1 || i == count - 1)
            putchar('\n');
    }
}

/* "8, field length: a data field .." */
static void print_refusal(uint8_t refusal) {
    const char *name = ftd_refusal_name(refusal), *words = ftd_refusal_words(refusal);

    printf("%u, %s: %s", refusal, name != NULL ? name : "unknown", words != NULL ? words : "no refusal of ftd.h");
}

static void print_decimals(const struct ftd_item *item, unsigned decimals) {
    uint64_t unit = 1;
    unsigned i;

    for (i = 0; i < decimals; i++)
        unit *= 10;
    printf("%s%" PRIu64, item->negative ? "-" : "", item->value / unit);
    if (decimals > 0)
        printf(".%0*" PRIu64, (int)decimals, item->value % unit);
}

/* `offset` is that of the field's bytes. */
static void print_item(uint32_t fid, size_t i, const struct ftd_item_names *names, uint64_t offset,
                       const uint8_t *field, size_t count) {
    struct ftd_item item = ftd_read_item(fid, i, field, count);
    const char *meaning;

    printf("        %s ", names->name);
    switch (item.kind) {
    case FTD_TEXT:
        print_text(field + item.start, item.len);
        break;
    case FTD_CHAR:
        meaning = ftd_value_name(fid, i, item.value);
        printf("%" PRIu64 "%s%s", item.value, meaning != NULL ? ", " : "", meaning != NULL ? meaning : "");
        break;
    case FTD_WORD:
    case FTD_INT:
        printf("%" PRIu64, item.value);
        break;
    case FTD_NUMBER:
    case FTD_FLOAT:
        print_decimals(&item, names->decimals);
        break;
    case FTD_DAY:
        printf("%04u%02u%02u", item.year, item.month, item.day);
        break;
    case FTD_UNUSED:
        printf("unused");
        break;
    default: /* FTD_NO_VALUE, as the field has all its bytes */
        print_text(field + names->offset, names->width);
        printf(" at %" PRIu64 ", refused %u, %s", offset + names->offset, FTD_ITEM, ftd_refusal_name(FTD_ITEM));
    }
    putchar('\n');
}

/* The data fields of a content that starts at the offset. */
static void print_fields(uint64_t offset, const uint8_t *content, size_t count) {
    struct ftd_step step;
    size_t at, i;

    for (at = 0; (step = ftd_field_at(content, count, at)).found; at += 6 + step.len) {
        const struct ftd_field_names *names = ftd_field_names_of(step.fid);
        const uint8_t *field = content + at + 6;

        printf("    field 0x%08" PRIX32 " %s at %" PRIu64 ", %zu bytes", step.fid,
               names != NULL ? names->name : "unknown", offset + at, step.len);
        if (names == NULL || step.len != names->width) {
            printf(": ");
            print_text(field, step.len);
            if (names != NULL)
                printf("\n        %u bytes expected, refused %u, %s", names->width, FTD_FIELD_LENGTH,
                       ftd_refusal_name(FTD_FIELD_LENGTH));
            putchar('\n');
            continue;
        }
        putchar('\n');
        for (i = 0; i < names->count; i++)
            print_item(step.fid, i, ftd_item_names_of(step.fid, i), offset + at + 6, field, step.len);
    }
}

/* ---- The content check ---- */

struct verdict {
    uint8_t direction; /* enum ftd_direction */
    uint8_t refusal;
};

static int has_field(const uint8_t *content, size_t count, uint32_t fid) {
    struct ftd_step step;
    size_t at;

    for (at = 0; (step = ftd_field_at(content, count, at)).found; at += 6 + step.len)
        if (step.fid == fid)
            return 1;
    return 0;
}

/* Down; up where it is a login packet, or another message whose make-up is that of one sent up alone. In a part of a
 * message fields may be missing, so that its make-up isn't judged. */
static struct verdict check(uint32_t tid, const uint8_t *content, size_t count, int whole) {
    struct verdict verdict;

    verdict.direction = FTD_DOWN;
    verdict.refusal = ftd_check(tid, FTD_DOWN, content, count, FTD_MOST_CONTENT);
    if (ftd_message_name(tid, FTD_UP) != NULL && verdict.refusal == FTD_COMPOSITION) {
        uint8_t up = ftd_check(tid, FTD_UP, content, count, FTD_MOST_CONTENT);

        if (up == 0 || (tid == FTD_TID_USER_LOGIN && has_field(content, count, FTD_FID_REQ_USER_LOGIN))) {
            verdict.direction = FTD_UP;
            verdict.refusal = up;
        }
    }
    if (!whole && verdict.refusal == FTD_COMPOSITION)
        verdict.refusal = 0;
    if (verdict.refusal != 0)
        status = 1;
    return verdict;
}

static void print_verdict(struct verdict verdict) {
    if (verdict.refusal == 0)
        return;
    printf("    content check, %s: refused ", verdict.direction == FTD_UP ? "up" : "down");
    print_refusal(verdict.refusal);
    putchar('\n');
}

static void print_tid(uint32_t tid, uint8_t direction) {
    const char *name = ftd_tid_name(tid), *message = ftd_message_name(tid, direction);

    printf("    TID 0x%08" PRIX32 " %s", tid, name != NULL ? name : "unknown");
    if (name != NULL)
        printf(", %s", ftd_mode_name(ftd_mode_of(tid)));
    if (message != NULL && strcmp(message, name) != 0)
        printf(", %s", message);
    putchar('\n');
}

/* ---- Packets ---- */

/* The tags of a link or message packet. */
static void print_tags(const uint8_t *extension, size_t count) {
    static const char *const names[] = {"nothing",    "time",       "compression", "state",
                                        "keep alive", "trade date", "target"};
    size_t at, i;

    for (at = 0; at + 2 <= count && at + 2 + extension[at + 1] <= count; at += 2 + (size_t)extension[at + 1]) {
        const uint8_t *data = extension + at + 2;
        size_t len = extension[at + 1];
        uint32_t number = 0;

        printf("    tag 0x%02X", extension[at]);
        if (extension[at] == 0x70)
            printf(", place");
        else if (extension[at] < sizeof names / sizeof names[0])
            printf(", %s", names[extension[at]]);
        else
            printf(", %zu bytes", len);
        for (i = 0; i < len; i++)
            number = number << 8 | data[i];
        if (extension[at] == 0x06) {
            putchar(' ');
            print_text(data, len);
        } else if (extension[at] == 0x70 || extension[at] < sizeof names / sizeof names[0]) {
            if (len > 0)
                printf(" %" PRIu32, number);
        } else {
            for (i = 0; i < len; i++)
                printf("%s%02X", i == 0 ? ": " : " ", data[i]);
        }
        putchar('\n');
    }
}

static void print_packet(uint64_t offset, const uint8_t *bytes, const struct ftd_packet *packet) {
    struct verdict verdict = {FTD_DOWN, 0};
    const char *kind = "skipped";
    const uint8_t *content = bytes + packet->content.start;

    if (packet->answer == FTD_MESSAGE) {
        kind = "message";
        verdict = check(packet->tid, content, packet->content.len, packet->chain == 'S');
    } else if (packet->answer == FTD_LINK) {
        kind = "link";
        if (packet->kind == 0 && ftd_keep_alive(bytes + packet->extension.start, packet->extension.len))
            kind = "heartbeat";
    }
    if (want.refused && verdict.refusal == 0)
        return;
    if (packet->answer == FTD_MESSAGE ? !wanted(packet->series, packet->tid) : want.series_given || want.tid_given)
        return;
    printf("%" PRIu64 " %s, type %u, %zu bytes\n", offset, kind, packet->kind, packet->size);
    if (packet->answer == FTD_SKIPPED)
        printf("    extension of %zu bytes, body of %zu\n", packet->extension.len, packet->content.len);
    else
        print_tags(bytes + packet->extension.start, packet->extension.len);
    if (packet->answer == FTD_MESSAGE) {
        print_tid(packet->tid, verdict.direction);
        printf("    series %u, number %" PRIu32 ", chain %c, %u fields\n", packet->series, packet->number,
               packet->chain, packet->fields);
        print_fields(offset + packet->content.start, content, packet->content.len);
        print_verdict(verdict);
    }
    print_bytes(offset, bytes, packet->size);
}

/* A packet that is refused as such; `count` bytes are there from its first on. */
static void print_refused_packet(uint64_t offset, const uint8_t *bytes, size_t count, uint8_t refusal) {
    size_t said = ftd_said_length(bytes, count);

    status = 1;
    printf("%" PRIu64 " refused ", offset);
    print_refusal(refusal);
    printf("\n    type %u, extension of %u bytes, body of %u; the rest of the file isn't read\n", bytes[0], bytes[1],
           (unsigned)bytes[2] << 8 | bytes[3]);
    print_bytes(offset, bytes, said < count ? said : count);
}

/* ---- Messages ---- */

/* A series that is joined: a receiving end of its own, with one series. */
struct joined {
    struct ftd_receiver end;
    uint8_t buffer[FTD_MOST_CONTENT];
    uint64_t start;  /* offset of the open chain's first packet */
    uint32_t broken; /* the number whose broken chain was told; 0: none */
};

static struct joined joined[MOST_JOINED];
static size_t joined_count;
static int too_many_told;

static struct joined *find_joined(uint16_t series) {
    size_t i;

    for (i = 0; i < joined_count && joined[i].end.series[0].series != series; i++)
        ;
    if (i < joined_count)
        return &joined[i];
    if (i == MOST_JOINED)
        return NULL;
    joined_count++;
    joined[i].end = ftd_receiver_fresh();
    joined[i].end.count = 1;
    joined[i].end.series[0].series = series;
    joined[i].broken = 0;
    return &joined[i];
}

/* The line that a note of a series starts with. */
static void print_series(uint64_t offset, uint16_t series) { printf("%" PRIu64 " series %u", offset, series); }

/* The series starts, or its next day: at the packet's number, which is from 1 up to FTD_MOST_MESSAGES. */
static void start_day(struct joined *one, uint64_t offset, const struct ftd_packet *packet) {
    struct ftd_kept *kept = &one->end.series[0];

    kept->login = 1;
    kept->dated = packet->dated;
    kept->date = packet->date;
    kept->last = packet->number - 1;
    kept->chain = 0;
    kept->held = kept->pieces = 0;
    one->broken = 0;
    if (want.refused || !wanted_series(packet->series))
        return;
    print_series(offset, packet->series);
    if (packet->dated)
        printf(", trade date %" PRIu32, packet->date);
    printf(": from number %" PRIu32 " on\n", packet->number);
}

static void print_message(const struct joined *one, uint64_t offset, const uint8_t *bytes,
                          const struct ftd_packet *packet, const struct ftd_received *received) {
    int in_buffer = received->origin == FTD_IN_BUFFER;
    const uint8_t *content = (in_buffer ? one->buffer : bytes) + received->content.start;
    uint64_t start = in_buffer ? 0 : offset + received->content.start;
    const struct ftd_kept *kept = &one->end.series[0];
    struct verdict verdict = check(received->tid, content, received->content.len, 1);

    if ((want.refused && verdict.refusal == 0) || !wanted(packet->series, received->tid))
        return;
    printf("%" PRIu64 " message, %zu bytes of content, packets up to %" PRIu64 "\n", in_buffer ? one->start : offset,
           received->content.len, offset + packet->size);
    if (kept->dated)
        printf("    trade date %" PRIu32 "\n", kept->date);
    print_tid(received->tid, verdict.direction);
    printf("    series %u, number %" PRIu32 "%s\n", packet->series, received->last,
           in_buffer ? ", joined; offsets of fields count from the content's first byte" : "");
    print_fields(start, content, received->content.len);
    print_verdict(verdict);
    print_bytes(start, content, received->content.len);
}

/* Where the packet is of a later day, or numbers before it are missing, this is told, and the end starts there. */
static void join_packet(uint64_t offset, const uint8_t *bytes, const struct ftd_packet *packet) {
    struct joined *one = find_joined(packet->series);
    int numbered = packet->number >= 1 && packet->number <= FTD_MOST_MESSAGES;
    struct ftd_kept *kept;
    struct ftd_received received;

    if (one == NULL) {
        status = 1;
        if (!too_many_told && wanted_series(packet->series)) {
            print_series(offset, packet->series);
            printf(": not joined, nor are others from here on; %d series are\n", MOST_JOINED);
            too_many_told = 1;
        }
        return;
    }
    kept = &one->end.series[0];
    if (numbered && (!kept->login || (packet->dated && (!kept->dated || packet->date > kept->date))))
        start_day(one, offset, packet);
    /* What is of an earlier day is refused, and says nothing of this one. */
    if (numbered && packet->number > kept->last + 1 && !(packet->dated && packet->date < kept->date)) {
        status = 1;
        if (wanted_series(packet->series)) {
            print_series(offset, packet->series);
            printf(", numbers %" PRIu32 " to %" PRIu32 ": not there, or not whole\n", kept->last + 1,
                   packet->number - 1);
        }
        kept->last = packet->number - 1;
        kept->chain = 0;
        kept->held = kept->pieces = 0;
    }
    if (packet->chain == 'F')
        one->start = offset;
    if (kept->login) {
        received = ftd_receive(one->end, bytes, packet->size, one->buffer, sizeof one->buffer);
        one->end = received.end;
    } else { /* the series hasn't started, and no number starts it that can't be */
        memset(&received, 0, sizeof received);
        received.answer = FTD_RECEIVE_REFUSED;
        received.refusal = FTD_OUT_OF_LINE;
    }
    switch (received.answer) {
    case FTD_RECEIVE_MESSAGE:
        print_message(one, offset, bytes, packet, &received);
        break;
    case FTD_RECEIVE_AGAIN:
        if (!want.refused && wanted(packet->series, packet->tid)) {
            print_series(offset, packet->series);
            printf(", number %" PRIu32 ", chain %c: again\n", packet->number, packet->chain);
        }
        break;
    case FTD_RECEIVE_REFUSED:
        status = 1;
        if (received.refusal == FTD_BROKEN_CHAIN && one->broken == packet->number)
            break; /* told with an earlier packet of the message */
        if (received.refusal == FTD_BROKEN_CHAIN)
            one->broken = packet->number;
        if (!wanted_series(packet->series))
            break;
        print_series(offset, packet->series);
        printf(", number %" PRIu32 ", chain %c: refused ", packet->number, packet->chain);
        print_refusal(received.refusal);
        putchar('\n');
        print_bytes(offset, bytes, packet->size);
        break;
    default: /* held: a break of the chain from now on is a new one */
        one->broken = 0;
    }
}

/* At the end of a file: the chains that are open. */
static void end_joining(void) {
    size_t i;

    for (i = 0; i < joined_count; i++) {
        const struct ftd_kept *kept = &joined[i].end.series[0];

        if (!kept->chain)
            continue;
        status = 1;
        if (!wanted_series(kept->series))
            continue;
        print_series(joined[i].start, kept->series);
        printf(", number %" PRIu32 ": not whole, %" PRIu32 " packets and %zu bytes of content are there\n",
               kept->last + 1, kept->pieces, kept->held);
    }
    joined_count = 0;
    too_many_told = 0;
}

/* ---- Files ---- */

/* A message of a flow has a series; logins and other messages without one stay as they are. */
static void take(uint64_t offset, const uint8_t *bytes, const struct ftd_packet *packet) {
    if (!want.messages)
        print_packet(offset, bytes, packet);
    else if (packet->answer == FTD_MESSAGE && packet->series != 0)
        join_packet(offset, bytes, packet);
    else if (packet->answer == FTD_MESSAGE)
        print_packet(offset, bytes, packet);
}

/* Reads a capture to its end, or to a packet that is refused. */
static void dump(int file, const char *name) {
    static uint8_t bytes[ROOM];
    uint64_t offset = 0; /* of bytes[0] in the file */
    size_t used = 0, at = 0;
    struct ftd_packet packet;
    ssize_t n;

    do {
        while (at < used && (packet = ftd_read(bytes + at, used - at)).answer != FTD_SHORT) {
            if (packet.answer == FTD_REFUSED) {
                print_refused_packet(offset + at, bytes + at, used - at, packet.refusal);
                end_joining();
                return;
            }
            take(offset + at, bytes + at, &packet);
            at += packet.size;
        }
        memmove(bytes, bytes + at, used - at); /* less than a packet */
        offset += at;
        used -= at;
        at = 0;
        fflush(stdout); /* a live line is shown as it comes */
        do
            n = read(file, bytes + used, sizeof bytes - used);
        while (n < 0 && errno == EINTR);
        if (n > 0)
            used += (size_t)n;
    } while (n > 0);
    if (n < 0)
        complain("%s can't be read: %s", name, strerror(errno));
    if (used > 0) {
        status = 1;
        packet = ftd_read(bytes, used);
        printf("%" PRIu64 " short, %zu bytes, %s%zu missing\n", offset, used, used < 4 ? "at least " : "",
               packet.missing);
        print_bytes(offset, bytes, used);
    } else if (n == 0 && !want.refused) {
        printf("%" PRIu64 " end\n", offset);
    }
    end_joining();
}

/* ---- Options ---- */

static void wrong_option(const char *words, const char *what) {
    fprintf(stderr, "ftddump: %s: %s\n\n%s", what, words, usage_text);
    exit(2);
}

/* A number up to `most`, decimal or with 0x. */
static int read_number(const char *text, unsigned long most, unsigned long *number) {
    int hex = text[0] == '0' && (text[1] == 'x' || text[1] == 'X');
    const char *digits = hex ? text + 2 : text;
    char *end;

    if (digits[0] == '\0' || digits[strspn(digits, hex ? "0123456789abcdefABCDEF" : "0123456789")] != '\0')
        return 0;
    errno = 0;
    *number = strtoul(digits, &end, hex ? 16 : 10);
    return errno == 0 && *number <= most;
}

static int read_tid(const char *text, uint32_t *tid) {
    unsigned long number;
    const char *name;

    if (read_number(text, UINT32_MAX, &number)) {
        *tid = (uint32_t)number;
        return 1;
    }
    if (strncmp(text, "TID_", 4) == 0)
        text += 4;
    for (*tid = 0; *tid <= 0xFFFF; (*tid)++)
        if ((name = ftd_tid_name(*tid)) != NULL && strcmp(name, text) == 0)
            return 1;
    return 0;
}

/* Gives the place of the first argument that is a file. */
static int read_options(int count, char **arguments) {
    unsigned long number;
    int i;

    for (i = 1; i < count && arguments[i][0] == '-' && arguments[i][1] != '\0'; i++) {
        const char *option = arguments[i];
        int takes = strcmp(option, "--series") == 0 || strcmp(option, "--tid") == 0;

        if (strcmp(option, "--") == 0)
            return i + 1;
        if (takes && ++i == count)
            wrong_option("a number is missing behind it", option);
        if (strcmp(option, "--help") == 0) {
            fputs(usage_text, stdout);
            exit(fflush(stdout) == 0 ? 0 : 1);
        } else if (strcmp(option, "--series") == 0) {
            if (!read_number(arguments[i], UINT16_MAX, &number))
                wrong_option("a series is a number up to 65535", arguments[i]);
            want.series = (uint16_t)number;
            want.series_given = 1;
        } else if (strcmp(option, "--tid") == 0) {
            if (!read_tid(arguments[i], &want.tid))
                wrong_option("neither a number of four bytes nor a name of Appendix A", arguments[i]);
            want.tid_given = 1;
        } else if (strcmp(option, "--refused") == 0) {
            want.refused = 1;
        } else if (strcmp(option, "--messages") == 0) {
            want.messages = 1;
        } else if (strcmp(option, "-x") == 0) {
            want.bytes = 1;
        } else {
            wrong_option("no such option", option);
        }
    }
    return i;
}

int main(int count, char **arguments) {
    int first = read_options(count, arguments), several = count - first > 1, i, file;

    if (first == count)
        dump(STDIN_FILENO, "standard input");
    for (i = first; i < count; i++) {
        int standard = strcmp(arguments[i], "-") == 0;

        if (several)
            printf("file %s\n", arguments[i]);
        file = standard ? STDIN_FILENO : open(arguments[i], O_RDONLY);
        if (file < 0) {
            complain("%s can't be opened: %s", arguments[i], strerror(errno));
            continue;
        }
        dump(file, standard ? "standard input" : arguments[i]);
        if (!standard)
            close(file);
    }
    if (fflush(stdout) != 0 || ferror(stdout))
        complain("standard output can't be written: %s", strerror(errno));
    return status;
}
