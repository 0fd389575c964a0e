/* The FTD flow repeater (JR/T 0016-2004) for C and C++: packets, data fields and items, the two ends of a flow, the box
 * that joins them, the trading calendar, the book of a contract; and the frames of JR/T 0087-2012, after FIX 4.2.
 *
 * The library is libftd.a, for x86-64 Linux; README.md has the lines that build and link it. Of other libraries it
 * needs memcpy, memmove and memset alone. It keeps no state, takes no memory from the heap and at most 7500 bytes of
 * stack (ftd_box_receive, ftd_box_receive_several: 14000; ftd_book_take: 22000), makes no system call and always
 * returns: each call has an answer for any bytes and numbers, and is proved to give the answer, the state and every
 * byte of every buffer that its definition says (crates/exports/specs, crates/relay/specs, crates/flow/specs,
 * crates/calendar/specs, crates/book/specs, crates/fix/specs, crates/ftd/specs). As calls share nothing, threads need
 * no lock. examples/driver.c is a driver of both ends, and examples/frames.c a session of frames, to be read along with
 * this header.
 *
 * THE TERMS
 * A flow is a list of messages, numbered from 1 in each series and day. A series is a number from 1 up that both sides
 * know; a day is known by its trade date, any number of four bytes that is higher than that of the day before.
 * A message has a TID, which says what it is, and a content: data fields one behind the other, each with FID (4 bytes,
 * which field it is), length (2 bytes) and that many bytes. The bytes of a field that the standard knows are its items,
 * of fixed widths. All numbers on the line have their high byte first.
 * On the line there are packets: type (1 byte), length of the extension (1), length of the body (2), then extension and
 * body. A message is one packet (chain letter S) or a chain of them (F, C as often as needed, L), all with one number.
 * The extension is a run of tags, each with kind (1 byte), length (1) and that many bytes. Tag 5 is the day's trade
 * date, tag 0x70 the packet's place in its message, from 0 (2 bytes).
 * Up is from member to exchange, down from exchange to member; the messages of flows and login answers are down, login
 * packets are up.
 *
 * THE TWO ENDS
 * The serving end keeps what is published in a log and sends it; it serves one receiving end. The receiving end hands
 * each message on once, in order and whole, wherever lines break and whatever they lose or bring again: any single
 * packet may be lost, repeated or late, and nothing wrong is handed on, as both ends write and compare the packets'
 * places. (From a serving side that writes no places, a line has to bring the packets of a message in their order and
 * none without those before it.) That everything arrives is owed where the packets of a message come in a run: all of
 * them, in their order, with no other call of the receiving end within, as TCP brings them. On each new line:
 *
 *     receiving end                                    serving end
 *     ftd_connect
 *     for each series:
 *       ftd_request_login  ---- login packet ------>   ftd_login
 *       ftd_confirm_login  <--- login answer -------
 *     ftd_receive          <--- message packets ----   ftd_send until FTD_SEND_NONE, and again when more is published
 *
 * On a line that can't take a long message at once, ftd_send_packet sends it packet by packet.
 * Both ends have a call that takes a bufferful: ftd_receive_several all that a line has brought, wherever a read cuts
 * the packets, and ftd_publish_several a run of messages. They do what ftd_receive and ftd_publish do for one after the
 * other.
 *
 * When the line breaks, or a packet on it is refused, close it, open another and start over. The login packet says
 * which number is wanted next, and the serving end goes on there; a message of which only some packets came is sent
 * anew. The serving end doesn't know of lines: send nothing on a new one before ftd_login was called for the series.
 *
 * THE BOX
 * The box joins a receiving end to a serving side with 16 seats. What it takes from above it publishes below, under the
 * same number, and a login answer from above that has a new trade date opens that day below: so it has no call to
 * publish and none to open a day. Towards above its calls are those of the receiving end, towards each seat those of
 * the serving end; at a seat's line stands a receiving end, as above.
 *
 *     exchange               box                                                            seat's end
 *     ftd_login   <---   ftd_box_request_login
 *                 --->   ftd_box_confirm_login  (a new day: all seats have to log in anew)
 *     ftd_send    --->   ftd_box_receive        ftd_box_login   <---   ftd_request_login
 *                                                               --->   ftd_confirm_login
 *                                               ftd_box_send    --->   ftd_receive
 *
 * The seats share the day and the log; each has a place of its own in each series. A seat's calls change its own place
 * and nothing else: no answer and no byte of another seat depends on them, nor of the line from above. Each seat has a
 * line of its own: what ftd_box_login and ftd_box_send write for a seat goes to its end alone, and login packets of
 * that end alone to ftd_box_login for the seat.
 *
 * NAMED PLACES
 * A receiving end can be marked before a line test and returned to afterwards: ftd_keep lays its trade dates and last
 * numbers away under a name, ftd_return brings them back. What was handed on between the two comes once more then.
 * ftd_keep and ftd_return say what a program may count on.
 *
 * RULES OF ALL CALLS
 * Bytes are lent as a pointer and a count. A call reads and writes only within what it is lent, and keeps no pointer.
 * Where the count is 0 the pointer may be null. What a call writes to (output, log, buffer) must not overlap what it
 * reads.
 * A state (struct ftd_sender, struct ftd_receiver, struct ftd_checkpoints, struct ftd_box, struct ftd_calendar, struct
 * ftd_book) is given and answered by value: the caller keeps `end`, `checkpoints`, `box`, `calendar` or `book` of the
 * answer from then on, also of a refusal. It is plain data with no pointer; it may be copied, compared member by member
 * and laid away. Any values of its members are a state. The places of a box's seats are numbers that are lent, and any
 * numbers are places.
 * `refusal` is 0, or a number of enum ftd_refusal: then the call did nothing, state and buffers are as they were (one
 * exception is said at ftd_receive and ftd_box_receive; of a bufferful it is said of the refused packet or record
 * alone). Where more than one refusal applies, the answer is the one that stands first in the call's list below. What
 * an answer doesn't have is 0: of a refusal all but `refusal`, `answer`, `taken`, `expected` and the state.
 */
#ifndef FTD_H
#define FTD_H

#include <stddef.h>
#include <stdint.h>

/* ---- Numbers by name ---- */

/* The refusal table. */
enum ftd_refusal {
    FTD_LONG_EXTENSION = 1,  /* a packet's extension has more than 127 bytes */
    FTD_BROKEN_TAG = 2,      /* tags don't end with the extension, a known tag has a wrong length, tag 0x05 or 0x70
                                stands twice */
    FTD_BODY_LENGTH = 3,     /* a packet of type 1 has a body of 1 to 15 or of more than 4096 bytes */
    FTD_VERSION = 4,         /* a message packet's version isn't 1 */
    FTD_CHAIN_LETTER = 5,    /* a message packet's chain letter isn't S, F, C or L */
    FTD_CONTENT_LENGTH = 6,  /* a message packet's content length isn't that of its body less 16 */
    FTD_FIELD_RUN = 7,       /* the content isn't whole data fields, or not as many as the packet says; content given to
                                a call: also a field of more than 4074 bytes, or too many bytes in all */
    FTD_FIELD_LENGTH = 8,    /* a data field with a known FID has another length than its items together */
    FTD_ITEM = 9,            /* an item is no value of its type; a Date is all spaces, or a real date of the years 1601
                                to 9999 */
    FTD_COMPOSITION = 10,    /* make-up: a data field occurs too seldom or too often for its message; in a login also:
                                another TID than 0x0016, not one packet (S), a start field too many */
    FTD_OPENING = 11,        /* not 1 to 8 differing series from 1 up, a trade date that isn't above the present one,
                                not as many reserves as series, reserves together above the log's length; a receiving
                                end or a box that is open already */
    FTD_NOT_ONE_PACKET = 12, /* not exactly the bytes of one packet; in a login also: no message packet */
    FTD_UNKNOWN_SERIES = 13, /* the series isn't open; ftd_login also: the start field is of another series */
    FTD_NOT_LOGGED_IN = 14,  /* no login of the series */
    FTD_OTHER_DAY = 15,      /* ftd_receive: another trade date than the day's; ftd_confirm_login: a lower one or none;
                                ftd_login: a higher one; the box also: ftd_box_confirm_login with a date below the open
                                day's, ftd_box_receive of a series whose date is below it */
    FTD_OUT_OF_LINE = 16,    /* ftd_receive: number 0, above last + 1 or above 1000000; in a login: series and number of
                                the packet aren't 0 */
    FTD_BROKEN_CHAIN = 17,   /* C or L without its chain; a place (tag 0x70) that isn't the count of the packets held */
    FTD_TOO_SMALL = 18,      /* the output or the reassembly buffer has too few bytes, or a chain too many; ftd_publish:
                                the shares of all series (ftd_sender_open) would pass the log's length */
    FTD_WRONG_START = 19,    /* the login wants number 0, or one above those published and the next */
    FTD_DAMAGED_LOG = 20,    /* the log isn't as the last call left it */
    FTD_DAY_FULL = 21,       /* 1000000 messages are published in the series */
    FTD_QUANTITY = 22,       /* ftd_book_take: a quotation or a match makes a quantity below 0 or above 4294967295 */
    FTD_LEVELS = 23,         /* ftd_book_take: a 65th level of a side */
    FTD_VOLUME = 24,         /* ftd_book_take: a match of a volume above 1000000, or one that makes a sum beyond
                                9000000000000000000 on either side of zero */
    FTD_NO_SEAT = 25,        /* the box: a seat number above 15 */
    FTD_SESSIONS = 26,       /* ftd_set_calendar: more than 8 sessions, one without a second or with an end above 86400,
                                two that overlap, numbers that aren't three for each */
    FTD_HOLIDAY = 27,        /* ftd_set_calendar: more than 32 holidays, or one that isn't a real date */
    FTD_NOT_ONE_FRAME = 28,  /* frames: not exactly the bytes of one whole frame, or a number wrong */
    FTD_REQUIRED_TAG = 29,   /* frames: a required tag missing, it or the flag (43) twice */
    FTD_LOW_NUMBER = 30,     /* ftd_frame_read: a number lower than the expected one, without the flag */
    FTD_WRONG_NAME = 31,     /* ftd_keep, ftd_return: not 1 to 8 letters A to Z */
    FTD_FIFTH_NAME = 32,     /* ftd_keep: the name isn't in use, and four are */
    FTD_UNKNOWN_NAME = 33,   /* ftd_return: the name isn't in use */
    FTD_NOT_PLAIN = 255      /* ftd_write_plain alone: neither a link packet nor a skipped one; not in the table */
};

/* The direction of a message. */
enum ftd_direction {
    FTD_UP = 0,  /* sent by the member */
    FTD_DOWN = 1 /* sent by the exchange */
};

/* Limits. A packet takes at most 4 + 255 + 65535 bytes on the line (65794), a right message packet 4 + 127 + 4096. */
enum ftd_limit {
    FTD_MOST_SERIES = 8,         /* series open at an end */
    FTD_MOST_MESSAGES = 1000000, /* messages of a series and day */
    FTD_MOST_EXTENSION = 127,    /* bytes of a packet's extension */
    FTD_FIELD_CONTENT = 4074,    /* bytes of a data field, without FID and length */
    FTD_PACKET_CONTENT = 4080,   /* content bytes of a packet, so also of the answer that is given to ftd_login */
    FTD_REQUEST_CONTENT = 4068,  /* content bytes given to ftd_request_login, which puts 12 behind them */
    FTD_MOST_CONTENT = 32768,    /* content bytes of a message; bytes of the reassembly buffer for each series */
    FTD_MOST_PACKETS = 17,       /* packets of a message */
    FTD_MOST_PACKET = 4110,      /* bytes of one of them, as ftd_send and ftd_send_packet write it */
    FTD_MOST_OUTPUT = 33278,     /* bytes of all packets of a message: an output that is always large enough */
    FTD_MOST_PIECES = 65536,     /* packets of a chain that are counted */
    FTD_MOST_BYTES = 65794,      /* bytes that a packet can take on the line: room for a bufferful of packets */
    FTD_LOG_HEAD = 16,           /* bytes that a message takes in the log besides its content */
    FTD_RECORD_HEAD = 10,        /* bytes of a record (ftd_publish_several) besides its content */
    FTD_MOST_NAMES = 4,          /* named places of a receiving end */
    FTD_MOST_LETTERS = 8,        /* letters of such a name */
    FTD_SEATS = 16,              /* seats of a box, numbered from 0 */
    FTD_PLACES = 384,            /* numbers of its seats' places: 16 seats, 8 series, three numbers each */
    FTD_MOST_SESSIONS = 8,       /* sessions of a calendar */
    FTD_MOST_HOLIDAYS = 32,      /* holidays of a calendar */
    FTD_CODE = 10,               /* bytes of a contract's code */
    FTD_MOST_LEVELS = 64,        /* levels of a side of a book */
    FTD_MOST_VOLUME = 1000000,   /* volume of a match */
    FTD_MOST_FRAME = 4096,       /* bytes of a frame: an output that is always large enough */
    FTD_MOST_NUMBER = 999999999  /* value of a number in a frame, and of a tag */
};

/* The side of a book, by the numbers of the item Direction of a quotation. */
enum ftd_side {
    FTD_BUYING = 0, /* from the highest price */
    FTD_SELLING = 1 /* from the lowest price */
};

/* A part of lent bytes. */
struct ftd_span {
    size_t start; /* where it starts: bytes[start] is its first byte */
    size_t len;   /* how many bytes it has */
};

/* What a writer wrote. */
struct ftd_written {
    size_t bytes;    /* how many bytes stand at the start of the output; what stood behind them is still there */
    uint8_t refusal; /* 0, or why nothing was written */
};

/* ---- Packets ---- */

/* What some bytes are. */
enum ftd_answer {
    FTD_SHORT = 0,   /* the front of a packet: bytes are missing, see missing */
    FTD_LINK = 1,    /* a link packet: type 0 or 1 with no body, as a heartbeat */
    FTD_SKIPPED = 2, /* a packet of type 2 or higher, or of type 0 with a body: to be passed over */
    FTD_MESSAGE = 3, /* a message packet: type 1 with a body */
    FTD_REFUSED = 4  /* wrong bytes: see refusal */
};

/* A packet that was read; places count from its first byte. The words in front say which answers have the member. */
struct ftd_packet {
    size_t size;               /* link, skipped, message: bytes of the whole packet; the next one starts behind them */
    size_t missing;            /* short: how many bytes are certainly missing, 1 to 65662; the packet has them all */
    struct ftd_span extension; /* link, skipped, message: its extension */
    struct ftd_span content;   /* message: its content; skipped: its body */
    uint32_t tid;              /* message: TID */
    uint32_t number;           /* message: its number in the series; 0 in a login */
    uint32_t date;             /* link, message: the trade date (tag 5 of the extension), where dated is 1 */
    uint16_t series;           /* message: series; 0 in a login */
    uint16_t fields;           /* message: how many data fields the packet has */
    uint16_t place;            /* link, message: the place in its message (tag 0x70), where placed is 1 */
    uint8_t answer;            /* enum ftd_answer */
    uint8_t refusal;           /* refused: 1 to 7 */
    uint8_t kind;              /* link, skipped, message: the type */
    uint8_t chain;             /* message: the letter 'S', 'F', 'C' or 'L' */
    uint8_t dated;             /* link, message: 1 where there is a trade date */
    uint8_t placed;            /* link, message: 1 where there is a place */
};

/* A trade date. */
struct ftd_date {
    uint32_t date;
    uint8_t dated; /* 1: there is one */
};

/* What all packets of a message bear. */
struct ftd_message {
    uint32_t tid;
    uint32_t number;
    uint32_t date; /* written as tag 5, the only tag, unless dated is 0 */
    uint16_t series;
    uint8_t dated; /* 0: no trade date, and no extension */
};

/* What a message takes on the line. */
struct ftd_size {
    size_t packets;
    size_t bytes;    /* of all packets together */
    uint8_t refusal; /* 0, or FTD_FIELD_RUN */
};

/* ---- Data fields and items ---- */

/* A data field. */
struct ftd_field {
    size_t start; /* where its bytes start, without FID and length */
    size_t len;   /* how many they are */
    uint32_t fid;
    uint8_t found; /* 0: there is none */
};

/* A data field at a place that the caller knows. */
struct ftd_step {
    size_t len; /* how many bytes it has, without FID and length */
    uint32_t fid;
    uint8_t found; /* 0: there is none */
};

/* The kinds of an item's value. Text is any bytes from 0x20 up but 0x7F, as the market's character set has them. */
enum ftd_kind {
    FTD_NO_ITEM = 0,  /* no item with that number, or its bytes aren't all there */
    FTD_NO_VALUE = 1, /* its bytes are no value of its type */
    FTD_CHAR = 2,     /* value: 0 to 255 */
    FTD_WORD = 3,     /* value: 0 to 65535 */
    FTD_INT = 4,      /* value: 0 to 4294967295 */
    FTD_TEXT = 5,     /* a String: start, len */
    FTD_NUMBER = 6,   /* value, negative */
    FTD_FLOAT = 7,    /* value, negative; value counts units of the item's last decimal place: 12.50 is 1250 */
    FTD_DAY = 8,      /* a Date: year, month, day, a real date */
    FTD_UNUSED = 9    /* a Date of spaces */
};

/* An item's value. A member that the kind doesn't name is 0 when read, and not looked at when written. */
struct ftd_item {
    size_t start;     /* where the text starts in the field's bytes; when written, not looked at */
    size_t len;       /* how many bytes it has without trailing spaces; when written, not looked at */
    uint64_t value;   /* without the sign */
    uint16_t year;    /* 1601 to 9999 */
    uint8_t month;    /* 1 to 12 */
    uint8_t day;      /* 1 to the month's length, 29 February in leap years alone */
    uint8_t kind;     /* enum ftd_kind; when written, any other number is FTD_NO_VALUE */
    uint8_t negative; /* 1: below zero; when written, any number but 0 */
};

/* The start field of a content (FID 4): the series and the next number that a login wants. */
enum ftd_start {
    FTD_NO_START = 0,     /* it has none */
    FTD_START = 1,        /* it has one */
    FTD_BAD_START = 2,    /* it has one, of another length than six bytes */
    FTD_SEVERAL_START = 3 /* it has more than one */
};

struct ftd_resume {
    uint32_t number; /* the next number wanted */
    uint16_t series;
    uint8_t answer; /* enum ftd_start; series and number are 0 where it isn't FTD_START */
};

/* The mode of a message (Appendix A). */
enum ftd_mode {
    FTD_UNKNOWN = 0, /* no message of the standard */
    FTD_PRIVATE = 1,
    FTD_BROADCAST = 2,
    FTD_MANAGEMENT = 3, /* of flows: login and the like */
    FTD_DIALOG = 4
};

/* ---- The serving end: state and answers ---- */

/* A series that is served. */
struct ftd_served {
    uint64_t next;      /* the number that is sent next, where logged in */
    uint64_t piece;     /* how many packets of that message ftd_send_packet has written; 0: none is under way */
    size_t reserve;     /* bytes of the log that the day's opening has reserved for the series */
    size_t used;        /* bytes of the log that its messages have, with FTD_LOG_HEAD for each */
    uint32_t published; /* how many messages were published, so the last one's number */
    uint16_t series;
    uint8_t login; /* not 0: logged in */
};

struct ftd_sender {
    size_t used;                               /* bytes of the log in use, from its start; of all series together */
    struct ftd_served series[FTD_MOST_SERIES]; /* the first `count` are open, in the opening's order */
    size_t count;
    uint32_t date; /* the day's trade date, unless dated is 0 */
    uint8_t dated;
};

struct ftd_sender_opened {
    struct ftd_sender end;
    uint8_t refusal;
};

struct ftd_published {
    struct ftd_sender end;
    uint32_t number; /* the message's number */
    uint8_t refusal;
};

/* What a bufferful comes to. Message and refused have the numbers of enum ftd_receive_answer. */
enum ftd_several_answer {
    FTD_SEVERAL_END = 0,     /* all bytes are taken */
    FTD_SEVERAL_SHORT = 1,   /* of what isn't taken bytes are missing: see missing */
    FTD_SEVERAL_MESSAGE = 3, /* ftd_receive_several alone: a message is handed on */
    FTD_SEVERAL_REFUSED = 4  /* a packet or a record is refused: see refusal */
};

struct ftd_published_several {
    struct ftd_sender end;
    size_t taken;    /* bytes taken, from the first on: those of all records up to the refused one, and with it */
    size_t missing;  /* short: how many bytes of the next record are certainly missing */
    uint8_t answer;  /* enum ftd_several_answer */
    uint8_t refusal; /* refused: why */
};

struct ftd_logged_in {
    struct ftd_sender end;
    size_t bytes; /* how many were written: the login answer, one packet */
    uint8_t refusal;
};

enum ftd_send_answer {
    FTD_SEND_NONE = 0,    /* all that is published has been sent; nothing was written */
    FTD_SEND_MESSAGE = 1, /* a message's packets were written */
    FTD_SEND_REFUSED = 2  /* see refusal */
};

struct ftd_sent {
    struct ftd_sender end;
    size_t bytes;    /* message: how many were written, all packets together */
    uint32_t number; /* message: its number */
    uint8_t answer;  /* enum ftd_send_answer */
    uint8_t refusal;
};

/* Of one packet; FTD_SEND_MESSAGE: the packet was written. */
struct ftd_sent_packet {
    struct ftd_sender end;
    size_t bytes;    /* message: how many were written, one packet */
    uint32_t number; /* message: its number */
    uint8_t answer;  /* enum ftd_send_answer */
    uint8_t refusal;
    uint8_t last; /* message: 1 where the packet is its last one, and the series has stepped on */
};

/* ---- The receiving end: state and answers ---- */

/* What is kept of a series. Trade date and last number outlast the line; the rest is of this line. */
struct ftd_kept {
    size_t held;     /* content bytes of the open chain that the reassembly buffer holds */
    uint32_t date;   /* the day's trade date, unless dated is 0: no login was confirmed yet */
    uint32_t last;   /* the number of the last message that was handed on in the day, 0 at first */
    uint32_t tid;    /* of the open chain */
    uint32_t pieces; /* packets of the open chain, counted up to 65536; 0 where none is open */
    uint16_t series;
    uint8_t dated;
    uint8_t login; /* not 0: logged in */
    uint8_t chain; /* not 0: a chain is open */
};

struct ftd_receiver {
    struct ftd_kept series[FTD_MOST_SERIES]; /* the first `count` are open, in the opening's order */
    size_t count;                            /* 0: not opened yet */
};

struct ftd_receiver_opened {
    struct ftd_receiver end;
    uint8_t refusal;
};

struct ftd_confirmed {
    struct ftd_receiver end;
    uint32_t last; /* the series' last number: 0 on a new day */
    uint8_t refusal;
};

enum ftd_receive_answer {
    FTD_RECEIVE_IDLE = 0,    /* a link packet or a skipped one: nothing to do */
    FTD_RECEIVE_AGAIN = 1,   /* a packet of a message that was handed on before: nothing to do */
    FTD_RECEIVE_HELD = 2,    /* a packet of a chain, not its last: held in the reassembly buffer */
    FTD_RECEIVE_MESSAGE = 3, /* a message is handed on */
    FTD_RECEIVE_REFUSED = 4  /* see refusal */
};

enum ftd_origin {
    FTD_IN_PACKET = 0, /* the content lies in the packet, or the packets, given */
    FTD_IN_BUFFER = 1  /* the content lies in the reassembly buffer */
};

struct ftd_received {
    struct ftd_receiver end;
    struct ftd_span content; /* message: where its content lies, from the first byte of the packet or of the buffer */
    uint32_t last;           /* again, held, message: the series' last number; of a message its own */
    uint32_t tid;            /* message: TID */
    uint8_t answer;          /* enum ftd_receive_answer */
    uint8_t origin;          /* message: enum ftd_origin, which of the two holds the content */
    uint8_t refusal;
};

struct ftd_received_several {
    struct ftd_receiver end;
    struct ftd_span content; /* message: where its content lies, from the first byte of this call's packets or of the
                                buffer */
    size_t taken;            /* bytes taken, from the first on: the packets up to the message or refusal, and with it */
    size_t missing;          /* short: how many bytes of the next packet are certainly missing, 1 to 65790 */
    uint32_t last;           /* message: its number */
    uint32_t tid;            /* message: TID */
    uint8_t answer;          /* enum ftd_several_answer */
    uint8_t origin;          /* message: enum ftd_origin, which of the two holds the content */
    uint8_t refusal;         /* refused: why */
};

/* ---- Named places of a receiving end: state and answers ---- */

/* What a checkpoint keeps of a series. */
struct ftd_checkpoint_series {
    uint32_t date; /* the trade date, unless dated is 0 */
    uint32_t last; /* the last number */
    uint16_t series;
    uint8_t dated;
};

/* One place: what a receiving end kept when it was given the name. */
struct ftd_checkpoint {
    uint64_t name; /* its letters as one number, the first in the lowest byte: "AB" is 0x4241; 0: none */
    size_t count;  /* how many series were open; 0: the end wasn't opened yet. Above 8 it counts as 8 */
    struct ftd_checkpoint_series series[FTD_MOST_SERIES]; /* the first `count` count, in the opening's order */
};

/* Of one receiving end, beside its state: no other call reads or changes it. 456 bytes. */
struct ftd_checkpoints {
    size_t count;                                 /* how many names are in use; above 4 it counts as 4 */
    struct ftd_checkpoint places[FTD_MOST_NAMES]; /* the first `count`, in the order in which the names came first; of
                                                     equal names, which no call leaves, the first place counts */
};

/* What ftd_keep leaves. */
struct ftd_kept_step {
    struct ftd_checkpoints checkpoints;
    uint8_t refusal;
};

/* What ftd_return leaves. */
struct ftd_returned {
    struct ftd_receiver end;
    uint8_t refusal;
};

/* ---- The box: state and answers ---- */

/* A series of the day that is open below. */
struct ftd_day_series {
    size_t reserve;     /* bytes of the log that are reserved for the series */
    size_t used;        /* bytes of the log that its messages have, with FTD_LOG_HEAD for each */
    uint32_t published; /* how many messages were published below, so the last one's number */
    uint16_t series;
};

/* The day that is open below, the same for all seats. */
struct ftd_day {
    size_t used;                                   /* bytes of the log in use, from its start */
    struct ftd_day_series series[FTD_MOST_SERIES]; /* the first `count` are open, in the order of the box's opening */
    size_t count;
    uint32_t date; /* the day's trade date, unless dated is 0: no day was opened yet */
    uint8_t dated;
};

/* Besides, the caller keeps the seats' places, FTD_PLACES numbers of eight bytes: seat by seat, for each the series in
 * the day's order, for each of these three numbers: not 0 where the seat is logged in; the number that is sent next;
 * how many packets of that message ftd_box_send_packet has written. The place of seat t and series i, both counted from
 * 0, starts at number 24 * t + 3 * i. All 0: nobody is logged in; so they have to be for a fresh box. A call sets the
 * three numbers of one place, or all of them to 0, or none; the others stay as they are. */
struct ftd_box {
    struct ftd_receiver receiver;     /* towards above */
    size_t reserves[FTD_MOST_SERIES]; /* of its series, in their order */
    struct ftd_day day;
};

struct ftd_box_opened {
    struct ftd_box box;
    uint8_t refusal;
};

struct ftd_box_confirmed {
    struct ftd_box box;
    uint32_t last; /* the series' last number: 0 on a new day */
    uint8_t refusal;
};

/* As struct ftd_received. */
struct ftd_box_received {
    struct ftd_box box;
    struct ftd_span content; /* message: where its content lies, from the first byte of the packet or of the buffer */
    uint32_t last;           /* again, held, message: the series' last number; of a message its own */
    uint32_t tid;            /* message: TID */
    uint8_t answer;          /* enum ftd_receive_answer */
    uint8_t origin;          /* message: enum ftd_origin, which of the two holds the content */
    uint8_t refusal;
};

/* As struct ftd_received_several. */
struct ftd_box_received_several {
    struct ftd_box box;
    struct ftd_span content; /* message: where its content lies, from the first byte of this call's packets or of the
                                buffer */
    size_t taken;            /* bytes taken, from the first on: the packets up to the message or refusal, and with it */
    size_t missing;          /* short: how many bytes of the next packet are certainly missing, 1 to 65790 */
    uint32_t last;           /* message: its number */
    uint32_t tid;            /* message: TID */
    uint8_t answer;          /* enum ftd_several_answer */
    uint8_t origin;          /* message: enum ftd_origin, which of the two holds the content */
    uint8_t refusal;         /* refused: why */
};

/* The box stays as it is, and isn't answered; of the places those of the seat and series alone change. */
struct ftd_box_sent {
    size_t bytes;    /* message: how many were written, all packets together */
    uint32_t number; /* message: its number */
    uint8_t answer;  /* enum ftd_send_answer */
    uint8_t refusal;
};

/* Of one packet; FTD_SEND_MESSAGE: the packet was written. */
struct ftd_box_sent_packet {
    size_t bytes;    /* message: how many were written, one packet */
    uint32_t number; /* message: its number */
    uint8_t answer;  /* enum ftd_send_answer */
    uint8_t refusal;
    uint8_t last; /* message: 1 where the packet is its last one, and the seat has stepped on */
};

/* ---- The order of two serving ends ---- */

enum ftd_order_answer {
    FTD_ORDER_SAME = 0,         /* the same messages, none among them too */
    FTD_ORDER_FIRST_START = 1,  /* the first has fewer, and those are the second's first ones */
    FTD_ORDER_SECOND_START = 2, /* the second has fewer, and those are the first's first ones */
    FTD_ORDER_DIFFER = 3,       /* both have a message of a number, and these have another TID or content */
    FTD_ORDER_REFUSED = 4
};

struct ftd_order {
    uint32_t number; /* differ: the first such number */
    uint8_t answer;  /* enum ftd_order_answer */
    uint8_t refusal;
};

/* ---- The trading calendar: state and answers ---- */

/* A session is three numbers: its first second of the day, its last, and 0, or any other number where it is late. It
 * runs from the first second up to but without the last, so that 32400, 36900 is 9:00:00 to 10:14:59; the last is at
 * most 86400, and no session runs over midnight. A holiday is a date as the number YYYYMMDD: 20240101. */
struct ftd_calendar {
    uint32_t sessions[3 * FTD_MOST_SESSIONS]; /* three numbers each; an unused place is 0, 0, 0 */
    uint32_t holidays[FTD_MOST_HOLIDAYS];     /* an unused place is 0 */
};

struct ftd_calendar_step {
    struct ftd_calendar calendar;
    uint8_t refusal;
};

/* What a time is. */
struct ftd_trade_time {
    uint32_t date;  /* inside: the trade date, YYYYMMDD */
    uint8_t inside; /* 1: inside a session; 0: outside */
};

/* ---- The book of a contract: state and answers ---- */

/* A price level of a side. */
struct ftd_level {
    int64_t price;     /* in units of 0.0001: 123.4500 is 1234500 */
    uint32_t quantity; /* 0: the place isn't used */
};

/* The levels of a side stand in the places from 0 on, best first, no two at one price; the places behind them are 0, 0.
 * 2080 bytes. */
struct ftd_book {
    uint8_t code[FTD_CODE];                    /* the contract's; ten bytes 0 before ftd_book_start */
    struct ftd_level buying[FTD_MOST_LEVELS];  /* from the highest price */
    struct ftd_level selling[FTD_MOST_LEVELS]; /* from the lowest price */
    int64_t turnover;                          /* the sum of price times volume over the matches, in units of 0.0001 */
    int64_t volume;                            /* the sum of their volumes */
};

struct ftd_book_step {
    struct ftd_book book;
    uint8_t refusal;
};

/* What stands at a place of a side. */
struct ftd_listed {
    int64_t price; /* in units of 0.0001 */
    uint32_t quantity;
    uint8_t found; /* 0: there is no level */
};

/* The mean match price. */
struct ftd_mean {
    int64_t price; /* in units of 0.0001 */
    uint8_t found; /* 0: there is none */
};

/* ---- Frames of JR/T 0087: answers ---- */

/* How a frame is judged by its number (tag 34). */
enum ftd_frame_answer {
    FTD_FRAME_REFUSED = 0, /* see refusal; the expected number stays */
    FTD_FRAME_NEXT = 1,    /* the expected number: it is one higher then */
    FTD_FRAME_AGAIN = 2,   /* a lower number with the flag 43=Y: sent again. The expected number stays */
    FTD_FRAME_GAP = 3,     /* a higher number: the ones from the expected one on are missing. It stays */
    FTD_FRAME_RESET = 4    /* a sequence reset that isn't a gap fill, whatever its number. It stays: see `first` */
};

/* The type of a message (tag 35): one of the six that are looked into, or another. */
enum ftd_frame_kind {
    FTD_FRAME_OTHER = 0,
    FTD_FRAME_HEARTBEAT = 1,      /* "0" */
    FTD_FRAME_TEST_REQUEST = 2,   /* "1" */
    FTD_FRAME_RESEND_REQUEST = 3, /* "2" */
    FTD_FRAME_SEQUENCE_RESET = 4, /* "4" */
    FTD_FRAME_LOGOUT = 5,         /* "5" */
    FTD_FRAME_LOGON = 6           /* "A" */
};

/* A frame that was read; places count from its first byte. Of a refusal all but `expected` and `refusal` is 0. */
struct ftd_reading {
    struct ftd_span name;   /* the type's text */
    struct ftd_span fields; /* the fields behind the type and before the checksum: a run, for the calls below */
    struct ftd_span text;   /* the text of `first`'s tag; 0, 0 where the type has none */
    uint32_t expected;      /* the number that is expected then */
    uint32_t number;        /* the frame's number (34) */
    uint32_t first;         /* resend request: its first number (7); sequence reset: the new number (36); logon: the
                               encryption (98); test request: 112 where it is a number, and see `text`; else 0 */
    uint32_t second;        /* resend request: its last number (16), 0 for all that follow; logon: the heartbeat's
                               seconds (108); else 0 */
    uint8_t answer;         /* enum ftd_frame_answer */
    uint8_t refusal;        /* refused: 28, 29 or 30 */
    uint8_t kind;           /* enum ftd_frame_kind */
    uint8_t fill;           /* 1: a field says 123=Y; of a sequence reset: it is a gap fill */
};

/* A field of a run. */
struct ftd_tagged {
    size_t start;  /* where its text starts in the run */
    size_t len;    /* how many bytes it has, at least one */
    uint32_t tag;  /* 1 to 999999999 */
    uint8_t found; /* 0: there is none */
};

/* A text as a number. */
struct ftd_number {
    uint32_t number;
    uint8_t found; /* 0: it is none */
};

#ifdef __cplusplus
extern "C" {
#endif

/* ---- Packets ---- */

/* Reads the packet at the front of the bytes. Bytes behind it aren't looked at, so a run of packets is read by going on
 * by `size`. In a message packet the content is checked to be whole data fields (7), items aren't looked at.
 * Refusals: 1, 3, 2, 4, 5, 6, 7.
 *
 * FTD_SHORT says how many bytes are certainly missing: up to the fourth byte, and with the four up to the packet's end. With
 * fewer more it is short again; so many more never reach into the next packet, and with the four there they are enough. So
 * a driver that begins with no bytes and always reads `missing` more needs two reads a packet, 4 bytes and then the rest
 * (one where the four are the packet, or are refused), and never holds a byte of the next packet. */
struct ftd_packet ftd_read(const uint8_t *bytes, size_t count);

/* How many bytes the packet at the front of the bytes takes in all, as its first four say: 4 to 65794; 0 where count is
 * below 4. Nothing else is looked at. */
size_t ftd_said_length(const uint8_t *bytes, size_t count);

/* Of the bytes of a packet's extension: the first trade date (tag 5), where it has four bytes; and 1 where there is the
 * keep-alive tag (tag 4), else 0. Tags are walked from the front as far as they are whole. */
struct ftd_date ftd_trade_date(const uint8_t *extension, size_t count);
uint8_t ftd_keep_alive(const uint8_t *extension, size_t count);

/* How many packets a message with this content takes, and how many bytes in all. Refusal: 7 (not whole data fields of
 * at most 4074 bytes, or more than FTD_MOST_CONTENT in all). */
struct ftd_size ftd_message_size(struct ftd_message message, const uint8_t *content, size_t count);

/* Writes all packets of the message, one behind the other, to the start of the output, without places: for other
 * programs, ftd_send writes its own. Refusals: 7 (as above), 18. */
struct ftd_written ftd_write_message(struct ftd_message message, const uint8_t *content, size_t count,
                                     uint8_t *output, size_t room);

/* Writes a link packet (type `kind` 0 or 1, no body) or a skipped one (type 0 with a body, any other type) to the start
 * of the output: type, lengths, the extension's bytes, the body's. `count` is the body's.
 * Refusals: 1, 3, FTD_NOT_PLAIN (type 1 with a body of 16 to 4096, another type with one of more than 65535), 2 (not of
 * a skipped packet), 18. */
struct ftd_written ftd_write_plain(uint8_t kind, const uint8_t *extension, size_t extension_len,
                                   const uint8_t *body, size_t count, uint8_t *output, size_t room);

/* ---- Data fields and items ---- */

/* Data field i, counted from 0, of the message packet at the front of the bytes; its start counts from the packet's
 * first byte. None from the packet's field count on, and none where the bytes are no message packet. Each call reads
 * the packet anew; to walk all fields use ftd_field_at. */
struct ftd_field ftd_find_field(const uint8_t *bytes, size_t count, size_t i);

/* The data field at place `at` of a content (of a packet or of a whole message): its bytes start at `at` + 6, the next
 * field at `at` + 6 + len. None where no whole field stands there, as at the content's end. All fields:
 *     for (at = 0; (step = ftd_field_at(content, count, at)).found; at += 6 + step.len) */
struct ftd_step ftd_field_at(const uint8_t *content, size_t count, size_t at);

/* Writes a data field, FID, length and bytes, to the start of the output. The items aren't checked.
 * Refusals: 7 (more than 4074 bytes), 18. */
struct ftd_written ftd_write_field(uint32_t fid, const uint8_t *bytes, size_t count, uint8_t *output, size_t room);

/* The content check for a message: 0, or the first refusal of 7, 8, 9, 10. direction: enum ftd_direction, any number
 * but 0 is down. limit: the most bytes that the content may have (7): FTD_MOST_CONTENT for a message,
 * FTD_PACKET_CONTENT for a packet, FTD_REQUEST_CONTENT for a login packet that still has to take a start field.
 * Of a TID that the standard doesn't have in that direction the make-up (10) isn't checked, of such a FID neither 8 nor
 * 9. */
uint8_t ftd_check(uint32_t tid, uint8_t direction, const uint8_t *content, size_t count, size_t limit);

/* Item i, counted from 0, of a field with that FID, in the field's bytes (without FID and length). Bytes behind the
 * item may be missing. Which items a field has, of which types and widths: Appendix D, crates/ftd/specs/Table.antt. */
struct ftd_item ftd_read_item(uint32_t fid, size_t i, const uint8_t *field, size_t count);

/* Writes a value as item i of a field with that FID to the start of the output: as many bytes as the item has, a text
 * with spaces behind it, a number with zeros in front. The text of FTD_TEXT is lent beside the value; of other kinds it
 * isn't looked at. Items written one behind the other from 0 on are the field's bytes.
 * Refusals: 9 (no such item, a kind that isn't the item's, or a value that it can't have: too long, not in its
 * enumeration, a text with a trailing space), 18. */
struct ftd_written ftd_write_item(uint32_t fid, size_t i, struct ftd_item value, const uint8_t *text, size_t count,
                                  uint8_t *output, size_t room);

/* The mode of the message with that TID: enum ftd_mode. */
uint8_t ftd_mode_of(uint32_t tid);

/* The start field (FID 4) of a content, looked for as far as its fields are whole. A serving side learns here which
 * series a login packet is for. */
struct ftd_resume ftd_find_resume(const uint8_t *content, size_t count);

/* Writes the start field, 12 bytes with FID and length, to the start of the output. Refusal: 18.
 * (ftd_request_login does so by itself.) */
struct ftd_written ftd_write_resume(uint16_t series, uint32_t number, uint8_t *output, size_t room);

/* ---- The serving end ---- */

/* An end with no series, no day and no login. */
struct ftd_sender ftd_sender_fresh(void);

/* Opening of a day: a trade date above the present one, if any, and 1 to 8 differing series from 1 up, in any order. It
 * empties log and logins (the log's bytes stay, and are overwritten). `count` is how many series are lent.
 * Each series has a reserve in bytes of the log, in the series' order; `reserve_count` is `count`. Together they are at
 * most `log_len`. The log is only measured: not a byte of it is read or changed.
 *
 * A series' share of the log is the larger of its bytes used and its reserve, and what is published may not bring the
 * shares of all series together above the log's length (18). So what is reserved for a series can't be filled by the
 * others: a message that keeps its series within its reserve is never refused with 18, however much the others publish.
 * That holds while every call is lent a log of one length, that of the opening; in a shorter one, or where the others
 * have filled one that was longer for a while, it doesn't. Beyond its reserve a series takes what no other series has
 * reserved or used. Reserves say nothing of where a message lies in the log. With reserves of 0 it is as it was without
 * them: whichever series publishes first fills the log.
 *
 * What to reserve: for the private flow, whose trade returns must not be turned down because quotations have filled the
 * log, as many messages as are expected on the day at most, times the bytes of a content and FTD_LOG_HEAD. For the
 * quotations 0, and a log that has room for them besides.
 * Refusal: 11. */
struct ftd_sender_opened ftd_sender_open(struct ftd_sender end, uint32_t date, const uint16_t *series, size_t count,
                                         const size_t *reserves, size_t reserve_count,
                                         const uint8_t *log, size_t log_len);

/* Publish: the message gets the next number of its series, and goes into the log behind the used part, FTD_LOG_HEAD
 * bytes more than its content. All series share one log; every call is lent the same bytes, as the last call left them
 * (the log may be moved or lengthened in between). The content is checked as one that is sent down; the fields that a
 * message needs: Appendix E, crates/ftd/specs/Composition.antt.
 * Refusals: 7, 8, 9, 10, 13, 20, 18 (with the message the shares of all series, see ftd_sender_open, would be above the
 * log's length, or it doesn't fit behind `used`), 21. */
struct ftd_published ftd_publish(struct ftd_sender end, uint16_t series, uint32_t tid,
                                 const uint8_t *content, size_t count, uint8_t *log, size_t log_len);

/* Publish for several: as ftd_publish for each of the records, which stand one behind the other. A record is series (2
 * bytes), TID (4), length of the content (4), each with its high byte first, and the content.
 * The call goes on until all records are in (FTD_SEVERAL_END), one is refused, or bytes of the last one are missing. A
 * refused record is taken, those before it are in and stay so, those behind it aren't looked at: call again with what
 * isn't taken, or drop it. A short rest isn't taken; call again with it and more behind it. Short comes before any
 * refusal: a length above FTD_MOST_CONTENT is short until all its bytes are there, and then refused with 7. With no
 * bytes the answer is the end, whatever the log. The numbers that the messages got follow from `published` of their
 * series.
 * Refusals: those of ftd_publish. */
struct ftd_published_several ftd_publish_several(struct ftd_sender end, const uint8_t *records, size_t count,
                                                 uint8_t *log, size_t log_len);

/* Login: takes the login packet of a receiving end (ftd_request_login) for a series (ftd_find_resume tells which), and
 * writes the answer, one packet with the given content, to the output. The content is an RspUserLoginField (FID
 * 0x0027), with an ErrorField (0x0005) or unlisted ones if wanted; FTD_PACKET_CONTENT bytes at most. The output needs
 * 26 bytes more than the content.
 * Then ftd_send goes on at the number that the packet's start field asks for: at 1 where it has none, or where the
 * packet's trade date is below the day's. A series that is logged in may log in again.
 * Refusals: 12, 1, 2, 4, 5, 6, 7, 8, 9, 10, 13, 15, 16, 18, 19; 7 to 10 are of the packet and of the content. */
struct ftd_logged_in ftd_login(struct ftd_sender end, uint16_t series, const uint8_t *packet, size_t packet_len,
                               const uint8_t *content, size_t count, uint8_t *output, size_t room);

/* Send: writes all packets of the series' next message to the output, one behind the other, and steps on. Each has the
 * day's trade date (tag 5) and behind it its place in the message (tag 0x70), and takes 30 bytes more than its content.
 * An output of FTD_MOST_OUTPUT bytes is always enough. The log is read from its start up to the message, so that one
 * far behind takes longer.
 * Refusals: 13, 14, then FTD_SEND_NONE where nothing is left, 20, 18. */
struct ftd_sent ftd_send(struct ftd_sender end, uint16_t series, const uint8_t *log, size_t log_len,
                         uint8_t *output, size_t room);

/* Send, one packet: writes the next packet of the series' next message to the output; with the message's last packet
 * the series steps on. The packets are those that ftd_send writes for the message, and how many of them are written
 * stands in the state (`piece`). For a line that can't take a long message at once:
 *
 *     whenever the socket takes more: write what is left of the packet; where nothing is left, call for the next one
 *
 * An output of FTD_MOST_PACKET bytes is never too small. Messages may be published between two packets: those still to
 * come stay the same. Each series has its own message under way, and a message of one packet is sent at once.
 * A ftd_login of the series, a ftd_sender_open and a ftd_send of the series end the message under way, and something
 * starts anew: behind a login its message, with the first packet, and ftd_send writes the message whole, from the first
 * packet on, whatever was written of it before. A refused call ends nothing. So two rules for a driver: write nothing
 * else of the series between two packets of a message, and when the line breaks don't go on with the rest on the next
 * one, but with a login. FTD_SEND_NONE isn't answered while the last message is under way.
 * Each call reads the log from its start up to the message, as ftd_send does.
 * Refusals: 13, 14, then FTD_SEND_NONE where nothing is left, 20 (also: the message, altered in the log, has no such
 * packet any more), 18 (this packet alone counts). */
struct ftd_sent_packet ftd_send_packet(struct ftd_sender end, uint16_t series, const uint8_t *log, size_t log_len,
                                       uint8_t *output, size_t room);

/* ---- The receiving end ---- */

/* An end with no series. */
struct ftd_receiver ftd_receiver_fresh(void);

/* Opening: 1 to 8 differing series from 1 up, in any order, once for the end's life; days come with the login answers.
 * `count` is how many series are lent. Refusal: 11. */
struct ftd_receiver_opened ftd_receiver_open(struct ftd_receiver end, const uint16_t *series, size_t count);

/* Connect: a new line. Login and open chain of all series are cleared; trade dates and last numbers stay. */
struct ftd_receiver ftd_connect(struct ftd_receiver end);

/* Ask: writes the login packet of a series to the output: the given content and, behind it, the start field for the
 * number after the last. The content is a ReqUserLoginField (FID 0x0023), with unlisted fields if wanted, and no start
 * field; FTD_REQUEST_CONTENT bytes at most. The output needs at most 38 bytes more than the content. The end stays as
 * it is, and isn't answered.
 * Refusals: 7, 8, 9, 10, 13, 18. */
struct ftd_written ftd_request_login(struct ftd_receiver end, uint16_t series, const uint8_t *content, size_t count,
                                     uint8_t *output, size_t room);

/* Answer: takes the serving end's answer to the login packet of that series: the message packet with TID 0x0016 (it
 * doesn't say which series it is for; answers come in the order of the login packets). A higher trade date than the
 * kept one starts a new day, with last number 0; an equal one goes on behind the last.
 * Refusals: 12, 1, 2, 4, 5, 6, 7, 8, 9, 10, 13, 15, 16. */
struct ftd_confirmed ftd_confirm_login(struct ftd_receiver end, uint16_t series,
                                       const uint8_t *packet, size_t packet_len);

/* Receive: takes one packet, any but a login answer (of which it says 13). The reassembly buffer has FTD_MOST_CONTENT
 * bytes for each series, in the opening's order; every call is lent the same one, as the last call left it.
 * A message that is handed on has its number in `last`; its series is that of the packet (ftd_read). Its content stays
 * where it is until the caller overwrites the packet, or until the next call with the buffer.
 * Of a packet with the number wanted next its place, if it bears one, is compared with the packets held: 0 for S and F,
 * those of the open chain for C and L. So the first packet behind a lost one is refused with 17, as is one that comes
 * again or late; the chain is gone then, and the message has to come anew from its first packet on. A packet without a
 * place is compared with nothing, and counts. The count stops at FTD_MOST_PIECES, with which no place agrees.
 * Refusals: 12, 1, 3, 2, 4, 5, 6, 7, 13, 14, 15, 16, 17, 18. From 15 on the series' open chain is dropped, in `end`. */
struct ftd_received ftd_receive(struct ftd_receiver end, const uint8_t *packet, size_t packet_len,
                                uint8_t *buffer, size_t buffer_len);

/* Receive for several: as ftd_receive for each of the packets, which stand one behind the other as a line brings them;
 * each ends where its first four bytes say. The call goes on until all bytes are taken (FTD_SEVERAL_END), a message is
 * handed on, a packet is refused, or bytes of the last one are missing. Packets that ftd_receive answers with idle,
 * again or held are taken, and not told.
 * `taken` is always the end of a packet: a message's packet is taken, and so is a refused one, with all bytes that its
 * first four say, so that the next packet stands behind it. A short rest isn't taken, and of it nothing is looked at
 * but the first four bytes: 01 80 00 00, which ftd_read refuses with 1, is short of 128 bytes here, and is refused with
 * 1 when they are there. With no bytes the answer is the end. A driver:
 *
 *     read behind what is kept; then, until the answer is FTD_SEVERAL_END or FTD_SEVERAL_SHORT:
 *       call with what is kept, hand the message on or see to the refusal, and drop the first `taken` bytes
 *
 * There is one call more than messages and refusals together. What is kept needs FTD_MOST_BYTES bytes, the most that a
 * packet can say; a driver with fewer drops the line where they are full and nothing was taken.
 * The content's place counts from the first byte of this call's packets (FTD_IN_PACKET) or of the reassembly buffer. It
 * stays there until the caller overwrites the packets, or until the next call with the buffer. The message's series is
 * the one whose `last` has risen in `end`, or that of the last packet taken. A login answer is refused with 13, as by
 * ftd_receive: take it out before.
 * Refusals: those of ftd_receive but 12, each of its packet alone; what the packets before it left stays. */
struct ftd_received_several ftd_receive_several(struct ftd_receiver end, const uint8_t *packets, size_t count,
                                                uint8_t *buffer, size_t buffer_len);

/* ---- Named places of a receiving end ---- */

/* No name is in use. */
struct ftd_checkpoints ftd_checkpoints_fresh(void);

/* Keep: lays trade date and last number of every series away under a name, 1 to 8 letters A to Z as bytes (no closing
 * 0, no spaces behind them; "A" and "AA" are two names). A name that is in use gets the new values in place of the old,
 * also where four are in use; a name can't be given up. Login, open chain and the buffer's bytes aren't kept. An end
 * may be kept before its opening. It is only read, and isn't answered.
 * Refusals: 31, 32. */
struct ftd_kept_step ftd_keep(struct ftd_checkpoints checkpoints, struct ftd_receiver end,
                              const uint8_t *name, size_t name_len);

/* Return: every open series gets the trade date and the last number that were kept of it under the name, none and 0
 * where it wasn't open then (so all of them, where the end was kept before its opening). Login and open chain of all
 * are cleared, as by ftd_connect, so that each series has to log in anew. The open series, their order and the
 * reassembly buffer stay; and all checkpoints stay, also this one and those kept later: one may return again and again,
 * to any of them. They are only read, and aren't answered. Before the opening there is nothing to bring back.
 * Refusals: 31, 33.
 *
 * What a program may count on. What counts of all that was handed on and reported is the list up to the last ftd_keep
 * of the name, followed by what comes after the return; where there were returns before that ftd_keep, the list up to
 * it is counted in the same way. Of this list everything holds that holds of a receiving end: the messages of a series
 * and day are the first that were published there, once each, in order and whole, as many as the last number reported
 * says, and numbered 1, 2, 3 and on. What was published isn't taken back: it counts whole. So whoever keeps the
 * messages takes those away that came between ftd_keep and the return, and is given them again.
 * That everything arrives is owed, as on a new line, from a login on that is asked for (ftd_request_login) after the
 * return; with several, after the last. A login packet from before the return may ask for a number that is too high,
 * and the messages before it then don't come; nothing wrong is handed on even so. A message of which some packets came
 * before ftd_keep comes anew, whole.
 * A driver that holds bytes not taken yet (ftd_receive_several) drops them at the return, with the line: packets from
 * before it are refused with 14 until the next answer. The box has no such call, as what it published below can't be
 * taken back. */
struct ftd_returned ftd_return(struct ftd_checkpoints checkpoints, struct ftd_receiver end,
                               const uint8_t *name, size_t name_len);

/* ---- The box ---- */

/* A box with no series and no day. Its places are FTD_PLACES numbers 0. */
struct ftd_box ftd_box_fresh(void);

/* Opening: 1 to 8 differing series from 1 up, in any order, once for the box's life, and a reserve in bytes of the log
 * for each (`reserve_count` is `count`), which every day below will have (ftd_sender_open says what reserves do). The
 * log isn't looked at yet, and no day is open below. Refusal: 11. */
struct ftd_box_opened ftd_box_open(struct ftd_box box, const uint16_t *series, size_t count,
                                   const size_t *reserves, size_t reserve_count);

/* Connect: a new line from above, as ftd_connect. The day below and the seats stay: they go on. */
struct ftd_box ftd_box_connect(struct ftd_box box);

/* Ask: as ftd_request_login, for the line from above. The box stays as it is, and isn't answered.
 * Refusals: 7, 8, 9, 10, 13, 18. */
struct ftd_written ftd_box_request_login(struct ftd_box box, uint16_t series, const uint8_t *content, size_t count,
                                         uint8_t *output, size_t room);

/* Answer: as ftd_confirm_login, for the line from above. Where the answer's trade date is above that of the day open
 * below, or none is open, it opens its day there: with all series of the box and their reserves, nothing published, the
 * log empty (its bytes stay, and are overwritten), and nobody logged in at any seat (all numbers of `places` are 0
 * then). The series that aren't answered yet are refused (15) until they are, by an answer with the same date: answers
 * with that date open nothing any more. The log is only measured: not a byte of it is read or changed.
 * Refusals: 12, 1, 2, 4, 5, 6, 7, 8, 9, 10, 13, 15 (also: a date below that of the day open below), 16, 11 (it would
 * open a day, and the reserves together are above `log_len`). A refusal changes nothing, and opens nothing. */
struct ftd_box_confirmed ftd_box_confirm_login(struct ftd_box box, uint16_t series,
                                               const uint8_t *packet, size_t packet_len,
                                               const uint8_t *log, size_t log_len, uint64_t *places);

/* Receive: as ftd_receive, for the line from above; a message that is handed on is also published below, as by
 * ftd_publish: it goes into the log, under the same number. All calls are lent the same log and the same reassembly
 * buffer, as the last call left them (the log may be moved or lengthened in between).
 * Where its publication is refused the message isn't taken: that refusal is answered, the series' open chain is
 * dropped, and all else stays as it was, every byte of log and buffer too. The number is still wanted then. With a full
 * log (18) the series stands still until a longer log is lent or the next day comes; other series go on.
 * Refusals: 12, 1, 3, 2, 4, 5, 6, 7, 13, 14, 15 (also: the series' date is below that of the day open below), 16, 17,
 * 18 (of the reassembly buffer), and then those of ftd_publish, of S and L alone: 7, 8, 9, 10, 13, 20, 18 (of the log),
 * 21. From 15 on, and by those of ftd_publish, the series' open chain is dropped, in `box`. */
struct ftd_box_received ftd_box_receive(struct ftd_box box, const uint8_t *packet, size_t packet_len,
                                        uint8_t *log, size_t log_len, uint8_t *buffer, size_t buffer_len);

/* Receive for several: as ftd_box_receive for each of the packets, and as ftd_receive_several. A refused publication is
 * a refusal, and its packet is taken.
 * Refusals: those of ftd_box_receive but 12, each of its packet alone; what the packets before it left stays. */
struct ftd_box_received_several ftd_box_receive_several(struct ftd_box box, const uint8_t *packets, size_t count,
                                                        uint8_t *log, size_t log_len,
                                                        uint8_t *buffer, size_t buffer_len);

/* Login of a seat: as ftd_login, with the login packet of the seat's end, on the day open below. The place of the seat
 * and series is set; no other changes. The box stays as it is, and isn't answered.
 * Refusals: 25, 12, 1, 2, 4, 5, 6, 7, 8, 9, 10, 13 (also: no day is open yet), 15, 16, 18, 19. */
struct ftd_written ftd_box_login(struct ftd_box box, size_t seat, uint16_t series,
                                 const uint8_t *packet, size_t packet_len, const uint8_t *content, size_t count,
                                 uint64_t *places, uint8_t *output, size_t room);

/* Send of a seat: as ftd_send, from the seat's place in the series. A line of the seat that is lost needs no call: its
 * end logs in anew.
 * Refusals: 25, 13, 14, then FTD_SEND_NONE where nothing is left, 20, 18. */
struct ftd_box_sent ftd_box_send(struct ftd_box box, size_t seat, uint16_t series, uint64_t *places,
                                 const uint8_t *log, size_t log_len, uint8_t *output, size_t room);

/* Send of a seat, one packet: as ftd_send_packet. A login of the seat for the series, a whole ftd_box_send of it and a
 * new day (ftd_box_confirm_login) end the message under way; the calls of other seats and what is published don't.
 * Refusals: 25, 13, 14, then FTD_SEND_NONE where nothing is left, 20, 18. */
struct ftd_box_sent_packet ftd_box_send_packet(struct ftd_box box, size_t seat, uint16_t series, uint64_t *places,
                                               const uint8_t *log, size_t log_len, uint8_t *output, size_t room);

/* ---- The order of two serving ends ---- */

/* What two ends have published in a series, each read off its own log, is put in order: so that a standby takes the
 * fuller one. Nothing is changed; seats, logins and reserves play no part. Each log is read up to the series' last
 * message, and only where there is one.
 * Refusals: 13 (unless open at both), 15 (other trade dates), 20 (ftd_send of the last message would find damage). */
struct ftd_order ftd_order(struct ftd_sender first, const uint8_t *log, size_t log_len,
                           struct ftd_sender second, const uint8_t *other, size_t other_len, uint16_t series);

/* The same of two boxes by the days open below, and of a box and a serving end. */
struct ftd_order ftd_box_order(struct ftd_box first, const uint8_t *log, size_t log_len,
                               struct ftd_box second, const uint8_t *other, size_t other_len, uint16_t series);
struct ftd_order ftd_box_order_with(struct ftd_box first, const uint8_t *log, size_t log_len,
                                    struct ftd_sender second, const uint8_t *other, size_t other_len, uint16_t series);

/* ---- The trading calendar ---- */

/* A calendar with neither session nor holiday: every time is outside. */
struct ftd_calendar ftd_calendar_fresh(void);

/* Set: up to 8 sessions, three numbers each (struct ftd_calendar), and up to 32 holidays, both in any order, in place
 * of those before. `session_numbers` is how many numbers are lent, three times the sessions; `holiday_count` how many
 * holidays. Two sessions may touch but not overlap, late or not. Holidays may fall on a weekend, and stand twice.
 * Refusals: 26, 27. */
struct ftd_calendar_step ftd_set_calendar(struct ftd_calendar calendar,
                                          const uint32_t *sessions, size_t session_numbers,
                                          const uint32_t *holidays, size_t holiday_count);

/* Ask: whether a time, in seconds since 1970 UTC, is inside a session, and its trade date. Day and second are taken in
 * China time, UTC plus 8 hours all the year. Sessions, late ones too, run from Monday to Friday but for holidays. The
 * trade date is the day's own; that of a late session is the next day from Monday to Friday that is no holiday: Friday
 * night belongs to Monday. The calendar stays as it is, and isn't answered. */
struct ftd_trade_time ftd_ask_calendar(struct ftd_calendar calendar, uint32_t seconds);

/* The China date, YYYYMMDD, of a trade date of the flow (tag 5), taken as seconds since 1970 UTC. No calendar is asked:
 * it is the date of that second, whether or not there is trade. (The two ends only compare such numbers.) */
uint32_t ftd_mark_date(uint32_t mark);

/* ---- The book of a contract ---- */

/* The book stands beside the flow: whoever has a message, before ftd_publish or after ftd_receive, may give it to a
 * book. The flow doesn't know of books, and carries what they refuse.
 *
 * A book of no contract: it takes every message that 7 to 10 pass, and none has an effect. */
struct ftd_book ftd_book_fresh(void);

/* Start: the day's book of the contract with that code, the ten bytes of the item InstrumentId (a text, with spaces
 * behind it); no levels, and sums of 0. What the book was before has no effect. Refusal: 9 (not ten bytes, or a byte
 * that is no text). */
struct ftd_book_step ftd_book_start(struct ftd_book book, const uint8_t *code, size_t count);

/* Take: a message, by TID and whole content, of any contract. The content is checked as one that is sent down. Then
 * its fields are gone through in order, each on the book as those before it left it.
 * Of TID 0x2001 the quotations of the contract (FID 0x000D): an absolute one is the new quantity of its side at its
 * price; an increment, four bytes in two's complement, is added to the old one. A quantity of 0 is no level.
 * Of TID 0x2002 the matches of the contract (FID 0x000A): the volume is taken from the level at that price on each side
 * where one stands, and goes into the sums.
 * All other fields, TIDs and contracts have no effect, and a refused message has none either, with the fields before
 * the refused one.
 * Refusals: 7, 8, 9, 10, then of the first field that is refused: 22 (of a match: a level stands at its price and has
 * less than the volume), 23, 24. */
struct ftd_book_step ftd_book_take(struct ftd_book book, uint32_t tid, const uint8_t *content, size_t count);

/* Level: the level at a place of a side, counted from 0, best first; none behind the last. side: enum ftd_side,
 * any number but 0 is selling; so the byte of the item Direction of a quotation is its side. (The same as reading the
 * member of struct ftd_book.) The book stays as it is, and isn't answered. */
struct ftd_listed ftd_book_level(struct ftd_book book, uint8_t side, size_t place);

/* Mean: the mean match price since ftd_book_start, turnover over volume, to the nearest 0.0001 and at the exact half to the
 * even last digit; none without volume. The book stays as it is, and isn't answered. */
struct ftd_mean ftd_book_mean(struct ftd_book book);

/* ---- Frames of JR/T 0087 ---- */

/* A frame is one message: 8=FIX.4.2, 9=body length, 35=type, the fields, 10=checksum, each TAG=TEXT and the byte 1
 * behind it, at most FTD_MOST_FRAME bytes in all. The fields are one run: TAG=TEXT and the byte 1, one behind the
 * other, in any order. A tag and a body length have no zero in front. A text has at least one byte, and none that is 1;
 * only that of a data field (89, 91, 96, 355) may have any, and is as long as the field directly before it says (93,
 * 90, 95, 354). A number is 1 to 9 digits, zeros in front allowed; so are the texts of 34 and, in the six types, of all
 * integers that their tables list. Texts are never changed.
 *
 * The expected number is all there is of a session, and the caller keeps it. It is given with each frame and comes back
 * in the answer:
 *
 *     read = ftd_frame_read(bytes, count, expected);
 *     expected = read.expected;
 *
 * So the numbers that are answered next follow each other, none twice, as long as nothing else sets the expected
 * number. The caller applies resets. Three things ask it to set the number:
 *
 *     FTD_FRAME_RESET: to read.first
 *     FTD_FRAME_NEXT of a sequence reset, which is a gap fill then: to read.first, unless that is lower
 *     a logon that says 141=Y, with number 1 where a higher one is expected: it is refused with 30. Read the frame once
 *     more with 1 expected; where it is then a logon, next, and says 141=Y: to 2
 *
 * Behind 999999999 nothing is next any more, until the number is set. */

/* Reads one frame: exactly its bytes, none before it and none behind. A frame ends with the checksum, which starts as
 * many bytes behind the field 9 as that one says. Of FTD_FRAME_GAP too all that the frame says is answered; whoever
 * asks for the missing ones, by a resend request from the expected number to 0 (all that follow), is sent this one
 * again.
 * Refusals: 28 (also of a resend request: a last number that is neither 0 nor at least the first); 29 (required are of
 * all types 8, 9, 35, 34, 10; of the six also 49, 56, 52; of a test request 112, of a resend request 7 and 16, of a
 * sequence reset 36, of a logon 98 and 108); 30. */
struct ftd_reading ftd_frame_read(const uint8_t *bytes, size_t count, uint32_t expected);

/* Writes the frame of a type (the text of 35) and a run of fields to the start of the output. 8, 9, 35 and 10 are
 * written by the call: a run that has one of them is refused (29). What ftd_frame_read would refuse with 28 or 29 is
 * refused alike; so what is written is read back with this type and this run, and what was read is written as the same
 * bytes.
 * Refusals: 28, 18, 29. */
struct ftd_written ftd_frame_write(const uint8_t *name, size_t name_len, const uint8_t *fields, size_t count,
                                   uint8_t *output, size_t room);

/* Field i of a run, counted from 0; none behind the last, and none from a place on where no whole field stands. Each
 * call walks the run anew. */
struct ftd_tagged ftd_frame_field(const uint8_t *fields, size_t count, size_t i);

/* The first field of a run with that tag. */
struct ftd_tagged ftd_frame_first(const uint8_t *fields, size_t count, uint32_t tag);

/* A text as a number: 1 to 9 digits, and nothing else. */
struct ftd_number ftd_frame_number(const uint8_t *text, size_t count);

#ifdef __cplusplus
}
#endif

#endif
