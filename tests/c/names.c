/* Holds include/ftd_names.h against the library: of every FID which items it has, of which kinds, at which offsets and
 * of which widths, and which values of the enumerations are taken; of every TID its mode; and the other look-ups at
 * their limits. Prints what differs, and fails if anything does. */
#include "ftd_names.h"
#include <stdio.h>
#include <string.h>

enum { MOST_FID = 70, MOST_ITEMS = 60, MOST_WIDTH = 4074 };

static int wrong;

static void need(int ok, const char *what, unsigned long a, unsigned long b, unsigned long c) {
    if (!ok) {
        printf("differs: %s (%lu, %lu, %lu)\n", what, a, b, c);
        wrong = 1;
    }
}

/* A value of that kind: written and read by the library, in its place in the field. */
static void try_item(uint32_t fid, size_t i, const struct ftd_item_names *names) {
    static uint8_t field[MOST_WIDTH], output[MOST_WIDTH];
    struct ftd_item value, read;
    struct ftd_written written;
    unsigned long number;

    memset(&value, 0, sizeof value);
    value.kind = names->kind;
    value.year = 2004;
    value.month = value.day = 12;
    for (number = 0; number < 256; number++) {
        value.value = number;
        written = ftd_write_item(fid, i, value, (const uint8_t *)"A", 1, output, sizeof output);
        if (names->kind == FTD_CHAR && names->listed != 0)
            need((written.refusal == 0) == (ftd_value_name(fid, i, number) != NULL), "value", fid, i, number);
        else
            need(ftd_value_name(fid, i, number) == NULL, "meaning", fid, i, number);
        if (written.refusal != 0)
            continue;
        need(written.bytes == names->width, "width", fid, i, written.bytes);
        memset(field, 0xFF, sizeof field);
        memcpy(field + names->offset, output, written.bytes);
        read = ftd_read_item(fid, i, field, (size_t)names->offset + names->width);
        need(read.kind == names->kind, "kind", fid, i, read.kind);
        need(ftd_read_item(fid, i, field, (size_t)names->offset + names->width - 1).kind == FTD_NO_ITEM, "end", fid, i,
             names->offset);
        if (names->kind == FTD_CHAR)
            need(read.value == number, "offset", fid, i, names->offset);
    }
    if (names->kind == FTD_TEXT)
        need(read.start == names->offset && read.len == 1, "offset of a text", fid, i, names->offset);
    value.value = 1;
    value.kind = FTD_FLOAT;
    written = ftd_write_item(fid, i, value, NULL, 0, output, sizeof output);
    need((written.refusal == 0) == (names->kind == FTD_FLOAT), "float", fid, i, names->kind);
    if (written.refusal == 0) /* 0.01: the point stands in front of the decimals */
        need(names->decimals > 0 && output[names->width - 1 - names->decimals] == '.', "decimals", fid, i,
             names->decimals);
    else
        need(names->decimals == 0, "decimals", fid, i, names->decimals);
}

static void try_fields(void) {
    static const uint8_t bytes[MOST_WIDTH] = {0};
    uint32_t fid;
    size_t i;

    for (fid = 0; fid < MOST_FID; fid++) {
        const struct ftd_field_names *field = ftd_field_names_of(fid);
        size_t offset = 0;

        need((field != NULL) == (ftd_fid_name(fid) != NULL), "field", fid, 0, 0);
        for (i = 0; i < MOST_ITEMS; i++) {
            const struct ftd_item_names *names = ftd_item_names_of(fid, i);
            int there = ftd_read_item(fid, i, bytes, sizeof bytes).kind != FTD_NO_ITEM;

            need(there == (names != NULL) && there == (ftd_item_name(fid, i) != NULL), "item", fid, i, 0);
            need(there == (field != NULL && i < field->count), "count", fid, i, 0);
            if (!there || names == NULL)
                continue;
            need(names->offset == offset, "offset", fid, i, offset);
            offset += names->width;
            try_item(fid, i, names);
        }
        if (field != NULL)
            need(field->width == offset, "width of the field", fid, offset, field->width);
    }
    need(ftd_fid_name(UINT32_MAX) == NULL && ftd_item_name(1, (size_t)-1) == NULL, "unknown", 0, 0, 0);
    need(ftd_item_name(UINT32_MAX, 0) == NULL && ftd_value_name(1, 1, UINT64_MAX) == NULL, "unknown", 0, 0, 0);
}

/* A TID has a name exactly where it has a mode, and a message in a direction exactly where its make-up is checked. */
static void try_tids(void) {
    uint32_t tid;
    unsigned named = 0;

    for (tid = 0; tid < 0x12000; tid++) {
        const char *name = ftd_tid_name(tid);
        uint8_t up, down;

        need((name != NULL) == (ftd_mode_of(tid) != FTD_UNKNOWN), "TID", tid, 0, 0);
        named += name != NULL;
        if (name == NULL && (tid & 0xFF) > 0x20)
            continue;
        /* An empty message: refused with 10 where a field has to be there. MarketMatchData may be empty. */
        up = ftd_check(tid, FTD_UP, NULL, 0, FTD_MOST_CONTENT);
        down = ftd_check(tid, FTD_DOWN, NULL, 0, FTD_MOST_CONTENT);
        need(up == 0 || ftd_message_name(tid, FTD_UP) != NULL, "message up", tid, up, 0);
        need(down == 0 || ftd_message_name(tid, FTD_DOWN) != NULL, "message down", tid, down, 0);
        need((name != NULL) == (ftd_message_name(tid, FTD_DOWN) != NULL), "message", tid, 0, 0);
    }
    need(named == 32, "TIDs", named, 0, 0);
    need(ftd_tid_name(UINT32_MAX) == NULL && ftd_message_name(UINT32_MAX, 0) == NULL, "unknown TID", 0, 0, 0);
}

int main(void) {
    unsigned n;

    try_fields();
    try_tids();
    for (n = 0; n < 256; n++) {
        int refusal = (n >= 1 && n <= FTD_UNKNOWN_NAME) || n == FTD_NOT_PLAIN;

        need(refusal == (ftd_refusal_name((uint8_t)n) != NULL), "refusal", n, 0, 0);
        need(refusal == (ftd_refusal_words((uint8_t)n) != NULL), "refusal in words", n, 0, 0);
        need((n <= FTD_DIALOG) == (ftd_mode_name((uint8_t)n) != NULL), "mode", n, 0, 0);
        need((n <= FTD_UNUSED) == (ftd_kind_name((uint8_t)n) != NULL), "kind", n, 0, 0);
    }
    need(strcmp(ftd_tid_name(FTD_TID_USER_LOGIN), "UserLogin") == 0, "name", 0, 0, 0);
    need(strcmp(ftd_message_name(FTD_TID_USER_LOGIN, FTD_UP), "ReqUserLogin") == 0, "name", 1, 0, 0);
    need(strcmp(ftd_fid_name(FTD_FID_BULLETIN), "BulletinField") == 0, "name", 2, 0, 0);
    n = FTD_ITEM_ORDER_INSERT_DIRECTION;
    need(strcmp(ftd_item_name(FTD_FID_ORDER_INSERT, n), "Direction") == 0, "name", 3, 0, 0);
    need(strcmp(ftd_value_name(FTD_FID_ORDER_INSERT, n, FTD_VALUE_DIRECTION_SELL), "sell") == 0, "name", 4, 0, 0);
    need(strcmp(ftd_refusal_name(FTD_COMPOSITION), "make-up") == 0, "name", 5, 0, 0);
    return wrong;
}
