/* An example of the order of two serving ends (ftd_order): a main end and a standby, each with a log of its own, are fed
 * with the same messages. Whenever one is to take over, their logs are put in order, series by series: the same, one a
 * start of the other, so that the fuller one can go on, or the first number at which they went apart. Damage in a log
 * that serving would find, another day and a series that isn't open are refused, and nothing is changed.
 * Two boxes are put in order in the same way (ftd_box_order), and a box and a serving end (ftd_box_order_with).
 *
 *     make example && target/example/standby
 */
#include "ftd.h"
#include <stdio.h>
#include <stdlib.h>
#include <string.h>

enum {
    RETURNS = 1, /* the series */
    BULLETINS = 2,
    SERIES = 2,
    TODAY = 20041230, /* trade dates */
    TOMORROW = 20041231,
    OTHER = 0x7777, /* TID and FID of a message that the standard doesn't have: its bytes are free */
    OTHER_FIELD = 0x7001,
    LOG_SIZE = 1000
};

/* A serving end, with its log. */
struct served {
    const char *name;
    struct ftd_sender end;
    uint8_t log[LOG_SIZE];
};

static struct served main_end, standby;

/* For calls that are refused only where this program is wrong. */
static void must(const char *call, uint8_t refusal) {
    if (refusal != 0) {
        fprintf(stderr, "%s: refused, %u\n", call, refusal);
        exit(1);
    }
}

static void open_day(struct served *served, uint32_t date) {
    static const uint16_t series[SERIES] = {RETURNS, BULLETINS};
    static const size_t reserves[SERIES] = {0, 0};
    struct ftd_sender_opened opened =
        ftd_sender_open(served->end, date, series, SERIES, reserves, SERIES, served->log, sizeof served->log);

    must("ftd_sender_open", opened.refusal);
    served->end = opened.end;
}

/* One field with a text. */
static void publish(struct served *served, uint16_t series, const char *text) {
    uint8_t content[100];
    struct ftd_written written =
        ftd_write_field(OTHER_FIELD, (const uint8_t *)text, strlen(text), content, sizeof content);
    struct ftd_published published;

    must("ftd_write_field", written.refusal);
    published = ftd_publish(served->end, series, OTHER, content, written.bytes, served->log, sizeof served->log);
    must("ftd_publish", published.refusal);
    served->end = published.end;
    printf("%s: series %u, number %u: %s\n", served->name, series, (unsigned)published.number, text);
}

/* What the two have of a series: which one can go on. */
static void compare(uint16_t series) {
    struct ftd_order order = ftd_order(main_end.end, main_end.log, sizeof main_end.log, standby.end, standby.log,
                                       sizeof standby.log, series);

    printf("  series %u: ", series);
    switch (order.answer) {
    case FTD_ORDER_SAME:
        printf("the same, either can go on\n");
        break;
    case FTD_ORDER_FIRST_START:
        printf("the main end's are the first ones of the standby's, the standby can go on\n");
        break;
    case FTD_ORDER_SECOND_START:
        printf("the standby's are the first ones of the main end's, the main end can go on\n");
        break;
    case FTD_ORDER_DIFFER:
        printf("they went apart at number %u\n", (unsigned)order.number);
        break;
    default:
        printf("refused, %u\n", order.refusal);
    }
}

static void compare_both(const char *when) {
    printf("%s\n", when);
    compare(RETURNS);
    compare(BULLETINS);
}

int main(int count, char **arguments) {
    (void)arguments;
    if (count > 1) {
        fprintf(stderr, "usage: standby\nputs the logs of a main end and a standby in order; it takes no arguments\n");
        return 2;
    }
    main_end.name = "main";
    standby.name = "standby";
    main_end.end = standby.end = ftd_sender_fresh();
    open_day(&main_end, TODAY);
    open_day(&standby, TODAY);
    compare_both("nothing is published:");

    publish(&main_end, RETURNS, "bought 5");
    publish(&standby, RETURNS, "bought 5");
    publish(&main_end, BULLETINS, "morning");
    publish(&main_end, RETURNS, "sold 2");
    publish(&standby, RETURNS, "sold 2");
    publish(&standby, BULLETINS, "morning");
    publish(&main_end, RETURNS, "sold 3");
    compare_both("the standby lacks one:");

    publish(&standby, RETURNS, "sold 3");
    publish(&standby, RETURNS, "bought 1");
    compare_both("the main end lacks one:");

    publish(&main_end, RETURNS, "bought 7");
    compare_both("another one has come in there:");

    main_end.log[FTD_LOG_HEAD + 6] ^= 1;
    compare_both("a byte of the main end's first content is altered:");
    main_end.log[FTD_LOG_HEAD + 6] ^= 1;
    main_end.log[2] ^= 1;
    compare_both("a byte of its first head is, which serving would find:");
    main_end.log[2] ^= 1;

    open_day(&standby, TOMORROW);
    compare_both("the standby has opened the next day:");
    printf("a series that is not open:\n");
    compare(3);
    return 0;
}
