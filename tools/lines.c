#include "lines.h"
#include <ctype.h>
#include <errno.h>
#include <fcntl.h>
#include <inttypes.h>
#include <netinet/in.h>
#include <netinet/tcp.h>
#include <stdarg.h>
#include <stdio.h>
#include <stdlib.h>
#include <string.h>
#include <sys/resource.h>
#include <time.h>
#include <unistd.h>

enum {
    TURN = 64,          /* messages, packets or answers that a seat is given in a round of poll, */
    TURN_TIME = 2,      /* within so many milliseconds: late in a long day each takes longer */
    ACCEPT_PAUSE = 1000 /* milliseconds until a connection is taken again where the machine had no room for one */
};

const char *program = "ftd";
const char *usage = "";
int quiet;
int64_t beat = 10000, silence = 30000;
volatile sig_atomic_t stopping;

/* ---- Log lines and ends of the program ---- */

/* One line on standard error, in one write. A line that is too long is cut. */
static void put_line(const char *format, va_list rest, int wait) {
    char text[600];
    struct pollfd ready;
    size_t used;
    int n;

    ready.fd = STDERR_FILENO;
    ready.events = POLLOUT;
    ready.revents = 0;
    if (!wait && (poll(&ready, 1, 0) <= 0 || !(ready.revents & POLLOUT)))
        return;
    used = (size_t)snprintf(text, sizeof text, "%s: ", program);
    n = vsnprintf(text + used, sizeof text - 1 - used, format, rest);
    if (n > 0)
        used += (size_t)n < sizeof text - 1 - used ? (size_t)n : sizeof text - 2 - used;
    text[used++] = '\n';
    if (write(STDERR_FILENO, text, used) < 0)
        return; /* there is nobody left to tell */
}

void say(const char *format, ...) {
    va_list rest;

    if (quiet)
        return;
    va_start(rest, format);
    put_line(format, rest, 0);
    va_end(rest);
}

void fail(const char *format, ...) {
    va_list rest;

    va_start(rest, format);
    put_line(format, rest, 1);
    va_end(rest);
    exit(1);
}

void wrong(const char *format, ...) {
    va_list rest;

    va_start(rest, format);
    put_line(format, rest, 1);
    va_end(rest);
    fputs(usage, stderr);
    exit(2);
}

const char *refusal_name(uint8_t refusal) {
    static const char *const names[] = {
        "none",           "long extension", "broken tag",    "body length", "version",       "chain letter",
        "content length", "field run",      "field length",  "item",        "make-up",       "opening",
        "not one packet", "unknown series", "not logged in", "other day",   "out of line",   "broken chain",
        "too small",      "wrong start",    "damaged log",   "day full",    "quantity",      "levels",
        "volume",         "no such seat",   "sessions",      "holiday",     "not one frame", "required tag",
        "low number",     "wrong name",     "fifth name",    "unknown name"};

    if (refusal == FTD_NOT_PLAIN)
        return "not plain";
    return refusal < sizeof names / sizeof names[0] ? names[refusal] : "unknown refusal";
}

const char *refused(const char *what, uint8_t refusal) {
    static char text[120];

    snprintf(text, sizeof text, "%s refused, %u (%s)", what, (unsigned)refusal, refusal_name(refusal));
    return text;
}

void must(const char *call, uint8_t refusal) {
    if (refusal != 0)
        fail("%s", refused(call, refusal));
}

/* ---- Start and stop ---- */

static int stop_pipe[2];

static void ask_to_stop(int signal) {
    int kept = errno;

    (void)signal;
    stopping = 1;
    if (write(stop_pipe[1], "", 1) < 0) {
        /* it is full: the stop is already on its way */
    }
    errno = kept;
}

static void make_non_blocking(int fd) {
    int flags = fcntl(fd, F_GETFL);

    if (flags < 0 || fcntl(fd, F_SETFL, flags | O_NONBLOCK) < 0)
        fail("descriptor %d: %s", fd, strerror(errno));
}

int start_signals(void) {
    struct sigaction action;

    if (pipe(stop_pipe) != 0)
        fail("pipe: %s", strerror(errno));
    make_non_blocking(stop_pipe[0]);
    make_non_blocking(stop_pipe[1]);
    memset(&action, 0, sizeof action);
    sigemptyset(&action.sa_mask);
    action.sa_handler = ask_to_stop;
    if (sigaction(SIGTERM, &action, NULL) != 0 || sigaction(SIGINT, &action, NULL) != 0)
        fail("sigaction: %s", strerror(errno));
    action.sa_handler = SIG_IGN;
    if (sigaction(SIGPIPE, &action, NULL) != 0)
        fail("sigaction: %s", strerror(errno));
    return stop_pipe[0];
}

void need_descriptors(unsigned count) {
    struct rlimit limit;

    if (getrlimit(RLIMIT_NOFILE, &limit) != 0 || limit.rlim_cur >= count)
        return;
    limit.rlim_cur = limit.rlim_max < count ? limit.rlim_max : count;
    if (limit.rlim_cur < count || setrlimit(RLIMIT_NOFILE, &limit) != 0)
        fail("it needs %u descriptors, and the limit on open files is lower", count);
}

void touch(void *bytes, size_t count) {
    volatile uint8_t *at = bytes;
    size_t i;

    for (i = 0; i < count; i += 4096)
        at[i] = at[i];
    if (count > 0)
        at[count - 1] = at[count - 1];
}

void *take_memory(size_t bytes) {
    void *memory = calloc(bytes > 0 ? bytes : 1, 1);

    if (memory == NULL)
        fail("there is no memory for %zu bytes", bytes);
    touch(memory, bytes);
    return memory;
}

int64_t now_ms(void) {
    struct timespec now;

    clock_gettime(CLOCK_MONOTONIC, &now);
    return (int64_t)now.tv_sec * 1000 + now.tv_nsec / 1000000;
}

/* When poll reported last. Silence is measured by it: what came meanwhile, while the program was held up by a slow
 * reader of its output or stopped as a whole, is read before a line is given up. */
static int64_t reported;

void wait_for(struct pollfd *fds, size_t count, int64_t due) {
    int64_t wait = due == NEVER ? 60000 : due - now_ms();
    int found = poll(fds, count, wait < 0 ? 0 : wait > 60000 ? 60000 : (int)wait);
    size_t i;

    if (found < 0 && errno != EINTR)
        fail("poll: %s", strerror(errno));
    for (i = 0; found < 0 && i < count; i++)
        fds[i].revents = 0;
    reported = found < 0 ? reported : now_ms();
}

static int64_t later(int64_t from, int64_t wait) {
    return wait == NEVER ? NEVER : from + wait;
}

static int64_t sooner(int64_t a, int64_t b) {
    return a < b ? a : b;
}

/* ---- Options ---- */

/* Descriptors 0 to 2 are there: no line gets one of them, and so none of what is printed. */
static void fill_standard(void) {
    int fd;

    do
        fd = open("/dev/null", O_RDWR);
    while (fd >= 0 && fd <= STDERR_FILENO);
    if (fd >= 0)
        close(fd);
}

struct options start_options(int argc, char **argv) {
    struct options options;

    fill_standard();
    options.argc = argc;
    options.argv = argv;
    options.at = 1;
    options.name = "";
    options.value = NULL;
    return options;
}

int next_option(struct options *options) {
    const char *word;

    if (options->value != NULL)
        wrong("--%.*s takes no value", (int)strcspn(options->name, "="), options->name);
    if (options->at >= options->argc)
        return 0;
    word = options->argv[options->at++];
    if (strcmp(word, "--help") == 0) {
        fputs(usage, stdout);
        exit(fflush(stdout) == 0 ? 0 : 1);
    }
    if (strncmp(word, "--", 2) != 0 || word[2] == '\0')
        wrong("not an option: %s", word);
    options->name = word + 2;
    options->value = strchr(word, '=');
    if (options->value != NULL)
        options->value++;
    return 1;
}

int is_option(const struct options *options, const char *name) {
    size_t len = strcspn(options->name, "=");

    return strlen(name) == len && strncmp(options->name, name, len) == 0;
}

void unknown_option(const struct options *options) {
    wrong("unknown option --%.*s", (int)strcspn(options->name, "="), options->name);
}

const char *option_text(struct options *options) {
    const char *value = options->value;

    if (value == NULL) {
        if (options->at >= options->argc)
            wrong("--%s needs a value", options->name);
        value = options->argv[options->at++];
    }
    options->value = NULL;
    return value;
}

int read_number(const char *text, uint64_t least, uint64_t most, uint64_t *number) {
    uint64_t value = 0;

    if (*text == '\0')
        return 0;
    for (; *text != '\0'; text++) {
        unsigned digit = (unsigned)(*text - '0');

        if (*text < '0' || *text > '9' || value > (UINT64_MAX - digit) / 10)
            return 0;
        value = 10 * value + digit;
    }
    *number = value;
    return value >= least && value <= most;
}

uint64_t option_number(struct options *options, uint64_t least, uint64_t most) {
    const char *text = option_text(options);
    uint64_t number = 0;

    if (!read_number(text, least, most, &number))
        wrong("--%.*s: %s is not a number from %" PRIu64 " to %" PRIu64, (int)strcspn(options->name, "="),
              options->name, text, least, most);
    return number;
}

int64_t option_seconds(struct options *options) {
    const char *text = option_text(options);
    char *end;
    double seconds = strtod(text, &end);

    if (!isdigit((unsigned char)*text) || *end != '\0' || !(seconds >= 0 && seconds <= 86400))
        wrong("--%.*s: %s is not a number of seconds from 0 to 86400", (int)strcspn(options->name, "="), options->name,
              text);
    if (seconds == 0)
        return NEVER;
    return seconds < 0.001 ? 1 : (int64_t)(seconds * 1000 + 0.5);
}

void option_pause(struct options *options, int64_t *first, int64_t *most) {
    const char *text = option_text(options), *colon = strchr(text, ':');
    size_t len = colon == NULL ? strlen(text) : (size_t)(colon - text);
    char front[16];
    uint64_t from = 0, to = 5000;

    front[0] = '\0';
    if (len < sizeof front) {
        memcpy(front, text, len);
        front[len] = '\0';
    }
    if (!read_number(front, 1, 86400000, &from) || (colon != NULL && !read_number(colon + 1, from, 86400000, &to)))
        wrong("--pause: %s is not MS or MS:MOST, milliseconds from 1 to 86400000, MOST not below MS", text);
    *first = (int64_t)from;
    *most = (int64_t)(to > from ? to : from);
}

size_t read_series(const char *text, uint16_t series[FTD_MOST_SERIES]) {
    const char *at = text;
    size_t count = 0, i;

    for (;;) {
        size_t len = strcspn(at, ",");
        char word[8];
        uint64_t number;

        word[0] = '\0';
        if (len < sizeof word) {
            memcpy(word, at, len);
            word[len] = '\0';
        }
        if (!read_number(word, 1, 65535, &number))
            wrong("--series: %s is not a list of numbers from 1 to 65535 with commas between them", text);
        if (count == FTD_MOST_SERIES)
            wrong("--series: %s has more than %d series", text, FTD_MOST_SERIES);
        for (i = 0; i < count; i++)
            if (series[i] == number)
                wrong("--series: %u stands twice", (unsigned)number);
        series[count++] = (uint16_t)number;
        if (at[len] == '\0')
            return count;
        at += len + 1;
    }
}

/* ---- Contents ---- */

static int digit_of(char letter) {
    if (letter >= '0' && letter <= '9')
        return letter - '0';
    if (letter >= 'a' && letter <= 'f')
        return letter - 'a' + 10;
    return letter >= 'A' && letter <= 'F' ? letter - 'A' + 10 : -1;
}

int read_hex(const char *text, size_t len, uint8_t *bytes, size_t room, size_t *used) {
    size_t i;

    if (len % 2 != 0 || len / 2 > room)
        return 0;
    for (i = 0; i < len / 2; i++) {
        int high = digit_of(text[2 * i]), low = digit_of(text[2 * i + 1]);

        if (high < 0 || low < 0)
            return 0;
        bytes[i] = (uint8_t)(16 * high + low);
    }
    *used = len / 2;
    return 1;
}

void write_hex(const uint8_t *bytes, size_t count, char *text) {
    static const char digits[] = "0123456789abcdef";
    size_t i;

    for (i = 0; i < count; i++) {
        text[2 * i] = digits[bytes[i] >> 4];
        text[2 * i + 1] = digits[bytes[i] & 15];
    }
}

/* The bytes that an option says: hexadecimal digits, or the name of a file that has them. */
static void read_content(const char *option, const char *text, struct content *content) {
    size_t len = strlen(text);
    FILE *file;

    if (len > 0 && len % 2 == 0 && strspn(text, "0123456789abcdefABCDEF") == len) {
        if (!read_hex(text, len, content->bytes, sizeof content->bytes, &content->used))
            wrong("--%s: more than %zu bytes", option, sizeof content->bytes);
        return;
    }
    file = fopen(text, "rb");
    if (file == NULL)
        wrong("--%s: no hexadecimal digits, and no file %s: %s", option, text, strerror(errno));
    content->used = fread(content->bytes, 1, sizeof content->bytes, file);
    if (ferror(file))
        wrong("--%s: %s: %s", option, text, strerror(errno));
    if (content->used == sizeof content->bytes && fgetc(file) != EOF)
        wrong("--%s: %s has more than %zu bytes", option, text, sizeof content->bytes);
    fclose(file);
}

/* A data field of the standard, its items written one behind the other from the first on. */
struct items {
    uint32_t fid;
    size_t count, used;
    uint8_t bytes[FTD_FIELD_CONTENT];
};

static void add_item(struct items *items, uint8_t kind, uint64_t number, const char *text) {
    struct ftd_item value;
    struct ftd_written written;

    memset(&value, 0, sizeof value);
    value.kind = kind;
    value.value = number;
    written = ftd_write_item(items->fid, items->count, value, (const uint8_t *)text, strlen(text),
                             items->bytes + items->used, sizeof items->bytes - items->used);
    must("ftd_write_item", written.refusal);
    items->used += written.bytes;
    items->count++;
}

/* The field is all of the content. */
static void end_items(const struct items *items, struct content *content) {
    struct ftd_written written =
        ftd_write_field(items->fid, items->bytes, items->used, content->bytes, sizeof content->bytes);

    must("ftd_write_field", written.refusal);
    content->used = written.bytes;
}

void login_content(const char *text, struct content *content) {
    static uint8_t packet[FTD_MOST_PACKET];
    uint16_t series = 1;
    struct ftd_receiver_opened opened = ftd_receiver_open(ftd_receiver_fresh(), &series, 1);
    uint8_t refusal;

    if (text != NULL) {
        read_content("login", text, content);
    } else {
        struct items items;

        items.fid = 0x0023; /* ReqUserLoginField */
        items.count = items.used = 0;
        add_item(&items, FTD_CHAR, 1, "");      /* DataFlowFlag */
        add_item(&items, FTD_TEXT, 0, "0001");  /* ParticipantId */
        add_item(&items, FTD_TEXT, 0, "seat");  /* UserId */
        add_item(&items, FTD_TEXT, 0, "");      /* Password */
        add_item(&items, FTD_TEXT, 0, "1");     /* ConnectionReference */
        add_item(&items, FTD_TEXT, 0, program); /* ServerAppName */
        add_item(&items, FTD_TEXT, 0, "1.0");   /* ProtocolVersion */
        add_item(&items, FTD_NUMBER, 30, "");   /* TimeOut */
        add_item(&items, FTD_TEXT, 0, "");      /* IpAddr */
        end_items(&items, content);
    }
    refusal = ftd_check(LOGIN_TID, FTD_UP, content->bytes, content->used, FTD_REQUEST_CONTENT);
    if (refusal == 0) /* a start field of its own would be one too many */
        refusal = ftd_request_login(opened.end, series, content->bytes, content->used, packet, sizeof packet).refusal;
    if (refusal != 0)
        wrong("--login: the content is no login: %s", refused("it is", refusal));
}

void answer_content(const char *text, struct content *content) {
    uint8_t refusal;

    if (text != NULL) {
        read_content("answer", text, content);
    } else {
        struct items items;

        items.fid = 0x0027; /* RspUserLoginField */
        items.count = items.used = 0;
        add_item(&items, FTD_CHAR, 1, "");     /* DataFlowFlag */
        add_item(&items, FTD_TEXT, 0, "0001"); /* ParticipantId */
        add_item(&items, FTD_TEXT, 0, "seat"); /* UserId */
        add_item(&items, FTD_TEXT, 0, "");     /* Password */
        add_item(&items, FTD_TEXT, 0, "");     /* ExchangeDateTime */
        add_item(&items, FTD_NUMBER, 0, "");   /* TimeSpan */
        add_item(&items, FTD_TEXT, 0, "");     /* IpAddr */
        add_item(&items, FTD_TEXT, 0, "0");    /* MaxOrderLocalId */
        end_items(&items, content);
    }
    refusal = ftd_check(LOGIN_TID, FTD_DOWN, content->bytes, content->used, FTD_PACKET_CONTENT);
    if (refusal != 0)
        wrong("--answer: the content is no login answer: %s", refused("it is", refusal));
}

/* ---- Lines ---- */

/* Of a call that reports why the line has to end: it goes on. */
#define GOES_ON NULL

static void line_open(struct line *line, int socket) {
    line->socket = socket;
    line->used = line->out_at = line->out = 0;
    line->came = line->sent = now_ms();
}

static void line_close(struct line *line) {
    close(line->socket);
    line_open(line, -1);
}

static int line_is_full(const struct line *line) {
    return line->used == sizeof line->in;
}

static int line_owes(const struct line *line) {
    return line->out > 0;
}

/* Reads what is there, behind what is kept. */
static const char *line_read(struct line *line) {
    ssize_t n;

    if (line_is_full(line))
        return "closed by the other side";
    n = recv(line->socket, line->in + line->used, sizeof line->in - line->used, 0);
    if (n == 0)
        return "closed by the other side";
    if (n < 0)
        return errno == EAGAIN || errno == EWOULDBLOCK || errno == EINTR ? GOES_ON : strerror(errno);
    line->used += (size_t)n;
    line->came = now_ms();
    return GOES_ON;
}

/* The first bytes that are kept are taken. */
static void line_drop(struct line *line, size_t taken) {
    if (taken == 0)
        return;
    memmove(line->in, line->in + taken, line->used - taken);
    line->used -= taken;
}

/* Writes what the socket takes of what is to be written. */
static const char *line_flush(struct line *line) {
    while (line_owes(line)) {
        ssize_t n = send(line->socket, line->output + line->out_at, line->out - line->out_at, MSG_NOSIGNAL);

        if (n < 0 && errno == EINTR)
            continue;
        if (n < 0)
            return errno == EAGAIN || errno == EWOULDBLOCK ? GOES_ON : strerror(errno);
        line->sent = now_ms();
        line->out_at += (size_t)n;
        if (line->out_at == line->out)
            line->out_at = line->out = 0;
    }
    return GOES_ON;
}

int64_t line_due(const struct line *line, int may_beat) {
    return sooner(later(line->came, silence), may_beat ? later(line->sent, beat) : NEVER);
}

/* What the time brings: a heartbeat where nothing else stands to be written, the end where nothing came. */
static const char *line_tick(struct line *line, int may_beat) {
    static const uint8_t keep_alive[] = {4, 0};

    if (reported >= later(line->came, silence))
        return "nothing came for too long";
    if (may_beat && now_ms() >= later(line->sent, beat)) {
        struct ftd_written heartbeat =
            ftd_write_plain(0, keep_alive, sizeof keep_alive, NULL, 0, line->output, sizeof line->output);

        must("ftd_write_plain", heartbeat.refusal);
        line->out = heartbeat.bytes;
        return line_flush(line);
    }
    return GOES_ON;
}

/* A connected socket, as all lines have it: what is written goes out at once. */
static void set_up_socket(int socket) {
    int on = 1;

    make_non_blocking(socket);
    setsockopt(socket, IPPROTO_TCP, TCP_NODELAY, &on, sizeof on);
}

int listen_at(const char *address, unsigned port) {
    struct addrinfo hints, *found;
    char service[8];
    int fd, on = 1, error;

    memset(&hints, 0, sizeof hints);
    hints.ai_family = AF_UNSPEC;
    hints.ai_socktype = SOCK_STREAM;
    hints.ai_flags = AI_PASSIVE | AI_NUMERICHOST | AI_NUMERICSERV;
    snprintf(service, sizeof service, "%u", port);
    error = getaddrinfo(address, service, &hints, &found);
    if (error != 0)
        wrong("--bind: %s is no address of this machine, in numbers: %s", address, gai_strerror(error));
    fd = socket(found->ai_family, found->ai_socktype, found->ai_protocol);
    if (fd < 0)
        fail("socket: %s", strerror(errno));
    setsockopt(fd, SOL_SOCKET, SO_REUSEADDR, &on, sizeof on);
    if (bind(fd, found->ai_addr, found->ai_addrlen) != 0 || listen(fd, 8) != 0)
        fail("port %u of %s can't be listened at: %s", port, address, strerror(errno));
    make_non_blocking(fd);
    freeaddrinfo(found);
    return fd;
}

/* ---- The serving side ---- */

void seat_start(struct seat *seat, const struct serving *serving, size_t number, const char *name, int listener) {
    touch(seat, sizeof *seat);
    line_open(&seat->line, -1);
    seat->serving = serving;
    seat->number = number;
    snprintf(seat->name, sizeof seat->name, "%s", name);
    seat->listener = listener;
    seat->accept_after = 0;
}

/* Only on a line on which nothing is to be written, and not between the packets of a message. */
static int seat_may_beat(const struct seat *seat) {
    return !line_owes(&seat->line) && !seat->under_way;
}

int64_t seat_wait(const struct seat *seat, struct pollfd fds[2]) {
    int64_t now = now_ms(), due = NEVER;

    fds[0].fd = seat->listener;
    fds[0].events = POLLIN;
    if (now < seat->accept_after) {
        fds[0].fd = -1;
        due = seat->accept_after;
    }
    fds[1].fd = seat->line.socket;
    fds[1].events = line_is_full(&seat->line) ? 0 : POLLIN;
    if (line_owes(&seat->line) || seat->more)
        fds[1].events |= POLLOUT;
    return seat->line.socket < 0 ? due : sooner(due, line_due(&seat->line, seat_may_beat(seat)));
}

void seat_close(struct seat *seat, const char *why) {
    if (seat->line.socket < 0)
        return;
    line_close(&seat->line);
    say("%s down: %s", seat->name, why);
}

/* A new connection takes the old one's place. Nobody is logged in on it. */
static void seat_accept(struct seat *seat) {
    struct sockaddr_storage from;
    socklen_t len = sizeof from;
    char host[64] = "?", port[8] = "?";
    int socket = accept(seat->listener, (struct sockaddr *)&from, &len);

    if (socket < 0) {
        if (errno == EAGAIN || errno == EWOULDBLOCK || errno == EINTR || errno == ECONNABORTED)
            return;
        say("%s: a connection can't be taken: %s", seat->name, strerror(errno));
        seat->accept_after = now_ms() + ACCEPT_PAUSE;
        return;
    }
    seat_close(seat, "a new connection takes its place");
    set_up_socket(socket);
    line_open(&seat->line, socket);
#ifndef PLANT_EARLY /* planted: as if the login of the line before still held */
    memset(seat->logged_in, 0, sizeof seat->logged_in);
#endif
    seat->turn = 0;
    seat->by_packets = seat->under_way = seat->more = 0;
    getnameinfo((struct sockaddr *)&from, len, host, sizeof host, port, sizeof port, NI_NUMERICHOST | NI_NUMERICSERV);
    say("%s up: from %s:%s", seat->name, host, port);
}

/* Passes link packets and skipped ones over. Gives the first that is neither, or is short. */
static struct ftd_packet seat_front(struct seat *seat) {
    struct line *line = &seat->line;
    struct ftd_packet read = ftd_read(line->in, line->used);
    size_t at = 0;

    while (read.answer == FTD_LINK || read.answer == FTD_SKIPPED) {
        at += read.size;
        read = ftd_read(line->in + at, line->used - at);
    }
    line_drop(line, at);
    return read;
}

/* Answers the next login packet, if there is one; 0: there is none, or the line is closed. */
static int seat_login(struct seat *seat) {
    const struct serving *serving = seat->serving;
    struct line *line = &seat->line;
    struct ftd_packet read = seat_front(seat);
    struct ftd_resume start;
    struct ftd_written answer;
    uint16_t series;
    uint64_t next = 0;
    size_t i;

    if (read.answer == FTD_REFUSED) {
        seat_close(seat, refused("packet", read.refusal));
        return 0;
    }
    if (read.answer != FTD_MESSAGE)
        return 0;
    start = ftd_find_resume(line->in + read.content.start, read.content.len);
    series = start.answer == FTD_START ? start.series : serving->count > 0 ? serving->series[0] : 0;
    answer = serving->login(seat->number, series, line->in, read.size, line->output, sizeof line->output, &next);
    if (answer.refusal != 0) {
        char what[40];

        snprintf(what, sizeof what, "login to series %u", (unsigned)series);
        seat_close(seat, refused(what, answer.refusal));
        return 0;
    }
    line_drop(line, read.size);
    line->out = answer.bytes;
    for (i = 0; i < serving->count; i++)
        if (serving->series[i] == series)
            seat->logged_in[i] = 1;
    say("%s: logged in to series %u, from number %" PRIu64, seat->name, (unsigned)series, next);
    return 1;
}

#ifdef PLANT_REPEAT
/* Planted: the same message once more behind it, under the next number. */
static size_t repeat(uint8_t *output, size_t bytes) {
    size_t at, n;

    memcpy(output + bytes, output, bytes);
    for (at = bytes; at < 2 * bytes; at += n) {
        n = ftd_said_length(output + at, 2 * bytes - at);
        for (size_t i = at + 4 + output[at + 1] + 11; ++output[i] == 0; i--)
            ;
    }
    return 2 * bytes;
}
#endif

/* Puts the next message to be written, or its next packet, of the series in turn; 0: nothing is left. */
static int seat_write(struct seat *seat) {
    const struct serving *serving = seat->serving;
    struct line *line = &seat->line;
    size_t tried;

    for (tried = 0; tried < serving->count; tried++) {
        uint16_t series = serving->series[seat->turn];
        uint8_t answer = FTD_SEND_NONE, refusal = 0;

        if (seat->logged_in[seat->turn] && seat->by_packets) {
            struct ftd_box_sent_packet sent =
                serving->send_packet(seat->number, series, line->output, sizeof line->output);

            answer = sent.answer;
            refusal = sent.refusal;
            line->out = sent.bytes;
            seat->under_way = answer == FTD_SEND_MESSAGE && !sent.last;
        } else if (seat->logged_in[seat->turn]) {
            struct ftd_box_sent sent = serving->send(seat->number, series, line->output, FTD_MOST_OUTPUT);

            answer = sent.answer;
            refusal = sent.refusal;
            line->out = sent.bytes;
#ifdef PLANT_REPEAT
            if (answer == FTD_SEND_MESSAGE)
                line->out = repeat(line->output, sent.bytes);
#endif
        }
        if (answer == FTD_SEND_REFUSED) {
            if (refusal != FTD_NOT_LOGGED_IN)
                fail("%s: %s", seat->name, refused("send", refusal));
            seat->logged_in[seat->turn] = 0;
        }
        if (!seat->under_way)
            seat->turn = (seat->turn + 1) % serving->count;
        if (answer == FTD_SEND_MESSAGE)
            return 1;
    }
    return 0;
}

/* Writes what is to be written; 0: the socket takes no more now, or the line is closed. Where it didn't take all it is
 * gone on packet by packet, until a write is taken whole and ends a message. */
static int seat_flush(struct seat *seat) {
    int fresh = line_owes(&seat->line) && seat->line.out_at == 0;
    const char *why = line_flush(&seat->line);

    if (why != GOES_ON) {
        seat_close(seat, why);
        return 0;
    }
    if (line_owes(&seat->line)) {
        seat->by_packets = 1;
        return 0;
    }
    if (fresh && !seat->under_way)
        seat->by_packets = 0;
    return 1;
}

/* The seat's turn: login answers, then messages, until nothing is left, the socket takes no more, or it was enough. A
 * login waits until what was begun is written: no answer goes between the packets of a message. */
static void seat_turn(struct seat *seat) {
    int64_t end = now_ms() + TURN_TIME;
    int calls;

    seat->more = 0;
    for (calls = 0; calls < TURN && now_ms() <= end; calls++) {
        if (!seat_flush(seat))
            return;
        if (!seat->under_way && seat_login(seat))
            continue;
        if (seat->line.socket < 0 || !seat_write(seat))
            return;
    }
    seat->more = seat_flush(seat);
}

void seat_work(struct seat *seat, const struct pollfd fds[2]) {
    struct line *line = &seat->line;
    const char *why = GOES_ON;

    if (fds[0].revents != 0) {
        seat_accept(seat);
        return;
    }
    if (line->socket < 0 || line->socket != fds[1].fd)
        return;
    if (fds[1].revents & (POLLIN | POLLHUP | POLLERR)) {
        struct ftd_packet front;

        why = line_read(line);
        if (why == GOES_ON && (front = seat_front(seat)).answer == FTD_REFUSED)
            why = refused("packet", front.refusal);
    }
    if (why == GOES_ON && (!line_owes(line) || fds[1].revents & POLLOUT)) {
        seat_turn(seat);
        if (line->socket < 0)
            return;
    }
    if (why == GOES_ON)
        why = line_tick(line, seat_may_beat(seat));
    if (why != GOES_ON)
        seat_close(seat, why);
}

/* ---- The receiving side ---- */

void above_start(struct above *above, const char *text) {
    const char *colon = strrchr(text, ':');
    struct addrinfo hints, *found, *at;
    char host[256];
    size_t len;
    uint64_t port;
    int error;

    touch(above, sizeof *above);
    line_open(&above->line, -1);
    above->text = text;
    above->connecting = 0;
    above->pause = above->first;
    above->next_try = now_ms();
    if (colon == NULL || colon == text || !read_number(colon + 1, 1, 65535, &port))
        wrong("%s is not HOST:PORT", text);
    len = (size_t)(colon - text);
    if (len > 2 && text[0] == '[' && text[len - 1] == ']') { /* an address with colons of its own */
        text++;
        len -= 2;
    }
    if (len >= sizeof host)
        wrong("%s is too long", above->text);
    memcpy(host, text, len);
    host[len] = '\0';
    memset(&hints, 0, sizeof hints);
    hints.ai_family = AF_UNSPEC;
    hints.ai_socktype = SOCK_STREAM;
    hints.ai_flags = AI_NUMERICSERV;
    error = getaddrinfo(host, colon + 1, &hints, &found);
    if (error != 0)
        fail("no address of %s: %s", host, gai_strerror(error));
    above->address_count = above->address = 0;
    for (at = found; at != NULL && above->address_count < MOST_ADDRESSES; at = at->ai_next) {
        memcpy(&above->addresses[above->address_count], at->ai_addr, at->ai_addrlen);
        above->lengths[above->address_count++] = at->ai_addrlen;
    }
    freeaddrinfo(found);
}

static int above_is_up(const struct above *above) {
    return above->line.socket >= 0 && !above->connecting;
}

int64_t above_wait(const struct above *above, struct pollfd *fd) {
    const struct line *line = &above->line;

    fd->fd = line->socket;
    fd->events = POLLIN;
    if (above->connecting || line_owes(line))
        fd->events |= POLLOUT;
    if (line->socket < 0)
        return above->next_try;
    if (above->connecting)
        return later(line->came, silence);
    return sooner(line_due(line, !line_owes(line)),
                  above->answered < above->count ? later(above->asked, silence) : NEVER);
}

void above_close(struct above *above, const char *why) {
    int was_up = above_is_up(above);

    if (above->line.socket >= 0)
        line_close(&above->line);
    above->connecting = 0;
    above->next_try = now_ms() + above->pause;
    say("%s %s: %s; again in %" PRId64 " ms", above->name, was_up ? "down" : "not up", why, above->pause);
    above->pause = sooner(2 * above->pause, above->most);
}

/* The line is there: the logins of all series go out in one go. */
static void above_up(struct above *above) {
    struct line *line = &above->line;
    const char *why;
    size_t i;

    above->connecting = 0;
    above->address = (above->address + above->address_count - 1) % above->address_count; /* the one that was right */
    line_open(line, line->socket);
    above->connect();
    above->answered = 0;
    above->asked = line->came;
    for (i = 0; i < above->count; i++) {
        struct ftd_written request =
            above->request(above->series[i], line->output + line->out, sizeof line->output - line->out);

        must("login request", request.refusal);
        line->out += request.bytes;
    }
    say("%s up: to %s", above->name, above->text);
    why = line_flush(line);
    if (why != GOES_ON)
        above_close(above, why);
}

/* A try within the machine may meet itself where nobody listens: that is no line. */
static int meets_itself(int socket) {
    struct sockaddr_storage here, there;
    socklen_t here_len = sizeof here, there_len = sizeof there;

    memset(&here, 0, sizeof here);
    memset(&there, 0, sizeof there);
    return getsockname(socket, (struct sockaddr *)&here, &here_len) == 0 &&
           getpeername(socket, (struct sockaddr *)&there, &there_len) == 0 && here_len == there_len &&
           memcmp(&here, &there, here_len) == 0;
}

static void above_connected(struct above *above) {
    int error = 0;
    socklen_t len = sizeof error;

    if (getsockopt(above->line.socket, SOL_SOCKET, SO_ERROR, &error, &len) != 0)
        error = errno;
    if (error != 0)
        above_close(above, strerror(error));
    else if (meets_itself(above->line.socket))
        above_close(above, "nobody listens there");
    else
        above_up(above);
}

static void above_try(struct above *above) {
    size_t at = above->address;
    int fd = socket(above->addresses[at].ss_family, SOCK_STREAM, 0);

    above->address = (at + 1) % above->address_count;
    if (fd < 0) {
        above_close(above, strerror(errno));
        return;
    }
    set_up_socket(fd);
    line_open(&above->line, fd);
    above->connecting = 1;
    if (connect(fd, (struct sockaddr *)&above->addresses[at], above->lengths[at]) == 0)
        above_connected(above);
    else if (errno != EINPROGRESS && errno != EINTR)
        above_close(above, strerror(errno));
}

/* The whole packets before the first login answer; *answer: its bytes, 0 where it isn't there yet. What is short,
 * refused by the reader or of a series isn't one. */
static size_t before_answer(const uint8_t *bytes, size_t count, size_t *answer) {
    size_t at = 0, said;

    *answer = 0;
    while ((said = ftd_said_length(bytes + at, count - at)) > 0 && said <= count - at) {
        struct ftd_packet read = ftd_read(bytes + at, said);

        if (read.answer == FTD_MESSAGE && read.tid == LOGIN_TID && read.series == 0) {
            *answer = said;
            break;
        }
        at += said;
    }
    return at;
}

/* Takes all that came: login answers by themselves, in the order of the asks, all else in bufferfuls. */
static const char *above_take(struct above *above) {
    struct line *line = &above->line;
    size_t at = 0, answer;

    do {
        size_t count = line->used - at, taken = 0;
        uint8_t refusal;

        answer = 0;
        if (above->answered < above->count)
            count = before_answer(line->in + at, count, &answer);
        refusal = above->receive(line->in + at, count, &taken);
        if (refusal != 0)
            return refused("packet", refusal);
        at += taken;
        if (answer > 0) {
            refusal = above->confirm(above->series[above->answered], line->in + at, answer);
            if (refusal != 0)
                return refused("login answer", refusal);
            above->answered++;
            above->pause = above->first;
            at += answer;
        }
    } while (answer > 0);
    line_drop(line, at);
    return GOES_ON;
}

void above_work(struct above *above, const struct pollfd *fd) {
    struct line *line = &above->line;
    const char *why = GOES_ON;

    if (line->socket < 0) {
        if (now_ms() >= above->next_try)
            above_try(above);
        return;
    }
    if (above->connecting) {
        if (fd->revents != 0)
            above_connected(above);
        else if (reported >= later(line->came, silence))
            above_close(above, "no connection for too long");
        return;
    }
    if (fd->revents & (POLLIN | POLLHUP | POLLERR)) {
        why = line_read(line);
        if (why == GOES_ON)
            why = above_take(above);
    }
    if (why == GOES_ON)
        why = line_flush(line);
    if (why == GOES_ON && above->answered < above->count && reported >= later(above->asked, silence))
        why = "a login was not answered for too long";
    if (why == GOES_ON)
        why = line_tick(line, !line_owes(line));
    if (why != GOES_ON)
        above_close(above, why);
}
