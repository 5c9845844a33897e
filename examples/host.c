/* A unit's main loop over libnx584: hear the gateway, answer it, keep the table and a log, send commands until they
 * are acknowledged. The text below says how it is used. Linux; build it as the top of nx584.h says. */
#define _GNU_SOURCE /* ppoll */
#include "nx584.h"

#include <errno.h>
#include <fcntl.h>
#include <poll.h>
#include <signal.h>
#include <stdio.h>
#include <stdlib.h>
#include <string.h>
#include <termios.h>
#include <time.h>
#include <unistd.h>

static const char usage[] =
    "usage: host [--ascii] [--speed N] [--wait MS] [--table FILE] [--log FILE] [--commands FILE] [--tick MS] [LINE]\n"
    "Hears a gateway on LINE, a terminal as /dev/ttyS0, and answers it there. Without one it hears standard\n"
    "input and answers on standard output.\n"
    "  --ascii          the gateway speaks ASCII; else binary\n"
    "  --speed N        the line's speed, 600 to 115200 baud (9600); always 8 data bits, no parity, 1 stop bit\n"
    "  --wait MS        between two tries to open a line that went away (1000)\n"
    "  --table FILE     write the table there at the end\n"
    "  --log FILE       write the log there at the end: the messages 04 to 08 that were heard, oldest first, each\n"
    "                   followed by one byte that holds its length; 65536 bytes at most. When it is full, those\n"
    "                   are dropped that later ones have overwritten whole in the table\n"
    "  --commands FILE  send the commands of FILE, up to its end: in each line one message in hexadecimal, as\n"
    "                   3F 09 for a bypass of zone 10. A FIFO does, and /dev/fd/3 is descriptor 3\n"
    "  --tick MS        between two ticks (500): a command is sent again after six without an answer\n"
    "How each command ended goes to standard error, with the number of its line in FILE; eight wait at most, and\n"
    "lines beyond them are read when one has ended.\n"
    "A line of FILE may also ask what was last heard about a zone, 1 to 256, as zone 10 does. The answer goes to\n"
    "standard error, at once, also while eight commands wait; a question behind a ninth waits with it.\n"
    "The overview goes to standard error at the end and whenever SIGUSR1 comes. SIGINT, SIGTERM and SIGHUP\n"
    "end the program; a terminal then has its settings of before.\n"
    "Status: 0 ended well, 1 the line or a file failed, 2 wrong use.\n";

enum { COMMAND_TEXT = 1024 }; /* more than the longest line that can be a message */

struct unit {
    const char *line; /* NULL: standard input and output */
    const char *table_file, *log_file;
    uint8_t framing;
    speed_t speed;
    int wait;        /* milliseconds */
    long long retry; /* when a line that is away is tried again */
    int in, out;     /* -1 while the line is away */
    int is_set_up;
    struct termios before;
    int status, at_end;
    nx584_reader reader;
    uint8_t table[NX584_TABLE_BYTES];
    uint8_t log[NX584_LOG_MOST];
    size_t log_used;
    nx584_slot slots[NX584_SLOTS];
    unsigned long lines[NX584_SLOTS]; /* of each command that waits, the number of its line */
    int tick;                         /* milliseconds */
    long long next_tick;
    const char *commands_file;
    int commands;            /* -1 for none, and after the end */
    char text[COMMAND_TEXT]; /* read and not taken yet */
    size_t text_count;
    unsigned long line_number; /* of the last line taken */
    int is_overlong;           /* the line in text has lost its beginning */
};

/* ---- time */

/* Milliseconds, by a clock that nobody sets. */
static long long now(void) {
    struct timespec time;
    clock_gettime(CLOCK_MONOTONIC, &time);
    return time.tv_sec * 1000LL + time.tv_nsec / 1000000;
}

static int milliseconds_to(long long when) {
    long long left = when - now();
    return left < 0 ? 0 : (int)left;
}

/* ---- signals: they come in only while the program waits, so that none is overlooked just before it */

static volatile sig_atomic_t asked, stopped;
static sigset_t let_in;

static void on_signal(int number) {
    if (number == SIGUSR1)
        asked = 1;
    else
        stopped = 1;
}

static void catch_signals(void) {
    static const int ours[] = {SIGUSR1, SIGINT, SIGTERM, SIGHUP};
    struct sigaction action;
    sigset_t blocked;
    memset(&action, 0, sizeof action);
    sigemptyset(&action.sa_mask);
    sigemptyset(&blocked);
    for (size_t k = 0; k < sizeof ours / sizeof *ours; k++)
        sigaddset(&blocked, ours[k]);
    sigprocmask(SIG_BLOCK, &blocked, &let_in);
    action.sa_handler = on_signal;
    for (size_t k = 0; k < sizeof ours / sizeof *ours; k++) {
        sigdelset(&let_in, ours[k]);
        sigaction(ours[k], &action, NULL);
    }
    action.sa_handler = SIG_IGN; /* a write to a closed pipe says so by itself */
    sigaction(SIGPIPE, &action, NULL);
}

/* Waits until one of some descriptors is ready, a signal comes or the time is over; a negative time has no
 * end, and descriptor -1 is never ready. Whether one is ready, or -1. */
static int wait_for_any(struct pollfd *polls, unsigned count, int milliseconds) {
    struct timespec time = {milliseconds / 1000, milliseconds % 1000 * 1000000L};
    int ready = ppoll(polls, count, milliseconds < 0 ? NULL : &time, &let_in);
    return ready < 0 && errno == EINTR ? 0 : ready;
}

static int wait_for(int line, short events, int milliseconds) {
    struct pollfd poll = {line, events, 0};
    return wait_for_any(&poll, 1, milliseconds);
}

/* ---- the line */

/* Raw, no echo, 8N1, no flow control. What the settings were is kept. */
static int set_up(struct unit *u) {
    struct termios raw;
    if (tcgetattr(u->in, &u->before) != 0)
        return -1;
    raw = u->before;
    raw.c_iflag = raw.c_oflag = raw.c_lflag = 0;
    raw.c_cflag = CS8 | CREAD | CLOCAL;
    raw.c_cc[VMIN] = 1;
    raw.c_cc[VTIME] = 0;
    if (cfsetispeed(&raw, u->speed) != 0 || cfsetospeed(&raw, u->speed) != 0)
        return -1;
    u->is_set_up = tcsetattr(u->in, TCSANOW, &raw) == 0;
    return u->is_set_up ? 0 : -1;
}

/* A line that is being opened does not wait for a carrier; one that is open does wait for its bytes. */
static int open_line(struct unit *u) {
    u->in = u->out = open(u->line, O_RDWR | O_NOCTTY | O_NONBLOCK | O_CLOEXEC);
    if (u->in >= 0 && set_up(u) == 0 && fcntl(u->in, F_SETFL, 0) == 0) {
        fprintf(stderr, "host: hearing %s\n", u->line);
        return 0;
    }
    if (u->in >= 0) {
        int why = errno;
        close(u->in);
        errno = why;
    }
    u->in = u->out = -1;
    u->is_set_up = 0;
    return -1;
}

/* Standard input may be a line too, but not the terminal that the program was started from: it would no
 * longer take an interrupt key. */
static int take_standard_lines(struct unit *u) {
    u->in = 0;
    u->out = 1;
    if (!isatty(u->in))
        return 0;
    if (tcgetpgrp(u->in) >= 0) {
        fprintf(stderr, "host: standard input is the terminal that host was started from; name a line\n");
        return -1;
    }
    return set_up(u);
}

/* After the last byte was sent. */
static void put_back(struct unit *u) {
    if (u->is_set_up)
        tcsetattr(u->in, TCSADRAIN, &u->before);
}

/* A line with a name is opened again by the main loop; the reader keeps what it holds, and commands go on to
 * count their ticks. why: 0 is the end of the input. */
static void lose_line(struct unit *u, int why) {
    const char *said = why ? strerror(why) : "its end was reached";
    if (u->line) {
        fprintf(stderr, "host: %s went away (%s); trying again every %d ms\n", u->line, said, u->wait);
        close(u->in);
        u->in = u->out = -1;
        u->is_set_up = 0;
        u->retry = now() + u->wait;
        return;
    }
    u->at_end = 1;
    u->out = -1;
    if (why) {
        fprintf(stderr, "host: the line failed: %s\n", said);
        u->status = 1;
    }
}

/* 0, or -1 where the line failed. Told to stop, it does not wait for a line that takes no byte. */
static int send_all(int line, const uint8_t *bytes, size_t count) {
    for (size_t sent = 0; sent < count;) {
        int ready = wait_for(line, POLLOUT, stopped ? 0 : -1);
        ssize_t n = ready > 0 ? write(line, bytes + sent, count - sent) : ready;
        if (n < 0 && errno != EINTR && errno != EAGAIN)
            return -1;
        if (n > 0)
            sent += (size_t)n;
        else if (ready == 0 && stopped)
            return 0;
    }
    return 0;
}

/* In the line's framing. To a line that is away nothing is sent. */
static void send_message(struct unit *u, const uint8_t *message, size_t length) {
    uint8_t frame[NX584_FRAME_MOST];
    nx584_written w = nx584_write(message, length, u->framing, frame, sizeof frame, 0);
    if (u->out >= 0 && send_all(u->out, frame, w.length) != 0)
        lose_line(u, errno);
}

/* ---- commands */

static size_t waiting(const struct unit *u) {
    size_t count = 0;
    while (count < NX584_SLOTS && u->slots[count].length != 0)
        count++;
    return count;
}

static const char *how(uint8_t ended) {
    switch (ended) {
    case NX584_ENDED_ACKNOWLEDGED: return "acknowledged";
    case NX584_ENDED_FAILED: return "failed";
    case NX584_ENDED_REJECTED: return "rejected";
    case NX584_ENDED_REPLIED: return "answered";
    default: return "given up";
    }
}

static const char *meaning(uint8_t refusal) {
    switch (refusal) {
    case NX584_BAD_LENGTH: return "longer than a message can be";
    case NX584_UNKNOWN: return "the number is none of the 41";
    case NX584_WRONG_LENGTH: return "the length is not that of its number";
    case NX584_BAD_VALUE: return "a value is out of its range";
    case NX584_NO_COMMAND: return "it is none of the 14 commands";
    case NX584_ALL_WAITING: return "eight commands wait";
    default: return "the slots are not sound";
    }
}

/* What a call answered: the front, before the call a command of this type byte, may have ended, and one may go
 * out. Its bytes are not printed, as a PIN may be among them. */
static void follow(struct unit *u, nx584_sending a, uint8_t front) {
    if (a.ended != NX584_NOT_ENDED) {
        fprintf(stderr, "host: command %lu (%02X) %s\n", u->lines[0], front & 0x3F, how(a.ended));
        memmove(u->lines, u->lines + 1, sizeof u->lines - sizeof *u->lines);
    }
    if (a.length > 0) {
        send_message(u, a.message, a.length);
        u->next_tick = now() + u->tick; /* six whole ticks: a gateway may take 2.5 seconds for its answer */
    }
}

static void take_command(struct unit *u, const uint8_t *message, size_t length) {
    nx584_sending a = nx584_take(u->slots, NX584_SLOTS, message, length);
    if (a.number != 0) {
        fprintf(stderr, "host: command %lu refused: %d, %s\n", u->line_number, a.number, meaning(a.number));
        return;
    }
    u->lines[waiting(u) - 1] = u->line_number;
    follow(u, a, 0);
}

static void tell(struct unit *u, const uint8_t *message, size_t length) {
    uint8_t front = u->slots[0].message[0];
    follow(u, nx584_told(u->slots, NX584_SLOTS, message, length), front);
}

/* Where ticks are due that a slow line held up, they are one. */
static void tick_in_time(struct unit *u) {
    uint8_t front = u->slots[0].message[0];
    if (u->next_tick > now())
        return;
    u->next_tick += u->tick;
    if (u->next_tick <= now())
        u->next_tick = now() + u->tick;
    follow(u, nx584_tick(u->slots, NX584_SLOTS), front);
}

/* ---- the log */

/* It is said, as whoever reads the log has to know: what was heard before and overwritten since is gone. */
static void make_room(struct unit *u) {
    nx584_written won = nx584_make_room(u->log, sizeof u->log, u->log_used);
    u->log_used -= won.length;
    fprintf(stderr, "host: made room in the log: %zu bytes\n", won.length);
}

/* Of every good message: one that a log does not keep is refused with 18, and nobody needs to know. The buffer is
 * longer than NX584_LOG_ENOUGH, so that one which has no room has it when room was made. */
static void keep(struct unit *u, const uint8_t *message, size_t length) {
    nx584_written w = nx584_keep(u->log, sizeof u->log, u->log_used, message, length);
    if (w.number == NX584_NO_ROOM) {
        make_room(u);
        w = nx584_keep(u->log, sizeof u->log, u->log_used, message, length);
    }
    u->log_used += w.length;
}

static void show_flags(uint8_t flags) {
    fprintf(stderr, "%s%s%s%s%s\n", flags == 0 ? " in order" : "", flags & NX584_FAULTED ? " faulted" : "",
            flags & NX584_BYPASS ? " bypass" : "", flags & NX584_TROUBLE ? " trouble" : "",
            flags & NX584_ALARM_MEMORY ? " alarm memory" : "");
}

/* What a message says of a zone is what a fresh table has of it afterwards. */
static uint8_t flags_in(const uint8_t *message, size_t length, uint8_t zone) {
    uint8_t table[NX584_TABLE_BYTES];
    memset(table, 0, sizeof table);
    nx584_apply(table, sizeof table, message, length);
    return nx584_zone(table, sizeof table, zone).flags;
}

/* What was last heard about a zone. A log that keep and make_room alone have changed is not refused: this unit's memory
 * would be damaged, and that a zone was not heard must not be said then. */
static void show_newest(const struct unit *u, uint8_t zone) {
    nx584_found f = nx584_newest(u->log, sizeof u->log, u->log_used, zone);
    if (f.number != 0) {
        fprintf(stderr, "host: zone %d: the log is not sound (%d)\n", zone + 1, f.number);
        return;
    }
    if (f.length == 0) {
        fprintf(stderr, "host: zone %d was not heard\n", zone + 1);
        return;
    }
    const uint8_t *message = u->log + f.at;
    size_t length = f.length - 1; /* without the trailer */
    fprintf(stderr, "host: zone %d was last heard in", zone + 1);
    for (size_t k = 0; k < length; k++)
        fprintf(stderr, " %02X", message[k]);
    fprintf(stderr, ":");
    show_flags(flags_in(message, length, zone));
}

/* ---- the commands' file */

static int digit(char c) {
    if (c >= '0' && c <= '9')
        return c - '0';
    if (c >= 'A' && c <= 'F')
        return c - 'A' + 10;
    return c >= 'a' && c <= 'f' ? c - 'a' + 10 : -1;
}

static int is_blank(char c) {
    return c == ' ' || c == '\t' || c == '\r';
}

static size_t past_blanks(const char *text, size_t count, size_t at) {
    while (at < count && is_blank(text[at]))
        at++;
    return at;
}

/* The zone that a line asks about, from 1 on, as zone 10 does; 0 where it names none, -1 where it is no question. */
static int zone_of(const char *text, size_t count) {
    size_t at = past_blanks(text, count, 0), end;
    int zone = 0;
    for (const char *word = "zone"; *word; word++, at++)
        if (at == count || text[at] != *word)
            return -1;
    end = at;
    at = past_blanks(text, count, end);
    if (at == end)
        return 0;
    for (; at < count && text[at] >= '0' && text[at] <= '9' && zone <= NX584_ZONES; at++)
        zone = 10 * zone + text[at] - '0';
    return past_blanks(text, count, at) == count && zone <= NX584_ZONES ? zone : 0;
}

/* How many bytes a line has, with blanks between them or none; -1 where it is something else. */
static int bytes_of(const char *text, size_t count, uint8_t *bytes) {
    int n = 0;
    for (size_t k = 0; k < count; k++) {
        if (is_blank(text[k]))
            continue;
        int high = digit(text[k]), low = k + 1 < count ? digit(text[k + 1]) : -1;
        if (high < 0 || low < 0)
            return -1;
        bytes[n++] = (uint8_t)(high << 4 | low);
        k++;
    }
    return n;
}

static void take_bytes(struct unit *u, const char *text, size_t count) {
    uint8_t bytes[COMMAND_TEXT / 2];
    int n = u->is_overlong ? -1 : bytes_of(text, count, bytes);
    u->is_overlong = 0;
    if (n < 0)
        fprintf(stderr, "host: command %lu refused: it is not written as bytes in hexadecimal\n", u->line_number);
    if (n > 0)
        take_command(u, bytes, (size_t)n);
}

/* Whether it was taken: a question needs no slot, any other line waits for a free one. */
static int take_line(struct unit *u, const char *text, size_t count) {
    int zone = u->is_overlong ? -1 : zone_of(text, count);
    if (zone < 0 && waiting(u) == NX584_SLOTS)
        return 0;
    u->line_number++;
    if (zone < 0)
        take_bytes(u, text, count);
    else if (zone == 0)
        fprintf(stderr, "host: command %lu refused: it names no zone from 1 to %d\n", u->line_number, NX584_ZONES);
    else
        show_newest(u, (uint8_t)(zone - 1));
    return 1;
}

static char *end_of_line(struct unit *u) {
    return memchr(u->text, '\n', u->text_count);
}

/* The lines that were read, up to one that waits. */
static void take_lines(struct unit *u) {
    char *end;
    while ((end = end_of_line(u)) != NULL) {
        size_t count = (size_t)(end - u->text);
        if (!take_line(u, u->text, count))
            return;
        u->text_count -= count + 1;
        memmove(u->text, end + 1, u->text_count);
    }
    if (u->text_count == sizeof u->text) {
        u->is_overlong = 1;
        u->text_count = 0;
    }
}

/* Only where no line waits: then no whole one is in the text, and it has room. */
static void read_commands(struct unit *u) {
    ssize_t n = read(u->commands, u->text + u->text_count, sizeof u->text - u->text_count);
    if (n > 0)
        u->text_count += (size_t)n;
    if (n > 0 || (n < 0 && (errno == EAGAIN || errno == EINTR)))
        return;
    if (n < 0) {
        fprintf(stderr, "host: cannot read %s: %s\n", u->commands_file, strerror(errno));
        u->status = 1;
    }
    close(u->commands);
    u->commands = -1;
    if (u->text_count > 0 || u->is_overlong) /* a last line that has no end */
        u->text[u->text_count++] = '\n';
}

static int open_commands(struct unit *u) {
    if (!u->commands_file)
        return 0;
    u->commands = open(u->commands_file, O_RDONLY | O_NOCTTY | O_NONBLOCK | O_CLOEXEC);
    if (u->commands >= 0)
        return 0;
    fprintf(stderr, "host: cannot open %s: %s\n", u->commands_file, strerror(errno));
    return -1;
}

/* ---- hearing */

static void hear(struct unit *u, const uint8_t *bytes, size_t count) {
    for (size_t at = 0; at < count;) {
        nx584_hearing h = nx584_hear(u->reader, u->table, sizeof u->table, bytes + at, count - at);
        u->reader = h.reader;
        at += h.used; /* what is unused is handed in again */
        if (h.reply != NX584_NO_REPLY)
            send_message(u, &h.reply, 1);
        if (h.verdict == NX584_GOOD) {
            keep(u, h.message, h.length);
            tell(u, h.message, h.length);
        }
    }
}

/* One read, where there is something to read. */
static void hear_some(struct unit *u) {
    uint8_t bytes[256];
    ssize_t n;
    do
        n = read(u->in, bytes, sizeof bytes);
    while (n < 0 && errno == EINTR);
    if (n > 0)
        hear(u, bytes, (size_t)n);
    else if (n == 0 || errno != EAGAIN)
        lose_line(u, n == 0 ? 0 : errno);
}

/* ---- the overview */

static void show_group(nx584_group g) {
    fprintf(stderr, "%u heard, %u faulted", g.heard, g.faulted);
    if (g.known)
        fprintf(stderr, ", share %.17g\n", g.share);
    else
        fprintf(stderr, ", not heard\n");
}

/* The zones of which a short flag is set. */
static void show_zone(const uint8_t *table, int zone) {
    nx584_zone_record z = nx584_zone(table, NX584_TABLE_BYTES, (uint8_t)zone);
    if (!(z.mark & NX584_HEARD) || z.flags == 0)
        return;
    fprintf(stderr, "zone %d:", zone + 1);
    show_flags(z.flags);
}

static void show_partition(const uint8_t *table, int partition) {
    nx584_partition_record p = nx584_partition(table, NX584_TABLE_BYTES, (uint8_t)partition);
    if (p.mark & NX584_HEARD)
        fprintf(stderr, "partition %d: flags %02X\n", partition + 1, p.flags);
}

static void show(const uint8_t *table) {
    nx584_overview o = nx584_view(table, NX584_TABLE_BYTES);
    for (int k = 0; k < NX584_GROUPS; k++) {
        fprintf(stderr, "group %d: ", k + 1);
        show_group(o.groups[k]);
    }
    fprintf(stderr, "site: ");
    show_group(o.site);
    for (int k = 0; k < NX584_ZONES; k++)
        show_zone(table, k);
    for (int k = 0; k < NX584_PARTITIONS; k++)
        show_partition(table, k);
}

static int write_file(const char *name, const uint8_t *bytes, size_t count) {
    FILE *file = fopen(name, "wb");
    size_t written = file ? fwrite(bytes, 1, count, file) : 0;
    if (file && fclose(file) == 0 && written == count)
        return 0;
    fprintf(stderr, "host: cannot write %s: %s\n", name, strerror(errno));
    return 1;
}

/* ---- the words, and the loop */

/* A whole number from least to most, or 0. */
static unsigned long number(const char *word, unsigned long least, unsigned long most) {
    char *end;
    unsigned long n = strtoul(word, &end, 10);
    return *word >= '0' && *word <= '9' && *end == '\0' && n >= least && n <= most ? n : 0;
}

/* 0 where the library knows no such speed. */
static int take_speed(struct unit *u, const char *word) {
    static const struct {
        unsigned long baud;
        speed_t speed;
    } speeds[] = {{600, B600},     {1200, B1200},   {2400, B2400},   {4800, B4800},    {9600, B9600},
                  {19200, B19200}, {38400, B38400}, {57600, B57600}, {115200, B115200}};
    unsigned long baud = number(word, 600, 115200);
    for (size_t k = 0; k < sizeof speeds / sizeof *speeds; k++)
        if (speeds[k].baud == baud) {
            u->speed = speeds[k].speed;
            return 1;
        }
    return 0;
}

/* Takes an option and its value; how many words it was, 0 for a wrong one. */
static int take_option(struct unit *u, const char *option, const char *value) {
    if (strcmp(option, "--ascii") == 0) {
        u->framing = NX584_ASCII;
        return 1;
    }
    if (!value)
        return 0;
    if (strcmp(option, "--table") == 0) {
        u->table_file = value;
        return 2;
    }
    if (strcmp(option, "--log") == 0) {
        u->log_file = value;
        return 2;
    }
    if (strcmp(option, "--commands") == 0) {
        u->commands_file = value;
        return 2;
    }
    if (strcmp(option, "--wait") == 0) {
        u->wait = (int)number(value, 1, 86400000);
        return u->wait ? 2 : 0;
    }
    if (strcmp(option, "--tick") == 0) {
        u->tick = (int)number(value, 1, 86400000);
        return u->tick ? 2 : 0;
    }
    return strcmp(option, "--speed") == 0 && take_speed(u, value) ? 2 : 0;
}

static int take_words(struct unit *u, char **words) {
    while (*words && words[0][0] == '-') {
        int taken = take_option(u, words[0], words[1]);
        if (taken == 0)
            return -1;
        words += taken;
    }
    u->line = *words;
    return *words && words[1] ? -1 : 0;
}

static int start(struct unit *u) {
    catch_signals();
    u->reader = nx584_fresh(u->framing); /* strict: a damaged escape is answered at once, by a 1Eh */
    u->next_tick = now() + u->tick;
    if (open_commands(u) != 0)
        return -1;
    if (!u->line)
        return take_standard_lines(u);
    if (open_line(u) == 0)
        return 0;
    fprintf(stderr, "host: cannot open %s as a terminal: %s\n", u->line, strerror(errno));
    return -1;
}

/* How long a turn waits at most: up to the next tick, if a command waits, and to the next try of the line. */
static int patience(const struct unit *u) {
    int tick = u->slots[0].length > 0 ? milliseconds_to(u->next_tick) : -1;
    int retry = u->in < 0 ? milliseconds_to(u->retry) : -1;
    if (tick < 0 || retry < 0)
        return tick < 0 ? retry : tick;
    return tick < retry ? tick : retry;
}

/* A turn waits once: for bytes, for commands where no line of them waits, for a tick, or to try a line that is away.
 * It reads little of each, so that none waits long for the others. A signal ends every wait. */
static void take_turn(struct unit *u) {
    struct pollfd polls[] = {{u->in, POLLIN, 0}, {end_of_line(u) ? -1 : u->commands, POLLIN, 0}};
    if (wait_for_any(polls, 2, patience(u)) < 0)
        lose_line(u, errno);
    else if (polls[0].revents)
        hear_some(u);
    tick_in_time(u);
    if (polls[1].revents)
        read_commands(u);
    take_lines(u);
    if (u->in < 0 && !stopped && milliseconds_to(u->retry) == 0 && open_line(u) != 0)
        u->retry = now() + u->wait;
}

static void run(struct unit *u) {
    while (!stopped && !u->at_end) {
        if (asked) {
            asked = 0;
            show(u->table);
        }
        take_turn(u);
    }
    if (u->in < 0)
        u->status = 1;
    if (waiting(u) > 0)
        fprintf(stderr, "host: commands that still wait: %zu\n", waiting(u));
}

int main(int argc, char **argv) {
    static struct unit u; /* a table of zeros is fresh, and a log of which none is used is empty */
    u.speed = B9600;
    u.wait = 1000;
    u.tick = 500;
    u.commands = -1;
    if (argc == 2 && strcmp(argv[1], "--help") == 0)
        return fputs(usage, stdout) < 0 || fflush(stdout) != 0;
    if (take_words(&u, argv + 1) != 0) {
        fputs(usage, stderr);
        return 2;
    }
    if (nx584_version() != NX584_VERSION) {
        fprintf(stderr, "host: made for version %d of the library, linked with %u\n", NX584_VERSION, nx584_version());
        return 1;
    }
    if (start(&u) != 0)
        return 1;
    run(&u);
    put_back(&u);
    show(u.table);
    if (u.table_file && write_file(u.table_file, u.table, sizeof u.table) != 0)
        u.status = 1;
    if (u.log_file && write_file(u.log_file, u.log, u.log_used) != 0)
        u.status = 1;
    return u.status;
}
