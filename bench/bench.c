/* Times the loops of loops.c over made inputs, and prints a line for each: what, nanoseconds for one
 * unit, and the number made from the answers. bench/run compares the lines of several libraries. */
#include "loops.h"

#include <stdio.h>
#include <stdlib.h>
#include <string.h>
#include <time.h>

enum { RUNS = 9, CAPTURE = 1 << 16, LONGEST_CAPTURE = 1 << 24, MESSAGES = 4096 };
enum { LONGEST_FRAME = 2 * (NX584_LONGEST + 3) + 2 };
enum { ANY = -1, COMMANDS = -2, KEPT = -3 };     /* kinds of messages, beside the single ones */
enum { LOGS_BYTES = 1 << 18, RECORD_MOST = 13 }; /* of all logs of a line, and of a record */
enum { STAY_MOST = 256 * 9 + 241 * 11 + 8 * 10 + 10 + 13, STAY_LOGS = LOGS_BYTES / STAY_MOST }; /* nothing goes */
enum { TABLES = 128 }; /* of a line of grids */
static const double LEAST_SECONDS = 0.01;

/* ---- made inputs, the same for every library */

static uint64_t state = 1;

static uint8_t any_byte(void)
{
    state = state * 6364136223846793005u + 1442695040888963407u;
    return (uint8_t)(state >> 56);
}

/* A good message of one of the kinds that a gateway sends most. */
static size_t make_message(uint8_t *m, unsigned kind)
{
    static const uint8_t numbers[] = {0x04, 0x05, 0x06, 0x07, 0x08, 0x03, 0x0A, 0x1D};
    static const uint8_t lengths[] = {8, 10, 9, 9, 12, 18, 10, 1};
    size_t length = lengths[kind];
    for (size_t k = 0; k < length; k++)
        m[k] = any_byte();
    m[0] = numbers[kind] | (any_byte() & 0x80);
    if (kind == 1)
        m[1] &= 0xF0;
    if (kind == 2)
        m[1] &= 7;
    return length;
}

/* A good one of the 14 commands, of any length that they have but two. */
static size_t make_command(uint8_t *m)
{
    static const uint8_t numbers[] = {0x31, 0x34, 0x36, 0x3A, 0x35, 0x37, 0x2C, 0x3F};
    static const uint8_t lengths[] = {13, 8, 7, 6, 5, 4, 3, 2};
    unsigned which = any_byte() % 8;
    for (size_t k = 0; k < lengths[which]; k++)
        m[k] = any_byte();
    m[0] = numbers[which] | (any_byte() & 0x80);
    if (which == 0)
        m[2] = 0x20;
    return lengths[which];
}

/* A message of one kind, of any, a command, or one that a log keeps. */
static size_t make_of_kind(uint8_t *m, int kind)
{
    switch (kind) {
    case ANY: return make_message(m, any_byte() % 8);
    case COMMANDS: return make_command(m);
    case KEPT: return make_message(m, any_byte() % 5);
    default: return make_message(m, (unsigned)kind);
    }
}

/* So many of them. */
static messages make_messages(int kind, size_t count)
{
    static uint8_t bytes[19 * MESSAGES];
    uint8_t *end = bytes;
    for (size_t k = 0; k < count; k++) {
        size_t length = make_of_kind(end + 1, kind);
        *end = (uint8_t)length;
        end += 1 + length;
    }
    messages list = {bytes, count};
    return list;
}

/* Frames one after the other; where damaged is not 0, every so many bytes one is another. */
static void make_frames(uint8_t framing, uint8_t *bytes, size_t length, size_t damaged)
{
    uint8_t m[18];
    size_t at = 0;
    while (at + 64 < length) {
        size_t n = make_message(m, any_byte() % 8);
        at += nx584_write(m, n, framing, bytes, length, at).length;
    }
    memset(bytes + at, 0, length - at);
    for (size_t k = damaged; damaged && k < length; k += damaged)
        bytes[k] = any_byte();
}

/* Good binary frames with many escapes: of a message's bytes from the third on, which may be anything, half are
 * 7Dh or 7Eh. */
static void make_escaped_frames(uint8_t *bytes, size_t length)
{
    uint8_t m[18];
    size_t at = 0;
    while (at + 64 < length) {
        size_t n = make_message(m, any_byte() % 8);
        for (size_t k = 2; k < n; k++)
            if (any_byte() & 1)
                m[k] = 0x7D + (any_byte() & 1);
        at += nx584_write(m, n, 0, bytes, length, at).length;
    }
    memset(bytes + at, 0, length - at);
}

/* One byte of a frame as it stands on the line. */
static size_t put_byte(uint8_t framing, uint8_t *to, uint8_t byte)
{
    static const char digits[] = "0123456789ABCDEF";
    if (framing) {
        to[0] = (uint8_t)digits[byte >> 4];
        to[1] = (uint8_t)digits[byte & 15];
        return 2;
    }
    if (byte != 0x7D && byte != 0x7E) {
        to[0] = byte;
        return 1;
    }
    to[0] = 0x7D;
    to[1] = byte ^ 0x20;
    return 2;
}

/* The frame of a message of NX584_LONGEST bytes whose number is unrecognised, its sums right: verdict 6. The
 * library writes no such frame. */
static size_t put_long_frame(uint8_t framing, uint8_t *to)
{
    uint8_t body[NX584_LONGEST + 3] = {NX584_LONGEST};
    unsigned sum1 = 0, sum2 = 0;
    size_t end = 1;
    for (size_t k = 1; k <= NX584_LONGEST; k++)
        body[k] = any_byte();
    body[1] |= 0x40; /* the reserved bit */
    for (size_t k = 0; k <= NX584_LONGEST; k++) {
        sum1 = (sum1 + body[k]) % 255;
        sum2 = (sum2 + sum1) % 255;
    }
    body[NX584_LONGEST + 1] = (uint8_t)sum1;
    body[NX584_LONGEST + 2] = (uint8_t)sum2;
    to[0] = framing ? 0x0A : 0x7E;
    for (size_t k = 0; k < sizeof body; k++)
        end += put_byte(framing, to + end, body[k]);
    if (framing)
        to[end++] = 0x0D;
    return end;
}

static void make_long_frames(uint8_t framing, uint8_t *bytes, size_t length)
{
    size_t at = 0;
    while (at + LONGEST_FRAME <= length)
        at += put_long_frame(framing, bytes + at);
    memset(bytes + at, 0, length - at);
}

/* A log's record of a kind. */
static size_t put_record(uint8_t *to, int kind)
{
    size_t length = make_of_kind(to, kind);
    to[length] = (uint8_t)length;
    return length + 1;
}

/* A record of a kind whose second byte is this: a zone or the first of sixteen, 0 for zone 1, or a partition. */
static size_t put_about(uint8_t *to, int kind, uint8_t second)
{
    size_t length = put_record(to, kind);
    to[1] = second;
    return length;
}

/* Mixed records about no zone above 128, with room for one more; zone 256 is heard first and not again, zone 1
 * last. */
static size_t make_log(uint8_t *log, size_t length)
{
    size_t used = put_about(log, 0, 255);
    while (used + 3 * RECORD_MOST <= length) {
        size_t record = put_record(log + used, KEPT);
        log[used + 1] &= 0x7F;
        used += record;
    }
    return used + put_about(log + used, 0, 0);
}

/* Records of a kind, about the whole site, until there is no room for one more: after a dry week. */
static size_t fill_log(uint8_t *log, size_t length, int kind)
{
    size_t used = 0;
    while (used + RECORD_MOST <= length)
        used += put_record(log + used, kind);
    return used;
}

static size_t make_site_log(uint8_t *log, size_t length) { return fill_log(log, length, KEPT); }
static size_t make_zone_log(uint8_t *log, size_t length) { return fill_log(log, length, 0); }
static size_t make_zones_log(uint8_t *log, size_t length) { return fill_log(log, length, 1); }

/* As many records as can stay: an 04h of each zone, and behind it an 05h from that zone on, where sixteen are left;
 * no later record is about its first zone. */
static size_t make_staying_log(uint8_t *log, size_t length)
{
    size_t used = 0;
    (void)length;
    for (unsigned zone = 0; zone < 256; zone++) {
        used += put_about(log + used, 0, (uint8_t)zone);
        if (zone <= 240)
            used += put_about(log + used, 1, (uint8_t)zone);
    }
    for (uint8_t partition = 0; partition < 8; partition++)
        used += put_about(log + used, 2, partition);
    used += put_record(log + used, 3);
    return used + put_record(log + used, 4);
}

/* ---- the measurements */

static uint8_t *capture, table[NX584_TABLE_BYTES];
static station_log logs[STAY_LOGS];
static size_t log_count;
static nx584_slot slots[NX584_SLOTS];
static messages made;

static void binary_frames(size_t units) { make_frames(0, capture, units, 0); }
static void ascii_frames(size_t units) { make_frames(1, capture, units, 0); }
static void damaged_frames(size_t units) { make_frames(0, capture, units, 100); }
static void escaped_frames(size_t units) { make_escaped_frames(capture, units); }
static void long_binary_frames(size_t units) { make_long_frames(0, capture, units); }
static void long_ascii_frames(size_t units) { make_long_frames(1, capture, units); }
static void starts(size_t units) { memset(capture, 0x7E, units); }
static void mixed(size_t units) { made = make_messages(ANY, units); }
static void zone_status(size_t units) { made = make_messages(0, units); }
static void zones_snapshot(size_t units) { made = make_messages(1, units); }

/* A table as a gateway fills it: most zones heard, half of them faulted. */
static void heard_zones(size_t units)
{
    zone_status(units);
    loop_apply(table, &made);
}

/* Eight commands wait, and more are made. */
static void eight_waiting(size_t units)
{
    made = make_messages(COMMANDS, units);
    const uint8_t *m = made.bytes;
    memset(slots, 0, sizeof slots);
    for (int k = 0; k < NX584_SLOTS; k++, m += 1 + *m)
        nx584_take(slots, NX584_SLOTS, m + 1, *m);
}

static void acknowledges(size_t units)
{
    eight_waiting(units);
    made = make_messages(7, units);
}

static void other_messages(size_t units)
{
    eight_waiting(units);
    zone_status(units);
}

/* Full logs, so many bytes of them in all, and a message for each. With one log, walked again and again, a
 * processor learns its branches, and those of a short log sooner: so lines that are compared walk as many records. */
static void make_logs(size_t units, size_t length, size_t (*make)(uint8_t *log, size_t length))
{
    log_count = units / length;
    for (size_t k = 0; k < log_count; k++) {
        uint8_t *log = capture + k * length;
        logs[k] = (station_log){log, length, make(log, length), log + units};
    }
    memcpy(capture + units, capture, units);
    made = make_messages(KEPT, log_count);
}

static void full_logs(size_t units) { make_logs(units, NX584_LOG_MOST, make_log); }
static void short_logs(size_t units) { make_logs(units, NX584_LOG_MOST / 4, make_log); }
static void site_logs(size_t units) { make_logs(units, NX584_LOG_MOST, make_site_log); }
static void zone_logs(size_t units) { make_logs(units, NX584_LOG_MOST, make_zone_log); }
static void zones_logs(size_t units) { make_logs(units, NX584_LOG_MOST, make_zones_log); }
static void staying_logs(size_t units) { make_logs(units, STAY_MOST, make_staying_log); }

static void noise(size_t units)
{
    for (size_t k = 0; k < units; k++)
        capture[k] = any_byte();
}

/* Tables one after another, with any marks and any flags. Of a single one a processor would learn which zones are heard
 * and which of them are faulted. */
static void any_tables(size_t units) { noise(units * NX584_TABLE_BYTES); }

/* The same, with this bit 0 in the mark of every zone. */
static void make_tables(size_t units, uint8_t heard)
{
    any_tables(units);
    for (size_t k = 0; k < units; k++)
        for (size_t zone = 0; zone < NX584_ZONES; zone++) {
            uint8_t *mark = capture + k * NX584_TABLE_BYTES + 8 * zone;
            *mark = (uint8_t)((*mark & ~NX584_HEARD) | heard);
        }
}

static void all_heard(size_t units) { make_tables(units, NX584_HEARD); }
static void nothing_heard(size_t units) { make_tables(units, 0); }

static uint64_t read_binary(size_t units) { return loop_read(0, NX584_STRICT, capture, units, units); }
static uint64_t read_old_rule(size_t units) { return loop_read(0, NX584_LENIENT, capture, units, units); }
static uint64_t read_ascii(size_t units) { return loop_read(1, NX584_STRICT, capture, units, units); }
static uint64_t read_binary_1(size_t units) { return loop_read(0, NX584_STRICT, capture, units, 1); }
static uint64_t read_binary_16(size_t units) { return loop_read(0, NX584_STRICT, capture, units, 16); }
static uint64_t read_binary_64(size_t units) { return loop_read(0, NX584_STRICT, capture, units, 64); }
static uint64_t read_ascii_1(size_t units) { return loop_read(1, NX584_STRICT, capture, units, 1); }
static uint64_t read_ascii_16(size_t units) { return loop_read(1, NX584_STRICT, capture, units, 16); }
static uint64_t read_ascii_64(size_t units) { return loop_read(1, NX584_STRICT, capture, units, 64); }
static uint64_t step_binary(size_t units) { return loop_step(0, capture, units); }
static uint64_t step_ascii(size_t units) { return loop_step(1, capture, units); }
static uint64_t write_binary(size_t units) { return (void)units, loop_write(0, &made); }
static uint64_t write_ascii(size_t units) { return (void)units, loop_write(1, &made); }
static uint64_t apply(size_t units) { return (void)units, loop_apply(table, &made); }
static uint64_t view(size_t units) { return loop_view(table, units); }
static uint64_t hear(size_t units) { return loop_hear(0, table, capture, units); }
static uint64_t take(size_t units) { return (void)units, loop_take(slots, &made); }
static uint64_t tick(size_t units) { return loop_tick(slots, units); }
static uint64_t told(size_t units) { return (void)units, loop_told(slots, &made); }
static uint64_t keep(size_t units) { return (void)units, loop_keep(logs, &made); }
static uint64_t newest_heard_last(size_t units) { return (void)units, loop_newest(logs, log_count, 0); }
static uint64_t newest_heard_first(size_t units) { return (void)units, loop_newest(logs, log_count, 255); }
static uint64_t make_room(size_t units) { return (void)units, loop_make_room(logs, log_count); }
static uint64_t all_levels(size_t units) { return loop_grid(capture, units, 16, 1); }
static uint64_t widest_level(size_t units) { return loop_grid(capture, units, 16, 16); }
static uint64_t one_cell(size_t units) { return loop_grid(capture, units, 1, 1); }

static const struct line {
    const char *what, *unit;
    void (*make)(size_t units);
    uint64_t (*loop)(size_t units);
    size_t units;
} lines[] = {
    {"read binary frames", "byte", binary_frames, read_binary, CAPTURE},
    {"read binary, 64 bytes a call", "byte", binary_frames, read_binary_64, CAPTURE},
    {"read binary, 16 bytes a call", "byte", binary_frames, read_binary_16, CAPTURE},
    {"read binary, 1 byte a call", "byte", binary_frames, read_binary_1, CAPTURE},
    {"step, binary", "byte", binary_frames, step_binary, CAPTURE},
    {"read binary with escapes", "byte", escaped_frames, read_binary, CAPTURE},
    {"read binary with escapes, old rule", "byte", escaped_frames, read_old_rule, CAPTURE},
    {"read ASCII frames", "byte", ascii_frames, read_ascii, CAPTURE},
    {"read ASCII, 64 bytes a call", "byte", ascii_frames, read_ascii_64, CAPTURE},
    {"read ASCII, 16 bytes a call", "byte", ascii_frames, read_ascii_16, CAPTURE},
    {"read ASCII, 1 byte a call", "byte", ascii_frames, read_ascii_1, CAPTURE},
    {"step, ASCII", "byte", ascii_frames, step_ascii, CAPTURE},
    {"read noise, binary", "byte", noise, read_binary, CAPTURE},
    {"read noise, ASCII", "byte", noise, read_ascii, CAPTURE},
    {"read start bytes only", "byte", starts, read_binary, CAPTURE},
    {"read binary, 255-byte frames", "byte", long_binary_frames, read_binary, CAPTURE},
    {"read binary, 255-byte frames, 16 bytes a call", "byte", long_binary_frames, read_binary_16, CAPTURE},
    {"read binary, 255-byte frames, 1 byte a call", "byte", long_binary_frames, read_binary_1, CAPTURE},
    {"read ASCII, 255-byte frames", "byte", long_ascii_frames, read_ascii, CAPTURE},
    {"read ASCII, 255-byte frames, 16 bytes a call", "byte", long_ascii_frames, read_ascii_16, CAPTURE},
    {"read ASCII, 255-byte frames, 1 byte a call", "byte", long_ascii_frames, read_ascii_1, CAPTURE},
    {"write binary", "frame", mixed, write_binary, MESSAGES},
    {"write ASCII", "frame", mixed, write_ascii, MESSAGES},
    {"apply 04h", "message", zone_status, apply, MESSAGES},
    {"apply 05h", "message", zones_snapshot, apply, MESSAGES},
    {"overview", "table", heard_zones, view, 1024},
    {"hear a mixed capture", "byte", damaged_frames, hear, CAPTURE},
    {"take the eighth command", "call", eight_waiting, take, MESSAGES},
    {"tick, eight waiting", "call", eight_waiting, tick, MESSAGES},
    {"told 1Dh, eight waiting", "call", acknowledges, told, MESSAGES},
    {"told 04h, eight waiting", "call", other_messages, told, MESSAGES},
    {"keep, full log", "byte of it", full_logs, keep, LOGS_BYTES},
    {"keep, full log of 16 KiB", "byte of it", short_logs, keep, LOGS_BYTES},
    {"newest, full log, heard last", "byte of it", full_logs, newest_heard_last, LOGS_BYTES},
    {"newest, full log, heard first", "byte of it", full_logs, newest_heard_first, LOGS_BYTES},
    {"newest, full log of 16 KiB, heard first", "byte of it", short_logs, newest_heard_first, LOGS_BYTES},
    {"make room, full log", "byte of it", site_logs, make_room, LOGS_BYTES},
    {"make room, full log of 04h", "byte of it", zone_logs, make_room, LOGS_BYTES},
    {"make room, full log of 05h", "byte of it", zones_logs, make_room, LOGS_BYTES},
    {"make room, 5,058-byte log, nothing goes", "byte of it", staying_logs, make_room, STAY_LOGS * STAY_MOST},
    {"grid, all five levels", "table", any_tables, all_levels, TABLES},
    {"grid, all five levels, all heard", "table", all_heard, all_levels, TABLES},
    {"grid, all five levels, nothing heard", "table", nothing_heard, all_levels, TABLES},
    {"grid, 16 cells wide", "table", any_tables, widest_level, TABLES},
    {"grid, 1 cell wide", "table", any_tables, one_cell, TABLES},
    {"read binary, 1 KiB", "byte", binary_frames, read_binary, 1 << 10},
    {"read binary, 64 KiB", "byte", binary_frames, read_binary, 1 << 16},
    {"read binary, 16 MiB", "byte", binary_frames, read_binary, LONGEST_CAPTURE},
};

/* Of the processor: what else the machine does is left out. */
static double seconds(void)
{
    struct timespec now;
    clock_gettime(CLOCK_PROCESS_CPUTIME_ID, &now);
    return (double)now.tv_sec + (double)now.tv_nsec * 1e-9;
}

static int ascending(const void *a, const void *b)
{
    double x = *(const double *)a, y = *(const double *)b;
    return (x > y) - (x < y);
}

/* The median of several runs, each of as many rounds as take some time. */
static void measure(const struct line *line)
{
    double runs[RUNS];
    state = 1;
    memset(table, 0, sizeof table);
    line->make(line->units);
    uint64_t sum = line->loop(line->units);
    for (int k = 0; k < RUNS; k++) {
        double began = seconds(), took;
        size_t rounds = 0;
        do {
            line->loop(line->units);
            rounds++;
            took = seconds() - began;
        } while (took < LEAST_SECONDS);
        runs[k] = took / (double)rounds / (double)line->units * 1e9;
    }
    qsort(runs, RUNS, sizeof *runs, ascending);
    printf("%s, ns a %s\t%.4f\t%016llx\n", line->what, line->unit, runs[RUNS / 2], (unsigned long long)sum);
}

/* bench: all lines. bench lines WORD: those whose name has the word in it. bench capture: no line, but the
 * largest capture that nxread reads, every 100th byte of it another. */
int main(int count, char **words)
{
    const char *only = count > 2 && strcmp(words[1], "lines") == 0 ? words[2] : "";
    capture = malloc(LONGEST_CAPTURE);
    if (!capture)
        return 1;
    if (count > 1 && strcmp(words[1], "capture") == 0) {
        damaged_frames(CAPTURE);
        return fwrite(capture, 1, CAPTURE, stdout) != CAPTURE;
    }
    for (size_t k = 0; k < sizeof lines / sizeof *lines; k++)
        if (strstr(lines[k].what, only))
            measure(&lines[k]);
    if (strstr("bytes of a reader", only))
        printf("bytes of a reader\t%zu\t0\n", reader_bytes());
    return 0;
}
