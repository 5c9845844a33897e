/* How much stack the calls of nx584.h use: a signal's handler makes the call on a stack of its own, which was painted, and the paint is looked for. Prints each
 * call's most over many made inputs, in bytes, its operands and its answer included; last, the most of all. */
#define _XOPEN_SOURCE 700
#include "nx584.h"

#include <signal.h>
#include <stdio.h>
#include <string.h>

enum { PAINTED = 1 << 14, PAINT = 0xA5, TURNS = 500 };

static uint8_t table[NX584_TABLE_BYTES], bytes[2 * (NX584_LONGEST + 3) + 2], message[NX584_LONGEST + 1], out[NX584_FRAME_MOST];
static size_t count, message_count;
static uint8_t framing;
static nx584_reader reader;
static nx584_slot slots[NX584_SLOTS];
static uint8_t records[NX584_LOG_MOST];
static size_t records_used;
static uint8_t header[NX584_GRID_HEADER_MOST], cells[NX584_GRID_CELLS_MOST], width;
static size_t cells_count;
static uint8_t stack[PAINTED];
static void (*called)(void);
static volatile uint64_t sink;

static uint64_t state = 1;

static uint8_t chance(void)
{
    state = state * 6364136223846793005u + 1442695040888963407u;
    return (uint8_t)(state >> 56);
}

/* ---- the calls, each on the globals above */

static void call_nothing(void) {}
static void call_version(void) { sink = nx584_version(); }
static void call_fresh(void) { reader = nx584_fresh(framing); }
static void call_fresh_lenient(void) { reader = nx584_fresh_lenient(framing); }
static void call_step(void) { sink = nx584_step(reader, bytes[0]).used; }
static void call_read(void) { sink = nx584_read(reader, bytes, count).used; }
static void call_write(void) { sink = nx584_write(message, message_count, framing, out, sizeof out, 0).length; }
static void call_reply(void) { sink = nx584_reply(bytes[0] % 16, bytes[1]); }
static void call_apply(void) { sink = nx584_apply(table, sizeof table, message, message_count); }
static void call_view(void) { sink = nx584_view(table, sizeof table).site.heard; }
static void call_zone(void) { sink = nx584_zone(table, sizeof table, bytes[0]).mark; }
static void call_partition(void) { sink = nx584_partition(table, sizeof table, bytes[0]).mark; }
static void call_system(void) { sink = nx584_system(table, sizeof table).mark; }
static void call_hear(void) { sink = nx584_hear(reader, table, sizeof table, bytes, count).used; }
static void call_take(void) { sink = nx584_take(slots, NX584_SLOTS, message, message_count).length; }
static void call_tick(void) { sink = nx584_tick(slots, NX584_SLOTS).length; }
static void call_told(void) { sink = nx584_told(slots, NX584_SLOTS, message, message_count).length; }
static void call_keep(void) { sink = nx584_keep(records, sizeof records, records_used, message, message_count).length; }
static void call_newest(void) { sink = nx584_newest(records, sizeof records, records_used, bytes[0]).length; }
static void call_make_room(void) { sink = nx584_make_room(records, sizeof records, records_used).length; }
static void call_grid(void) { sink = nx584_grid(table, sizeof table, width, header, sizeof header, cells, cells_count).cells; }

static const struct {
    const char *name;
    void (*call)(void);
} calls[] = {{"nothing", call_nothing}, {"nx584_version", call_version}, {"nx584_fresh", call_fresh}, {"nx584_fresh_lenient", call_fresh_lenient},
             {"nx584_step", call_step}, {"nx584_read", call_read}, {"nx584_write", call_write}, {"nx584_reply", call_reply},
             {"nx584_apply", call_apply}, {"nx584_view", call_view}, {"nx584_zone", call_zone}, {"nx584_partition", call_partition},
             {"nx584_system", call_system}, {"nx584_hear", call_hear}, {"nx584_take", call_take}, {"nx584_tick", call_tick},
             {"nx584_told", call_told}, {"nx584_keep", call_keep}, {"nx584_newest", call_newest}, {"nx584_make_room", call_make_room},
             {"nx584_grid", call_grid}};

/* ---- inputs: good messages' frames and long ones, and any bytes, an escape that was not needed at times among them; read by a fresh reader of either rule
 * or by one in the midst of them; slots with any number of commands that wait; a log of any length up to a full one; each level of a grid, a width that is
 * none, and room for its cells or not */

static void make_slots(void)
{
    static const uint8_t bypass[] = {0x3F, 0};
    if (chance() % 16 == 0)
        memset(slots, 0, sizeof slots);
    for (int k = chance() % 3; k > 0; k--)
        nx584_take(slots, NX584_SLOTS, bypass, sizeof bypass);
}

/* Records of each kept number, over and over, about other zones and partitions each time; and such that fill up all the bytes a log may use. */
static const uint8_t each[] = {4, 9, 0, 0, 0, 0, 0, 0, 8, 5, 16, 0, 0, 0, 0, 0, 0, 0, 0, 10, 6, 7, 0, 0, 0, 0, 0, 0, 0, 9,
                               7, 0, 0, 0, 0, 0, 0, 0, 0, 9, 8, 0, 0, 0, 0, 0, 0, 0, 0, 0, 0, 0, 12};
static const uint8_t last[] = {4, 9, 0, 0, 0, 0, 0, 0, 8, 4, 9, 0, 0, 0, 0, 0, 0, 8, 6, 7, 0, 0, 0, 0, 0, 0, 0, 9};
enum { ROUNDS = NX584_LOG_MOST / sizeof each, ZONE_AT = 1, OFFSET_AT = 10, PARTITION_AT = 21, OFFSETS = 241 };
typedef char fills_up[ROUNDS * sizeof each + sizeof last == NX584_LOG_MOST ? 1 : -1];

static uint8_t laid(size_t at)
{
    size_t round = at / sizeof each;
    if (round == ROUNDS)
        return last[at % sizeof each];
    switch (at % sizeof each) {
    case ZONE_AT: return (uint8_t)round;
    case OFFSET_AT: return (uint8_t)(round % OFFSETS);
    case PARTITION_AT: return round % NX584_PARTITIONS;
    default: return each[at % sizeof each];
    }
}

static void lay_records(size_t from, size_t end)
{
    for (; from < end && from < sizeof records; from++)
        records[from] = laid(from);
}

/* What the call before kept, or moved, is laid over. Most logs are full or about full, some are small, and a few end within a record. */
static void make_log(void)
{
    static const uint8_t ends[] = {0, 9, 20, 30, 40};
    lay_records(0, NX584_LOG_ENOUGH);
    lay_records(records_used, records_used + sizeof each);
    size_t rounds = chance() % 4 ? ROUNDS - 1 : chance() % 2 ? chance() % 4 : chance() * (ROUNDS - 1) / 256;
    records_used = rounds * sizeof each + ends[chance() % sizeof ends];
    if (chance() % 8 == 0)
        records_used += chance() % 128;
    if (chance() % 4 == 0)
        records_used = sizeof records;
}

static void make_grid(void)
{
    width = (uint8_t)(16 >> chance() % 6);
    cells_count = chance() % 8 ? sizeof cells : chance();
}

static void make_bytes(void)
{
    for (count = 0; count < sizeof bytes; count++)
        bytes[count] = chance() % 8 ? chance() : (uint8_t)"\x7e\x7d\n\r0AF\x12"[chance() % 8];
    count = chance() % 64;
}

static void put_byte(uint8_t byte)
{
    if (framing == NX584_ASCII) {
        bytes[count++] = (uint8_t)"0123456789ABCDEF"[byte >> 4];
        bytes[count++] = (uint8_t)"0123456789ABCDEF"[byte & 15];
    } else if (byte == 0x7D || byte == 0x7E) {
        bytes[count++] = 0x7D;
        bytes[count++] = byte ^ 0x20;
    } else {
        bytes[count++] = byte;
    }
}

/* The frame of a message as document 01 has it: the library writes those of the 41 alone. */
static void make_frame(uint8_t length)
{
    unsigned sum1 = length % 255, sum2 = sum1;
    bytes[0] = framing == NX584_ASCII ? '\n' : 0x7E;
    count = 1;
    put_byte(length);
    for (size_t k = 0; k < length; k++) {
        put_byte(message[k]);
        sum1 = (sum1 + message[k]) % 255;
        sum2 = (sum2 + sum1) % 255;
    }
    put_byte((uint8_t)sum1);
    put_byte((uint8_t)sum2);
    if (framing == NX584_ASCII)
        bytes[count++] = '\r';
}

/* The beginning of the bytes is read, often all but the last one: of the longest frame in ASCII the reader then holds all that it has room for. */
static void read_some(void)
{
    size_t some = chance() % 2 ? count - 1 : chance() % count;
    nx584_reading a = nx584_read(reader, bytes, some);
    reader = a.reader;
    memmove(bytes, bytes + a.used, count - a.used);
    count -= a.used;
}

static void make_input(void)
{
    static const uint8_t numbers[] = {4, 5, 6, 7, 8, 0x1D, 0x1E, 0x03, 0x3B, 0x29, 0x3F}, lengths[] = {8, 10, 9, 9, 12, 1, 1, 18, 7, 4, 2};
    size_t which = chance() % sizeof numbers;
    for (size_t k = 0; k < sizeof message; k++)
        message[k] = chance() % 16 ? chance() : 1;
    message[0] = chance() % 4 ? numbers[which] : 0x22;
    message[1] &= 7;
    message_count = lengths[which];
    if (chance() % 4 == 0)
        message_count = chance() % 2 ? sizeof message - chance() % 2 : chance();
    framing = chance() & 1;
    reader = chance() % 2 ? nx584_fresh(framing) : nx584_fresh_lenient(framing);
    make_slots();
    make_log();
    make_grid();
    make_bytes();
    if (chance() % 4)
        make_frame((uint8_t)message_count);
    if (chance() % 8 == 0 && count > 1)
        bytes[1 + chance() % (count - 1)] = 0x7D;
    if (chance() % 2 && count > 0)
        read_some();
}

/* ---- painting */

#if defined(__x86_64__)
__attribute__((force_align_arg_pointer)) /* the emulator hands over a stack that is not aligned */
#endif
static void on_signal(int number)
{
    (void)number;
    called();
}

static void use_own_stack(void)
{
    stack_t own;
    struct sigaction action;
    memset(&own, 0, sizeof own);
    memset(&action, 0, sizeof action);
    own.ss_sp = stack;
    own.ss_size = sizeof stack;
    action.sa_handler = on_signal;
    action.sa_flags = SA_ONSTACK;
    sigaltstack(&own, NULL);
    sigaction(SIGUSR1, &action, NULL);
}

/* How many bytes were touched; the signal's own are among them. */
static size_t stack_of(void (*call)(void))
{
    size_t k = 0;
    memset(stack, PAINT, sizeof stack);
    called = call;
    raise(SIGUSR1);
    while (k < sizeof stack && stack[k] == PAINT)
        k++;
    return sizeof stack - k;
}

int main(void)
{
    size_t most = 0, nothing = 0;
    use_own_stack();
    lay_records(0, sizeof records);
    for (size_t k = 0; k < sizeof calls / sizeof *calls; k++) {
        size_t used = 0;
        for (int turn = 0; turn < TURNS; turn++) {
            make_input();
            size_t now = stack_of(calls[k].call);
            used = now > used ? now : used;
        }
        if (k == 0)
            nothing = used;
        used -= nothing;
        printf("%s %zu\n", calls[k].name, used);
        most = used > most ? used : most;
    }
    printf("most %zu\n", most);
    return 0;
}
