/* Calls nx584.h for another program: calls come in on standard input, answers go out on standard
 * output. Freestanding: the system calls are its own, so that it needs no C library's headers and runs
 * under an emulator too.
 *
 * A call is one byte, the function below with the two flags, and then the operands in the order of the
 * header. Numbers are little-endian: a size_t has 8 bytes, a reader 264, and a buffer is its length in 4
 * bytes and then its bytes; slots are a buffer of 16 bytes for each. An answer is the function's result,
 * field by field in the header's order.
 * After a buffer that is lent for writing, the answer has its bytes, and before them one byte: 1 if no
 * byte beside the buffer was touched. A log may be long, so of its bytes the answer has what changed: all
 * are compared with what they were, and those from the first that differs to the last are a place of 8
 * bytes and a buffer.
 *
 *   fresh  framing                  reader                 keeps the reader
 *   fresh_lenient  framing          reader                 keeps the reader
 *   step   [reader] byte            reading
 *   read   [reader] bytes           reading
 *   write  message framing out place   written, beside, out
 *   reply  verdict type             number
 *   apply  [table] message          number, beside[, table]
 *   view   [table]                  overview
 *   hear   [reader table] bytes     hearing, beside[, table]
 *   lend_table table                nothing                keeps the table
 *   show                            the kept table
 *   version                         number, 4 bytes
 *   zone   [table] zone             record
 *   partition [table] partition     record
 *   system [table]                  record
 *   lend_slots slots                nothing                keeps the slots
 *   take   [slots] message          sending, beside, slots
 *   tick   [slots]                  sending, beside, slots
 *   told   [slots] message          sending, beside, slots
 *   lend_log log                    nothing                keeps the log
 *   change place byte               nothing                puts the byte into the kept log
 *   keep   [log] used message       written, beside, changed
 *   newest [log] used zone          found, beside, changed
 *   make_room [log] used            written, beside, changed
 *   change_table place byte         nothing                puts the byte into the kept table
 *   grid   [table] width header cells   gridded, beside, header, beside, cells
 *
 * With the flag KEPT a call has no operand in brackets: it takes the kept reader, table, slots or log, and
 * keeps the next reader, the table, the slots and the log as they come back. With the flag NULLS an empty
 * buffer is passed as NULL. The end of the input, between two calls, ends the program with status 0; what
 * is no call ends it with another. */
#include "nx584.h"

enum { FRESH = 1, STEP, READ, WRITE, REPLY, APPLY, VIEW, HEAR, LEND_TABLE, SHOW, VERSION, ZONE, PARTITION, SYSTEM };
enum { LEND_SLOTS = SYSTEM + 1, TAKE, TICK, TOLD, FRESH_LENIENT, LEND_LOG, CHANGE, KEEP, NEWEST, MAKE_ROOM };
enum { CHANGE_TABLE = MAKE_ROOM + 1, GRID };
enum { FUNCTION = 0x1F };
enum { NULLS = 0x40, KEPT = 0x80 };
enum { LONGEST_BUFFER = 1 << 20, BESIDE = 16, MARK = 0xA5 };

/* ---- the system */

#if defined(__x86_64__)
enum { SYS_READ = 0, SYS_WRITE = 1, SYS_EXIT = 231 };
static long system_call(long number, long a, long b, long c)
{
    long result;
    __asm__ volatile("syscall"
                     : "=a"(result)
                     : "a"(number), "D"(a), "S"(b), "d"(c)
                     : "rcx", "r11", "memory");
    return result;
}
#elif defined(__aarch64__)
enum { SYS_READ = 63, SYS_WRITE = 64, SYS_EXIT = 94 };
static long system_call(long number, long a, long b, long c)
{
    register long x8 __asm__("x8") = number;
    register long x0 __asm__("x0") = a;
    register long x1 __asm__("x1") = b;
    register long x2 __asm__("x2") = c;
    __asm__ volatile("svc 0" : "+r"(x0) : "r"(x8), "r"(x1), "r"(x2) : "memory");
    return x0;
}
#else
#error "no system calls for this processor"
#endif

_Noreturn static void leave(int status)
{
    for (;;)
        system_call(SYS_EXIT, status, 0, 0);
}

void *memcpy(void *, const void *, size_t);
void *memset(void *, int, size_t);
int memcmp(const void *, const void *, size_t);

/* ---- input and output, buffered */

static uint8_t in[1 << 16], out[1 << 16];
static size_t in_at, in_end, out_end;

static void flush(void)
{
    for (size_t at = 0; at < out_end;) {
        long n = system_call(SYS_WRITE, 1, (long)(out + at), (long)(out_end - at));
        if (n <= 0)
            leave(3);
        at += (size_t)n;
    }
    out_end = 0;
}

/* The answers so far go out before more input is waited for. */
static int refill(void)
{
    flush();
    long n = system_call(SYS_READ, 0, (long)in, sizeof in);
    if (n < 0)
        leave(3);
    in_at = 0;
    in_end = (size_t)n;
    return n > 0;
}

static void take(uint8_t *to, size_t n)
{
    while (n > 0) {
        if (in_at == in_end && !refill())
            leave(2);
        size_t some = in_end - in_at < n ? in_end - in_at : n;
        memcpy(to, in + in_at, some);
        to += some;
        in_at += some;
        n -= some;
    }
}

static uint64_t take_number(size_t width)
{
    uint8_t b[8];
    uint64_t v = 0;
    take(b, width);
    for (size_t i = width; i-- > 0;)
        v = v << 8 | b[i];
    return v;
}

static void give(const void *from, size_t n)
{
    const uint8_t *bytes = from;
    while (n > 0) {
        if (out_end == sizeof out)
            flush();
        size_t some = sizeof out - out_end < n ? sizeof out - out_end : n;
        memcpy(out + out_end, bytes, some);
        bytes += some;
        out_end += some;
        n -= some;
    }
}

static void give_number(uint64_t v, size_t width)
{
    uint8_t b[8];
    for (size_t i = 0; i < width; i++)
        b[i] = (uint8_t)(v >> 8 * i);
    give(b, width);
}

/* ---- operands and results */

/* A buffer's bytes stand between marks, from another address modulo 8 each time. */
typedef struct {
    uint8_t room[LONGEST_BUFFER + 2 * BESIDE + 8];
    size_t begin, length;
} buffer;

/* A log, and its bytes as they were before a call. */
typedef struct {
    buffer now;
    uint8_t before[LONGEST_BUFFER];
} log_bytes;

static buffer bytes, message, lent, cells, made_table, kept_table, made_slots, kept_slots;
static log_bytes made_log, kept_log;
static nx584_reader kept_reader;
static unsigned flags, turn;

static void take_buffer(buffer *to)
{
    to->length = take_number(4);
    if (to->length > LONGEST_BUFFER)
        leave(2);
    to->begin = BESIDE + (turn++ & 7);
    memset(to->room, MARK, to->begin);
    take(to->room + to->begin, to->length);
    memset(to->room + to->begin + to->length, MARK, BESIDE);
}

static uint8_t *pointer(buffer *to)
{
    return to->length == 0 && (flags & NULLS) ? 0 : to->room + to->begin;
}

static void give_beside(const buffer *from)
{
    uint8_t untouched = 1;
    for (size_t i = 0; i < from->begin; i++)
        untouched &= from->room[i] == MARK;
    for (size_t i = 0; i < BESIDE; i++)
        untouched &= from->room[from->begin + from->length + i] == MARK;
    give(&untouched, 1);
}

static void give_buffer(const buffer *from)
{
    give(from->room + from->begin, from->length);
}

static void give_written(nx584_written w)
{
    give_number(w.number, 1);
    give_number(w.length, 8);
}

static nx584_reader take_reader(void)
{
    nx584_reader r;
    if (flags & KEPT)
        return kept_reader;
    r.framing = (uint8_t)take_number(1);
    r.mode = (uint8_t)take_number(1);
    r.digit = (uint8_t)take_number(1);
    r.held = (uint16_t)take_number(2);
    take(r.bytes, sizeof r.bytes);
    r.escapes = (uint8_t)take_number(1);
    return r;
}

static void give_reader(const nx584_reader *r)
{
    give_number(r->framing, 1);
    give_number(r->mode, 1);
    give_number(r->digit, 1);
    give_number(r->held, 2);
    give(r->bytes, sizeof r->bytes);
    give_number(r->escapes, 1);
    if (flags & KEPT)
        kept_reader = *r;
}

static buffer *take_table(void)
{
    if (flags & KEPT)
        return &kept_table;
    take_buffer(&made_table);
    return &made_table;
}

static void give_table(const buffer *table)
{
    give_beside(table);
    if (!(flags & KEPT))
        give_buffer(table);
}

static void take_slots(buffer *to)
{
    take_buffer(to);
    if (to->length % sizeof(nx584_slot) != 0)
        leave(2);
}

static buffer *slots_lent(void)
{
    if (flags & KEPT)
        return &kept_slots;
    take_slots(&made_slots);
    return &made_slots;
}

static void give_sending(const nx584_sending *a, const buffer *slots)
{
    give_number(a->number, 1);
    give_number(a->ended, 1);
    give_number(a->length, 1);
    give(a->message, sizeof a->message);
    give_beside(slots);
    give_buffer(slots);
}

static void take_log(log_bytes *to)
{
    take_buffer(&to->now);
    memcpy(to->before, to->now.room + to->now.begin, to->now.length);
}

static log_bytes *log_lent(void)
{
    if (flags & KEPT)
        return &kept_log;
    take_log(&made_log);
    return &made_log;
}

static void give_changed(log_bytes *log)
{
    const uint8_t *now = log->now.room + log->now.begin;
    size_t from = 0, end = memcmp(log->before, now, log->now.length) ? log->now.length : 0;
    while (from < end && now[from] == log->before[from])
        from++;
    while (end > from && now[end - 1] == log->before[end - 1])
        end--;
    give_beside(&log->now);
    give_number(from, 8);
    give_number(end - from, 4);
    give(now + from, end - from);
    memcpy(log->before + from, now + from, end - from);
}

static void give_reading(const nx584_reading *a)
{
    give_reader(&a->reader);
    give_number(a->used, 8);
    give_number(a->verdict, 1);
    give_number(a->type, 1);
    give_number(a->length, 1);
    give(a->message, sizeof a->message);
}

static void give_hearing(const nx584_hearing *a)
{
    give_reader(&a->reader);
    give_number(a->used, 8);
    give_number(a->verdict, 1);
    give_number(a->type, 1);
    give_number(a->reply, 1);
    give_number(a->length, 1);
    give(a->message, sizeof a->message);
}

static void give_group(const nx584_group *g)
{
    uint64_t share;
    memcpy(&share, &g->share, sizeof share);
    give_number(g->heard, 2);
    give_number(g->faulted, 2);
    give_number(g->known, 1);
    give_number(share, 8);
}

/* ---- the calls */

static void call_fresh(void)
{
    nx584_reader r = nx584_fresh((uint8_t)take_number(1));
    flags |= KEPT;
    give_reader(&r);
}

static void call_fresh_lenient(void)
{
    nx584_reader r = nx584_fresh_lenient((uint8_t)take_number(1));
    flags |= KEPT;
    give_reader(&r);
}

static void call_step(void)
{
    nx584_reader r = take_reader();
    nx584_reading a = nx584_step(r, (uint8_t)take_number(1));
    give_reading(&a);
}

static void call_read(void)
{
    nx584_reader r = take_reader();
    take_buffer(&bytes);
    nx584_reading a = nx584_read(r, pointer(&bytes), bytes.length);
    give_reading(&a);
}

static void call_write(void)
{
    take_buffer(&message);
    uint8_t framing = (uint8_t)take_number(1);
    take_buffer(&lent);
    size_t place = (size_t)take_number(8);
    give_written(
        nx584_write(pointer(&message), message.length, framing, pointer(&lent), lent.length, place));
    give_beside(&lent);
    give_buffer(&lent);
}

static void call_reply(void)
{
    uint8_t verdict = (uint8_t)take_number(1);
    give_number(nx584_reply(verdict, (uint8_t)take_number(1)), 1);
}

static void call_apply(void)
{
    buffer *table = take_table();
    take_buffer(&message);
    give_number(nx584_apply(pointer(table), table->length, pointer(&message), message.length), 1);
    give_table(table);
}

static void call_view(void)
{
    buffer *table = take_table();
    nx584_overview v = nx584_view(pointer(table), table->length);
    give_number(v.number, 1);
    for (int k = 0; k < 16; k++)
        give_group(&v.groups[k]);
    give_group(&v.site);
}

static void call_hear(void)
{
    nx584_reader r = take_reader();
    buffer *table = take_table();
    take_buffer(&bytes);
    nx584_hearing a =
        nx584_hear(r, pointer(table), table->length, pointer(&bytes), bytes.length);
    give_hearing(&a);
    give_table(table);
}

static void call_zone(void)
{
    buffer *table = take_table();
    nx584_zone_record z = nx584_zone(pointer(table), table->length, (uint8_t)take_number(1));
    give_number(z.number, 1);
    give_number(z.mark, 1);
    give_number(z.flags, 1);
    give(z.bytes, sizeof z.bytes);
}

static void call_partition(void)
{
    buffer *table = take_table();
    nx584_partition_record p = nx584_partition(pointer(table), table->length, (uint8_t)take_number(1));
    give_number(p.number, 1);
    give_number(p.mark, 1);
    give_number(p.flags, 1);
    give(p.bytes, sizeof p.bytes);
}

static void call_system(void)
{
    buffer *table = take_table();
    nx584_system_record s = nx584_system(pointer(table), table->length);
    give_number(s.number, 1);
    give_number(s.mark, 1);
    give(s.bytes, sizeof s.bytes);
}

/* A slot has bytes alone, so it may stand anywhere. */
static nx584_slot *slots_of(buffer *slots)
{
    return (nx584_slot *)pointer(slots);
}

static size_t count_of(const buffer *slots)
{
    return slots->length / sizeof(nx584_slot);
}

static void call_take(void)
{
    buffer *slots = slots_lent();
    take_buffer(&message);
    nx584_sending a = nx584_take(slots_of(slots), count_of(slots), pointer(&message), message.length);
    give_sending(&a, slots);
}

static void call_tick(void)
{
    buffer *slots = slots_lent();
    nx584_sending a = nx584_tick(slots_of(slots), count_of(slots));
    give_sending(&a, slots);
}

static void call_told(void)
{
    buffer *slots = slots_lent();
    take_buffer(&message);
    nx584_sending a = nx584_told(slots_of(slots), count_of(slots), pointer(&message), message.length);
    give_sending(&a, slots);
}

static void call_change(void)
{
    size_t place = (size_t)take_number(8);
    uint8_t byte = (uint8_t)take_number(1);
    if (place >= kept_log.now.length)
        leave(2);
    kept_log.now.room[kept_log.now.begin + place] = byte;
    kept_log.before[place] = byte;
}

static void call_keep(void)
{
    log_bytes *log = log_lent();
    size_t used = (size_t)take_number(8);
    take_buffer(&message);
    give_written(
        nx584_keep(pointer(&log->now), log->now.length, used, pointer(&message), message.length));
    give_changed(log);
}

static void call_newest(void)
{
    log_bytes *log = log_lent();
    size_t used = (size_t)take_number(8);
    nx584_found f = nx584_newest(pointer(&log->now), log->now.length, used, (uint8_t)take_number(1));
    give_number(f.number, 1);
    give_number(f.at, 8);
    give_number(f.length, 8);
    give_changed(log);
}

static void call_make_room(void)
{
    log_bytes *log = log_lent();
    size_t used = (size_t)take_number(8);
    give_written(nx584_make_room(pointer(&log->now), log->now.length, used));
    give_changed(log);
}

static void call_change_table(void)
{
    size_t place = (size_t)take_number(8);
    uint8_t byte = (uint8_t)take_number(1);
    if (place >= kept_table.length)
        leave(2);
    kept_table.room[kept_table.begin + place] = byte;
}

static void call_grid(void)
{
    buffer *table = take_table();
    uint8_t width = (uint8_t)take_number(1);
    take_buffer(&lent);
    take_buffer(&cells);
    nx584_gridded g = nx584_grid(pointer(table), table->length, width, pointer(&lent), lent.length,
                                 pointer(&cells), cells.length);
    give_number(g.number, 1);
    give_number(g.header, 8);
    give_number(g.cells, 8);
    give_beside(&lent);
    give_buffer(&lent);
    give_beside(&cells);
    give_buffer(&cells);
}

int main(void)
{
    while (in_at < in_end || refill()) {
        flags = (unsigned)take_number(1);
        switch (flags & FUNCTION) {
        case FRESH: call_fresh(); break;
        case STEP: call_step(); break;
        case READ: call_read(); break;
        case WRITE: call_write(); break;
        case REPLY: call_reply(); break;
        case APPLY: call_apply(); break;
        case VIEW: call_view(); break;
        case HEAR: call_hear(); break;
        case LEND_TABLE: take_buffer(&kept_table); break;
        case SHOW: give_buffer(&kept_table); break;
        case VERSION: give_number(nx584_version(), 4); break;
        case ZONE: call_zone(); break;
        case PARTITION: call_partition(); break;
        case SYSTEM: call_system(); break;
        case LEND_SLOTS: take_slots(&kept_slots); break;
        case TAKE: call_take(); break;
        case TICK: call_tick(); break;
        case TOLD: call_told(); break;
        case FRESH_LENIENT: call_fresh_lenient(); break;
        case LEND_LOG: take_log(&kept_log); break;
        case CHANGE: call_change(); break;
        case KEEP: call_keep(); break;
        case NEWEST: call_newest(); break;
        case MAKE_ROOM: call_make_room(); break;
        case CHANGE_TABLE: call_change_table(); break;
        case GRID: call_grid(); break;
        default: leave(2);
        }
    }
    leave(0);
}
