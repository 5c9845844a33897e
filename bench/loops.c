/* The loops that the bench measures: the calls of nx584.h as a host makes them. */
#include "loops.h"

#include <string.h>

static uint64_t mix(uint64_t sum, uint64_t answer)
{
    return (sum ^ answer) * 0x9E3779B97F4A7C15u;
}

static uint64_t mix_reading(uint64_t sum, const nx584_reading *a)
{
    return mix(sum, a->used << 24 | (uint64_t)a->verdict << 16 | a->length << 8 | a->message[0]);
}

uint64_t loop_read(uint8_t framing, uint8_t escapes, const uint8_t *bytes, size_t length, size_t piece)
{
    nx584_reading a;
    uint64_t sum = 0;
    const uint8_t *end = bytes + length;
    a.reader = escapes == NX584_STRICT ? nx584_fresh(framing) : nx584_fresh_lenient(framing);
    while (bytes < end) {
        const uint8_t *stop = (size_t)(end - bytes) < piece ? end : bytes + piece;
        while (bytes < stop) {
            a = nx584_read(a.reader, bytes, (size_t)(stop - bytes));
            sum = mix_reading(sum, &a);
            bytes += a.used;
        }
    }
    return sum;
}

uint64_t loop_step(uint8_t framing, const uint8_t *bytes, size_t length)
{
    nx584_reading a;
    uint64_t sum = 0;
    a.reader = nx584_fresh(framing);
    for (size_t k = 0; k < length; k++) {
        a = nx584_step(a.reader, bytes[k]);
        sum = mix_reading(sum, &a);
    }
    return sum;
}

uint64_t loop_write(uint8_t framing, const messages *list)
{
    uint8_t out[64] = {0};
    uint64_t sum = 0;
    const uint8_t *m = list->bytes;
    for (size_t k = 0; k < list->count; k++, m += 1 + *m) {
        nx584_written w = nx584_write(m + 1, *m, framing, out, sizeof out, k & 15);
        sum = mix(sum, w.length << 16 | w.number << 8 | out[((k & 15) + w.length - 1) % sizeof out]);
    }
    return sum;
}

uint64_t loop_apply(uint8_t *table, const messages *list)
{
    uint64_t sum = 0;
    const uint8_t *m = list->bytes;
    for (size_t k = 0; k < list->count; k++, m += 1 + *m)
        sum = mix(sum, nx584_apply(table, NX584_TABLE_BYTES, m + 1, *m) + table[8 * k % 2048 + 7]);
    return sum;
}

/* One zone changes between two views, so that none can be left out. */
uint64_t loop_view(uint8_t *table, size_t times)
{
    uint64_t sum = 0;
    for (size_t k = 0; k < times; k++) {
        table[8 * (k % 256)] ^= 1;
        nx584_overview v = nx584_view(table, NX584_TABLE_BYTES);
        sum = mix(sum, v.site.heard + 256u * v.site.faulted + 65536u * v.groups[k % 16].faulted +
                           (v.site.known ? (uint64_t)(v.site.share * 1000) : 0));
    }
    return sum;
}

uint64_t loop_hear(uint8_t framing, uint8_t *table, const uint8_t *bytes, size_t length)
{
    nx584_hearing a;
    uint64_t sum = 0;
    a.reader = nx584_fresh(framing);
    while (length > 0) {
        a = nx584_hear(a.reader, table, NX584_TABLE_BYTES, bytes, length);
        sum = mix(sum, a.used << 16 | (uint64_t)a.verdict << 8 | a.reply);
        bytes += a.used;
        length -= a.used;
    }
    return sum;
}

static uint64_t mix_sending(uint64_t sum, const nx584_sending *a, const nx584_slot *slots)
{
    uint64_t numbers = (uint64_t)a->number << 24 | a->ended << 16 | a->length << 8 | a->message[0];
    return mix(sum, numbers << 16 | slots[0].sent << 8 | slots[0].ticks);
}

uint64_t loop_take(nx584_slot *slots, const messages *list)
{
    static const nx584_slot none;
    uint64_t sum = 0;
    const uint8_t *m = list->bytes;
    for (size_t k = 0; k < list->count; k++, m += 1 + *m) {
        slots[NX584_SLOTS - 1] = none;
        nx584_sending a = nx584_take(slots, NX584_SLOTS, m + 1, *m);
        sum = mix(mix_sending(sum, &a, slots), slots[NX584_SLOTS - 1].message[*m - 1]);
    }
    return sum;
}

/* The one that ended comes in again behind the others. */
static void put_back(nx584_slot *slots, const nx584_slot *ended)
{
    slots[NX584_SLOTS - 1] = *ended;
    slots[NX584_SLOTS - 1].sent = slots[NX584_SLOTS - 1].ticks = 0;
}

uint64_t loop_tick(nx584_slot *slots, size_t times)
{
    uint64_t sum = 0;
    for (size_t k = 0; k < times; k++) {
        nx584_slot front = slots[0];
        nx584_sending a = nx584_tick(slots, NX584_SLOTS);
        sum = mix_sending(sum, &a, slots);
        if (a.ended)
            put_back(slots, &front);
    }
    return sum;
}

uint64_t loop_told(nx584_slot *slots, const messages *list)
{
    uint64_t sum = 0;
    const uint8_t *m = list->bytes;
    for (size_t k = 0; k < list->count; k++, m += 1 + *m) {
        nx584_slot front = slots[0];
        nx584_sending a = nx584_told(slots, NX584_SLOTS, m + 1, *m);
        sum = mix_sending(sum, &a, slots);
        if (a.ended)
            put_back(slots, &front);
    }
    return sum;
}

uint64_t loop_keep(const station_log *logs, const messages *list)
{
    uint64_t sum = 0;
    const uint8_t *m = list->bytes;
    for (size_t k = 0; k < list->count; k++, m += 1 + *m) {
        const uint8_t *record = logs[k].bytes + logs[k].used;
        nx584_written w = nx584_keep(logs[k].bytes, logs[k].length, logs[k].used, m + 1, *m);
        sum = mix(sum, w.length << 24 | (uint64_t)w.number << 16 | record[*m - 1] << 8 | record[*m]);
    }
    return sum;
}

uint64_t loop_newest(const station_log *logs, size_t count, uint8_t zone)
{
    uint64_t sum = 0;
    for (size_t k = 0; k < count; k++) {
        nx584_found f = nx584_newest(logs[k].bytes, logs[k].length, logs[k].used, zone);
        sum = mix(sum, f.at << 16 | f.length << 8 | f.number);
    }
    return sum;
}

uint64_t loop_make_room(const station_log *logs, size_t count)
{
    uint64_t sum = 0;
    for (size_t k = 0; k < count; k++) {
        uint8_t *log = logs[k].bytes;
        nx584_written w = nx584_make_room(log, logs[k].length, logs[k].used);
        size_t left = logs[k].used - w.length;
        sum = mix(sum, w.length << 16 | (uint64_t)w.number << 8 | log[0]);
        sum = mix(sum, log[left / 2] << 16 | log[left - 2] << 8 | log[left - 1]);
        if (w.length != 0)
            memcpy(log, logs[k].again, left);
    }
    return sum;
}

/* Of the cells one in turn and the last, by bytes: a wider load of what was stored in bytes has to wait. */
uint64_t loop_grid(const uint8_t *tables, size_t count, uint8_t widest, uint8_t narrowest)
{
    uint8_t header[NX584_GRID_HEADER_MOST] = {0}, cells[NX584_GRID_CELLS_MOST] = {0};
    uint64_t sum = 0;
    for (size_t k = 0; k < count; k++, tables += NX584_TABLE_BYTES)
        for (uint8_t width = widest; width >= narrowest; width /= 2) {
            size_t all = 4u * width * width;
            nx584_gridded g = nx584_grid(tables, NX584_TABLE_BYTES, width, header, sizeof header, cells, sizeof cells);
            const uint8_t *cell = cells + 4 * k % all, *last = cells + all - 4;
            sum = mix(sum, g.cells << 24 | g.header << 16 | (uint64_t)g.number << 8 | header[6]);
            sum = mix(sum, (uint64_t)cell[3] << 24 | cell[2] << 16 | last[3] << 8 | last[2]);
        }
    return sum;
}

size_t reader_bytes(void)
{
    return sizeof(nx584_reader);
}
