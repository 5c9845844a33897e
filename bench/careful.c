/* The careful plain C: nx584.h as one writes it for a small unit from documents 003, 01 and 02, with their
 * eight-bit sums and one step of one state machine for every byte. tests/run holds it to the second
 * program as it holds the library. */
#include "plain.h"

/* Document 003, "Fletcher Checksum using 8-bit math", line by line. */
static void fletcher(const uint8_t *string, size_t length, uint8_t *first, uint8_t *second)
{
    uint8_t sum1 = 0, sum2 = 0;
    for (size_t i = 0; i < length; i++) {
        if (255 - sum1 < string[i])
            sum1++;
        sum1 += string[i];
        if (sum1 == 255)
            sum1 = 0;
        if (255 - sum2 < sum1)
            sum2++;
        sum2 += sum1;
        if (sum2 == 255)
            sum2 = 0;
    }
    *first = sum1;
    *second = sum2;
}

static int values_are_good(const uint8_t *m)
{
    switch (m[0] & 0x3F) {
    case 0x05: case 0x25: return m[1] <= 240;
    case 0x06: case 0x26: return m[1] <= 7;
    case 0x09: case 0x29: return x10_is_good(m);
    case 0x0B: return m[2] <= 0x15;
    case 0x10: return (m[2] & 0xA0) == 0;
    case 0x2B: return m[2] == 0;
    case 0x30: return (m[2] & 0xB0) == 0;
    case 0x31: return (m[2] & 0xA0) == 0x20;
    case 0x3B: return clock_is_good(m);
    case 0x3C: return m[4] <= 7;
    case 0x3D: return m[1] <= 7;
    case 0x3E: return m[1] <= 0x0F;
    default: return 1;
    }
}

/* ---- reader */

static void decided(nx584_reading *a, uint8_t verdict)
{
    a->verdict = verdict;
    a->reader.mode = SKIPPING;
    a->reader.digit = 0;
    a->reader.held = 0;
}

/* The verdict of a whole frame: its length byte, message and sums are the reader's bytes. */
static void judge(nx584_reading *a)
{
    const uint8_t *frame = a->reader.bytes, *message = frame + 1;
    size_t n = frame[0];
    uint8_t sum1, sum2, verdict = 5;
    fletcher(frame, n + 1, &sum1, &sum2);
    if (frame[n + 1] == sum1 && frame[n + 2] == sum2) {
        verdict = verdict_of(message, n);
        a->type = message[0];
    }
    if (verdict == 0) {
        a->length = (uint8_t)n;
        memcpy(a->message, message, n);
    }
    decided(a, verdict);
}

static void hold(nx584_reading *a, uint8_t byte)
{
    nx584_reader *r = &a->reader;
    if (r->held == 0 && byte == 0)
        decided(a, 4);
    else
        r->bytes[r->held++] = byte;
}

static void step_binary(nx584_reading *a, uint8_t byte)
{
    nx584_reader *r = &a->reader;
    if (r->mode == ESCAPED) {
        if (is_bad_escape(r, byte)) {
            decided(a, 15);
            return;
        }
        byte ^= 0x20;
        r->mode = IN_FRAME;
    } else if (byte == ESCAPE) {
        r->mode = ESCAPED;
        return;
    }
    hold(a, byte);
    if (r->held != 0 && r->held == r->bytes[0] + 3)
        judge(a);
}

static void step_ascii(nx584_reading *a, uint8_t byte)
{
    nx584_reader *r = &a->reader;
    if (r->held != 0 && r->held == r->bytes[0] + 3) {
        if (byte == ASCII_STOP)
            judge(a);
        else
            decided(a, 3);
    } else if (digits[byte] == 0) {
        decided(a, 2);
    } else if (r->mode == DIGIT_PENDING) {
        byte = (uint8_t)(r->digit << 4 | (digits[byte] - 16));
        r->mode = IN_FRAME;
        r->digit = 0;
        hold(a, byte);
    } else {
        r->mode = DIGIT_PENDING;
        r->digit = digits[byte] - 16;
    }
}

static void step(nx584_reading *a, uint8_t byte)
{
    nx584_reader *r = &a->reader;
    if (byte == (r->framing ? ASCII_START : BINARY_START)) {
        if (r->mode != SKIPPING)
            a->verdict = 1;
        r->mode = IN_FRAME;
        r->digit = 0;
        r->held = 0;
    } else if (r->mode == SKIPPING) {
        return;
    } else if (r->framing) {
        step_ascii(a, byte);
    } else {
        step_binary(a, byte);
    }
}

nx584_reading nx584_read(nx584_reader reader, const uint8_t *bytes, size_t bytes_len)
{
    nx584_reading a = {.reader = reader, .verdict = NX584_NONE};
    if (!is_sound(&reader)) {
        a.verdict = 12;
        return a;
    }
    settle(&a.reader);
    while (a.used < bytes_len && a.verdict == NX584_NONE)
        step(&a, bytes[a.used++]);
    return a;
}

nx584_reading nx584_step(nx584_reader reader, uint8_t byte)
{
    return nx584_read(reader, &byte, 1);
}

/* ---- writer */

static size_t frame_binary(uint8_t *to, const uint8_t *body, size_t n)
{
    size_t k = 0;
    to[k++] = BINARY_START;
    for (size_t i = 0; i < n; i++) {
        if (body[i] == BINARY_START || body[i] == ESCAPE) {
            to[k++] = ESCAPE;
            to[k++] = body[i] ^ 0x20;
        } else {
            to[k++] = body[i];
        }
    }
    return k;
}

static uint8_t character(unsigned digit)
{
    return (uint8_t)(digit < 10 ? '0' + digit : 'A' + digit - 10);
}

static size_t frame_ascii(uint8_t *to, const uint8_t *body, size_t n)
{
    size_t k = 0;
    to[k++] = ASCII_START;
    for (size_t i = 0; i < n; i++) {
        to[k++] = character(body[i] >> 4);
        to[k++] = character(body[i] & 15);
    }
    to[k++] = ASCII_STOP;
    return k;
}

nx584_written nx584_write(const uint8_t *message, size_t message_len, uint8_t framing, uint8_t *out,
                          size_t out_len, size_t place)
{
    nx584_written w = {0};
    uint8_t body[LONGEST_GOOD + 3], frame[2 * (LONGEST_GOOD + 3) + 2];
    size_t n;
    if (message_len < 1 || message_len > NX584_LONGEST) {
        w.number = 4;
        return w;
    }
    w.number = verdict_of(message, message_len);
    if (w.number != 0)
        return w;
    body[0] = (uint8_t)message_len;
    memcpy(body + 1, message, message_len);
    fletcher(body, message_len + 1, &body[message_len + 1], &body[message_len + 2]);
    if (framing)
        n = frame_ascii(frame, body, message_len + 3);
    else
        n = frame_binary(frame, body, message_len + 3);
    if (place > out_len || out_len - place < n) {
        w.number = 9;
        return w;
    }
    memcpy(out + place, frame, n);
    w.length = n;
    return w;
}

/* ---- table, overview, host */

static void store_zone(uint8_t *zone, const uint8_t *m)
{
    uint8_t condition1 = m[6], condition2 = m[7], flags = 0;
    if (condition1 & 0x01)
        flags |= 1;
    if (condition1 & 0x18)
        flags |= 2;
    if (condition1 & 0x66)
        flags |= 4;
    if (condition2 & 0x01)
        flags |= 8;
    zone[0] |= 3;
    memcpy(zone + 1, m + 2, 6);
    zone[7] = flags;
}

static void store_zones(uint8_t *zone, const uint8_t *m)
{
    for (int k = 0; k < 16; k += 2, zone += 2 * ZONE) {
        uint8_t flags = m[2 + k / 2];
        zone[0] |= 1;
        zone[7] = flags & 15;
        zone[ZONE] |= 1;
        zone[ZONE + 7] = flags >> 4;
    }
}

static void store(uint8_t *table, const uint8_t *m)
{
    uint8_t *partition = table + PARTITIONS;
    switch (m[0] & 0x3F) {
    case 0x04:
        store_zone(table + ZONE * m[1], m);
        break;
    case 0x05:
        store_zones(table + ZONE * m[1], m);
        break;
    case 0x06:
        partition += PARTITION * m[1];
        partition[0] |= 2;
        memcpy(partition + 1, m + 2, 7);
        break;
    case 0x07:
        for (int k = 0; k < 8; k++, partition += PARTITION) {
            partition[0] |= 1;
            partition[8] = m[1 + k];
        }
        break;
    case 0x08:
        table[SYSTEM] = 1;
        memcpy(table + SYSTEM + 1, m + 1, 11);
        break;
    }
}

uint8_t nx584_apply(uint8_t *table, size_t table_len, const uint8_t *message, size_t message_len)
{
    uint8_t number;
    if (table_len != NX584_TABLE_BYTES)
        return 11;
    if (message_len < 1 || message_len > NX584_LONGEST)
        return 4;
    number = verdict_of(message, message_len);
    if (number == 0)
        store(table, message);
    return number;
}

static nx584_group group(unsigned heard, unsigned faulted)
{
    nx584_group g = {.heard = (uint16_t)heard, .faulted = (uint16_t)faulted, .known = heard > 0};
    g.share = heard > 0 ? (double)faulted / heard : __builtin_nan("");
    return g;
}

nx584_overview nx584_view(const uint8_t *table, size_t table_len)
{
    nx584_overview v = {.number = table_len == NX584_TABLE_BYTES ? 0 : 11};
    unsigned all_heard = 0, all_faulted = 0;
    for (int k = 0; k < 16; k++) {
        unsigned heard = 0, faulted = 0;
        for (int z = 16 * k; v.number == 0 && z < 16 * k + 16; z++) {
            const uint8_t *zone = table + ZONE * z;
            if (zone[0] & 1) {
                heard++;
                faulted += zone[7] & 1;
            }
        }
        v.groups[k] = group(heard, faulted);
        all_heard += heard;
        all_faulted += faulted;
    }
    v.site = group(all_heard, all_faulted);
    return v;
}

nx584_hearing nx584_hear(nx584_reader reader, uint8_t *table, size_t table_len, const uint8_t *bytes,
                         size_t bytes_len)
{
    nx584_hearing h = {.verdict = 11};
    if (table_len != NX584_TABLE_BYTES) {
        h.reader = reader;
        return h;
    }
    nx584_reading a = nx584_read(reader, bytes, bytes_len);
    h.reader = a.reader;
    h.used = a.used;
    h.verdict = a.verdict;
    h.type = a.type;
    h.reply = nx584_reply(a.verdict, a.type);
    h.length = a.length;
    memcpy(h.message, a.message, a.length);
    if (a.verdict == 0)
        store(table, a.message);
    return h;
}

/* ---- the line of commands (document 02, No. 1) */

static int is_command(uint8_t type)
{
    switch (type & 0x3F) {
    case 0x29: case 0x2B: case 0x2C: case 0x31: case 0x3A: case 0x3B: return 1;
    case 0x34: case 0x35: case 0x36: case 0x37: return 1;
    case 0x3C: case 0x3D: case 0x3E: case 0x3F: return 1;
    default: return 0;
    }
}

static int holds_command(const nx584_slot *s)
{
    return s->length <= NX584_LONGEST_COMMAND && verdict_of(s->message, s->length) == 0 && is_command(s->message[0]);
}

static int slots_are_sound(const nx584_slot *slots, size_t slots_len)
{
    if (slots_len != NX584_SLOTS)
        return 0;
    for (int k = 0; k < NX584_SLOTS; k++) {
        const nx584_slot *s = &slots[k];
        int is_used = s->length != 0;
        if (is_used && ((k > 0 && slots[k - 1].length == 0) || !holds_command(s)))
            return 0;
        if (k == 0 && is_used) {
            if (s->sent < 1 || s->sent > 4 || s->ticks > 5)
                return 0;
        } else if (s->sent != 0 || s->ticks != 0) {
            return 0;
        }
    }
    return 1;
}

static int waiting(const nx584_slot *slots)
{
    int count = 0;
    while (count < NX584_SLOTS && slots[count].length != 0)
        count++;
    return count;
}

static void send_front(nx584_sending *a, nx584_slot *front)
{
    front->sent++;
    front->ticks = 0;
    a->length = front->length;
    memcpy(a->message, front->message, front->length);
    a->message[0] |= 0x80;
}

static void end_front(nx584_sending *a, nx584_slot *slots, uint8_t ended)
{
    int last = waiting(slots) - 1;
    memmove(&slots[0], &slots[1], (size_t)last * sizeof *slots);
    memset(&slots[last], 0, sizeof *slots);
    a->ended = ended;
    if (slots[0].length != 0)
        send_front(a, &slots[0]);
}

static void repeat_front(nx584_sending *a, nx584_slot *slots)
{
    if (slots[0].sent < 4)
        send_front(a, &slots[0]);
    else
        end_front(a, slots, NX584_GIVEN_UP);
}

static uint8_t refusal_of(const uint8_t *message, size_t message_len)
{
    return message_len < 1 || message_len > NX584_LONGEST ? 4 : verdict_of(message, message_len);
}

nx584_sending nx584_take(nx584_slot *slots, size_t slots_len, const uint8_t *message, size_t message_len)
{
    nx584_sending a = {0};
    int free_slot;
    if (!slots_are_sound(slots, slots_len)) {
        a.number = 22;
        return a;
    }
    a.number = refusal_of(message, message_len);
    if (a.number != 0)
        return a;
    free_slot = waiting(slots);
    if (!is_command(message[0]))
        a.number = 13;
    else if (free_slot == NX584_SLOTS)
        a.number = 14;
    if (a.number != 0)
        return a;
    memset(&slots[free_slot], 0, sizeof *slots);
    slots[free_slot].length = (uint8_t)message_len;
    memcpy(slots[free_slot].message, message, message_len);
    slots[free_slot].message[0] |= 0x80;
    if (free_slot == 0)
        send_front(&a, &slots[0]);
    return a;
}

nx584_sending nx584_tick(nx584_slot *slots, size_t slots_len)
{
    nx584_sending a = {0};
    if (!slots_are_sound(slots, slots_len))
        a.number = 22;
    else if (slots[0].length != 0 && ++slots[0].ticks == 6)
        repeat_front(&a, slots);
    return a;
}

/* Whether a good message of this number ends the front. */
static int ends(uint8_t number, uint8_t front)
{
    if (number == 0x12)
        return front == 0x34 || front == 0x35;
    return number == 0x1D || number == 0x1C || number == 0x1F;
}

nx584_sending nx584_told(nx584_slot *slots, size_t slots_len, const uint8_t *message, size_t message_len)
{
    nx584_sending a = {0};
    uint8_t number;
    if (!slots_are_sound(slots, slots_len)) {
        a.number = 22;
        return a;
    }
    a.number = refusal_of(message, message_len);
    if (a.number != 0 || slots[0].length == 0)
        return a;
    number = message[0] & 0x3F;
    if (ends(number, slots[0].message[0] & 0x3F))
        end_front(&a, slots, number);
    else if (number == 0x1E)
        repeat_front(&a, slots);
    return a;
}

/* ---- the station log (document 02, No. 6) */

static int is_kept(uint8_t type)
{
    return (type & 0x3F) >= 0x04 && (type & 0x3F) <= 0x08;
}

/* The bytes of the record that ends at `end`, its trailer included; 0 where none does. */
static size_t record_before(const uint8_t *log, size_t end)
{
    size_t n = log[end - 1];
    if (n > end - 1)
        return 0;
    const uint8_t *message = log + end - 1 - n;
    return refusal_of(message, n) == 0 && is_kept(message[0]) ? n + 1 : 0;
}

static int is_beyond(size_t log_len, size_t used)
{
    return used > log_len || used > NX584_LOG_MOST;
}

static int log_is_sound(const uint8_t *log, size_t used)
{
    while (used > 0) {
        size_t n = record_before(log, used);
        if (n == 0)
            return 0;
        used -= n;
    }
    return 1;
}

static uint8_t refusal_of_keep(const uint8_t *log, size_t log_len, size_t used, const uint8_t *message,
                               size_t message_len)
{
    size_t most = log_len < NX584_LOG_MOST ? log_len : NX584_LOG_MOST;
    if (is_beyond(log_len, used))
        return 16;
    if (!log_is_sound(log, used))
        return 17;
    uint8_t number = refusal_of(message, message_len);
    if (number != 0)
        return number;
    if (!is_kept(message[0]))
        return 18;
    return most - used < message_len + 1 ? 9 : 0;
}

nx584_written nx584_keep(uint8_t *log, size_t log_len, size_t used, const uint8_t *message,
                         size_t message_len)
{
    nx584_written w = {.number = refusal_of_keep(log, log_len, used, message, message_len)};
    if (w.number != 0)
        return w;
    memcpy(log + used, message, message_len);
    log[used + message_len] = (uint8_t)message_len;
    w.length = message_len + 1;
    return w;
}

static int is_about(const uint8_t *m, uint8_t zone)
{
    switch (m[0] & 0x3F) {
    case 0x04: return m[1] == zone;
    case 0x05: return m[1] <= zone && zone <= m[1] + 15;
    default: return 0;
    }
}

/* The walk goes on to the beginning where the record is found: the log may be unsound before it. */
nx584_found nx584_newest(const uint8_t *log, size_t log_len, size_t used, uint8_t zone)
{
    nx584_found f = {.number = is_beyond(log_len, used) ? 16 : 0};
    size_t end = f.number == 0 ? used : 0;
    while (end > 0) {
        size_t n = record_before(log, end);
        if (n == 0) {
            nx584_found refused = {.number = 17};
            return refused;
        }
        end -= n;
        if (f.length == 0 && is_about(log + end, zone)) {
            f.at = end;
            f.length = n;
        }
    }
    return f;
}

/* ---- making room (document 02, No. 7) */

/* The marks of a table's zones, of its partitions and of its system. A bit of a mark has its own bytes of the table,
 * which every message writes that sets it, and no other does: so a record goes where later ones set all its bits. */
enum { PARTITION_MARKS = 256, SYSTEM_MARK = 264, MARKS = 265 };
enum { STAY_MOST = 256 + 256 + 8 + 1 + 1 }; /* of 04h to 08h */

/* Whether one of so many marks has not all of the bits; then they all have. */
static int set_marks(uint8_t *marks, size_t count, uint8_t bits)
{
    int is_new = 0;
    for (size_t k = 0; k < count; k++) {
        if ((marks[k] & bits) != bits)
            is_new = 1;
        marks[k] |= bits;
    }
    return is_new;
}

/* Whether a record sets a bit that no later one does. */
static int is_needed(uint8_t *later, const uint8_t *m)
{
    switch (m[0] & 0x3F) {
    case 0x04: return set_marks(later + m[1], 1, 3);
    case 0x05: return set_marks(later + m[1], 16, 1);
    case 0x06: return set_marks(later + PARTITION_MARKS + m[1], 1, 2);
    case 0x07: return set_marks(later + PARTITION_MARKS, 8, 1);
    default: return set_marks(later + SYSTEM_MARK, 1, 1);
    }
}

/* Where the records of a sound log begin that stay, the newest first, and how many they are. */
static size_t find_needed(const uint8_t *log, size_t used, uint16_t *places)
{
    uint8_t later[MARKS] = {0};
    size_t count = 0;
    while (used > 0) {
        used -= log[used - 1] + 1u;
        if (is_needed(later, log + used))
            places[count++] = (uint16_t)used;
    }
    return count;
}

/* The bytes of the records that stay, which come to stand at the beginning: the oldest moves first, so that none is
 * written over before it has moved. */
static size_t move_up(uint8_t *log, const uint16_t *places, size_t count)
{
    size_t end = 0;
    while (count > 0) {
        const uint8_t *record = log + places[--count];
        size_t n = lengths[record[0] & 0x3F] + 1u;
        memmove(log + end, record, n);
        end += n;
    }
    return end;
}

nx584_written nx584_make_room(uint8_t *log, size_t log_len, size_t used)
{
    nx584_written w = {0};
    uint16_t places[STAY_MOST];
    if (is_beyond(log_len, used))
        w.number = 16;
    else if (!log_is_sound(log, used))
        w.number = 17;
    if (w.number != 0)
        return w;
    size_t count = find_needed(log, used, places);
    w.length = used - move_up(log, places, count);
    return w;
}

/* ---- zone maps as float grids (document 02, No. 8) */

enum { MAP = 16 }; /* zones in a row of the map, and rows */

static const uint8_t nothing_heard[4] = {0x00, 0x3C, 0x1C, 0xC6}; /* minus 9999 */

/* The header of the level so many cells wide; NULL where there is no such level. */
static const char *header_of(uint8_t width)
{
#define HEADER(width, size) \
    "ncols " width "\nnrows " width "\nxllcorner 0\nyllcorner 0\n" \
    "cellsize " size "\nNODATA_value -9999\nbyteorder LSBFIRST\n"
    switch (width) {
    case 16: return HEADER("16", "1");
    case 8: return HEADER("8", "2");
    case 4: return HEADER("4", "4");
    case 2: return HEADER("2", "8");
    case 1: return HEADER("1", "16");
    default: return NULL;
    }
}

/* Both counts are at most 256 and so are floats exactly: the division is the only rounding. */
static void put_cell(uint8_t *cell, unsigned heard, unsigned faulted)
{
    if (heard == 0) {
        memcpy(cell, nothing_heard, sizeof nothing_heard);
        return;
    }
    float share = (float)faulted / (float)heard;
    uint32_t bits;
    memcpy(&bits, &share, sizeof bits);
    for (int k = 0; k < 4; k++)
        cell[k] = (uint8_t)(bits >> 8 * k);
}

/* A block of size by size zones; `zone` is its top left one. */
static void put_block(uint8_t *cell, const uint8_t *zone, int size)
{
    unsigned heard = 0, faulted = 0;
    for (int row = 0; row < size; row++, zone += MAP * ZONE)
        for (int column = 0; column < size; column++) {
            const uint8_t *record = zone + ZONE * column;
            if (record[0] & 1) {
                heard++;
                faulted += record[7] & 1;
            }
        }
    put_cell(cell, heard, faulted);
}

nx584_gridded nx584_grid(const uint8_t *table, size_t table_len, uint8_t width, uint8_t *header,
                         size_t header_len, uint8_t *cells, size_t cells_len)
{
    nx584_gridded g = {0};
    const char *text = header_of(width);
    size_t text_len = text ? strlen(text) : 0, all_cells = 4u * width * width;
    if (table_len != NX584_TABLE_BYTES)
        g.number = 11;
    else if (!text)
        g.number = 8;
    else if (header_len < text_len || cells_len < all_cells)
        g.number = 9;
    if (g.number != 0)
        return g;
    int size = MAP / width;
    memcpy(header, text, text_len);
    for (int row = 0; row < width; row++)
        for (int column = 0; column < width; column++, cells += 4)
            put_block(cells, table + ZONE * size * (MAP * row + column), size);
    g.header = text_len;
    g.cells = all_cells;
    return g;
}
