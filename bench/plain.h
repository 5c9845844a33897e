/* What the two plain C programs share: constants, what document 01 says of messages and replies, which
 * readers are sound, and a table's records. careful.c and fastest.c have all else, each in its own manner. */
#include "nx584.h"

#include <string.h>

enum { BINARY_START = 0x7E, ESCAPE = 0x7D, ASCII_START = 0x0A, ASCII_STOP = 0x0D };
enum { SKIPPING, IN_FRAME, ESCAPED, DIGIT_PENDING };
enum { ZONE = 8, PARTITIONS = 2048, PARTITION = 9, SYSTEM = 2120 };
enum { LONGEST_GOOD = 18 }; /* of the 41 messages, and so of what is written and handed out */

static const uint8_t lengths[64] = {
    [0x01] = 11, [0x03] = 18, [0x04] = 8,  [0x05] = 10, [0x06] = 9, [0x07] = 9,  [0x08] = 12,
    [0x09] = 4,  [0x0A] = 10, [0x0B] = 3,  [0x10] = 13, [0x12] = 7, [0x1C] = 1,  [0x1D] = 1,
    [0x1E] = 1,  [0x1F] = 1,  [0x21] = 1,  [0x23] = 2,  [0x24] = 2, [0x25] = 2,  [0x26] = 2,
    [0x27] = 1,  [0x28] = 1,  [0x29] = 4,  [0x2A] = 2,  [0x2B] = 12, [0x2C] = 3, [0x30] = 4,
    [0x31] = 13, [0x32] = 5,  [0x33] = 2,  [0x34] = 8,  [0x35] = 5, [0x36] = 7,  [0x37] = 4,
    [0x3A] = 6,  [0x3B] = 7,  [0x3C] = 6,  [0x3D] = 4,  [0x3E] = 3, [0x3F] = 2,
};

/* Digits: their value and 16, so that 0 is no digit. */
static const uint8_t digits[256] = {
    ['0'] = 16, ['1'] = 17, ['2'] = 18, ['3'] = 19, ['4'] = 20, ['5'] = 21, ['6'] = 22, ['7'] = 23,
    ['8'] = 24, ['9'] = 25, ['A'] = 26, ['B'] = 27, ['C'] = 28, ['D'] = 29, ['E'] = 30, ['F'] = 31,
};

/* ---- messages */

static int x10_is_good(const uint8_t *m)
{
    switch (m[3]) {
    case 0x08: case 0x18: case 0x68: return m[1] <= 15;
    case 0x28: case 0x38: case 0x48: case 0x58: return m[1] <= 15 && m[2] <= 15;
    default: return 0;
    }
}

static int clock_is_good(const uint8_t *m)
{
    return m[1] <= 99 && m[2] - 1u < 12 && m[3] - 1u < 31 && m[4] <= 23 && m[5] <= 59 && m[6] - 1u < 7;
}

/* "Only these values are checked", for a message that has the length of its number. */
static int values_are_good(const uint8_t *m);

/* 0, or 6, 7, 8 for a message of 1 to 255 bytes; 0 only for one of at most LONGEST_GOOD. */
static uint8_t verdict_of(const uint8_t *m, size_t n)
{
    unsigned wanted = m[0] & 0x40 ? 0 : lengths[m[0] & 0x3F];
    if (wanted == 0)
        return 6;
    if (wanted != n)
        return 7;
    return values_are_good(m) ? 0 : 8;
}

uint8_t nx584_reply(uint8_t verdict, uint8_t type)
{
    unsigned number = type & 0x3F;
    if (verdict == 6 || verdict == 8)
        return 0x1F;
    if ((verdict >= 1 && verdict <= 7) || verdict == 15)
        return 0x1E;
    if (verdict != 0 || (type & 0x40) || lengths[number] == 0)
        return 0;
    if (number >= 0x20)
        return 0x1F;
    if (number >= 0x1C)
        return 0;
    return type & 0x80 ? 0x1D : 0;
}

/* ---- readers */

nx584_reader nx584_fresh(uint8_t framing)
{
    nx584_reader r = {.framing = framing != 0};
    return r;
}

nx584_reader nx584_fresh_lenient(uint8_t framing)
{
    nx584_reader r = {.framing = framing != 0, .escapes = NX584_LENIENT};
    return r;
}

static int is_sound(const nx584_reader *r)
{
    if (r->mode > DIGIT_PENDING || (r->mode == DIGIT_PENDING && r->digit > 15))
        return 0;
    if (r->held == 0)
        return 1;
    unsigned length = r->bytes[0];
    if (length == 0)
        return 0;
    return r->held <= length + 2 || (r->framing && r->held == length + 3 && r->mode != DIGIT_PENDING);
}

/* What is left of the fields that document 01 does not know: the same reader, each state once. */
static void settle(nx584_reader *r)
{
    r->framing = r->framing != 0;
    if (r->mode == (r->framing ? ESCAPED : DIGIT_PENDING))
        r->mode = IN_FRAME;
    if (r->mode != DIGIT_PENDING)
        r->digit = 0;
}

/* Of a byte after a 7Dh, no start byte: a writer escapes 7Eh and 7Dh and nothing else. */
static int is_bad_escape(const nx584_reader *r, uint8_t byte)
{
    return r->escapes == NX584_STRICT && byte != (BINARY_START ^ 0x20) && byte != (ESCAPE ^ 0x20);
}

/* ---- questions of a table; a refused one is all zero but for its number */

uint32_t nx584_version(void)
{
    return NX584_VERSION;
}

nx584_zone_record nx584_zone(const uint8_t *table, size_t table_len, uint8_t zone)
{
    nx584_zone_record a = {0};
    if (table_len != NX584_TABLE_BYTES) {
        a.number = 11;
        return a;
    }
    const uint8_t *record = table + ZONE * zone;
    a.mark = record[0];
    a.flags = record[7];
    memcpy(a.bytes, record + 1, sizeof a.bytes);
    return a;
}

nx584_partition_record nx584_partition(const uint8_t *table, size_t table_len, uint8_t partition)
{
    nx584_partition_record a = {0};
    if (table_len != NX584_TABLE_BYTES || partition > 7) {
        a.number = table_len != NX584_TABLE_BYTES ? 11 : 8;
        return a;
    }
    const uint8_t *record = table + PARTITIONS + PARTITION * partition;
    a.mark = record[0];
    a.flags = record[8];
    memcpy(a.bytes, record + 1, sizeof a.bytes);
    return a;
}

nx584_system_record nx584_system(const uint8_t *table, size_t table_len)
{
    nx584_system_record a = {0};
    if (table_len != NX584_TABLE_BYTES) {
        a.number = 11;
        return a;
    }
    a.mark = table[SYSTEM];
    memcpy(a.bytes, table + SYSTEM + 1, sizeof a.bytes);
    return a;
}
