/* The plain program that the bench measures nxread against, over nx584.h: linked with the plain C or
 * with the plain Rust. It reads a binary capture on standard input, by the old rule of escapes, and writes its
 * report. */
#include "nx584.h"

#include <unistd.h>

enum { CAPTURE = 65536, LINE = 8, GROUP_LINE = 16 };

static uint8_t capture[CAPTURE], out[LINE * CAPTURE + 16 * GROUP_LINE], table[NX584_TABLE_BYTES];
static size_t end;

static void put(const char *text)
{
    while (*text)
        out[end++] = (uint8_t)*text++;
}

static void put_hex(unsigned byte)
{
    static const char digits[] = "0123456789ABCDEF";
    out[end++] = ' ';
    out[end++] = (uint8_t)digits[byte / 16];
    out[end++] = (uint8_t)digits[byte % 16];
}

static void put_decimal(unsigned number)
{
    if (number >= 10)
        out[end++] = (uint8_t)('0' + number / 10);
    out[end++] = (uint8_t)('0' + number % 10);
}

static void put_verdict(const nx584_hearing *a)
{
    put_decimal(a->verdict);
    if (a->verdict == 0 || a->verdict >= 6)
        put_hex(a->type & 0x7F);
    else
        put(" --");
    if (a->reply)
        put_hex(a->reply);
    else
        put(" --");
    put("\n");
}

static void put_group(unsigned number, const nx584_group *group)
{
    put_decimal(number);
    put(" ");
    put_decimal(group->heard);
    put(" ");
    if (group->known)
        put_decimal(group->faulted);
    else
        put("-9999");
    put("\n");
}

int main(void)
{
    size_t length = 0, at = 0;
    ssize_t got;
    while (length < CAPTURE && (got = read(0, capture + length, CAPTURE - length)) > 0)
        length += (size_t)got;
    nx584_hearing a;
    a.reader = nx584_fresh_lenient(0);
    while (at < length) {
        a = nx584_hear(a.reader, table, sizeof table, capture + at, length - at);
        at += a.used;
        if (a.verdict != NX584_NONE)
            put_verdict(&a);
    }
    nx584_overview seen = nx584_view(table, sizeof table);
    for (unsigned k = 0; k < 16; k++)
        put_group(k + 1, &seen.groups[k]);
    for (size_t sent = 0; sent < end && (got = write(1, out + sent, end - sent)) > 0;)
        sent += (size_t)got;
    return 0;
}
