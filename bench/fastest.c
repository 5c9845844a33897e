/* The fastest plain C that we could make of nx584.h: a whole frame of a good message's length at once in
 * words of eight bytes, totals in place of eight-bit sums, `memchr` between frames. A struct that goes back
 * is made of words and vectors, since a wide load of what was just stored in narrow pieces has to wait. What
 * is longer or not whole is taken in runs of sixteen bytes, and byte by byte between them. tests/run holds it
 * to the second program as it holds the library. */
#include "plain.h"

#if __BYTE_ORDER__ != __ORDER_LITTLE_ENDIAN__
#error "the words are little-endian"
#endif

#define ALWAYS static inline __attribute__((always_inline))
#define EACH(byte) (0x0101010101010101u * (byte))

/* The bytes of a frame of a good message's length, and its digits, rounded up. */
enum { WORDS = 24, CHARACTERS = 48 };

ALWAYS uint64_t load(const uint8_t *p)
{
    uint64_t word;
    memcpy(&word, p, 8);
    return word;
}

ALWAYS uint32_t load_half(const uint8_t *p)
{
    uint32_t word;
    memcpy(&word, p, 4);
    return word;
}

typedef uint8_t bytes16 __attribute__((vector_size(16)));
typedef uint8_t bytes8 __attribute__((vector_size(8)));
typedef uint16_t pairs __attribute__((vector_size(16)));
typedef uint32_t quads __attribute__((vector_size(16)));
typedef uint64_t two __attribute__((vector_size(16)));

ALWAYS bytes16 load_vector(const uint8_t *p)
{
    bytes16 v;
    memcpy(&v, p, 16);
    return v;
}

/* Ones in the first n of 24 or 48 bytes. */
static const uint8_t ones[2 * CHARACTERS] = {
#define EIGHT 255, 255, 255, 255, 255, 255, 255, 255
    EIGHT, EIGHT, EIGHT, EIGHT, EIGHT, EIGHT,
};

ALWAYS const uint8_t *first(size_t n)
{
    return ones + CHARACTERS - n;
}

/* Sixteen bytes in one store, as a caller that copies an answer loads them: those of v where there are ones in
 * `where`, else the old ones. */
ALWAYS void put_over(uint8_t *to, bytes16 v, const uint8_t *old, const uint8_t *where)
{
    bytes16 mask = load_vector(where);
    v = (v & mask) | (load_vector(old) & ~mask);
    memcpy(to, &v, 16);
}

/* ---- messages */

/* The byte of a message that is checked, the bits of it, and the least and the span that they may have. */
static const struct {
    uint8_t at, bits, least, span;
} rules[64] = {
    [0x05] = {1, 0xFF, 0, 240},  [0x25] = {1, 0xFF, 0, 240}, [0x06] = {1, 0xFF, 0, 7},
    [0x26] = {1, 0xFF, 0, 7},    [0x0B] = {2, 0xFF, 0, 0x15}, [0x10] = {2, 0xA0, 0, 0},
    [0x2B] = {2, 0xFF, 0, 0},    [0x30] = {2, 0xB0, 0, 0},   [0x31] = {2, 0xA0, 0x20, 0},
    [0x3C] = {4, 0xFF, 0, 7},    [0x3D] = {1, 0xFF, 0, 7},   [0x3E] = {1, 0xFF, 0, 0x0F},
};

static int values_are_good(const uint8_t *m)
{
    unsigned number = m[0] & 0x3F;
    if (number == 0x3B)
        return clock_is_good(m);
    if ((number | 0x20) == 0x29)
        return x10_is_good(m);
    return (uint8_t)((m[rules[number].at] & rules[number].bits) - rules[number].least) <= rules[number].span;
}

/* ---- a frame in words: its length byte and a message of at most 18 bytes, zero beyond them */

typedef struct {
    uint64_t w[3];
} words;

typedef struct {
    uint8_t one, two;
} sums;

ALWAYS words load_words(const uint8_t *p, size_t n)
{
    words f;
    for (int k = 0; k < 3; k++)
        f.w[k] = load(p + 8 * k) & load(first(n) + 8 * k);
    return f;
}

/* Not 0 where a byte is 7Dh or 7Eh. */
ALWAYS uint64_t special(uint64_t w)
{
    uint64_t v = ((((w & EACH(0x7Fu)) + EACH(1u)) | EACH(1u)) ^ EACH(0x7Fu)) | (w & EACH(0x80u));
    return (v - EACH(1u)) & ~v & EACH(0x80u);
}

/* Sum 2 counts byte j of n bytes n - j times. Four sums of 16 bits stand in a word; none overflows. */
ALWAYS sums sums_of(words f, uint32_t n)
{
    const uint64_t even_bytes = 0x00FF00FF00FF00FFu, all = 0x0001000100010001u;
    uint64_t even[3], odd[3], even_sum, odd_sum, later;
    for (int k = 0; k < 3; k++) {
        even[k] = f.w[k] & even_bytes;
        odd[k] = f.w[k] >> 8 & even_bytes;
    }
    even_sum = even[0] + even[1] + even[2];
    odd_sum = odd[0] + odd[1] + odd[2];
    later = even[1] + odd[1] + 2 * (even[2] + odd[2]);
    uint32_t total = (uint32_t)(((even_sum + odd_sum) * all) >> 48);
    uint32_t places = (uint32_t)((even_sum * 0x0000000200040006u + odd_sum * 0x0001000300050007u) >> 48) +
                      8 * (uint32_t)((later * all) >> 48);
    sums s = {(uint8_t)(total % 255), (uint8_t)((n * total - places) % 255)};
    return s;
}

/* ---- a longer frame in rows of sixteen bytes */

ALWAYS quads widen(pairs v)
{
    return ((quads)v & 0xFFFF) + ((quads)v >> 16);
}

ALWAYS uint32_t total_of(quads v)
{
    return v[0] + v[1] + v[2] + v[3];
}

/* The sums of up to 256 bytes. Sum 2 counts byte j of a row 16 - j times, and 16 times more for each row after
 * it; what that is too much where the last row is not full is taken off at the end. No lane of 16 bits overflows
 * in 16 rows: a column's sum is at most 16 * 255, and over the rows after each byte 120 * 255. */
ALWAYS sums sums_of_rows(const uint8_t *p, uint32_t n)
{
    const pairs even_times = {16, 14, 12, 10, 8, 6, 4, 2}, odd_times = even_times - 1;
    pairs even = {0}, odd = {0}, even_before = {0}, odd_before = {0};
    uint32_t i = 0;
    for (; i < n; i += 16) {
        bytes16 v = load_vector(p + i);
        if (n - i < 16)
            v &= load_vector(first(n - i));
        even_before += even;
        odd_before += odd;
        even += (pairs)v & 0xFF;
        odd += (pairs)v >> 8;
    }
    uint32_t total = total_of(widen(even + odd));
    uint32_t times = total_of(widen(even * even_times) + widen(odd * odd_times) + widen(even_before + odd_before) * 16);
    sums s = {(uint8_t)(total % 255), (uint8_t)((times - (i - n) * total) % 255)};
    return s;
}

/* ---- digits, sixteen at a time */

/* The values of sixteen characters; where one of those that count is no digit, bad becomes so. */
ALWAYS bytes16 from_digits(const uint8_t *p, const uint8_t *counts, bytes16 *bad)
{
    bytes16 c = load_vector(p), number = c - '0', letter = c - 'A';
    bytes16 is_number = (bytes16)(number < 10), is_letter = (bytes16)(letter < 6);
    *bad |= ~(is_number | is_letter) & load_vector(counts);
    return (number & is_number) | ((letter + 10) & is_letter);
}

/* The bytes of eight pairs of digits. */
ALWAYS bytes8 in_pairs(bytes16 values)
{
    pairs both = (pairs)values;
    return __builtin_convertvector((both << 4 | both >> 8) & 0xFF, bytes8);
}

ALWAYS int is_any(bytes16 bad)
{
    two any = (two)bad;
    return (any[0] | any[1]) != 0;
}

ALWAYS void to_digits(uint8_t *to, uint64_t w)
{
    bytes8 b;
    memcpy(&b, &w, 8);
    pairs wide = __builtin_convertvector(b, pairs);
    bytes16 d = (bytes16)(wide >> 4 | (wide & 15) << 8);
    d += '0' + ((bytes16)(d > 9) & 7);
    memcpy(to, &d, 16);
}

/* ---- reader */

enum { HEAD = offsetof(nx584_reader, bytes), HELD_MOST = NX584_LONGEST + 3 };
enum { TAIL = 256, REST = offsetof(nx584_reading, used) }; /* of an answer: its reader's last vector, what was read */

/* What a read gives beside its reader: used bytes, verdict and type byte, and for verdict 0 the frame's
 * length byte and message. Of a whole frame also how the reader changes: its head, which is all before its
 * bytes, and the first ones of these. */
typedef struct {
    size_t used;
    uint64_t verdict, type;
    words body;
    uint64_t head;
    words frame;
    size_t count;
} scanned;

ALWAYS uint64_t head_of(unsigned framing, unsigned mode, unsigned digit, unsigned held)
{
    return framing | mode << 8 | digit << 16 | (uint64_t)held << 32;
}

/* The reader that has had a verdict holds nothing. */
ALWAYS void decided(scanned *s, unsigned framing, size_t used, uint8_t verdict)
{
    s->head = head_of(framing, verdict == 1 ? IN_FRAME : SKIPPING, 0, 0);
    s->used = used;
    s->verdict = verdict;
}

/* The verdict on a frame that is all there, by what its sums should be. */
ALWAYS void judge(scanned *s, unsigned framing, size_t used, const uint8_t *frame, sums right)
{
    size_t n = frame[0];
    uint8_t verdict = 5;
    if (frame[n + 1] == right.one && frame[n + 2] == right.two) {
        verdict = verdict_of(frame + 1, n);
        s->type = frame[1];
    }
    decided(s, framing, used, verdict);
}

/* The same of one that is no longer than a good message's, and of which 24 bytes can be loaded. */
ALWAYS void judge_words(scanned *s, unsigned framing, size_t used, const uint8_t *frame, words f)
{
    judge(s, framing, used, frame, sums_of(f, frame[0] + 1u));
    if (s->verdict == 0)
        s->body = f;
}

ALWAYS void judge_whole(scanned *s, unsigned framing, size_t used, const uint8_t *frame, words f)
{
    judge_words(s, framing, used, frame, f);
    for (int k = 0; k < 3; k++)
        s->frame.w[k] = load(frame + 8 * k);
    s->count = frame[0] + 3u;
}

/* A frame whose first byte is at i, if that byte decides or it is all there, no longer than a good message's
 * and none of it escaped. */
ALWAYS int whole_binary(scanned *s, const uint8_t *b, size_t n, size_t i)
{
    uint8_t near_end[WORDS];
    size_t left = n - i, length;
    const uint8_t *frame = b + i;
    if (left == 0)
        return 0;
    length = frame[0];
    if (length == 0 || length == BINARY_START) {
        decided(s, 0, i + 1, length ? 1 : 4);
        return 1;
    }
    if (length > LONGEST_GOOD || left < length + 3) /* above it is the 7Dh of an escaped length, too */
        return 0;
    if (left < WORDS) {
        memset(near_end, 0, WORDS);
        frame = memcpy(near_end, frame, left);
    }
    words f = load_words(frame, length + 1);
    uint64_t sum_bytes = (uint64_t)frame[length + 1] << 8 | frame[length + 2];
    if (special(f.w[0]) | special(f.w[1]) | special(f.w[2]) | special(sum_bytes))
        return 0;
    judge_whole(s, 0, i + length + 3, frame, f);
    return 1;
}

ALWAYS int whole_ascii(scanned *s, const uint8_t *b, size_t n, size_t i)
{
    uint8_t near_end[CHARACTERS], frame[WORDS];
    size_t left = n - i, length, characters;
    const uint8_t *p = b + i;
    bytes16 bad = {0};
    if (left != 0 && !digits[p[0]]) {
        decided(s, 1, i + 1, p[0] == ASCII_START ? 1 : 2);
        return 1;
    }
    if (left < 9 || !digits[p[1]])
        return 0;
    length = (size_t)(digits[p[0]] & 15) << 4 | (digits[p[1]] & 15);
    characters = 2 * (length + 3);
    if (length - 1 >= LONGEST_GOOD || left <= characters || p[characters] != ASCII_STOP)
        return 0;
    if (left < CHARACTERS) {
        memset(near_end, 0, CHARACTERS);
        p = memcpy(near_end, p, left);
    }
    for (int k = 0; k < 3; k++) {
        bytes8 part = in_pairs(from_digits(p + 16 * k, first(characters) + 16 * k, &bad));
        memcpy(frame + 8 * k, &part, 8);
    }
    if (is_any(bad))
        return 0;
    judge_whole(s, 1, i + characters + 1, frame, load_words(frame, length + 1));
    return 1;
}

/* ---- reader: what is not a whole frame, in the answer's own reader */

static void judge_held(scanned *s, const nx584_reader *r, unsigned framing, size_t used)
{
    const uint8_t *frame = r->bytes;
    uint32_t n = frame[0] + 1u;
    if (n <= LONGEST_GOOD + 1)
        judge_words(s, framing, used, frame, load_words(frame, n));
    else
        judge(s, framing, used, frame, sums_of_rows(frame, n));
}

/* Up to sixteen bytes that stand for themselves, behind those held; sixteen can be loaded and stored. */
ALWAYS unsigned run_binary(uint8_t *to, const uint8_t *from, unsigned most)
{
    bytes16 v = load_vector(from);
    two found = (two)(bytes16)((bytes16)(v - ESCAPE) < 2);
    unsigned count = 16;
    if (found[0])
        count = (unsigned)__builtin_ctzll(found[0]) / 8;
    else if (found[1])
        count = 8 + (unsigned)__builtin_ctzll(found[1]) / 8;
    if (count > most)
        count = most;
    if (count == 16)
        memcpy(to, &v, 16);
    else
        put_over(to, v, to, first(count));
    return count;
}

/* A frame that is being taken: how many bytes of it are held, and at how many it ends; the mode; whether a digit
 * is pending, and which. */
typedef struct {
    unsigned held, end, mode, pending, digit;
} taking;

ALWAYS taking take_up(const nx584_reader *r)
{
    taking t = {r->held, r->held ? r->bytes[0] + 3u : 1, r->mode, r->mode == DIGIT_PENDING, r->digit};
    return t;
}

/* One byte: 1, 4 or 15, or 0 where it has no verdict by itself. */
ALWAYS unsigned take_binary(taking *t, nx584_reader *r, unsigned c)
{
    if (c == BINARY_START)
        return 1;
    if (t->mode == ESCAPED) {
        if (is_bad_escape(r, (uint8_t)c))
            return 15;
        c ^= 0x20;
        t->mode = IN_FRAME;
    } else if (c == ESCAPE) {
        t->mode = ESCAPED;
        return 0;
    }
    if (t->held == 0) {
        if (c == 0)
            return 4;
        t->end = c + 3;
    }
    r->bytes[t->held++] = (uint8_t)c;
    return 0;
}

static void bytes_binary(scanned *s, nx584_reader *r, const uint8_t *b, size_t n, size_t i)
{
    taking t = take_up(r);
    while (i < n) {
        unsigned count = 0, verdict = 0;
        if (n - i >= 16 && t.held - 1 < HELD_MOST - 16 && t.mode == IN_FRAME) {
            count = run_binary(r->bytes + t.held, b + i, t.end - t.held);
            i += count;
            t.held += count;
        }
        if (count < 16 && t.held != t.end)
            verdict = take_binary(&t, r, b[i++]);
        if (verdict != 0) {
            decided(s, 0, i, (uint8_t)verdict);
            return;
        }
        if (t.held == t.end) {
            judge_held(s, r, 0, i);
            return;
        }
    }
    s->head = head_of(0, t.mode, 0, t.held);
    s->used = n;
}

/* Up to sixteen digits behind what is held; sixteen characters can be loaded and eight bytes stored. How many
 * they were; 0 where one of them is no digit. */
ALWAYS unsigned run_ascii(taking *t, uint8_t *bytes, const uint8_t *from)
{
    unsigned left = 2 * (t->end - t->held) - t->pending, count = left < 16 ? left : 16;
    unsigned whole = (count + t->pending) / 2;
    bytes16 bad = {0};
    two values = (two)from_digits(from, first(count), &bad);
    if (is_any(bad))
        return 0;
    if (t->pending) {
        uint64_t last = values[1] >> 56;
        values[1] = values[1] << 8 | values[0] >> 56;
        values[0] = values[0] << 8 | t->digit;
        t->digit = (unsigned)last;
    }
    bytes8 made = in_pairs((bytes16)values);
    uint64_t word, mask = load(first(whole));
    memcpy(&word, &made, 8);
    word = (word & mask) | (load(bytes + t->held) & ~mask);
    memcpy(bytes + t->held, &word, 8);
    t->pending = (count + t->pending) % 2;
    t->held += whole;
    return count;
}

/* One character where a digit is due: 1, 2 or 4, or 0 where it has no verdict by itself. */
ALWAYS unsigned take_ascii(taking *t, uint8_t *bytes, uint8_t c)
{
    unsigned digit = digits[c];
    if (digit == 0)
        return c == ASCII_START ? 1 : 2;
    digit -= 16;
    t->pending ^= 1;
    if (t->pending) {
        t->digit = digit;
        return 0;
    }
    digit |= t->digit << 4;
    if (t->held == 0) {
        if (digit == 0)
            return 4;
        t->end = digit + 3;
    }
    bytes[t->held++] = (uint8_t)digit;
    return 0;
}

static void bytes_ascii(scanned *s, nx584_reader *r, const uint8_t *b, size_t n, size_t i)
{
    taking t = take_up(r);
    while (i < n) {
        if (t.held == t.end) {
            if (b[i] == ASCII_STOP)
                judge_held(s, r, 1, i + 1);
            else
                decided(s, 1, i + 1, b[i] == ASCII_START ? 1 : 3);
            return;
        }
        unsigned count = 0, verdict = 0;
        if (n - i >= 16 && t.held - 1 < HELD_MOST - 8)
            count = run_ascii(&t, r->bytes, b + i);
        i += count;
        if (count == 0)
            verdict = take_ascii(&t, r->bytes, b[i++]);
        if (verdict != 0) {
            decided(s, 1, i, (uint8_t)verdict);
            return;
        }
    }
    s->head = head_of(1, t.pending ? DIGIT_PENDING : IN_FRAME, t.pending ? t.digit : 0, t.held);
    s->used = n;
}

/* Any reader and any bytes; a skipping reader meets no start before i. */
static __attribute__((noinline)) void scan_bytes(scanned *s, nx584_reader *r, const uint8_t *b, size_t n, size_t i)
{
    memset(s, 0, sizeof *s);
    s->verdict = NX584_NONE;
    if (!is_sound(r)) {
        s->verdict = 12;
        return;
    }
    settle(r);
    if (r->mode == SKIPPING) {
        const uint8_t *at = i < n ? memchr(b + i, r->framing ? ASCII_START : BINARY_START, n - i) : NULL;
        if (!at) {
            s->used = n;
            return;
        }
        i = (size_t)(at - b) + 1;
        r->mode = IN_FRAME;
        r->held = 0;
    }
    if (r->framing)
        bytes_ascii(s, r, b, n, i);
    else
        bytes_binary(s, r, b, n, i);
    memcpy(r, &s->head, HEAD);
}

/* A reader that holds nothing meets a whole frame at once; 0: it does not, and no start before *from. */
ALWAYS int scan_whole(scanned *s, const nx584_reader *r, const uint8_t *b, size_t n, size_t *from)
{
    unsigned mode = r->mode, ascii = r->framing;
    *from = 0;
    if (n < 2 || r->held != 0 || mode > IN_FRAME || ascii > 1)
        return 0;
    if (mode == SKIPPING && b[0] != (ascii ? ASCII_START : BINARY_START)) {
        const uint8_t *at = memchr(b + 1, ascii ? ASCII_START : BINARY_START, n - 1);
        *from = at ? (size_t)(at - b) : n;
        if (!at)
            return 0;
    }
    memset(s, 0, sizeof *s);
    size_t i = *from + (mode == SKIPPING);
    return ascii ? whole_ascii(s, b, n, i) : whole_binary(s, b, n, i);
}

/* ---- answers: a reader, and what was read with it */

ALWAYS void put_two(uint8_t *to, uint64_t low, uint64_t high)
{
    two both = {low, high};
    memcpy(to, &both, 16);
}

/* A reader from some byte on, in an answer: its last bytes and its rule fill a vector, with what pads them. */
ALWAYS void put_from(uint8_t *to, const nx584_reader *r, size_t begin)
{
    _Static_assert(offsetof(nx584_reader, escapes) == TAIL + 8 && REST == TAIL + 16, "a reader's words");
    const uint8_t *old = (const uint8_t *)r;
    memcpy(to + begin, old + begin, TAIL - begin);
    put_two(to + TAIL, load(old + TAIL), r->escapes);
}

/* The reader after a whole frame: its head, the frame's bytes, and behind them those that it had. */
ALWAYS void put_reader(uint8_t *to, const nx584_reader *r, const scanned *s)
{
    const uint64_t *f = s->frame.w;
    const uint8_t *old = (const uint8_t *)r, *where = first(HEAD + s->count);
    two low = {s->head | f[0] << 8 * HEAD, f[0] >> (64 - 8 * HEAD) | f[1] << 8 * HEAD};
    two high = {f[1] >> (64 - 8 * HEAD) | f[2] << 8 * HEAD, f[2] >> (64 - 8 * HEAD)};
    put_over(to, (bytes16)low, old, where);
    put_over(to + 16, (bytes16)high, old + 16, where + 16);
    put_from(to, r, 32);
}

/* What was read: the used bytes, some bits of numbers, the frame's length byte and its message. */
ALWAYS void put_rest(uint8_t *to, const scanned *s, uint64_t numbers, unsigned bits)
{
    const uint64_t *f = s->body.w;
    put_two(to, s->used, numbers | f[0] << bits);
    put_two(to + 16, f[0] >> (64 - bits) | f[1] << bits, f[1] >> (64 - bits) | f[2] << bits);
    memset(to + 32, 0, sizeof(nx584_reading) - REST - 32);
}

ALWAYS void put_reading(nx584_reading *a, const scanned *s)
{
    _Static_assert(sizeof *a == 544 && offsetof(nx584_reading, length) == REST + 10, "an answer's words");
    put_rest((uint8_t *)&a->used, s, s->verdict | s->type << 8, 16);
}

static __attribute__((noinline)) void read_words(nx584_reading *a, const nx584_reader *r, const uint8_t *bytes, size_t n)
{
    scanned whole, other;
    size_t from;
    if (scan_whole(&whole, r, bytes, n, &from)) {
        put_reader((uint8_t *)a, r, &whole);
        put_reading(a, &whole);
    } else {
        a->reader = *r;
        scan_bytes(&other, &a->reader, bytes, n, from);
        put_reading(a, &other);
    }
}

/* What a single byte in a frame does to its reader where no verdict falls at it: the new head, and whether the
 * byte that it makes is held. 0: it is another. */
ALWAYS int take_one(const nx584_reader *r, unsigned *c, uint64_t *head, unsigned *is_held)
{
    unsigned held = r->held, mode = r->mode, end = r->bytes[0] + 3u, digit = 0;
    if (mode == SKIPPING || held == 0 || !is_sound(r))
        return 0;
    if (r->framing) {
        if (held == end || !digits[*c])
            return 0;
        digit = digits[*c] & 15;
        if (mode == DIGIT_PENDING) {
            *c = (unsigned)r->digit << 4 | digit;
            digit = 0;
            mode = IN_FRAME;
        } else {
            mode = DIGIT_PENDING;
        }
    } else {
        if (held + 1 == end || *c == BINARY_START)
            return 0;
        if (mode == ESCAPED) {
            if (is_bad_escape(r, (uint8_t)*c))
                return 0;
            *c ^= 0x20;
            mode = IN_FRAME;
        } else {
            mode = *c == ESCAPE ? ESCAPED : IN_FRAME;
        }
    }
    *is_held = mode == IN_FRAME;
    *head = head_of(r->framing != 0, mode, digit, held + *is_held);
    return 1;
}

/* Ones in byte k of the sixteen from 15 - k on, and in none of those from 16 on. */
static const uint8_t single[32] = {[15] = 255};

/* A single byte in a frame, at which no verdict falls; 0: it is another. */
ALWAYS int read_one(nx584_reading *a, const nx584_reader *from, unsigned c)
{
    const uint8_t *old = (const uint8_t *)from;
    uint8_t *to = (uint8_t *)a;
    unsigned is_held;
    uint64_t head;
    if (!take_one(from, &c, &head, &is_held))
        return 0;
    size_t at = HEAD + from->held, row = at / 16 * 16;
    two begin = {head, 0};
    put_over(to, (bytes16)begin, old, first(HEAD));
    put_from(to, from, 16);
    put_over(to + row, (bytes16){0} + (uint8_t)c, to + row, single + (is_held ? 15 - (at - row) : 16));
    put_two(to + REST, 1, NX584_NONE);
    memset(to + REST + 16, 0, sizeof *a - REST - 16);
    return 1;
}

nx584_reading nx584_read(nx584_reader reader, const uint8_t *bytes, size_t bytes_len)
{
    nx584_reading a;
    if (bytes_len != 1 || !read_one(&a, &reader, bytes[0]))
        read_words(&a, &reader, bytes, bytes_len);
    return a;
}

nx584_reading nx584_step(nx584_reader reader, uint8_t byte)
{
    nx584_reading a;
    if (!read_one(&a, &reader, byte))
        read_words(&a, &reader, &byte, 1);
    return a;
}

/* ---- writer */

/* A message of 1 to 18 bytes in words, with no look beyond it. */
ALWAYS words load_message(const uint8_t *m, size_t n)
{
    words f = {{0, 0, 0}};
    if (n >= 16) {
        f.w[0] = load(m);
        f.w[1] = load(m + 8);
        f.w[2] = load(m + n - 8) >> 8 >> 8 * (23 - n);
    } else if (n >= 8) {
        f.w[0] = load(m);
        f.w[1] = load(m + n - 8) >> 8 >> 8 * (15 - n);
    } else if (n >= 4) {
        f.w[0] = load_half(m) | (uint64_t)load_half(m + n - 4) << 8 * (n - 4);
    } else {
        f.w[0] = m[0] | (uint64_t)m[n / 2] << n / 2 * 8 | (uint64_t)m[n - 1] << 8 * (n - 1);
    }
    return f;
}

/* A word stored over its first n bytes, for a message of n < 8. */
ALWAYS void store_short(uint8_t *to, uint64_t w, size_t n)
{
    if (n >= 4) {
        uint32_t low = (uint32_t)w, high = (uint32_t)(w >> 8 * (n - 4));
        memcpy(to, &low, 4);
        memcpy(to + n - 4, &high, 4);
    } else {
        to[0] = (uint8_t)w;
        to[n / 2] = (uint8_t)(w >> n / 2 * 8);
        to[n - 1] = (uint8_t)(w >> 8 * (n - 1));
    }
}

/* The message with no escape, its ends laid over each other. */
ALWAYS void store_message(uint8_t *to, const uint8_t *m, size_t n, words f)
{
    if (n < 8) {
        store_short(to, f.w[0], n);
        return;
    }
    uint64_t end = load(m + n - 8);
    memcpy(to, &f.w[0], 8);
    if (n >= 16)
        memcpy(to + 8, &f.w[1], 8);
    memcpy(to + n - 8, &end, 8);
}

static size_t stuff(uint8_t *to, const uint8_t *m, size_t n)
{
    size_t k = 0;
    for (size_t i = 0; i < n; i++) {
        if (m[i] == BINARY_START || m[i] == ESCAPE) {
            to[k++] = ESCAPE;
            to[k++] = m[i] ^ 0x20;
        } else {
            to[k++] = m[i];
        }
    }
    return k;
}

/* The length of the frame, or 0 where it does not fit. */
ALWAYS size_t write_binary(uint8_t *to, size_t room, const uint8_t *m, size_t n, words f, sums s)
{
    uint64_t ends = (uint64_t)s.one << 8 | s.two;
    if (special(f.w[0]) | special(f.w[1]) | special(f.w[2]) | special(ends)) {
        uint8_t frame[2 * (LONGEST_GOOD + 3) + 2] = {BINARY_START, (uint8_t)n};
        uint8_t last[2] = {s.one, s.two};
        size_t end = 2 + stuff(frame + 2, m, n);
        end += stuff(frame + end, last, 2);
        if (room < end)
            return 0;
        memcpy(to, frame, end);
        return end;
    }
    if (room < n + 4)
        return 0;
    to[0] = BINARY_START;
    to[1] = (uint8_t)n;
    store_message(to + 2, m, n, f);
    to[n + 2] = s.one;
    to[n + 3] = s.two;
    return n + 4;
}

ALWAYS void two_digits(uint8_t *to, uint8_t b)
{
    static const char hex[] = "0123456789ABCDEF";
    to[0] = (uint8_t)hex[b >> 4];
    to[1] = (uint8_t)hex[b & 15];
}

ALWAYS size_t write_ascii(uint8_t *to, size_t room, const uint8_t *m, size_t n, words f, sums s)
{
    size_t end = 2 * n + 8;
    if (room < end)
        return 0;
    to[0] = ASCII_START;
    two_digits(to + 1, (uint8_t)n);
    if (n >= 8) {
        to_digits(to + 3, f.w[0]);
        if (n >= 16)
            to_digits(to + 19, f.w[1]);
        to_digits(to + 2 * n - 13, load(m + n - 8));
    } else {
        for (size_t i = 0; i < n; i++)
            two_digits(to + 3 + 2 * i, m[i]);
    }
    two_digits(to + end - 5, s.one);
    two_digits(to + end - 3, s.two);
    to[end - 1] = ASCII_STOP;
    return end;
}

nx584_written nx584_write(const uint8_t *message, size_t message_len, uint8_t framing, uint8_t *out,
                          size_t out_len, size_t place)
{
    nx584_written w = {0};
    if (message_len - 1 >= NX584_LONGEST) {
        w.number = 4;
        return w;
    }
    w.number = verdict_of(message, message_len);
    if (w.number)
        return w;
    words f = load_message(message, message_len);
    words body = {{f.w[0] << 8 | message_len, f.w[0] >> 56 | f.w[1] << 8, f.w[1] >> 56 | f.w[2] << 8}};
    sums s = sums_of(body, (uint32_t)message_len + 1);
    if (place <= out_len) {
        if (framing)
            w.length = write_ascii(out + place, out_len - place, message, message_len, f, s);
        else
            w.length = write_binary(out + place, out_len - place, message, message_len, f, s);
    }
    w.number = w.length ? 0 : 9;
    return w;
}

/* ---- table, overview, host */

ALWAYS void store_zone(uint8_t *zone, const uint8_t *m)
{
    uint64_t given = load(m), c = m[6];
    uint64_t flags = (c & 1) | ((c & 0x18) != 0) << 1 | ((c & 0x66) != 0) << 2 | (m[7] & 1) << 3;
    uint64_t record = zone[0] | 3 | (given >> 16) << 8 | flags << 56;
    memcpy(zone, &record, 8);
}

ALWAYS void store_zones(uint8_t *zone, const uint8_t *m)
{
    uint64_t flags = load(m + 2);
    for (int k = 0; k < 16; k++) {
        uint64_t record = (load(zone + ZONE * k) << 8 >> 8) | 1 | (flags >> 4 * k & 15) << 56;
        memcpy(zone + ZONE * k, &record, 8);
    }
}

static void store(uint8_t *table, const uint8_t *m)
{
    uint8_t *partition = table + PARTITIONS;
    switch (m[0] & 0x3F) {
    case 0x04:
        store_zone(table + ZONE * m[1], m);
        break;
    case 0x05:
        store_zones(table + ZONE * m[1], m);
        break;
    case 0x06:
        partition += PARTITION * m[1];
        partition[0] |= 2;
        memcpy(partition + 1, m + 2, 7);
        break;
    case 0x07:
        for (int k = 0; k < 8; k++, partition += PARTITION) {
            partition[0] |= 1;
            partition[8] = m[1 + k];
        }
        break;
    case 0x08:
        table[SYSTEM] = 1;
        memcpy(table + SYSTEM + 1, m + 1, 11);
        break;
    }
}

uint8_t nx584_apply(uint8_t *table, size_t table_len, const uint8_t *message, size_t message_len)
{
    uint8_t number;
    if (table_len != NX584_TABLE_BYTES)
        return 11;
    if (message_len - 1 >= NX584_LONGEST)
        return 4;
    number = verdict_of(message, message_len);
    if (number == 0)
        store(table, message);
    return number;
}

/* Nothing heard is 0 / 0, a NaN. */
ALWAYS void put_group(nx584_group *g, uint32_t heard, uint32_t faulted)
{
    uint64_t counts = heard | faulted << 16 | (uint64_t)(heard != 0) << 32;
    memcpy(g, &counts, 8);
    g->share = (double)(int32_t)faulted / (double)(int32_t)heard;
}

/* Bit 0 of each byte of sixteen zones, of two in a vector: those of eight pairs come to stand in one. */
ALWAYS two gather(const uint8_t *zone)
{
    bytes16 bits = load_vector(zone);
    for (int k = 1; k < 8; k++)
        bits = (bits & (uint8_t)((1 << k) - 1)) | load_vector(zone + 2 * ZONE * k) << k;
    return (two)bits;
}

/* The low half: how many of sixteen zones are heard; the high half: how many of those are faulted. */
ALWAYS uint32_t count_group(const uint8_t *zone)
{
    two bits = gather(zone);
    two both = (bits & 0xFF) | (bits & bits >> 56) << 16;
    uint32_t four = (uint32_t)(both[0] | both[1] << 8);
    four -= four >> 1 & 0x55555555;
    four = (four & 0x33333333) + (four >> 2 & 0x33333333);
    four = (four + (four >> 4)) & 0x0F0F0F0F;
    return (four + (four >> 8)) & 0x00FF00FF;
}

nx584_overview nx584_view(const uint8_t *table, size_t table_len)
{
    nx584_overview v;
    uint32_t site = 0;
    v.number = table_len == NX584_TABLE_BYTES ? 0 : 11;
    for (int k = 0; k < 16; k++) {
        uint32_t counts = v.number ? 0 : count_group(table + 16 * ZONE * k);
        put_group(&v.groups[k], counts & 0xFFFF, counts >> 16);
        site += counts;
    }
    put_group(&v.site, site & 0xFFFF, site >> 16);
    return v;
}

ALWAYS void put_hearing(nx584_hearing *h, const scanned *s, uint8_t *table)
{
    _Static_assert(sizeof *h == 544 && offsetof(nx584_hearing, length) == REST + 11, "an answer's words");
    uint64_t reply = nx584_reply((uint8_t)s->verdict, (uint8_t)s->type);
    if (s->verdict == 0) {
        uint8_t frame[WORDS];
        memcpy(frame, s->body.w, WORDS);
        store(table, frame + 1);
    }
    put_rest((uint8_t *)&h->used, s, s->verdict | s->type << 8 | reply << 16, 24);
}

nx584_hearing nx584_hear(nx584_reader reader, uint8_t *table, size_t table_len, const uint8_t *bytes,
                         size_t bytes_len)
{
    nx584_hearing h;
    scanned whole, other;
    size_t from;
    if (table_len != NX584_TABLE_BYTES) {
        scanned refused = {.verdict = 11};
        h.reader = reader;
        put_hearing(&h, &refused, table);
    } else if (scan_whole(&whole, &reader, bytes, bytes_len, &from)) {
        put_reader((uint8_t *)&h, &reader, &whole);
        put_hearing(&h, &whole, table);
    } else {
        h.reader = reader;
        scan_bytes(&other, &h.reader, bytes, bytes_len, from);
        put_hearing(&h, &other, table);
    }
    return h;
}

/* ---- the line of commands (document 02, No. 1): a slot is a vector of sixteen bytes */

_Static_assert(sizeof(nx584_slot) == 16 && sizeof(nx584_sending) == 16, "a slot's words");

/* The length of each of the 14, 0 for all others: so a number is looked up once. */
static const uint8_t commands[128] = {
    [0x29] = 4, [0x2B] = 12, [0x2C] = 3, [0x31] = 13, [0x34] = 8, [0x35] = 5, [0x36] = 7,
    [0x37] = 4, [0x3A] = 6,  [0x3B] = 7, [0x3C] = 6,  [0x3D] = 4, [0x3E] = 3, [0x3F] = 2,
};

/* Those of them with a checked value, a bit for each number. */
#define BIT(number) (1ull << (number))
static const uint64_t with_values =
    BIT(0x29) | BIT(0x2B) | BIT(0x31) | BIT(0x3B) | BIT(0x3C) | BIT(0x3D) | BIT(0x3E);

/* How many wait, or -1 where the slots are not sound. */
ALWAYS int waiting(const nx584_slot *slots, size_t slots_len)
{
    int count = 0;
    uint64_t behind = 0;
    if (slots_len != NX584_SLOTS)
        return -1;
    for (; count < NX584_SLOTS && slots[count].length != 0; count++) {
        const uint8_t *m = slots[count].message;
        if (commands[m[0] & 0x7F] != slots[count].length)
            return -1;
        if ((with_values & BIT(m[0] & 0x3F)) && !values_are_good(m))
            return -1;
    }
    for (int k = 1; k < NX584_SLOTS; k++) /* a length counts only behind the used ones */
        behind |= load((const uint8_t *)&slots[k]) & (k < count ? 0xFFFF00 : 0xFFFFFF);
    if (count == 0)
        behind |= load((const uint8_t *)slots) & 0xFFFF00;
    else if (slots[0].sent - 1u >= 4 || slots[0].ticks > 5)
        return -1;
    return behind ? -1 : count;
}

/* The message of n bytes that stands behind three others, as in a slot and in an answer: its flag set,
 * zero beyond it. */
ALWAYS two flagged(two slot, size_t n)
{
    bytes16 v = (bytes16)slot & load_vector(first(n + 3));
    v[3] |= 0x80;
    return (two)v;
}

ALWAYS two load_slot(const nx584_slot *s)
{
    two v;
    memcpy(&v, s, 16);
    return v;
}

/* A slot and an answer have their message at the same place. */
ALWAYS nx584_sending sending(two slot, unsigned ended, unsigned length)
{
    nx584_sending a;
    slot = flagged(slot, length);
    slot[0] = (slot[0] & ~(uint64_t)0xFFFFFF) | ended << 8 | length << 16;
    memcpy(&a, &slot, 16);
    return a;
}

ALWAYS nx584_sending says(unsigned number, unsigned ended)
{
    nx584_sending a;
    two words = {number | ended << 8, 0};
    memcpy(&a, &words, 16);
    return a;
}

/* The slot goes to the front, sent once more, its ticks 0. */
ALWAYS nx584_sending send_front(nx584_slot *front, two slot, unsigned ended)
{
    unsigned length = slot[0] & 0xFF;
    slot[0] = (slot[0] & ~(uint64_t)0xFF0000) + 0x100;
    memcpy(front, &slot, 16);
    return sending(slot, ended, length);
}

static nx584_sending end_front(nx584_slot *slots, int count, unsigned ended)
{
    two none = {0, 0}, next = load_slot(&slots[1]);
    for (int k = 2; k < count; k++)
        memcpy(&slots[k - 1], &slots[k], 16);
    memcpy(&slots[count - 1], &none, 16);
    return count > 1 ? send_front(slots, next, ended) : says(0, ended);
}

ALWAYS nx584_sending repeat_front(nx584_slot *slots, int count)
{
    return slots->sent < 4 ? send_front(slots, load_slot(slots), 0) : end_front(slots, count, NX584_GIVEN_UP);
}

ALWAYS unsigned refusal_of(const uint8_t *message, size_t message_len)
{
    return message_len - 1 >= NX584_LONGEST ? 4 : verdict_of(message, message_len);
}

nx584_sending nx584_take(nx584_slot *slots, size_t slots_len, const uint8_t *message, size_t message_len)
{
    int count = waiting(slots, slots_len);
    if (count < 0)
        return says(22, 0);
    unsigned number = refusal_of(message, message_len);
    if (number == 0 && commands[message[0] & 0x7F] == 0)
        number = 13;
    else if (number == 0 && count == NX584_SLOTS)
        number = 14;
    if (number != 0)
        return says(number, 0);
    words m = load_message(message, message_len);
    two slot = {message_len | m.w[0] << 24, m.w[0] >> 40 | m.w[1] << 24};
    slot = flagged(slot, message_len);
    slot[0] |= (uint64_t)(count == 0) << 8; /* the front is sent at once */
    memcpy(&slots[count], &slot, 16);
    return count ? says(0, 0) : sending(slot, 0, (unsigned)message_len);
}

nx584_sending nx584_tick(nx584_slot *slots, size_t slots_len)
{
    int count = waiting(slots, slots_len);
    if (count <= 0)
        return says(count ? 22 : 0, 0);
    if (slots->ticks == 5)
        return repeat_front(slots, count);
    slots->ticks++;
    return says(0, 0);
}

nx584_sending nx584_told(nx584_slot *slots, size_t slots_len, const uint8_t *message, size_t message_len)
{
    int count = waiting(slots, slots_len);
    unsigned refusal = count < 0 ? 22 : refusal_of(message, message_len);
    if (refusal != 0 || count == 0)
        return says(refusal, 0);
    unsigned number = message[0] & 0x3F;
    if (number == 0x1E)
        return repeat_front(slots, count);
    if (number - 0x1C < 4 || (number == 0x12 && (slots->message[0] & 0x3E) == 0x34))
        return end_front(slots, count, number);
    return says(0, 0);
}

/* ---- the station log (document 02, No. 6): good records one after another, and nothing else. A walk goes back from
 * trailer to trailer and waits for each of them, so a long log is walked in four parts at once. */

/* The subjects of records: of an 04h its zone, of an 05h its first zone, of an 06h its partition. All records of 07h
 * are about one thing, and all of 08h, but each second byte has a subject there too while a log is walked, so that the
 * numbers need not be told apart. */
enum { ZONES_AT = 256, PARTITIONS_AT = 512, ALL_AT = 520, SYSTEM_AT = ALL_AT + 256, SUBJECTS = SYSTEM_AT + 256 };

/* Of a type byte whose number is kept: the record's first two bytes as a number, the second at its most, with the
 * record's length added; where its subjects begin; that length; how many zones it is about, the second byte's first.
 * All others have 0. */
static const struct kept {
    _Alignas(8) uint16_t most;
    uint16_t subjects;
    uint8_t length, zones;
} kept[256] = {
#define KEPT(type, length, second, zones, subjects) \
    [type] = {(second) << 8 | ((type) + (length)), subjects, length, zones}
#define BOTH(number, ...) KEPT(number, __VA_ARGS__), KEPT((number) | 0x80, __VA_ARGS__)
    BOTH(0x04, 9, 255, 1, 0),
    BOTH(0x05, 11, 240, 16, ZONES_AT),
    BOTH(0x06, 10, 7, 0, PARTITIONS_AT),
    BOTH(0x07, 10, 255, 0, ALL_AT),
    BOTH(0x08, 13, 255, 0, SYSTEM_AT),
};

enum { PARTS = 4, RECORD_LEAST = 9, RECORD_MOST = 13, FARTHEST = 256 }; /* no trailer leads back farther */
enum { NO_ZONE = -1 };

/* What a walk looks for in a log: the newest record about a zone, or the newest of each subject, by the place of its
 * trailer, which is never 0. NO_ZONE and NULL: neither. */
typedef struct {
    const uint8_t *log;
    int zone;
    uint16_t *newest;
} wanted;

/* What is left of a part of a log, and the newest record about the zone in what was walked of it. */
typedef struct {
    const uint8_t *begin, *end, *found;
} part;

ALWAYS uint32_t load_pair(const uint8_t *p)
{
    uint16_t pair;
    memcpy(&pair, p, 2);
    return pair;
}

/* A step's answer has none of these bits where the record is good, and one of them where it is not. */
static const uint32_t NOT_GOOD = 0x800000FF;

/* Back over the last record of a part, which begins within the log. What its type byte asks for less what it has: of a
 * good one that leaves how far its second byte is below the most, in bits 8 to 15. */
ALWAYS uint32_t step(part *p, const wanted *w)
{
    uint32_t length = p->end[-1] + 1u, place = (uint32_t)(p->end - (w->log + 1));
    const uint8_t *record = p->end - length;
    uint32_t pair = load_pair(record), second = pair >> 8;
    const struct kept *k = &kept[pair & 0xFF];
    if (w->newest) {
        uint16_t *newest = w->newest + k->subjects + second;
        *newest = (uint16_t)(*newest > place ? *newest : place);
    }
    if (w->zone != NO_ZONE && !p->found && (uint32_t)w->zone - second < k->zones)
        p->found = record;
    p->end = record;
    return k->most - pair - length;
}

/* Whether a part is good records and nothing else. */
ALWAYS int walk_part(part *p, const wanted *w)
{
    while (p->begin < p->end)
        if (p->end[-1] >= p->end - p->begin || (step(p, w) & NOT_GOOD))
            return 0;
    return 1;
}

/* How many steps every part has left, as long as they are over good records; a last one over any other record stays
 * within the log too. */
ALWAYS size_t steps_left(const part *parts)
{
    size_t least = (size_t)(parts[0].end - parts[0].begin);
    least = least > FARTHEST ? least - FARTHEST : 0;
    for (int k = 1; k < PARTS; k++) {
        size_t left = (size_t)(parts[k].end - parts[k].begin);
        least = left < least ? left : least;
    }
    return least / RECORD_MOST;
}

ALWAYS int walk_parts(part *parts, const wanted *w)
{
    for (size_t steps; (steps = steps_left(parts)) != 0;)
        for (; steps != 0; steps--) {
            uint32_t any = 0;
            for (int k = 0; k < PARTS; k++)
                any |= step(&parts[k], w);
            if (any & NOT_GOOD)
                return 0;
        }
    for (int k = 0; k < PARTS; k++)
        if (!walk_part(&parts[k], w))
            return 0;
    return 1;
}

/* Whether four good records stand before a place: where a record ends they do, and elsewhere hardly ever. */
ALWAYS int seems_end(const uint8_t *log, const uint8_t *end)
{
    const wanted nothing = {log, NO_ZONE, NULL};
    part p = {log, end, NULL};
    for (int k = 0; k < 4; k++)
        if (p.end - log < FARTHEST || (step(&p, &nothing) & NOT_GOOD))
            return 0;
    return 1;
}

/* Parts that seem to end where records do. The first is longer than the others by the bytes that it walks alone. 0: the
 * log is short, or no record seems to end where a part should. */
static int divide(part *parts, const uint8_t *log, size_t used)
{
    const uint8_t *begin = log, *end = log + used;
    if (used < PARTS * FARTHEST)
        return 0;
    for (size_t k = 1; k < PARTS; k++) {
        const uint8_t *stop = end - (used - FARTHEST) / PARTS * (PARTS - k), *beyond = stop + RECORD_MOST;
        while (stop < beyond && !seems_end(log, stop))
            stop++;
        if (stop == beyond)
            return 0;
        parts[k - 1] = (part){begin, stop, NULL};
        begin = stop;
    }
    parts[PARTS - 1] = (part){begin, end, NULL};
    return 1;
}

/* Whether a log is sound; found is its newest record about the zone, or NULL. Where a part ends within a record, the
 * parts say nothing of the whole. A step looks at two bytes of a record, which the last one has if it is long enough. */
ALWAYS int walk_log(size_t used, const wanted *w, const uint8_t **found)
{
    *found = NULL;
    if (used == 0)
        return 1;
    if (w->log[used - 1] + 1 < RECORD_LEAST)
        return 0;
    part parts[PARTS], whole = {w->log, w->log + used, NULL};
    if (divide(parts, w->log, used)) {
        if (walk_parts(parts, w)) {
            for (int k = 0; k < PARTS; k++)
                *found = parts[k].found ? parts[k].found : *found;
            return 1;
        }
        if (w->newest)
            memset(w->newest, 0, SUBJECTS * sizeof *w->newest);
    }
    int is_good = walk_part(&whole, w);
    *found = whole.found;
    return is_good;
}

/* How many bytes of a buffer a log may use. */
ALWAYS size_t log_most(size_t log_len)
{
    return log_len < NX584_LOG_MOST ? log_len : NX584_LOG_MOST;
}

/* Eight to sixteen bytes. */
ALWAYS void put_bytes(uint8_t *to, const uint8_t *from, size_t n)
{
    uint64_t head = load(from), tail = load(from + n - 8);
    memcpy(to, &head, 8);
    memcpy(to + n - 8, &tail, 8);
}

nx584_written nx584_keep(uint8_t *log, size_t log_len, size_t used, const uint8_t *message,
                         size_t message_len)
{
    const wanted nothing = {log, NO_ZONE, NULL};
    nx584_written w = {0};
    const uint8_t *found;
    if (used > log_most(log_len))
        w.number = 16;
    else if (!walk_log(used, &nothing, &found))
        w.number = 17;
    else
        w.number = refusal_of(message, message_len);
    if (w.number == 0 && kept[message[0]].length == 0)
        w.number = 18;
    if (w.number == 0 && message_len >= log_most(log_len) - used)
        w.number = 9;
    if (w.number != 0)
        return w;
    put_bytes(log + used, message, message_len);
    log[used + message_len] = (uint8_t)message_len;
    w.length = message_len + 1;
    return w;
}

nx584_found nx584_newest(const uint8_t *log, size_t log_len, size_t used, uint8_t zone)
{
    const wanted about = {log, zone, NULL};
    nx584_found f = {0};
    const uint8_t *record = NULL;
    if (used > log_most(log_len)) {
        f.number = 16;
    } else if (!walk_log(used, &about, &record)) {
        f.number = 17;
    } else if (record) {
        f.at = (size_t)(record - log);
        f.length = kept[record[0]].length;
    }
    return f;
}

/* ---- making room (document 02, No. 7): of a subject no record stays but the newest, and that one does unless it is an
 * 05h and the newest about none of its zones. So a walk in any order finds all that may stay. What has arrays of its
 * own is not put into the call, whose stack would be above NX584_STACK_MOST. */

/* When all records of 07h have one subject, and all of 08h, what was theirs takes the places of all that stays. */
enum { ALL_SUBJECT = ALL_AT, SYSTEM_SUBJECT, SUBJECTS_LEFT, STAY_MOST = 256 + 241 + 8 + 1 + 1 };
_Static_assert(SUBJECTS - SUBJECTS_LEFT >= STAY_MOST, "places behind the subjects");

ALWAYS void bring_together(uint16_t *newest)
{
    uint16_t all = 0, system = 0;
    for (int k = 0; k < 256; k++) {
        all = newest[ALL_AT + k] > all ? newest[ALL_AT + k] : all;
        system = newest[SYSTEM_AT + k] > system ? newest[SYSTEM_AT + k] : system;
    }
    newest[ALL_SUBJECT] = all;
    newest[SYSTEM_SUBJECT] = system;
}

ALWAYS pairs load_pairs(const uint16_t *p)
{
    pairs v;
    memcpy(&v, p, 16);
    return v;
}

/* Each becomes the largest or the smallest of the sixteen that begin with it: of two, of four, of eight, of sixteen. */
ALWAYS void of_sixteen(uint16_t *v, int count, int largest)
{
    for (int by = 1; by < 16; by *= 2)
        for (int k = 0; k < count; k += 8) {
            pairs a = load_pairs(v + k), b = load_pairs(v + k + by);
            pairs is_a = largest ? (pairs)(a > b) : (pairs)(a < b);
            a = (a & is_a) | (b & ~is_a);
            memcpy(v + k, &a, 16);
        }
}

/* The newest record about a zone is its 04h, or the newest 05h whose first zone is this one or up to fifteen before it.
 * Of those about an 05h's sixteen zones the oldest is that 05h itself, or it goes. */
static __attribute__((noinline)) void drop_covered(uint16_t *newest)
{
    uint16_t about[256 + 32] = {0}, *zones = newest + ZONES_AT;
    memcpy(about + 15, zones, 256 * sizeof *zones);
    of_sixteen(about, 256 + 16, 1);
    for (int k = 0; k < 256; k++)
        about[k] = about[k] > newest[k] ? about[k] : newest[k];
    of_sixteen(about, 256, 0);
    for (int k = 0; k < 256; k++)
        zones[k] = about[k] == zones[k] ? zones[k] : 0;
}

ALWAYS size_t bytes_of(const uint16_t *newest, int count, uint8_t number)
{
    uint16_t records = 0;
    for (int k = 0; k < count; k++)
        records += newest[k] != 0;
    return (size_t)records * kept[number].length;
}

ALWAYS size_t bytes_left(const uint16_t *newest)
{
    return bytes_of(newest, 256, 0x04) + bytes_of(newest + ZONES_AT, 256, 0x05) +
           bytes_of(newest + PARTITIONS_AT, 8, 0x06) + bytes_of(newest + ALL_SUBJECT, 1, 0x07) +
           bytes_of(newest + SYSTEM_SUBJECT, 1, 0x08);
}

enum { WORD = 64, LOG_WORDS = NX584_LOG_MOST / 8 / WORD }; /* a bit for each eight bytes */

ALWAYS uint64_t bit_of(uint16_t place)
{
    return 1ull << place / 8 % WORD;
}

/* The places of the trailers that stay, in their order, and how many they are. No two trailers stand in the same eight
 * bytes, so that a trailer has as many before it as its bit has. */
static __attribute__((noinline)) size_t put_in_order(uint16_t *places, const uint16_t *newest)
{
    uint64_t bits[LOG_WORDS] = {0};
    uint16_t before[LOG_WORDS];
    size_t count = 0;
    for (int k = 0; k < SUBJECTS_LEFT; k++)
        if (newest[k])
            bits[newest[k] / 8 / WORD] |= bit_of(newest[k]);
    for (int k = 0; k < LOG_WORDS; k++) {
        before[k] = (uint16_t)count;
        count += (size_t)__builtin_popcountll(bits[k]);
    }
    for (int k = 0; k < SUBJECTS_LEFT; k++)
        if (newest[k]) {
            unsigned word = newest[k] / 8 / WORD;
            places[before[word] + __builtin_popcountll(bits[word] & (bit_of(newest[k]) - 1))] = newest[k];
        }
    return count;
}

/* The records with these trailers to the beginning; the log's last is one of them. For all others sixteen bytes are
 * moved: up to the first record that goes they stand there already, and behind it those too many come before all that
 * is still to be moved, and the next record over them. */
static void move_up(uint8_t *log, const uint16_t *places, size_t count)
{
    const uint16_t *last = places + count - 1;
    uint8_t *to = log;
    for (; places < last; places++) {
        size_t n = log[*places];
        bytes16 record = load_vector(log + *places - n);
        memcpy(to, &record, 16);
        to += n + 1;
    }
    put_bytes(to, log + *last - log[*last], log[*last] + 1u);
}

nx584_written nx584_make_room(uint8_t *log, size_t log_len, size_t used)
{
    nx584_written w = {0};
    uint16_t newest[SUBJECTS] = {0}, *places = newest + SUBJECTS_LEFT;
    const wanted all = {log, NO_ZONE, newest};
    const uint8_t *found;
    if (used > log_most(log_len)) {
        w.number = 16;
    } else if (!walk_log(used, &all, &found)) {
        w.number = 17;
    } else {
        bring_together(newest);
        drop_covered(newest);
        w.length = used - bytes_left(newest);
        if (w.length != 0)
            move_up(log, places, put_in_order(places, newest));
    }
    return w;
}

/* ---- zone maps as float grids (document 02, No. 8): four zones at a time, their marks in one vector and their short
 * flags in another, with no branch on what was heard. */

typedef int32_t signed_quads __attribute__((vector_size(16)));
typedef float floats __attribute__((vector_size(16)));

/* Lanes of two vectors: 0 to 3 are those of the first. */
#ifdef __clang__
#define PICK(v, w, ...) __builtin_shufflevector(v, w, __VA_ARGS__)
#else
#define PICK(v, w, ...) __builtin_shuffle(v, w, (quads){__VA_ARGS__})
#endif

enum { MAP = 16, ROW = MAP * ZONE };                                /* zones in a row of the map, and their bytes */
static const uint32_t NOTHING_HEARD = 0xC61C3C00, ONE = 0x3F800000; /* as cells: minus 9999, and 1 */

/* Of each width that there is; all others have length 0. */
static const struct {
    uint8_t text[NX584_GRID_HEADER_MOST + 1];
    size_t length;
} headers[MAP + 1] = {
#define TEXT(width, size) \
    "ncols " #width "\nnrows " #width "\nxllcorner 0\nyllcorner 0\n" \
    "cellsize " #size "\nNODATA_value -9999\nbyteorder LSBFIRST\n"
#define HEADER(width, size) [width] = {TEXT(width, size), sizeof TEXT(width, size) - 1}
    HEADER(16, 1), HEADER(8, 2), HEADER(4, 4), HEADER(2, 8), HEADER(1, 16),
};

/* In whole vectors, the last one up to the end: 89 bytes is the least. */
ALWAYS void put_header(uint8_t *to, const uint8_t *text, size_t length)
{
    memcpy(to, text, 80);
    memcpy(to + length - 16, text + length - 16, 16);
}

/* Of four zones: the low halves of their words, with the marks lowest, and the high ones, with the short flags
 * highest. */
ALWAYS quads low_halves(const uint8_t *zone)
{
    return PICK((quads)load_vector(zone), (quads)load_vector(zone + 2 * ZONE), 0, 2, 4, 6);
}

ALWAYS quads high_halves(const uint8_t *zone)
{
    return PICK((quads)load_vector(zone), (quads)load_vector(zone + 2 * ZONE), 1, 3, 5, 7);
}

/* Of the level 16 cells wide, whose shares are 0 and 1. */
ALWAYS void put_four_zones(uint8_t *cells, const uint8_t *zone)
{
    quads is_unheard = (quads)((low_halves(zone) & 1) == 0);
    quads is_faulted = (quads)((signed_quads)(high_halves(zone) << 7) >> 31);
    quads cell = (is_unheard & NOTHING_HEARD) | (~is_unheard & is_faulted & ONE);
    memcpy(cells, &cell, 16);
}

ALWAYS void put_zones(uint8_t *cells, const uint8_t *zone)
{
    for (int row = 0; row < MAP; row++, zone += ROW, cells += 4 * MAP)
        for (int column = 0; column < MAP; column += 4)
            put_four_zones(cells + 4 * column, zone + ZONE * column);
}

/* Of each column of some rows of the map a byte, that of column 4k + j in lane j at place k: how many of its zones are
 * heard, and how many of those are faulted. */
typedef struct {
    quads heard, faulted;
} columns;

ALWAYS columns count_row(const uint8_t *zone)
{
    quads heard = {0}, faulted = {0};
    for (int k = 0; k < 4; k++, zone += 4 * ZONE) {
        heard |= (low_halves(zone) & 1) << 8 * k;
        faulted |= (high_halves(zone) & 1 << 24) >> (24 - 8 * k);
    }
    return (columns){heard, heard & faulted};
}

ALWAYS columns count_rows(const uint8_t *zone, int rows)
{
    columns sum = count_row(zone);
    for (int k = 1; k < rows; k++) {
        columns row = count_row(zone + ROW * k);
        sum.heard += row.heard;
        sum.faulted += row.faulted;
    }
    return sum;
}

/* Lanes 0 and 1 added up stand in both of them, and lanes 2 and 3 too; or all four in each. Of eight rows a byte comes
 * to 32 at most. */
ALWAYS quads add_pairs(quads v)
{
    return v + PICK(v, v, 1, 0, 3, 2);
}

ALWAYS quads add_lanes(quads v)
{
    v = add_pairs(v);
    return v + PICK(v, v, 2, 3, 0, 1);
}

/* Of the counts of eight blocks side by side four, from the left or, two bytes on, from the right. */
ALWAYS quads four_of_eight(quads v, int bits)
{
    v = add_pairs(v) >> bits;
    return PICK(v & 0xFF, v >> 8 & 0xFF, 0, 2, 4, 6);
}

/* The counts of four blocks side by side. */
ALWAYS quads all_four(quads v)
{
    const quads a = {0xFF, 0, 0, 0}, b = {0, 0xFF, 0, 0}, c = {0, 0, 0xFF, 0}, d = {0, 0, 0, 0xFF};
    v = add_lanes(v);
    return (v & a) | (v >> 8 & b) | (v >> 16 & c) | (v >> 24 & d);
}

/* The counts of the quarters of the map. */
ALWAYS quads quarters(quads upper, quads lower)
{
    const quads left = {0xFFFF, 0, 0xFFFF, 0}, right = {0, 0xFFFF, 0, 0xFFFF};
    quads v = PICK(add_lanes(upper), add_lanes(lower), 0, 1, 4, 5);
    v = (v & 0x00FF00FF) + (v >> 8 & 0x00FF00FF);
    return (v & left) | (v >> 16 & right);
}

/* Where nothing is heard the share is 0 / 0, and is not taken. */
ALWAYS quads cells_of(quads heard, quads faulted)
{
    floats share = __builtin_convertvector((signed_quads)faulted, floats) /
                   __builtin_convertvector((signed_quads)heard, floats);
    quads is_unheard = (quads)(heard == 0);
    return (is_unheard & NOTHING_HEARD) | (~is_unheard & (quads)share);
}

ALWAYS void put_eight_wide(uint8_t *cells, const uint8_t *zone)
{
    for (int row = 0; row < 8; row++, zone += 2 * ROW, cells += 4 * 8) {
        columns sum = count_rows(zone, 2);
        quads left = cells_of(four_of_eight(sum.heard, 0), four_of_eight(sum.faulted, 0));
        quads right = cells_of(four_of_eight(sum.heard, 16), four_of_eight(sum.faulted, 16));
        memcpy(cells, &left, 16);
        memcpy(cells + 16, &right, 16);
    }
}

ALWAYS void put_four_wide(uint8_t *cells, const uint8_t *zone)
{
    for (int row = 0; row < 4; row++, zone += 4 * ROW, cells += 4 * 4) {
        columns sum = count_rows(zone, 4);
        quads cell = cells_of(all_four(sum.heard), all_four(sum.faulted));
        memcpy(cells, &cell, 16);
    }
}

/* The level 2 cells wide, or that of one cell. */
ALWAYS void put_few(uint8_t *cells, const uint8_t *zone, uint8_t width)
{
    columns upper = count_rows(zone, 8), lower = count_rows(zone + 8 * ROW, 8);
    quads heard = quarters(upper.heard, lower.heard), faulted = quarters(upper.faulted, lower.faulted);
    if (width == 2) {
        quads cell = cells_of(heard, faulted);
        memcpy(cells, &cell, 16);
    } else {
        quads cell = cells_of(add_lanes(heard), add_lanes(faulted));
        memcpy(cells, &cell, 4);
    }
}

nx584_gridded nx584_grid(const uint8_t *table, size_t table_len, uint8_t width, uint8_t *header,
                         size_t header_len, uint8_t *cells, size_t cells_len)
{
    nx584_gridded g = {0};
    size_t length = width <= MAP ? headers[width].length : 0, bytes = 4u * width * width;
    if (table_len != NX584_TABLE_BYTES) {
        g.number = 11;
    } else if (length == 0) {
        g.number = 8;
    } else if (header_len < length || cells_len < bytes) {
        g.number = 9;
    } else {
        put_header(header, headers[width].text, length);
        switch (width) {
        case 16: put_zones(cells, table); break;
        case 8: put_eight_wide(cells, table); break;
        case 4: put_four_wide(cells, table); break;
        default: put_few(cells, table, width);
        }
        g.header = length;
        g.cells = bytes;
    }
    return g;
}
