/* What bench.c measures. Only numbers and pointers cross here. */
#ifndef LOOPS_H
#define LOOPS_H

#include "nx584.h"

/* Messages one after the other, each after its length byte. */
typedef struct {
    const uint8_t *bytes;
    size_t count;
} messages;

/* Each loop gives a number made from every answer, by which runs are compared. A read is handed at most
 * `piece` bytes, and what it leaves unused before any more; its reader has the rule `escapes`, all others are
 * strict. */
uint64_t loop_read(uint8_t framing, uint8_t escapes, const uint8_t *bytes, size_t length, size_t piece);
uint64_t loop_step(uint8_t framing, const uint8_t *bytes, size_t length);
uint64_t loop_write(uint8_t framing, const messages *list);
uint64_t loop_apply(uint8_t *table, const messages *list);
uint64_t loop_view(uint8_t *table, size_t times);
uint64_t loop_hear(uint8_t framing, uint8_t *table, const uint8_t *bytes, size_t length);

/* Slots with eight commands that wait are handed in, and are put back to them where a call leaves fewer:
 * a take is of the eighth, a tick and a message meet all eight. */
uint64_t loop_take(nx584_slot *slots, const messages *list);
uint64_t loop_tick(nx584_slot *slots, size_t times);
uint64_t loop_told(nx584_slot *slots, const messages *list);

/* A log: its buffer, how much of it is used, and the same bytes again. */
typedef struct {
    uint8_t *bytes;
    size_t length, used;
    const uint8_t *again;
} station_log;

/* A message is kept in each log, and over it the next time, since `used` stays; each is asked for the zone. */
uint64_t loop_keep(const station_log *logs, const messages *list);
uint64_t loop_newest(const station_log *logs, size_t count, uint8_t zone);

/* Room is made in each log. Where some was won, the bytes that were written are put back, and that counts too:
 * they are the records that stay, at most a twelfth of a full log. */
uint64_t loop_make_room(const station_log *logs, size_t count);

/* Of each of the tables, one after another, the levels from one width down to the other. */
uint64_t loop_grid(const uint8_t *tables, size_t count, uint8_t widest, uint8_t narrowest);
size_t reader_bytes(void);

#endif
