/* The library for a machine that is not x86-64 is the very module that the kit compiles into the x86-64 archive, compiled by another back end. Its
 * functions take and give structs as x86-64 does, also there. Two halves stand between them and the callers of nx584.h: inner.c, which becomes a module for
 * x86-64 as theirs is and is compiled with it, and outer.c, which is compiled for the machine. Between the halves go pointers and numbers of 64 bits alone,
 * which both pass alike. */
#ifndef NX584_CROSSING_H
#define NX584_CROSSING_H

#include "nx584.h"

uint64_t nx584_cross_version(void);
void nx584_cross_fresh(nx584_reader *answer, uint64_t framing);
void nx584_cross_fresh_lenient(nx584_reader *answer, uint64_t framing);
void nx584_cross_step(nx584_reading *answer, const nx584_reader *reader, uint64_t byte);
void nx584_cross_read(nx584_reading *answer, const nx584_reader *reader, const uint8_t *bytes, uint64_t bytes_len);
void nx584_cross_write(nx584_written *answer, const uint8_t *message, uint64_t message_len, uint64_t framing, uint8_t *out, uint64_t out_len,
                       uint64_t place);
uint64_t nx584_cross_reply(uint64_t verdict, uint64_t type);
uint64_t nx584_cross_apply(uint8_t *table, uint64_t table_len, const uint8_t *message, uint64_t message_len);
void nx584_cross_view(nx584_overview *answer, const uint8_t *table, uint64_t table_len);
void nx584_cross_zone(nx584_zone_record *answer, const uint8_t *table, uint64_t table_len, uint64_t zone);
void nx584_cross_partition(nx584_partition_record *answer, const uint8_t *table, uint64_t table_len, uint64_t partition);
void nx584_cross_system(nx584_system_record *answer, const uint8_t *table, uint64_t table_len);
void nx584_cross_hear(nx584_hearing *answer, const nx584_reader *reader, uint8_t *table, uint64_t table_len, const uint8_t *bytes, uint64_t bytes_len);
void nx584_cross_take(nx584_sending *answer, nx584_slot *slots, uint64_t slots_len, const uint8_t *message, uint64_t message_len);
void nx584_cross_tick(nx584_sending *answer, nx584_slot *slots, uint64_t slots_len);
void nx584_cross_told(nx584_sending *answer, nx584_slot *slots, uint64_t slots_len, const uint8_t *message, uint64_t message_len);
void nx584_cross_keep(nx584_written *answer, uint8_t *log, uint64_t log_len, uint64_t used, const uint8_t *message, uint64_t message_len);
void nx584_cross_newest(nx584_found *answer, const uint8_t *log, uint64_t log_len, uint64_t used, uint64_t zone);
void nx584_cross_make_room(nx584_written *answer, uint8_t *log, uint64_t log_len, uint64_t used);
void nx584_cross_grid(nx584_gridded *answer, const uint8_t *table, uint64_t table_len, uint64_t width, uint8_t *header, uint64_t header_len, uint8_t *cells,
                      uint64_t cells_len);

#endif
