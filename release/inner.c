/* crossing.h says what for. Here nx584.h names the module's functions. */
#include "crossing.h"

uint64_t nx584_cross_version(void)
{
    return nx584_version();
}

void nx584_cross_fresh(nx584_reader *answer, uint64_t framing)
{
    *answer = nx584_fresh((uint8_t)framing);
}

void nx584_cross_fresh_lenient(nx584_reader *answer, uint64_t framing)
{
    *answer = nx584_fresh_lenient((uint8_t)framing);
}

void nx584_cross_step(nx584_reading *answer, const nx584_reader *reader, uint64_t byte)
{
    *answer = nx584_step(*reader, (uint8_t)byte);
}

void nx584_cross_read(nx584_reading *answer, const nx584_reader *reader, const uint8_t *bytes, uint64_t bytes_len)
{
    *answer = nx584_read(*reader, bytes, bytes_len);
}

void nx584_cross_write(nx584_written *answer, const uint8_t *message, uint64_t message_len, uint64_t framing, uint8_t *out, uint64_t out_len,
                       uint64_t place)
{
    *answer = nx584_write(message, message_len, (uint8_t)framing, out, out_len, place);
}

uint64_t nx584_cross_reply(uint64_t verdict, uint64_t type)
{
    return nx584_reply((uint8_t)verdict, (uint8_t)type);
}

uint64_t nx584_cross_apply(uint8_t *table, uint64_t table_len, const uint8_t *message, uint64_t message_len)
{
    return nx584_apply(table, table_len, message, message_len);
}

void nx584_cross_view(nx584_overview *answer, const uint8_t *table, uint64_t table_len)
{
    *answer = nx584_view(table, table_len);
}

void nx584_cross_zone(nx584_zone_record *answer, const uint8_t *table, uint64_t table_len, uint64_t zone)
{
    *answer = nx584_zone(table, table_len, (uint8_t)zone);
}

void nx584_cross_partition(nx584_partition_record *answer, const uint8_t *table, uint64_t table_len, uint64_t partition)
{
    *answer = nx584_partition(table, table_len, (uint8_t)partition);
}

void nx584_cross_system(nx584_system_record *answer, const uint8_t *table, uint64_t table_len)
{
    *answer = nx584_system(table, table_len);
}

void nx584_cross_hear(nx584_hearing *answer, const nx584_reader *reader, uint8_t *table, uint64_t table_len, const uint8_t *bytes, uint64_t bytes_len)
{
    *answer = nx584_hear(*reader, table, table_len, bytes, bytes_len);
}

void nx584_cross_take(nx584_sending *answer, nx584_slot *slots, uint64_t slots_len, const uint8_t *message, uint64_t message_len)
{
    *answer = nx584_take(slots, slots_len, message, message_len);
}

void nx584_cross_tick(nx584_sending *answer, nx584_slot *slots, uint64_t slots_len)
{
    *answer = nx584_tick(slots, slots_len);
}

void nx584_cross_told(nx584_sending *answer, nx584_slot *slots, uint64_t slots_len, const uint8_t *message, uint64_t message_len)
{
    *answer = nx584_told(slots, slots_len, message, message_len);
}

void nx584_cross_keep(nx584_written *answer, uint8_t *log, uint64_t log_len, uint64_t used, const uint8_t *message, uint64_t message_len)
{
    *answer = nx584_keep(log, log_len, used, message, message_len);
}

void nx584_cross_newest(nx584_found *answer, const uint8_t *log, uint64_t log_len, uint64_t used, uint64_t zone)
{
    *answer = nx584_newest(log, log_len, used, (uint8_t)zone);
}

void nx584_cross_make_room(nx584_written *answer, uint8_t *log, uint64_t log_len, uint64_t used)
{
    *answer = nx584_make_room(log, log_len, used);
}

void nx584_cross_grid(nx584_gridded *answer, const uint8_t *table, uint64_t table_len, uint64_t width, uint8_t *header, uint64_t header_len, uint8_t *cells,
                      uint64_t cells_len)
{
    *answer = nx584_grid(table, table_len, (uint8_t)width, header, header_len, cells, cells_len);
}
