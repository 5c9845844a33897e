/* crossing.h says what for. Here nx584.h names the library's functions, as its users call them. */
#include "crossing.h"

uint32_t nx584_version(void)
{
    return (uint32_t)nx584_cross_version();
}

nx584_reader nx584_fresh(uint8_t framing)
{
    nx584_reader answer;
    nx584_cross_fresh(&answer, framing);
    return answer;
}

nx584_reader nx584_fresh_lenient(uint8_t framing)
{
    nx584_reader answer;
    nx584_cross_fresh_lenient(&answer, framing);
    return answer;
}

nx584_reading nx584_step(nx584_reader reader, uint8_t byte)
{
    nx584_reading answer;
    nx584_cross_step(&answer, &reader, byte);
    return answer;
}

nx584_reading nx584_read(nx584_reader reader, const uint8_t *bytes, size_t bytes_len)
{
    nx584_reading answer;
    nx584_cross_read(&answer, &reader, bytes, bytes_len);
    return answer;
}

nx584_written nx584_write(const uint8_t *message, size_t message_len, uint8_t framing, uint8_t *out, size_t out_len, size_t place)
{
    nx584_written answer;
    nx584_cross_write(&answer, message, message_len, framing, out, out_len, place);
    return answer;
}

uint8_t nx584_reply(uint8_t verdict, uint8_t type)
{
    return (uint8_t)nx584_cross_reply(verdict, type);
}

uint8_t nx584_apply(uint8_t *table, size_t table_len, const uint8_t *message, size_t message_len)
{
    return (uint8_t)nx584_cross_apply(table, table_len, message, message_len);
}

nx584_overview nx584_view(const uint8_t *table, size_t table_len)
{
    nx584_overview answer;
    nx584_cross_view(&answer, table, table_len);
    return answer;
}

nx584_zone_record nx584_zone(const uint8_t *table, size_t table_len, uint8_t zone)
{
    nx584_zone_record answer;
    nx584_cross_zone(&answer, table, table_len, zone);
    return answer;
}

nx584_partition_record nx584_partition(const uint8_t *table, size_t table_len, uint8_t partition)
{
    nx584_partition_record answer;
    nx584_cross_partition(&answer, table, table_len, partition);
    return answer;
}

nx584_system_record nx584_system(const uint8_t *table, size_t table_len)
{
    nx584_system_record answer;
    nx584_cross_system(&answer, table, table_len);
    return answer;
}

nx584_hearing nx584_hear(nx584_reader reader, uint8_t *table, size_t table_len, const uint8_t *bytes, size_t bytes_len)
{
    nx584_hearing answer;
    nx584_cross_hear(&answer, &reader, table, table_len, bytes, bytes_len);
    return answer;
}

nx584_sending nx584_take(nx584_slot *slots, size_t slots_len, const uint8_t *message, size_t message_len)
{
    nx584_sending answer;
    nx584_cross_take(&answer, slots, slots_len, message, message_len);
    return answer;
}

nx584_sending nx584_tick(nx584_slot *slots, size_t slots_len)
{
    nx584_sending answer;
    nx584_cross_tick(&answer, slots, slots_len);
    return answer;
}

nx584_sending nx584_told(nx584_slot *slots, size_t slots_len, const uint8_t *message, size_t message_len)
{
    nx584_sending answer;
    nx584_cross_told(&answer, slots, slots_len, message, message_len);
    return answer;
}

nx584_written nx584_keep(uint8_t *log, size_t log_len, size_t used, const uint8_t *message, size_t message_len)
{
    nx584_written answer;
    nx584_cross_keep(&answer, log, log_len, used, message, message_len);
    return answer;
}

nx584_found nx584_newest(const uint8_t *log, size_t log_len, size_t used, uint8_t zone)
{
    nx584_found answer;
    nx584_cross_newest(&answer, log, log_len, used, zone);
    return answer;
}

nx584_written nx584_make_room(uint8_t *log, size_t log_len, size_t used)
{
    nx584_written answer;
    nx584_cross_make_room(&answer, log, log_len, used);
    return answer;
}

nx584_gridded nx584_grid(const uint8_t *table, size_t table_len, uint8_t width, uint8_t *header, size_t header_len, uint8_t *cells, size_t cells_len)
{
    nx584_gridded answer;
    nx584_cross_grid(&answer, table, table_len, width, header, header_len, cells, cells_len);
    return answer;
}
