/*
 * input.c: where the parts of an input lie.
 */
#include "input.h"

Input input_of(const uint8_t *bytes, size_t length)
{
    size_t table_length = length < HEADER_BYTES ? length : corridor_table_length(bytes);
    if (table_length > length) {
        table_length = length;
    }
    return (Input){bytes, table_length, bytes + table_length, length - table_length};
}

size_t input_event_length(size_t left)
{
    return left < EVENT_BYTES ? left : EVENT_BYTES;
}
