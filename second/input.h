/*
 * input.h: a whole input of the program, parted into table and events.
 */
#ifndef INPUT_H
#define INPUT_H

#include "corridor.h"

typedef struct {
    const uint8_t *table;
    size_t table_length;
    const uint8_t *events;
    size_t events_length;
} Input;

/* Parted as METHOD 22.1 says: by the counts in the header. What is too short for them is all table. */
Input input_of(const uint8_t *bytes, size_t length);

/* How many of the bytes left belong to the next event: only the last one can be cut short. */
size_t input_event_length(size_t left);

#endif
