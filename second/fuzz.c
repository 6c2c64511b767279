/*
 * fuzz.c: any bytes as a whole input through the engine, for clang's fuzzer with its sanitizers. The room for
 * the rows is exactly as long as promised to suffice, so that a number written past it is seen. The field of a refused
 * table and the places of refused events have to be possible ones.
 */
#include "layout.h"
#include "rows.h"

#include <stdlib.h>

/* The fuzzer's own name for what it calls with each input. */
int LLVMFuzzerTestOneInput(const uint8_t *bytes, size_t length);

/* Only refusal 5 has a field, which is any but the id; 0 is none. */
static bool field_possible(const int64_t *row)
{
    int64_t field = row[3];
    return row[1] == REFUSED_CONTRACT ? 1 <= field && field <= CONTRACT_FIELDS && field != CONTRACT_ID + 1 : field == 0;
}

/* The places of refused events rise, and none is past the last event. */
static bool rows_possible(const int64_t *rows, size_t count, size_t events_length)
{
    bool possible = true;
    int64_t place = 0;
    for (size_t i = 0; i < count; i += ROW_NUMBERS) {
        const int64_t *row = rows + i;
        if (row[0] == ROW_REFUSED_TABLE) {
            possible = possible && field_possible(row);
        } else if (row[0] == ROW_REFUSED_EVENT) {
            possible = possible && row[2] > place;
            place = row[2];
        }
    }
    return possible && place <= (int64_t)((events_length + EVENT_BYTES - 1) / EVENT_BYTES);
}

int LLVMFuzzerTestOneInput(const uint8_t *bytes, size_t length)
{
    Input input = input_of(bytes, length);
    size_t room = ROWS_ROOM(input.events_length);
    int64_t *rows = malloc(room * sizeof *rows);
    size_t count = rows == NULL ? SIZE_MAX : rows_run(&input, rows, room);
    if (count > room || !rows_possible(rows, count, input.events_length)) {
        abort();
    }
    free(rows);
    return 0;
}
