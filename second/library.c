/*
 * library.c: the proved engine, through its library.
 */
#include "engine.h"

#include "rows.h"
#include "text.h"

#include "sundewcup.h"

#include <stdlib.h>

const bool ENGINE_IS_THIS_ONE = false;

size_t engine_rows(const Input *input, int64_t *out, size_t out_length)
{
    return sundewcup_run(input->table, input->table_length, input->events, input->events_length, out, out_length);
}

bool engine_text(const uint8_t *input, size_t length, char *text, size_t room)
{
    Input parts = input_of(input, length);
    size_t most = ROWS_ROOM(parts.events_length);
    int64_t *rows = malloc(most * sizeof *rows);
    if (rows == NULL) {
        return false;
    }
    size_t count = engine_rows(&parts, rows, most);
    bool good = count <= most && text_of_rows(rows, count, text, room);
    free(rows);
    return good;
}
