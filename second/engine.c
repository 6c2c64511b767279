/*
 * engine.c: this engine, through its program and its rows.
 */
#include "engine.h"

#include "rows.h"
#include "text.h"

const bool ENGINE_IS_THIS_ONE = true;

bool engine_text(const uint8_t *input, size_t length, char *text, size_t room)
{
    return text_of_program(input, length, text, room);
}

size_t engine_rows(const Input *input, int64_t *out, size_t out_length)
{
    return rows_run(input, out, out_length);
}
