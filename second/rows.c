/*
 * rows.c: runs an input through the engine and writes the answers as rows.
 */
#include "rows.h"

#include <string.h>

/* Gives where the next row goes. */
static int64_t *put_row(int64_t *out, enum RowKind kind, int64_t a, int64_t b, int64_t c, int64_t d, int64_t e)
{
    out[0] = kind;
    out[1] = a;
    out[2] = b;
    out[3] = c;
    out[4] = d;
    out[5] = e;
    return out + ROW_NUMBERS;
}

/* The event's place is counted from 1, accepted ones too. */
static int64_t *put_event_answer(int64_t *out, const EventAnswer *answer, int64_t place)
{
    if (answer->kind == REFUSED) {
        return put_row(out, ROW_REFUSED_EVENT, answer->reason, place, 0, 0, 0);
    }
    for (uint32_t i = 0; i < answer->shift_count; i++) {
        const Shift *shift = &answer->shifts[i];
        out = put_row(out, ROW_SHIFT, shift->second.seconds, shift->side, shift->id, 0, 0);
    }
    return out;
}

static int64_t *put_closing_rows(int64_t *out, const Session *session)
{
    for (uint32_t i = 0; i < session->line_count; i++) {
        const Line *line = &session->lines[i];
        out = put_row(out, ROW_CLOSING, line->id, line->limits.lower.steps, line->limits.upper.steps,
                      line->interest.lower.steps, line->interest.upper.steps);
    }
    return out;
}

size_t rows_run(const Input *input, int64_t *out, size_t out_length)
{
    size_t room = ROWS_ROOM(input->events_length);
    if (out_length < room) {
        return room;
    }
    Session session;
    TableAnswer opened = corridor_open(input->table, input->table_length, &session);
    if (opened.kind == REFUSED) {
        return (size_t)(put_row(out, ROW_REFUSED_TABLE, opened.reason, opened.line, opened.field, 0, 0) - out);
    }
    int64_t *next = out;
    for (size_t start = 0; start < input->events_length; start += EVENT_BYTES) {
        EventAnswer answer;
        corridor_event(&session, input->events + start, input_event_length(input->events_length - start), &answer);
        next = put_event_answer(next, &answer, (int64_t)(start / EVENT_BYTES) + 1);
    }
    return (size_t)(put_closing_rows(next, &session) - out);
}

/* The place of the first row from here on that is not of a refused event, or the end. */
static size_t next_unrefused(const int64_t *rows, size_t count, size_t place)
{
    while (place < count && rows[place] == ROW_REFUSED_EVENT) {
        place += ROW_NUMBERS;
    }
    return place;
}

/* Numbers after the last whole row, which only a wrong engine writes, are a difference. */
RowPlaces rows_first_difference(const int64_t *one, size_t one_count, const int64_t *other, size_t other_count)
{
    RowPlaces places = {next_unrefused(one, one_count, 0), next_unrefused(other, other_count, 0)};
    while (places.one + ROW_NUMBERS <= one_count && places.other + ROW_NUMBERS <= other_count
           && memcmp(one + places.one, other + places.other, ROW_NUMBERS * sizeof *one) == 0) {
        places.one = next_unrefused(one, one_count, places.one + ROW_NUMBERS);
        places.other = next_unrefused(other, other_count, places.other + ROW_NUMBERS);
    }
    return places;
}

bool rows_same_unrefused(const int64_t *one, size_t one_count, const int64_t *other, size_t other_count)
{
    RowPlaces places = rows_first_difference(one, one_count, other, other_count);
    return places.one == one_count && places.other == other_count;
}
