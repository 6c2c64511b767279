/*
 * program.c: METHOD 22 from one stream to another. The events are read in chunks and never all kept, so an
 * input may be of any length.
 */
#include "program.h"

#include "corridor.h"
#include "input.h"

#include <inttypes.h>

/* A whole number of events, so that only the last chunk of an input can end in a cut event. */
enum { CHUNK_BYTES = 3200 * EVENT_BYTES };

/* Reads no byte of the events. Where the input is too short for its counts, so is the table. */
static size_t read_table(FILE *input, uint8_t *table)
{
    size_t length = fread(table, 1, HEADER_BYTES, input);
    if (length == HEADER_BYTES) {
        length += fread(table + HEADER_BYTES, 1, corridor_table_length(table) - HEADER_BYTES, input);
    }
    return length;
}

static void print_table_refused(FILE *output, const TableAnswer *answer)
{
    fprintf(output, "T %d %" PRIu32, (int)answer->reason, answer->line);
    if (answer->reason == REFUSED_CONTRACT) {
        fprintf(output, " %" PRIu32, answer->field);
    }
    fputc('\n', output);
}

static void print_event_answer(FILE *output, const EventAnswer *answer)
{
    if (answer->kind == REFUSED) {
        fprintf(output, "R %d\n", (int)answer->reason);
        return;
    }
    for (uint32_t i = 0; i < answer->shift_count; i++) {
        const Shift *shift = &answer->shifts[i];
        char side = shift->side == SIDE_UP ? 'U' : 'D';
        fprintf(output, "%" PRIu32 " %c %" PRIu32 "\n", shift->second.seconds, side, shift->id);
    }
}

static void take_events(FILE *input, FILE *output, Session *session)
{
    static uint8_t chunk[CHUNK_BYTES];
    EventAnswer answer;
    size_t length;
    while ((length = fread(chunk, 1, sizeof chunk, input)) > 0) {
        for (size_t start = 0; start < length; start += EVENT_BYTES) {
            corridor_event(session, chunk + start, input_event_length(length - start), &answer);
            print_event_answer(output, &answer);
        }
    }
}

static void print_closing_lines(FILE *output, const Session *session)
{
    for (uint32_t i = 0; i < session->line_count; i++) {
        uint32_t id = session->lines[i].id;
        Bounds limits = corridor_limits(session, id).bounds;
        Bounds interest = corridor_interest_bounds(session, id).bounds;
        fprintf(output, "%" PRIu32 " %" PRId64 " %" PRId64 " %" PRId64 " %" PRId64 "\n", id, limits.lower.steps,
                limits.upper.steps, interest.lower.steps, interest.upper.steps);
    }
}

bool program_run(FILE *input, FILE *output)
{
    uint8_t table[LONGEST_TABLE];
    Session session;
    size_t length = read_table(input, table);
    if (ferror(input)) {
        return false;
    }
    TableAnswer answer = corridor_open(table, length, &session);
    if (answer.kind == REFUSED) {
        print_table_refused(output, &answer);
    } else {
        take_events(input, output, &session);
        if (ferror(input)) {
            return false;
        }
        print_closing_lines(output, &session);
    }
    return fflush(output) == 0 && !ferror(output);
}
