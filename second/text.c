/*
 * text.c: streams over memory (POSIX) around the program and the printing of rows.
 */
#define _POSIX_C_SOURCE 200809L

#include "text.h"

#include "generate.h"
#include "program.h"
#include "rows.h"

#include <inttypes.h>
#include <string.h>

enum {
    MOST_NUMBERS = ROWS_ROOM(LONGEST_INPUT),
    /* Five numbers of at most twenty characters, the spaces and the line's end. */
    LONGEST_ROW_TEXT = 105,
    TEXT_BYTES = MOST_NUMBERS / ROW_NUMBERS * LONGEST_ROW_TEXT + 2
};

/* Closes the stream over the room; the byte after what was printed becomes the text's end. */
static bool end_text(FILE *output, char *text)
{
    long printed = fflush(output) == 0 ? ftell(output) : -1;
    bool good = printed >= 0 && !ferror(output);
    text[good ? printed : 0] = '\0';
    return fclose(output) == 0 && good;
}

bool text_of_program(const uint8_t *input, size_t length, char *text, size_t room)
{
    /* A stream opened for reading never writes to the bytes. */
    FILE *from = fmemopen((void *)(uintptr_t)input, length, "r");
    FILE *to = fmemopen(text, room - 1, "w");
    bool good = from != NULL && to != NULL && program_run(from, to);
    if (from != NULL) {
        fclose(from);
    }
    return to != NULL && end_text(to, text) && good;
}

static bool print_refused_table(FILE *output, const int64_t *row)
{
    if (row[1] == REFUSED_CONTRACT) {
        return fprintf(output, "T %" PRId64 " %" PRId64 " %" PRId64 "\n", row[1], row[2], row[3]) > 0;
    }
    return fprintf(output, "T %" PRId64 " %" PRId64 "\n", row[1], row[2]) > 0;
}

static bool print_row(FILE *output, const int64_t *row)
{
    switch (row[0]) {
    case ROW_SHIFT:
        return fprintf(output, "%" PRId64 " %c %" PRId64 "\n", row[1], row[2] == SIDE_UP ? 'U' : 'D', row[3]) > 0;
    case ROW_REFUSED_EVENT:
        return fprintf(output, "R %" PRId64 "\n", row[1]) > 0;
    case ROW_REFUSED_TABLE:
        return print_refused_table(output, row);
    case ROW_CLOSING:
        return fprintf(output, "%" PRId64 " %" PRId64 " %" PRId64 " %" PRId64 " %" PRId64 "\n", row[1], row[2], row[3],
                       row[4], row[5]) > 0;
    default:
        return false;
    }
}

bool text_of_rows(const int64_t *rows, size_t count, char *text, size_t room)
{
    FILE *to = fmemopen(text, room - 1, "w");
    bool good = to != NULL && count % ROW_NUMBERS == 0;
    for (size_t i = 0; good && i < count; i += ROW_NUMBERS) {
        good = print_row(to, rows + i);
    }
    return to != NULL && end_text(to, text) && good;
}

bool text_same(const int64_t *rows, size_t count, const uint8_t *input, size_t length)
{
    static char of_rows[TEXT_BYTES];
    static char of_program[TEXT_BYTES];
    return count <= MOST_NUMBERS && text_of_rows(rows, count, of_rows, TEXT_BYTES)
        && text_of_program(input, length, of_program, TEXT_BYTES) && strcmp(of_rows, of_program) == 0;
}
