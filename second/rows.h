/*
 * rows.h: the answers to a whole input as rows of six numbers in a lent buffer, in the form in which the
 * proved engine's library gives them:
 *
 *   1 second side id 0 0                     a shift; side 0 is up, 1 is down
 *   2 number event 0 0 0                     a refused event, and which one of the input's it was, counted from 1
 *   3 number line field 0 0                  a refused table, the only row then; field is 0 unless the number is 5
 *   4 id lower upper lowerbound upperbound   a closing row, one a contract, in table order
 */
#ifndef ROWS_H
#define ROWS_H

#include "input.h"

enum { ROW_NUMBERS = 6 };

enum RowKind { ROW_SHIFT = 1, ROW_REFUSED_EVENT = 2, ROW_REFUSED_TABLE = 3, ROW_CLOSING = 4 };

/* The numbers that rows can need: a row for each event if all are refused, one for each shift and each line. */
#define ROWS_ROOM(events_length) \
    (ROW_NUMBERS * (((events_length) + EVENT_BYTES - 1) / EVENT_BYTES + MOST_SHIFTS + MOST_LINES))

/* Writes the rows and gives how many numbers they are. Where out is shorter than the room it writes nothing
   and gives the room. */
size_t rows_run(const Input *input, int64_t *out, size_t out_length);

/* A place in each of two answers. */
typedef struct { size_t one; size_t other; } RowPlaces;

/* Where two answers first differ, rows of refused events passed over; both ends where they do not. */
RowPlaces rows_first_difference(const int64_t *one, size_t one_count, const int64_t *other, size_t other_count);

/* Whether two answers are the same but for the rows of refused events. */
bool rows_same_unrefused(const int64_t *one, size_t one_count, const int64_t *other, size_t other_count);

#endif
