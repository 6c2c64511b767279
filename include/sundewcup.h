/*
 * sundewcup.h: the proved price-corridor engine, a whole session in one call.
 *
 * The answers are rows of six numbers each, one after another in the buffer that the caller lends:
 *
 *   1  second  side  id     0            0            a shift: the second at which its hold fell due, its side
 *                                                     (0 up, 1 down), and the contract that called for it
 *   2  number  event 0      0            0            an event that was refused, with its number, 10 to 16, and which
 *                                                     one of `events` it was, counted from 1, accepted ones too
 *   3  number  line  field  0            0            the table was refused, with its number, 1 to 9, the line at fault
 *                                                     (0: the header; with 4 a growth key, with 5 to 9 a contract, each
 *                                                     counted from 1), and where the number is 5 the place in that line
 *                                                     of the field at fault, 1 to 10 without 9, else 0; no other row then
 *   4  id      lower upper  lower bound  upper bound  what stands at the end, a row for each contract in the table's
 *                                                     order: its limits, and its interest bounds, in steps
 *
 * Rows 1 and 2 stand in the order of the events. A row that leaves places free has 0 there.
 *
 * What stands at the end is as of the last event's second, and not as of now. Whoever asks where the corridor stands in
 * this second ends the events with a tick at this second; to ask without one is to miss the shifts that have fallen due
 * since the last event.
 */
#ifndef SUNDEWCUP_H
#define SUNDEWCUP_H

#include <stddef.h>
#include <stdint.h>

#ifdef __cplusplus
extern "C" {
#endif

/*
 * Opens a session from `table` (a morning table of any length, sound or not), takes the events in `events` (20 bytes each;
 * a last one that is cut short is refused with 12), and writes all rows to `out`.
 *
 * The room that the rows may need is 6 * ((events_length + 19) / 20 + 48) numbers: a row an event, 16 shifts, 32 contracts.
 * Where out_length is less, that room is the result (so the result is greater than out_length) and nothing is written.
 * Otherwise the result is how many numbers were written, from out[0] on; the numbers behind them are as they were.
 *
 * `out` must not overlap `table` or `events`. Pointers must not be null, also where a length is 0; `out` is aligned as
 * int64_t asks. The function keeps nothing between two calls, and may be called from several threads at once.
 */
size_t sundewcup_run(const uint8_t *table, size_t table_length, const uint8_t *events, size_t events_length,
                     int64_t *out, size_t out_length);

#ifdef __cplusplus
}
#endif

#endif
