/*
 * sundewcup_host.h: the proved price-corridor engine inside a process, one event after another.
 *
 * The session lies in memory that you own: a sundewcup_session, on the stack, in a static or from malloc. Nothing is kept
 * anywhere else, so two sessions do not know of each other, and a copy of one (memcpy, or a file) is a session that goes on
 * from there by itself, in another process with the same library too. `sundewcup_open` fills it; until then it may hold
 * anything.
 *
 * Memory whose numbers are no sound session, because none was opened there, its table was refused or somebody changed them,
 * is refused with SUNDEWCUP_DAMAGED: every function that takes a session, but for `sundewcup_open` and the two with
 * `_unchecked` in their names, tests all of it first. Everything is then as it was, and no shift is made. A session that was
 * changed into another sound one is not found out, and the two unchecked functions do not look. What you must not do, since
 * no function can find it out: change a session into another sound one; hand one to two threads at once, unless all of them
 * only ask (`const`); hand over a null pointer, also where a length is 0; let two arguments overlap.
 *
 * Answers are numbers: 0 where nothing is refused, or the number of the refusal, the same everywhere:
 *
 *    1  the table's length is not what its header says      8  a contract's half-move is 0
 *    2  the table's edition is not known                     9  a contract's limits lie beyond its interest bounds
 *    3  a field of the table's header is out of range       10  the event is after session end
 *    4  a growth key is out of range or out of order        11  the event is before the clock, the time of the last event
 *    5  a field of a contract is out of range               12  the bytes are no event, by length, flags or a tick's fields
 *    6  a contract's id is 0 or used on an earlier line     13  no contract has this id
 *    7  a contract's exponent is beyond its cap             14  the quote's bid is above its ask
 *                                                           15  an absent price is not 0
 *                                                           16  a price is out of range
 *                                                           99  the memory holds no sound session
 *
 * With 5 comes the place of the field at fault in the contract's line, of several the lowest:
 *
 *    1  settlement price, also below 1 without flag bit 0    7  width share
 *    2  spot                                                 8  days left
 *    3  least price                                         10  flags
 *    4 to 6  rates of levels 1 to 3, also a rate below the one before it
 *
 * 9 is the id, which has refusal 6. METHOD.md, 3.3 has the ranges. An event's refusals are looked for in the order 12, 15, 16,
 * 10, 11, 13, 14.
 *
 * A refused event, 10 to 16, changes nothing: `sundewcup_event` leaves every number of the session as it was, and after
 * `sundewcup_feed` it is the same session, in numbers of the library's own. Prices are in whole minimum steps,
 * times in seconds from session start. A question is answered as of the clock: whoever asks in second t sends a tick at t
 * first, since a hold may have fallen due meanwhile.
 */
#ifndef SUNDEWCUP_HOST_H
#define SUNDEWCUP_HOST_H

#include <stddef.h>
#include <stdint.h>

#ifdef __cplusplus
extern "C" {
#endif

/* How many numbers a session takes: 33 pairs of rows of 16. `sundewcup_session_numbers` says the library's own count. */
#define SUNDEWCUP_SESSION_NUMBERS 1056
/* The answer to a damaged session, and that of `sundewcup_feed` and `sundewcup_close`, which is more than any buffer has. */
#define SUNDEWCUP_DAMAGED 99
#define SUNDEWCUP_DAMAGED_COUNT SIZE_MAX
/* How many numbers `sundewcup_report` tells of a contract. */
#define SUNDEWCUP_REPORT_NUMBERS 24
/* How many numbers a row of an answer has. */
#define SUNDEWCUP_ROW_NUMBERS 6
/* The most shifts of a session, and so of one event; and the numbers of their rows. */
#define SUNDEWCUP_MOST_SHIFTS 16
#define SUNDEWCUP_SHIFT_NUMBERS 96
/* The most contracts of a session, and the numbers of their closing rows. */
#define SUNDEWCUP_MOST_CONTRACTS 32
#define SUNDEWCUP_CLOSING_NUMBERS 192
/* The room that `sundewcup_feed` asks for, in numbers, for so many bytes of events. */
#define SUNDEWCUP_FEED_NUMBERS(bytes) (6 * (((bytes) + 19) / 20 + 16))

/* A session. The numbers are for the library alone. */
typedef struct {
    uint64_t opaque[SUNDEWCUP_SESSION_NUMBERS];
} sundewcup_session;

/* What `sundewcup_place` answers of a price; any other answer is a refusal. */
enum { SUNDEWCUP_BELOW = -1, SUNDEWCUP_INSIDE = 0, SUNDEWCUP_ABOVE = 1 };

/*
 * Opens a session from the bytes of a morning table, of any length and sound or not. The result is 0, or the number of the
 * refusal, 1 to 9; *line is then the line at fault, with 4 of the growth keys and with 5 to 9 of the contracts, each counted
 * from 1, or 0 for the header, and 0 where nothing is refused. *field is the place in that line of the field at fault where the
 * number is 5, 1 to 10 and never 9, and 0 otherwise.
 * After a refusal the memory holds no session, whatever it held before: every function that tests it answers 99, or
 * SUNDEWCUP_DAMAGED_COUNT, until a table is opened there, and the two that do not test must not be handed it.
 */
int64_t sundewcup_open(sundewcup_session *session, const uint8_t *table, size_t table_length, int64_t *line,
                       int64_t *field);

/*
 * One event: 20 bytes (any other bytes are refused with 12). The result is 0, or the number of the refusal, 10 to 16 or 99.
 * *made is how many shifts it made, 0 to 16; each is a row of six numbers in `shifts`, in the order in which they were made:
 *
 *   1  second  side  id  0  0      the second at which its hold fell due, its side (0 up, 1 down), the contract that called
 *
 * The numbers behind the last row are as they were.
 */
int64_t sundewcup_event(sundewcup_session *session, const uint8_t *event, size_t event_length,
                        int64_t shifts[SUNDEWCUP_SHIFT_NUMBERS], size_t *made);

/*
 * The same without the test, which costs more than the event: for memory of which `sundewcup_open` or `sundewcup_check` said
 * 0, and in which since then only the functions that take events have written. Of any other memory nothing is promised.
 */
int64_t sundewcup_event_unchecked(sundewcup_session *session, const uint8_t *event, size_t event_length,
                                  int64_t shifts[SUNDEWCUP_SHIFT_NUMBERS], size_t *made);

/*
 * A buffer of events, 20 bytes each (a last one that is cut short is refused with 12), as if each were handed to
 * `sundewcup_event` in turn, but faster. The answers are rows of six numbers: a shift as above, or
 *
 *   2  number  event  0  0  0      an event that was refused, with its number, 10 to 16, and which one of this buffer it was,
 *                                  counted from 1, accepted ones too; each buffer counts anew
 *
 * The result is how many numbers were written. Where `out_length` is less than SUNDEWCUP_FEED_NUMBERS(events_length), that
 * room is the result, so that it is greater than `out_length`; nothing is written, and the session is what it was. A
 * damaged session's result is SUNDEWCUP_DAMAGED_COUNT.
 */
size_t sundewcup_feed(sundewcup_session *session, const uint8_t *events, size_t events_length, int64_t *out,
                      size_t out_length);

/*
 * The limits of a contract: out[0] the lower and out[1] the upper one, out[2] 1 where the lower one is frozen at one step,
 * else 0. The result is 0, or 13 or 99, and then `out` is as it was.
 */
int64_t sundewcup_limits(const sundewcup_session *session, uint32_t id, int64_t out[3]);

/* Where an order price lies: SUNDEWCUP_BELOW, SUNDEWCUP_INSIDE (both limits count as inside), SUNDEWCUP_ABOVE; or 13 or 99. */
int64_t sundewcup_place(const sundewcup_session *session, uint32_t id, int64_t price);

/* The same without the test, as with `sundewcup_event_unchecked`. */
int64_t sundewcup_place_unchecked(const sundewcup_session *session, uint32_t id, int64_t price);

/*
 * All that stands on a contract's line. The result is 0, or 13 or 99, and then `out` is as it was. The numbers:
 *
 *    0, 1   the lower and the upper limit           12 to 14  the up hold: 1 where it stands, its start, its due second
 *    2      1 where the lower one is frozen, or 0   15 to 17  the down hold likewise; three times 0 where none stands
 *    3, 4   the lower and upper interest bound      18, 19    1 and the standing bid, or 0 and 0 where there is none
 *    5      the centre                              20, 21    1 and the standing ask, or 0 and 0
 *    6 to 11  the lower and the upper market bound  22        how many shifts the session may still make
 *           of level 1, of level 2 and of level 3   23        the clock
 */
int64_t sundewcup_report(const sundewcup_session *session, uint32_t id, int64_t out[SUNDEWCUP_REPORT_NUMBERS]);

/*
 * What stands at the clock, a row for each contract in the table's order:
 *
 *   4  id  lower  upper  lower bound  upper bound     its limits, and its interest bounds
 *
 * The result is how many numbers were written. Where `out_length` is less than six a contract, that room is the result, and
 * nothing is written; SUNDEWCUP_CLOSING_NUMBERS is always enough. The session may go on after it. A damaged session's result
 * is SUNDEWCUP_DAMAGED_COUNT.
 */
size_t sundewcup_close(const sundewcup_session *session, int64_t *out, size_t out_length);

/*
 * Whether the memory holds a sound session: 0, or SUNDEWCUP_DAMAGED. It is what the functions that test do first; asked once of a
 * snapshot that comes from elsewhere, it makes the functions with `_unchecked` safe on it.
 */
int64_t sundewcup_check(const sundewcup_session *session);

/* How many numbers of 64 bits the library takes a session to be: SUNDEWCUP_SESSION_NUMBERS. */
size_t sundewcup_session_numbers(void);

#ifdef __cplusplus
}
#endif

#endif
