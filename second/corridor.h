/*
 * corridor.h: the price-corridor engine, written a second time from the rules alone, which docs/METHOD.md and
 * docs/DECISIONS.md state.
 *
 * It opens a session from a morning table, takes timed events one by one, answers each with the shifts
 * it called for, and answers questions on limits, order prices and interest bounds.
 */
#ifndef CORRIDOR_H
#define CORRIDOR_H

#include <stdbool.h>
#include <stddef.h>
#include <stdint.h>

enum {
    HEADER_BYTES = 40,
    KEY_BYTES = 8,
    CONTRACT_BYTES = 40,
    EVENT_BYTES = 20,
    MOST_LINES = 32,
    MOST_KEYS = 16,
    MOST_SHIFTS = 16,
    LEVELS = 3,
    SIDES = 2,
    ID_SLOTS = 256,
    /* What the up factor of an exponent above 0 has beyond its series. */
    OUTER_BILLIONTHS = 20,
    /* How far from zero a quote's price may be, in steps. */
    MOST_QUOTE_PRICE = 2000000000,
    LONGEST_TABLE = HEADER_BYTES + MOST_KEYS * KEY_BYTES + MOST_LINES * CONTRACT_BYTES
};

/* One type for each unit, so that the compiler refuses to add or compare two of them. */
typedef struct { int64_t steps; } Steps;
typedef struct { int64_t millionths; } Millionths;
typedef struct { int64_t billionths; } Billionths;
typedef struct { uint32_t seconds; } Seconds;
typedef struct { int64_t days; } Days;

typedef enum { SIDE_UP = 0, SIDE_DOWN = 1 } Side;

/* The refusals by their numbers, METHOD 23. */
typedef enum {
    NOT_REFUSED = 0,
    REFUSED_LENGTH_OR_OFFSETS = 1,
    REFUSED_EDITION = 2,
    REFUSED_HEADER = 3,
    REFUSED_KEY = 4,
    REFUSED_CONTRACT = 5,
    REFUSED_ID = 6,
    REFUSED_EXPONENT = 7,
    REFUSED_HALF_MOVE = 8,
    REFUSED_LIMITS = 9,
    REFUSED_AFTER_END = 10,
    REFUSED_BEFORE_CLOCK = 11,
    REFUSED_EVENT_FORM = 12,
    REFUSED_UNKNOWN_ID = 13,
    REFUSED_CROSSED = 14,
    REFUSED_ABSENT_PRICE = 15,
    REFUSED_PRICE_RANGE = 16
} Refusal;

typedef enum { ACCEPTED, REFUSED } AnswerKind;

typedef struct { Days days; Millionths rate; } Key;

typedef struct { uint32_t count; Key line[MOST_KEYS]; } Keys;

typedef struct { Steps lower; Steps upper; } Bounds;

/* One contract of the table, with its standing prices. */
typedef struct {
    uint32_t id;
    bool permits_negative;
    bool watched;
    bool lower_frozen;
    bool has_bid;
    bool has_ask;
    Steps bid;
    Steps ask;
    Bounds limits;
    Bounds interest;
    Steps centre;
    Steps half_width[LEVELS];
    Steps half_move;
    /* Both are fixed for the session. Which of them a market bound takes is not: a shift can carry it across zero. */
    Billionths up_factor;
    Billionths down_factor;
} Line;

typedef struct {
    Seconds clock;
    /* No hold falls due before this second. It may be too early (a hold ended), never too late. */
    Seconds earliest_due;
    Seconds session_end;
    Seconds hold;
    Millionths near_share;
    uint32_t most_shifts;
    uint32_t shifts_made;
    uint32_t line_count;
    /* The second at which each hold falls due, or NEVER where there is no hold. */
    Seconds due[SIDES][MOST_LINES];
    /* Line number by hashed id; 0 marks an empty slot. */
    uint8_t line_in_slot[ID_SLOTS];
    Line lines[MOST_LINES];
} Session;

/* reason and line are set only where the kind is REFUSED. field is the place of the field at fault in its line, counted
   from 1, where the reason is REFUSED_CONTRACT, and 0 with every other one. */
typedef struct {
    AnswerKind kind;
    Refusal reason;
    uint32_t line;
    uint32_t field;
} TableAnswer;

typedef struct {
    Seconds second;
    Side side;
    uint32_t id;
} Shift;

typedef struct {
    AnswerKind kind;
    union {
        struct {
            uint32_t shift_count;
            Shift shifts[MOST_SHIFTS];
        };
        Refusal reason;
    };
} EventAnswer;

typedef struct {
    AnswerKind kind;
    union {
        Bounds bounds;
        Refusal reason;
    };
} BoundsAnswer;

typedef enum { PLACE_BELOW, PLACE_INSIDE, PLACE_ABOVE, PLACE_UNKNOWN_ID } Place;

/* A second that no event can reach: the due second of a side that has no hold. */
extern const Seconds NEVER;

/* How many bytes of an input belong to the table, by the counts of its 40 header bytes. Counts that are
   out of range give 40: the header alone then decides the refusal. */
size_t corridor_table_length(const uint8_t *header);

/* Opens a session. After a refusal the session must not be used. */
TableAnswer corridor_open(const uint8_t *table, size_t length, Session *session);

/* Takes one event. One that is refused changes no byte of the session. */
void corridor_event(Session *session, const uint8_t *bytes, size_t length, EventAnswer *answer);

/* The three questions. They serve no holds and know no refusal but 13. */
BoundsAnswer corridor_limits(const Session *session, uint32_t id);
BoundsAnswer corridor_interest_bounds(const Session *session, uint32_t id);
Place corridor_place(const Session *session, uint32_t id, Steps price);

/* The opening numbers, one function for each, so that the figures of METHOD 25 can be run on them. */
Millionths corridor_rate(const Keys *keys, Days days_left);
Billionths corridor_exponent(Millionths rate, Days days_left);
/* The thirteen terms alone, each rounded down, without what makes an up factor of their sum. */
Billionths corridor_series(Billionths exponent);
Billionths corridor_up_factor(Billionths exponent);
Billionths corridor_down_factor(Billionths up_factor);

/* The quotient rounded down and up, whatever the sign (METHOD 1.6); the divisor is positive. */
int64_t floor_division(int64_t dividend, int64_t divisor);
int64_t ceiling_division(int64_t dividend, int64_t divisor);

#endif
