/*
 * checks.h: what the figures are made of: named checks, which are counted, of whole inputs on the engine of engine.h, and of
 * what only a look inside this engine shows.
 */
#ifndef CHECKS_H
#define CHECKS_H

#include "corridor.h"
#include "draft.h"

enum { TEXT_BYTES = 2048, INPUT_BYTES = 4096 };

typedef struct { char text[TEXT_BYTES]; } Text;

void add_to(Text *text, const char *more);

/* A number that the answer to a whole input shows. */
void check_shown(const char *name, int64_t seen, int64_t expected);

/* A number from inside this engine, which says nothing of the other one. */
void check_number(const char *name, int64_t seen, int64_t expected);

void check_text(const char *name, const char *seen, const char *expected);

/* Prints how many checks passed and failed; says whether none failed. */
bool checks_told(void);

/* The engine's answer to a whole input, and to a table without events. */
Text whole_text(const uint8_t *bytes, size_t length);
Text table_text(const TableDraft *draft);

void check_table_opens(const char *name, const TableDraft *draft);
void check_table_refused(const char *name, const TableDraft *draft, Refusal reason, uint32_t line);

/* Refused with 5, at a line's field. */
void check_field_refused(const char *name, const TableDraft *draft, uint32_t line, uint32_t field);

/* A whole input as it grows, what its events are to have answered so far, and this engine's session there. */
typedef struct {
    uint8_t bytes[INPUT_BYTES];
    size_t length;
    Text answers;
    Session session;
} Course;

Course started(const TableDraft *draft);

/* A refused event must leave every byte of the session as it stood. */
void give(Course *course, const EventDraft *event);

#define EVENTS(...) (const EventDraft[]){__VA_ARGS__}, sizeof((EventDraft[]){__VA_ARGS__}) / sizeof(EventDraft)

/* Lets the events follow; what is expected of them has one line a shift and one a refusal. */
void check_events(const char *name, Course *course, const char *expected, const EventDraft *events, size_t event_count);

/* The same from a table on. */
void check_session(const char *name, const TableDraft *draft, const char *expected, const EventDraft *events,
                   size_t event_count);

void check_event_refused(const char *name, Course *course, EventDraft event, Refusal reason);

/* What the closing line of a contract says, in its order: limits, and then interest bounds. */
typedef struct { int64_t numbers[4]; } Closing;

Closing closing_of(const Course *course, uint32_t id);
void check_limits(const char *name, const Course *course, uint32_t id, int64_t lower, int64_t upper);
void check_interest(const char *name, const Course *course, uint32_t id, int64_t lower, int64_t upper);

/* Checks the whole answer to a table, events and a tail of further bytes. */
void check_program(const char *name, const TableDraft *draft, size_t tail, const char *expected, const EventDraft *events,
                   size_t event_count);

/* Shift lines of one side and caller, a minute apart. */
Text every_minute(int first, int shifts, const char *side_and_id);

#endif
