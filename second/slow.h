/*
 * slow.h: a second-by-second check of holds and shifts. It shares no state with the engine: it walks through
 * every second, and works out every line anew from the opening numbers and the shifts counted so far.
 */
#ifndef SLOW_H
#define SLOW_H

#include "corridor.h"
#include "draft.h"

typedef struct {
    Session opening;
    uint32_t ups;
    uint32_t downs;
    uint32_t clock;
    uint32_t start[SIDES][MOST_LINES];
    EventDraft book[MOST_LINES];
} SlowSession;

void slow_open(SlowSession *slow, const Session *opening);

/* Takes an event that the engine accepted; gives the number of shifts it called for. */
uint32_t slow_event(SlowSession *slow, const EventDraft *event, Shift shifts[MOST_SHIFTS]);

/* The line as it stands by the counts of shifts alone. */
Line slow_line(const SlowSession *slow, uint32_t index);

#endif
