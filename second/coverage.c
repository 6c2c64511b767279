/*
 * coverage.c: the program "coverage SEED COUNT". It generates inputs, runs the engine on each, and prints
 * what they brought about. Short sessions are also checked second by second against the slow engine. Every input
 * is also run with free events added (thickened.h). It fails at any difference, and where too few inputs bring about what
 * tally.c demands a share for. A run of few inputs, as with sanitizers, is for differences alone and demands no shares.
 */
#include "corridor.h"
#include "draft.h"
#include "generate.h"
#include "same.h"
#include "slow.h"
#include "tally.h"
#include "thickened.h"

#include <inttypes.h>
#include <stdio.h>
#include <stdlib.h>

enum {
    /* Longer sessions would take the slow engine too long. */
    LONGEST_SLOW_SESSION = 20000,
    /* Of fewer inputs it would be the seed's luck whether the rarest things reach their shares. */
    LEAST_INPUTS_FOR_SHARES = 10000
};

/* Gives the slow engine an accepted event; says whether it answers alike and stands alike. */
static bool slow_agrees(SlowSession *slow, const Session *session, const uint8_t *bytes, const EventAnswer *answer)
{
    Shift shifts[MOST_SHIFTS];
    EventDraft event = draft_read_event(bytes);
    bool same = slow_event(slow, &event, shifts) == answer->shift_count
        && same_shifts(shifts, answer->shifts, answer->shift_count);
    for (uint32_t i = 0; same && i < session->line_count; i++) {
        Line line = slow_line(slow, i);
        same = same_shifted(&session->lines[i], &line);
    }
    return same;
}

/* Gives all events to both engines; says whether they agree after every accepted one. */
static bool agree_slowly(Session *session, const uint8_t *events, size_t length)
{
    static SlowSession slow;
    bool same = true;
    slow_open(&slow, session);
    for (size_t start = 0; same && start < length; start += EVENT_BYTES) {
        EventAnswer answer;
        corridor_event(session, events + start, input_event_length(length - start), &answer);
        same = answer.kind == REFUSED || slow_agrees(&slow, session, events + start, &answer);
    }
    return same;
}

/* All that was seen over many inputs. */
typedef struct {
    TallyTotal total;
    uint64_t slow;
    uint64_t slow_different;
    uint64_t thickened;
    uint64_t thickened_different;
} Result;

static void take_slowly(Result *result, const Input *input, uint64_t number)
{
    Session session;
    if (corridor_open(input->table, input->table_length, &session).kind == REFUSED
        || session.session_end.seconds > LONGEST_SLOW_SESSION) {
        return;
    }
    result->slow++;
    if (!agree_slowly(&session, input->events, input->events_length)) {
        result->slow_different++;
        printf("input %" PRIu64 " differs from second by second\n", number);
    }
}

static void take_thickened(Result *result, const Input *input, uint64_t number, Tally *tally)
{
    static Thickened thickened;
    thicken(input, &thickened);
    result->thickened += thickened.length > input->events_length;
    if (!thickened_agrees(input, &thickened, tally)) {
        result->thickened_different++;
        printf("input %" PRIu64 " differs with free events added\n", number);
    }
}

static bool judge(const Result *result, uint64_t count)
{
    printf("%" PRIu64 " compared second by second, %" PRIu64 " different\n", result->slow, result->slow_different);
    printf("%" PRIu64 " compared with free events added, %" PRIu64 " different\n", result->thickened,
           result->thickened_different);
    bool shares_demanded = count >= LEAST_INPUTS_FOR_SHARES;
    puts(shares_demanded ? "shares demanded" : "too few inputs to demand shares");
    bool enough = !shares_demanded || tally_enough(&result->total, TALLY_FIRST, count, 0) == TALLY_COUNTS - TALLY_FIRST;
    return enough && result->slow_different == 0 && result->thickened_different == 0;
}

int main(int argument_count, char **arguments)
{
    if (argument_count != 3) {
        fputs("usage: coverage SEED COUNT\n", stderr);
        return EXIT_FAILURE;
    }
    static uint8_t bytes[LONGEST_INPUT];
    static Result result;
    uint64_t seed = strtoull(arguments[1], NULL, 10);
    uint64_t count = strtoull(arguments[2], NULL, 10);
    for (uint64_t number = 0; number < count; number++) {
        Input input = input_of(bytes, generate_input(seed, number, bytes));
        Tally one = tally_input(&input);
        take_slowly(&result, &input, number);
        take_thickened(&result, &input, number, &one);
        tally_add(&result.total, &one);
    }
    tally_print(&result.total, TALLY_FIRST);
    return judge(&result, count) ? EXIT_SUCCESS : EXIT_FAILURE;
}
