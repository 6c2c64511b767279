/*
 * slow.c: the check engine: as plain as can be, one second after the other.
 */
#include "slow.h"

static const int64_t BILLION = 1000000000;
static const uint32_t NO_HOLD = UINT32_MAX;

void slow_open(SlowSession *slow, const Session *opening)
{
    *slow = (SlowSession){.opening = *opening};
    for (uint32_t i = 0; i < MOST_LINES; i++) {
        slow->start[SIDE_UP][i] = NO_HOLD;
        slow->start[SIDE_DOWN][i] = NO_HOLD;
    }
}

/* The interest bounds of two market bounds. No sign is looked at: the factor that a sign chooses is the one that leads
   farther out, since the up factor is never under one and the down factor never above it. */
static Bounds farther_out(const Line *line, int64_t lower_market, int64_t upper_market)
{
    int64_t up = line->up_factor.billionths;
    int64_t down = line->down_factor.billionths;
    int64_t lower_by_up = floor_division(lower_market * up, BILLION);
    int64_t lower_by_down = floor_division(lower_market * down, BILLION);
    int64_t upper_by_up = ceiling_division(upper_market * up, BILLION);
    int64_t upper_by_down = ceiling_division(upper_market * down, BILLION);
    return (Bounds){
        .lower = {lower_by_up < lower_by_down ? lower_by_up : lower_by_down},
        .upper = {upper_by_up > upper_by_down ? upper_by_up : upper_by_down},
    };
}

Line slow_line(const SlowSession *slow, uint32_t index)
{
    Line line = slow->opening.lines[index];
    Bounds opening = line.interest;
    int64_t ups = slow->ups;
    int64_t downs = slow->downs;
    int64_t upper_market = line.centre.steps + line.half_width[0].steps + 2 * ups * line.half_move.steps;
    int64_t lower_market = line.centre.steps - line.half_width[0].steps - 2 * downs * line.half_move.steps;
    line.interest = farther_out(&line, lower_market, upper_market);
    line.centre.steps += (ups - downs) * line.half_move.steps;
    for (int level = 0; level < LEVELS; level++) {
        line.half_width[level].steps += (ups + downs) * line.half_move.steps;
    }
    line.limits.upper.steps += line.interest.upper.steps - opening.upper.steps;
    if (!line.lower_frozen) {
        line.limits.lower.steps += line.interest.lower.steps - opening.lower.steps;
        line.lower_frozen = !line.permits_negative && line.limits.lower.steps < 1;
    }
    if (line.lower_frozen) {
        line.limits.lower.steps = 1;
    }
    return line;
}

static bool slow_presses(const SlowSession *slow, Side side, uint32_t index)
{
    Line line = slow_line(slow, index);
    const uint32_t *book = slow->book[index].fields;
    int64_t zone = slow->opening.near_share.millionths * (line.limits.upper.steps - line.limits.lower.steps);
    int64_t up_distance = line.limits.upper.steps - draft_price(book[EVENT_BID]).steps;
    int64_t down_distance = draft_price(book[EVENT_ASK]).steps - line.limits.lower.steps;
    bool up = (book[EVENT_FLAGS] & FLAG_BID) != 0 && up_distance * 1000000 < zone;
    bool down = (book[EVENT_FLAGS] & FLAG_ASK) != 0 && down_distance * 1000000 < zone && !line.lower_frozen;
    bool shifts_left = slow->ups + slow->downs < slow->opening.most_shifts;
    return shifts_left && line.watched && (side == SIDE_UP ? up : down);
}

static void slow_judge(SlowSession *slow, uint32_t now)
{
    for (uint32_t i = 0; i < slow->opening.line_count; i++) {
        for (int side = SIDE_UP; side <= SIDE_DOWN; side++) {
            uint32_t *start = &slow->start[side][i];
            bool pressing = slow_presses(slow, (Side)side, i);
            *start = !pressing ? NO_HOLD : *start == NO_HOLD ? now : *start;
        }
    }
}

/* Makes the shift of a side if one of its holds is due at this very second. */
static bool slow_shift(SlowSession *slow, Side side, uint32_t now, Shift *shift)
{
    for (uint32_t i = 0; i < slow->opening.line_count; i++) {
        if (slow->start[side][i] == NO_HOLD || slow->start[side][i] + slow->opening.hold.seconds != now) {
            continue;
        }
        *shift = (Shift){{now}, side, slow->opening.lines[i].id};
        *(side == SIDE_UP ? &slow->ups : &slow->downs) += 1;
        for (uint32_t k = 0; k < slow->opening.line_count; k++) {
            slow->start[side][k] = NO_HOLD;
        }
        slow_judge(slow, now);
        return true;
    }
    return false;
}

uint32_t slow_event(SlowSession *slow, const EventDraft *event, Shift shifts[MOST_SHIFTS])
{
    uint32_t count = 0;
    uint32_t time = event->fields[EVENT_TIME];
    for (uint32_t now = slow->clock + 1; now <= time && now < slow->opening.session_end.seconds; now++) {
        for (int side = SIDE_UP; side <= SIDE_DOWN; side++) {
            Shift shift;
            if (slow_shift(slow, (Side)side, now, &shift)) {
                shifts[count] = shift;
                count++;
            }
        }
    }
    for (uint32_t i = 0; i < slow->opening.line_count; i++) {
        if (event->fields[EVENT_FLAGS] != FLAG_TICK && slow->opening.lines[i].id == event->fields[EVENT_ID]) {
            slow->book[i] = *event;
        }
    }
    slow_judge(slow, time);
    slow->clock = time;
    return count;
}
