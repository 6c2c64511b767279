/*
 * checks.c: runs the engine of engine.h, holds its answers to what is expected, and counts.
 */
#include "checks.h"

#include "engine.h"

#include <inttypes.h>
#include <stdio.h>
#include <stdlib.h>
#include <string.h>

static int passed;
static int failed;

static bool count(bool good)
{
    passed += good;
    failed += !good;
    return good;
}

void check_shown(const char *name, int64_t seen, int64_t expected)
{
    if (!count(seen == expected)) {
        printf("failed: %s: saw %" PRId64 ", expected %" PRId64 "\n", name, seen, expected);
    }
}

void check_number(const char *name, int64_t seen, int64_t expected)
{
    if (ENGINE_IS_THIS_ONE) {
        check_shown(name, seen, expected);
    }
}

void check_text(const char *name, const char *seen, const char *expected)
{
    if (!count(strcmp(seen, expected) == 0)) {
        printf("failed: %s: saw\n%s\nexpected\n%s\n", name, seen, expected);
    }
}

bool checks_told(void)
{
    printf("%d passed, %d failed\n", passed, failed);
    return failed == 0;
}

void add_to(Text *text, const char *more)
{
    strncat(text->text, more, TEXT_BYTES - strlen(text->text) - 1);
}

Text whole_text(const uint8_t *bytes, size_t length)
{
    Text text = {""};
    if (!engine_text(bytes, length, text.text, TEXT_BYTES)) {
        printf("failed: an input was not answered\n");
        exit(EXIT_FAILURE);
    }
    return text;
}

Text table_text(const TableDraft *draft)
{
    uint8_t bytes[LONGEST_TABLE];
    return whole_text(bytes, draft_write_table(draft, bytes));
}

void check_table_refused(const char *name, const TableDraft *draft, Refusal reason, uint32_t line)
{
    char expected[32];
    snprintf(expected, sizeof expected, "T %d %" PRIu32 "\n", (int)reason, line);
    check_text(name, table_text(draft).text, expected);
}

void check_field_refused(const char *name, const TableDraft *draft, uint32_t line, uint32_t field)
{
    char expected[32];
    snprintf(expected, sizeof expected, "T 5 %" PRIu32 " %" PRIu32 "\n", line, field);
    check_text(name, table_text(draft).text, expected);
}

void check_table_opens(const char *name, const TableDraft *draft)
{
    check_shown(name, table_text(draft).text[0] == 'T', false);
}

Course started(const TableDraft *draft)
{
    Course course = {.length = 0};
    course.length = draft_write_table(draft, course.bytes);
    if (corridor_open(course.bytes, course.length, &course.session).kind == REFUSED) {
        printf("failed: a table of the figures was refused\n");
        exit(EXIT_FAILURE);
    }
    return course;
}

void give(Course *course, const EventDraft *event)
{
    uint8_t *bytes = course->bytes + course->length;
    Session before;
    EventAnswer answer;
    memcpy(&before, &course->session, sizeof before);
    course->length += draft_write_event(event, bytes);
    corridor_event(&course->session, bytes, EVENT_BYTES, &answer);
    if (answer.kind == REFUSED) {
        check_number("a refused event changes nothing", memcmp(&before, &course->session, sizeof before), 0);
    }
}

/* Where the closing lines begin, the last ones of an answer. */
static char *closing_lines(char *text, uint32_t lines)
{
    char *start = text + strlen(text);
    while (start > text && !(start[-1] == '\n' && lines-- == 0)) {
        start--;
    }
    return start;
}

void check_events(const char *name, Course *course, const char *expected, const EventDraft *events, size_t event_count)
{
    for (size_t i = 0; i < event_count; i++) {
        give(course, &events[i]);
    }
    add_to(&course->answers, expected);
    Text seen = whole_text(course->bytes, course->length);
    *closing_lines(seen.text, course->session.line_count) = '\0';
    check_text(name, seen.text, course->answers.text);
}

void check_session(const char *name, const TableDraft *draft, const char *expected, const EventDraft *events,
                   size_t event_count)
{
    Course course = started(draft);
    check_events(name, &course, expected, events, event_count);
}

void check_event_refused(const char *name, Course *course, EventDraft event, Refusal reason)
{
    char expected[32];
    snprintf(expected, sizeof expected, "R %d\n", (int)reason);
    check_events(name, course, expected, &event, 1);
}

Closing closing_of(const Course *course, uint32_t id)
{
    Text seen = whole_text(course->bytes, course->length);
    const char *line = closing_lines(seen.text, course->session.line_count);
    uint32_t found;
    Closing closing;
    int64_t *n = closing.numbers;
    const char *form = "%" SCNu32 " %" SCNd64 " %" SCNd64 " %" SCNd64 " %" SCNd64;
    while (sscanf(line, form, &found, n, n + 1, n + 2, n + 3) == 5) {
        if (found == id) {
            return closing;
        }
        line = strchr(line, '\n') + 1;
    }
    printf("failed: no closing line of %" PRIu32 "\n", id);
    exit(EXIT_FAILURE);
}

void check_limits(const char *name, const Course *course, uint32_t id, int64_t lower, int64_t upper)
{
    Closing closing = closing_of(course, id);
    check_shown(name, closing.numbers[0], lower);
    check_shown(name, closing.numbers[1], upper);
}

void check_interest(const char *name, const Course *course, uint32_t id, int64_t lower, int64_t upper)
{
    Closing closing = closing_of(course, id);
    check_shown(name, closing.numbers[2], lower);
    check_shown(name, closing.numbers[3], upper);
}

void check_program(const char *name, const TableDraft *draft, size_t tail, const char *expected, const EventDraft *events,
                   size_t event_count)
{
    uint8_t bytes[INPUT_BYTES] = {0};
    size_t length = draft_write_table(draft, bytes);
    for (size_t i = 0; i < event_count; i++) {
        length += draft_write_event(&events[i], bytes + length);
    }
    check_text(name, whole_text(bytes, length + tail).text, expected);
}

Text every_minute(int first, int shifts, const char *side_and_id)
{
    Text text = {""};
    for (int i = 0; i < shifts; i++) {
        char line[32];
        snprintf(line, sizeof line, "%d %s\n", first + 60 * i, side_and_id);
        add_to(&text, line);
    }
    return text;
}
