/*
 * bench.c: times the proved engine, linked as a library, and the second engine on the same events in memory. The proved
 * engine is timed three times: a whole session in one call, and as a host has it, one event a call, without and with the
 * test of its memory. All write the same rows into the same kind of buffer, in turn, and the rows are compared. Then both
 * open a table with no events, once where every exponent is a whole thousandth, which the proved engine reads off a sheet,
 * and once where none is but the first.
 */
#include "median.h"
#include "rows.h"
#include "sample.h"

#include "sundewcup.h"
#include "sundewcup_host.h"

#include <stdio.h>
#include <stdlib.h>
#include <string.h>
#include <time.h>

#define NUMBERS ROWS_ROOM((size_t)EVENTS *EVENT_BYTES)

typedef size_t Engine(const Input *input, int64_t *out, size_t out_length);
typedef int64_t TakesEvent(sundewcup_session *, const uint8_t *, size_t, int64_t *, size_t *);

static size_t library_run(const Input *input, int64_t *out, size_t out_length)
{
    return sundewcup_run(input->table, input->table_length, input->events, input->events_length, out, out_length);
}

static size_t by_event(TakesEvent *take, const Input *input, int64_t *out, size_t out_length)
{
    static sundewcup_session session;
    int64_t line;
    int64_t field;
    size_t count = 0;
    if (sundewcup_open(&session, input->table, input->table_length, &line, &field) != 0) {
        return 0;
    }
    for (size_t at = 0; at < input->events_length; at += EVENT_BYTES) {
        size_t made;
        int64_t refused = take(&session, input->events + at, EVENT_BYTES, out + count, &made);
        if (refused != 0) {
            const int64_t row[ROW_NUMBERS] = {ROW_REFUSED_EVENT, refused, (int64_t)(at / EVENT_BYTES) + 1};
            memcpy(out + count, row, sizeof row);
            made = 1;
        }
        count += made * ROW_NUMBERS;
    }
    return count + sundewcup_close(&session, out + count, out_length - count);
}

static size_t unchecked_run(const Input *input, int64_t *out, size_t out_length)
{
    return by_event(sundewcup_event_unchecked, input, out, out_length);
}

static size_t checked_run(const Input *input, int64_t *out, size_t out_length)
{
    return by_event(sundewcup_event, input, out, out_length);
}

/* Processor time, so that other work of the machine counts as little as it can. */
static double nanoseconds_an_event(Engine *engine, const Input *input, int64_t *out, size_t *count)
{
    clock_t start = clock();
    *count = engine(input, out, NUMBERS);
    return (double)(clock() - start) * (1e9 / CLOCKS_PER_SEC) / EVENTS;
}

/* With no events a run is an opening and the closing rows. */
static double nanoseconds_an_opening(Engine *engine, const Input *input, int64_t *out, size_t *count)
{
    enum { OPENINGS = 20000 };
    clock_t start = clock();
    for (int i = 0; i < OPENINGS; i++) {
        *count = engine(input, out, NUMBERS);
    }
    return (double)(clock() - start) * (1e9 / CLOCKS_PER_SEC) / OPENINGS;
}

/* What the host's times are held to: a session of some 4 kB that goes out of the memory and back would cost a copy each way. */
static double nanoseconds_a_copy(void)
{
    enum { BYTES = 4096, COPIES = 1000000 };
    static volatile unsigned char from[BYTES];
    static volatile unsigned char to[BYTES];
    clock_t start = clock();
    for (int i = 0; i < COPIES; i++) {
        from[i % BYTES] = (unsigned char)i;
        memcpy((void *)(uintptr_t)to, (const void *)(uintptr_t)from, BYTES);
    }
    return (double)(clock() - start) * (1e9 / CLOCKS_PER_SEC) / COPIES;
}

static void hold_together(const int64_t *library_out, size_t library_count, const int64_t *second_out, size_t second_count)
{
    if (library_count != second_count || memcmp(library_out, second_out, second_count * sizeof(int64_t)) != 0) {
        puts("the rows differ");
        exit(EXIT_FAILURE);
    }
}

static void bench(uint32_t contract_count, uint8_t *events, int64_t *library_out, int64_t *second_out)
{
    uint8_t table[LONGEST_TABLE];
    double library_times[RUNS];
    double unchecked_times[RUNS];
    double checked_times[RUNS];
    double second_times[RUNS];
    sample_events(events, contract_count);
    Input input = {table, sample_table(table, contract_count), events, (size_t)EVENTS * EVENT_BYTES};
    for (int run = 0; run < RUNS; run++) {
        size_t library_count;
        size_t second_count;
        library_times[run] = nanoseconds_an_event(library_run, &input, library_out, &library_count);
        second_times[run] = nanoseconds_an_event(rows_run, &input, second_out, &second_count);
        hold_together(library_out, library_count, second_out, second_count);
        unchecked_times[run] = nanoseconds_an_event(unchecked_run, &input, library_out, &library_count);
        hold_together(library_out, library_count, second_out, second_count);
        checked_times[run] = nanoseconds_an_event(checked_run, &input, library_out, &library_count);
        hold_together(library_out, library_count, second_out, second_count);
        if (run == 0) {
            printf("%9u %9zu", contract_count, second_count / ROW_NUMBERS - contract_count);
        }
    }
    double library = median(library_times);
    double second = median(second_times);
    printf(" %11.1f %11.1f %9.2f %11.1f %11.1f\n", library, second, library / second, median(unchecked_times),
           median(checked_times));
}

static void bench_opening(const char *exponents, bool whole, int64_t *library_out, int64_t *second_out)
{
    uint8_t table[LONGEST_TABLE];
    double library_times[RUNS];
    double second_times[RUNS];
    Input input = {table, sample_opening(table, MOST_LINES, whole), NULL, 0};
    for (int run = 0; run < RUNS; run++) {
        size_t library_count;
        size_t second_count;
        library_times[run] = nanoseconds_an_opening(library_run, &input, library_out, &library_count);
        second_times[run] = nanoseconds_an_opening(rows_run, &input, second_out, &second_count);
        hold_together(library_out, library_count, second_out, second_count);
    }
    double library = median(library_times);
    double second = median(second_times);
    printf("%19s %11.0f %11.0f %9.2f\n", exponents, library, second, library / second);
}

int main(void)
{
    static const uint32_t contract_counts[] = {1, 8, 32};
    uint8_t *events = malloc((size_t)EVENTS * EVENT_BYTES);
    int64_t *library_out = malloc(NUMBERS * sizeof(int64_t));
    int64_t *second_out = malloc(NUMBERS * sizeof(int64_t));
    if (events == NULL || library_out == NULL || second_out == NULL) {
        puts("no memory");
        return EXIT_FAILURE;
    }
    printf("%d events, median of %d, nanoseconds an event; a copy of 4096 bytes: %.1f\n", EVENTS, RUNS, nanoseconds_a_copy());
    printf("%9s %9s %11s %11s %9s %11s %11s\n", "contracts", "shifts", "library", "second", "ratio", "unchecked", "by event");
    for (size_t i = 0; i < sizeof contract_counts / sizeof contract_counts[0]; i++) {
        bench(contract_counts[i], events, library_out, second_out);
    }
    printf("a table of %d contracts opened and closed, median of %d, nanoseconds\n", MOST_LINES, RUNS);
    printf("%19s %11s %11s %9s\n", "exponents", "library", "second", "ratio");
    bench_opening("whole thousandths", true, library_out, second_out);
    bench_opening("others", false, library_out, second_out);
    free(events);
    free(library_out);
    free(second_out);
    return EXIT_SUCCESS;
}
