/*
 * gate.c: a pre-trade gate around the proved engine. It opens a morning table, takes events from the same file, and turns
 * away an order outside the corridor, with the limit that it fails.
 *
 *   gate FILE ID PRICE     an input as ./session takes it; an order for the contract ID at PRICE, once all events are taken
 */
#include "sundewcup_host.h"

#include <stdio.h>
#include <stdlib.h>

/* The counts in its header say where the table ends: contracts of 40 bytes, growth keys of 8. */
static size_t read_table(FILE *file, uint8_t table[1448])
{
    size_t length = fread(table, 1, 40, file);
    size_t rest = length < 40 || table[4] > 32 || table[12] > 16 ? 0 : 40 * (size_t)table[4] + 8 * (size_t)table[12];
    return length + fread(table + length, 1, rest, file);
}

/* A field is named with 5 alone. The id has a refusal of its own, so its place is never named. */
static void tell_refused(long long refused, long long line, long long field)
{
    static const char *const names[] = {"", "settlement price", "spot", "least price", "rate of level 1", "rate of level 2",
                                        "rate of level 3", "width share", "days left", "id", "flags"};
    printf("table refused with %lld, line %lld", refused, line);
    if (field != 0) {
        printf(", field %lld (%s)", field, names[field]);
    }
    puts("");
}

static void take_events(FILE *file, sundewcup_session *session)
{
    uint8_t event[20];
    for (size_t length; (length = fread(event, 1, sizeof event, file)) > 0;) {
        int64_t shifts[SUNDEWCUP_SHIFT_NUMBERS];
        size_t made;
        long long refused = sundewcup_event(session, event, length, shifts, &made);
        if (refused != 0) {
            printf("event refused with %lld\n", refused);
        }
        for (const int64_t *row = shifts; row < shifts + SUNDEWCUP_ROW_NUMBERS * made; row += SUNDEWCUP_ROW_NUMBERS) {
            printf("second %d: corridor %s, called by %u\n", (int)row[1], row[2] == 0 ? "up" : "down", (unsigned)row[3]);
        }
    }
}

static int decide(const sundewcup_session *session, uint32_t id, long long price)
{
    int64_t limits[3];
    long long refused = sundewcup_limits(session, id, limits), place = sundewcup_place(session, id, price);
    if (refused != 0) {
        printf("order turned away: refused with %lld\n", refused);
    } else if (place == SUNDEWCUP_INSIDE) {
        printf("order passed: %lld lies within %lld and %lld\n", price, (long long)limits[0], (long long)limits[1]);
    } else if (place == SUNDEWCUP_BELOW) {
        printf("order turned away: %lld is below the lower limit %lld\n", price, (long long)limits[0]);
    } else {
        printf("order turned away: %lld is above the upper limit %lld\n", price, (long long)limits[1]);
    }
    return refused == 0 && place == SUNDEWCUP_INSIDE ? EXIT_SUCCESS : EXIT_FAILURE;
}

int main(int count, char **words)
{
    static sundewcup_session session;
    uint8_t table[1448];
    int64_t line, field;
    FILE *file = count == 4 ? fopen(words[1], "rb") : NULL;
    if (file == NULL) {
        puts("usage: gate FILE ID PRICE");
        return 2;
    }
    long long refused = sundewcup_open(&session, table, read_table(file, table), &line, &field);
    if (refused != 0) {
        tell_refused(refused, line, field);
        return 2;
    }
    take_events(file, &session);
    fclose(file);
    return decide(&session, (uint32_t)strtoul(words[2], NULL, 10), strtoll(words[3], NULL, 10));
}
