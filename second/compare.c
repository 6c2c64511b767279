/*
 * compare.c: the program "compare". It gives the same inputs to this engine and to the proved one, which is
 * linked as a library, and holds their answers together. It also adds free events to each input (thickened.h) and
 * holds each engine to its own answers without them.
 *
 *   compare gate FILE..   generated inputs of a fixed seed, the files, and the inputs at all whole thousandths and
 *                         beside them (sweep.h). Fails at any difference, and where too few inputs brought something
 *                         about.
 *   compare long SEED     generated inputs without end. Stops at the first difference and keeps its input.
 *
 * What is tried on an input depends on its bytes alone, so that a kept one shows its difference again.
 */
#include "generate.h"
#include "random.h"
#include "rows.h"
#include "sweep.h"
#include "tally.h"
#include "text.h"
#include "thickened.h"

#include "sundewcup.h"

#include <inttypes.h>
#include <stdio.h>
#include <stdlib.h>
#include <string.h>

enum {
    GATE_INPUTS = 30000,
    GATE_EVENTS = 2000000,
    GATE_INPUTS_FOR_EACH_COUNT = 100,
    PROGRESS_INPUTS = 20000,
    MOST_NUMBERS = ROWS_ROOM(LONGEST_THICKENED),
    GUARD_NUMBERS = 64
};

static const uint64_t GATE_SEED = 1;

typedef enum {
    COMPARED_ROWS,
    COMPARED_TEXT,
    COMPARED_PAST_ROWS,
    COMPARED_SHORT_ROOM,
    COMPARED_OTHER_PARTS,
    COMPARED_THICKENED_ROWS,
    COMPARED_THICKENED_LIBRARY,
    COMPARED_THICKENED_SECOND,
    COMPARED_INPUT,
    COMPARED_SWEEP,
    COMPARISONS
} Comparison;

static const char *const NAMES[COMPARISONS] = {
    [COMPARED_ROWS] = "rows",
    [COMPARED_TEXT] = "text of the rows and of the program",
    [COMPARED_PAST_ROWS] = "numbers past the rows untouched",
    [COMPARED_SHORT_ROOM] = "too little room said, nothing written",
    [COMPARED_OTHER_PARTS] = "rows where the table ends elsewhere",
    [COMPARED_THICKENED_ROWS] = "rows with free events added",
    [COMPARED_THICKENED_LIBRARY] = "shift and closing rows with and without free events",
    [COMPARED_THICKENED_SECOND] = "second engine's shift lines and session with and without free events",
    [COMPARED_INPUT] = "input untouched",
    [COMPARED_SWEEP] = "rows at all whole thousandths and beside them",
};

/* The numbers that an engine wrote. The guards lie beyond the longest room. */
typedef struct {
    size_t count;
    int64_t numbers[MOST_NUMBERS + GUARD_NUMBERS];
} Answer;

/* One input in its parts, and how both engines answered it. */
typedef struct {
    Input input;
    Answer second;
    Answer library;
} Trial;

/* All that was tried on one input: in the program's parts, with a table that ends elsewhere, and with free events added; and
   what it brought about. */
typedef struct {
    Trial program_parts;
    Trial other_parts;
    Trial thickened_parts;
    Thickened thickened;
    bool differs[COMPARISONS];
    Tally tally;
} Compared;

/* All that was seen over many inputs. */
typedef struct {
    uint64_t inputs;
    uint64_t differ[COMPARISONS];
    TallyTotal total;
} Result;

/* ---- Running both ---- */

/* No row holds such a number, and each place has its own. */
static int64_t mark(size_t place)
{
    return INT64_MIN + (int64_t)place;
}

static void run_library(const Input *input, Answer *answer, size_t room)
{
    for (size_t i = 0; i < MOST_NUMBERS + GUARD_NUMBERS; i++) {
        answer->numbers[i] = mark(i);
    }
    answer->count = sundewcup_run(input->table, input->table_length, input->events, input->events_length,
                                  answer->numbers, room);
}

static void run_both(Trial *trial, Input input, size_t room)
{
    trial->input = input;
    trial->second.count = rows_run(&input, trial->second.numbers, room);
    run_library(&input, &trial->library, room);
}

/* ---- Comparing ---- */

static bool same_rows(const Trial *trial)
{
    size_t count = trial->second.count;
    return count == trial->library.count
        && memcmp(trial->second.numbers, trial->library.numbers, count * sizeof(int64_t)) == 0;
}

/* How many of the numbers may be read, since a wrong library may say any count. */
static size_t readable(const Answer *answer)
{
    return answer->count < MOST_NUMBERS ? answer->count : MOST_NUMBERS;
}

static bool untouched_from(const Answer *answer, size_t first)
{
    for (size_t i = first; i < MOST_NUMBERS + GUARD_NUMBERS; i++) {
        if (answer->numbers[i] != mark(i)) {
            return false;
        }
    }
    return true;
}

static bool refuses_short_room(const Input *input)
{
    static Answer answer;
    size_t room = ROWS_ROOM(input->events_length);
    const size_t short_rooms[] = {0, room - 1};
    for (size_t i = 0; i < sizeof short_rooms / sizeof short_rooms[0]; i++) {
        run_library(input, &answer, short_rooms[i]);
        if (answer.count != room || !untouched_from(&answer, 0)) {
            return false;
        }
    }
    return true;
}

/* Lets the table end elsewhere: a byte sooner or later, at the input's end, or anywhere. */
static Input other_parts(const uint8_t *bytes, size_t length, Random *random)
{
    size_t end = input_of(bytes, length).table_length;
    switch (between(random, 0, 3)) {
    case 0: end -= end > 0; break;
    case 1: end += end < length; break;
    case 2: end = length; break;
    default: end = (size_t)between(random, 0, (int64_t)length); break;
    }
    return (Input){bytes, end, bytes + end, length - end};
}

/* Tries the input with free events added. With other parts there is nothing to add to: a table opens there only where they
   happen to be the program's. */
static void compare_thickened(Compared *compared, const Input *input)
{
    const Answer *without = &compared->program_parts.library;
    Trial *trial = &compared->thickened_parts;
    const Answer *with = &trial->library;
    Thickened *thickened = &compared->thickened;
    thicken(input, thickened);
    run_both(trial, thickened_input(input, thickened), MOST_NUMBERS);
    compared->differs[COMPARED_THICKENED_ROWS] = !same_rows(trial) || !untouched_from(with, with->count);
    compared->differs[COMPARED_THICKENED_LIBRARY]
        = !rows_same_unrefused(without->numbers, readable(without), with->numbers, readable(with));
    compared->differs[COMPARED_THICKENED_SECOND] = !thickened_agrees(input, thickened, &compared->tally);
}

/* Tries all on one input; says whether there was no difference. */
static bool compare(Compared *compared, const uint8_t *bytes, size_t length)
{
    static uint8_t before[LONGEST_INPUT];
    Trial *trial = &compared->program_parts;
    Trial *other = &compared->other_parts;
    bool *differs = compared->differs;
    Input input = input_of(bytes, length);
    Random random = {0};
    fold(&random, bytes, length);
    memcpy(before, bytes, length);
    /* About half of the inputs are lent more room than they need. */
    run_both(trial, input, chance(&random, 50) ? ROWS_ROOM(input.events_length) : MOST_NUMBERS);
    run_both(other, other_parts(bytes, length, &random), MOST_NUMBERS);
    differs[COMPARED_ROWS] = !same_rows(trial);
    differs[COMPARED_TEXT] = !text_same(trial->library.numbers, trial->library.count, bytes, length);
    differs[COMPARED_PAST_ROWS] = !untouched_from(&trial->library, trial->library.count);
    differs[COMPARED_SHORT_ROOM] = !refuses_short_room(&input);
    differs[COMPARED_OTHER_PARTS] = !same_rows(other) || !untouched_from(&other->library, other->library.count);
    compared->tally = tally_input(&input);
    compare_thickened(compared, &input);
    differs[COMPARED_INPUT] = memcmp(before, bytes, length) != 0;
    bool alike = true;
    for (int i = 0; i < COMPARISONS; i++) {
        alike = alike && !differs[i];
    }
    return alike;
}

/* ---- Telling a difference ---- */

static void print_row(const char *whose, const Answer *answer, size_t start)
{
    printf("    %s:", whose);
    for (size_t i = start; i < start + ROW_NUMBERS && i < readable(answer); i++) {
        printf(" %" PRId64, answer->numbers[i]);
    }
    printf(" (%zu numbers in all)\n", answer->count);
}

static void tell_rows(const Trial *trial)
{
    size_t place = 0;
    while (place < trial->second.count && trial->second.numbers[place] == trial->library.numbers[place]) {
        place++;
    }
    printf("    table of %zu bytes, events of %zu bytes: row %zu, number %zu\n", trial->input.table_length,
           trial->input.events_length, place / ROW_NUMBERS + 1, place % ROW_NUMBERS + 1);
    print_row("second engine", &trial->second, place - place % ROW_NUMBERS);
    print_row("library", &trial->library, place - place % ROW_NUMBERS);
}

/* The first rows in which an engine's answers without free events and with them differ. */
static void tell_thickened(const char *whose, const Answer *without, const Answer *with)
{
    RowPlaces places = rows_first_difference(without->numbers, readable(without), with->numbers, readable(with));
    if (places.one == readable(without) && places.other == readable(with)) {
        printf("    %s: no shift or closing row differs, so an added event was refused or a session differs\n", whose);
        return;
    }
    printf("    %s: row %zu without free events, row %zu with them\n", whose, places.one / ROW_NUMBERS + 1,
           places.other / ROW_NUMBERS + 1);
    print_row("without", without, places.one);
    print_row("with", with, places.other);
}

static void tell_comparison(const Compared *compared, Comparison comparison)
{
    const Trial *without = &compared->program_parts;
    const Trial *with = &compared->thickened_parts;
    printf("  different: %s\n", NAMES[comparison]);
    switch (comparison) {
    case COMPARED_ROWS: tell_rows(without); break;
    case COMPARED_OTHER_PARTS: tell_rows(&compared->other_parts); break;
    case COMPARED_THICKENED_ROWS: tell_rows(with); break;
    case COMPARED_THICKENED_LIBRARY: tell_thickened("library", &without->library, &with->library); break;
    case COMPARED_THICKENED_SECOND: tell_thickened("second engine", &without->second, &with->second); break;
    default: break;
    }
}

static void tell(const Compared *compared)
{
    for (int i = 0; i < COMPARISONS; i++) {
        if (compared->differs[i]) {
            tell_comparison(compared, (Comparison)i);
        }
    }
}

/* ---- Many inputs ---- */

/* Takes in one more input; says whether there was no difference. Only the first difference is told. */
static bool take(Result *result, const uint8_t *bytes, size_t length, const char *source, uint64_t number)
{
    static Compared compared;
    static bool told;
    bool alike = compare(&compared, bytes, length);
    result->inputs++;
    tally_add(&result->total, &compared.tally);
    for (int i = 0; i < COMPARISONS; i++) {
        result->differ[i] += compared.differs[i];
    }
    if (!alike && !told) {
        told = true;
        printf("difference at %s, number %" PRIu64 "\n", source, number);
        tell(&compared);
    }
    return alike;
}

static void take_file(Result *result, const char *name, uint64_t number)
{
    static uint8_t bytes[LONGEST_INPUT + 1];
    FILE *file = fopen(name, "rb");
    size_t length = file == NULL ? 0 : fread(bytes, 1, sizeof bytes, file);
    if (file == NULL || ferror(file) || length > LONGEST_INPUT) {
        printf("%s: not readable or too long\n", name);
        exit(EXIT_FAILURE);
    }
    fclose(file);
    take(result, bytes, length, name, number);
}

/* ---- The sweep ---- */

/* Only the first difference is told. An answer that is short on both sides is one too, since it shows nothing. */
static void take_sweep(Result *result)
{
    static Trial trial;
    uint8_t bytes[SWEEP_BYTES];
    for (int number = 0; number < SWEEP_INPUTS; number++) {
        Billionths exponent = sweep_input(number, bytes);
        run_both(&trial, input_of(bytes, SWEEP_BYTES), MOST_NUMBERS);
        if (same_rows(&trial) && trial.second.count == SWEEP_NUMBERS) {
            continue;
        }
        if (result->differ[COMPARED_SWEEP] == 0) {
            printf("difference at exponent %" PRId64 " of the sweep\n", exponent.billionths);
            tell_rows(&trial);
        }
        result->differ[COMPARED_SWEEP]++;
    }
}

/* ---- The two forms ---- */

static bool good_count(const char *name, uint64_t seen, uint64_t least, uint64_t most)
{
    bool good = least <= seen && seen <= most;
    if (!good) {
        printf("failed: %s: %" PRIu64 "\n", name, seen);
    }
    return good;
}

/* Each comparison over all inputs counts for one, and so does each thing that enough inputs brought about. */
static bool judge(const Result *result)
{
    int checks = COMPARISONS + (TALLY_COUNTS - TALLY_FIRST) + 1;
    int passed = 0;
    for (int i = 0; i < COMPARISONS; i++) {
        passed += good_count(NAMES[i], result->differ[i], 0, 0);
    }
    passed += tally_enough(&result->total, TALLY_FIRST, GATE_INPUTS, GATE_INPUTS_FOR_EACH_COUNT);
    passed += good_count("events in all", result->total.times[TALLY_EVENTS], GATE_EVENTS, UINT64_MAX);
    printf("%d passed, %d failed\n", passed, checks - passed);
    return passed == checks;
}

static bool run_gate(int file_count, char **files)
{
    static uint8_t bytes[LONGEST_INPUT];
    static Result result;
    for (uint64_t number = 0; number < GATE_INPUTS; number++) {
        take(&result, bytes, generate_input(GATE_SEED, number, bytes), "the gate's seed", number);
    }
    for (int i = 0; i < file_count; i++) {
        take_file(&result, files[i], (uint64_t)i);
    }
    take_sweep(&result);
    tally_print(&result.total, TALLY_FIRST);
    printf("%" PRIu64 " inputs compared, %d of them files; %d more in the sweep\n", result.inputs, file_count,
           SWEEP_INPUTS);
    return judge(&result);
}

/* Makes the input once more, since a library that writes to its input would have spoiled it. */
static void keep_input(uint64_t seed, uint64_t number)
{
    static uint8_t bytes[LONGEST_INPUT];
    size_t length = generate_input(seed, number, bytes);
    char name[64];
    snprintf(name, sizeof name, "difference-%" PRIu64 "-%" PRIu64, seed, number);
    FILE *file = fopen(name, "wb");
    bool kept = file != NULL && fwrite(bytes, 1, length, file) == length;
    kept = file != NULL && fclose(file) == 0 && kept;
    printf("  input %s %s\n", kept ? "kept in" : "could not be written to", name);
}

/* Comes to an end only at a difference. */
static void run_long(uint64_t seed)
{
    static uint8_t bytes[LONGEST_INPUT];
    static Result result;
    for (uint64_t number = 0;; number++) {
        if (!take(&result, bytes, generate_input(seed, number, bytes), "this seed", number)) {
            keep_input(seed, number);
            return;
        }
        if (result.inputs % PROGRESS_INPUTS == 0) {
            printf("%" PRIu64 " inputs, %" PRIu64 " events, no difference\n", result.inputs,
                   result.total.times[TALLY_EVENTS]);
            fflush(stdout);
        }
    }
}

int main(int argument_count, char **arguments)
{
    if (argument_count >= 2 && strcmp(arguments[1], "gate") == 0) {
        return run_gate(argument_count - 2, arguments + 2) ? EXIT_SUCCESS : EXIT_FAILURE;
    }
    if (argument_count == 3 && strcmp(arguments[1], "long") == 0) {
        run_long(strtoull(arguments[2], NULL, 10));
    } else {
        fputs("usage: compare gate FILE..\n       compare long SEED\n", stderr);
    }
    return EXIT_FAILURE;
}
