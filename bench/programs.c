/*
 * programs.c: times the proved program and the second program on the same input files, started in the same way
 * and in turn, and compares what they print. It works in the current folder.
 * usage: programs START PROVED SECOND    START is the command that starts a program
 */
#define _DEFAULT_SOURCE /* wait4 */

#include "draft.h"
#include "median.h"
#include "sample.h"

#include <fcntl.h>
#include <stdio.h>
#include <stdlib.h>
#include <string.h>
#include <sys/resource.h>
#include <sys/wait.h>
#include <unistd.h>

enum { PRINTED_BYTES = 1 << 16 };

typedef struct {
    const char *path;
    const char *output;
    double times[RUNS];
} Program;

static void fail(const char *why)
{
    fprintf(stderr, "programs: %s\n", why);
    exit(EXIT_FAILURE);
}

static void write_input(uint32_t contract_count, uint8_t *events)
{
    uint8_t table[LONGEST_TABLE];
    size_t length = sample_table(table, contract_count);
    sample_events(events, contract_count);
    FILE *file = fopen("input", "wb");
    if (file == NULL || fwrite(table, 1, length, file) != length ||
        fwrite(events, EVENT_BYTES, EVENTS, file) != EVENTS || fclose(file) != 0) {
        fail("the input was not written");
    }
}

/* In the child: never returns. */
static void start(const char *starter, const Program *program)
{
    int input = open("input", O_RDONLY);
    int output = open(program->output, O_WRONLY | O_CREAT | O_TRUNC, 0666);
    if (input >= 0 && output >= 0 && dup2(input, STDIN_FILENO) >= 0 && dup2(output, STDOUT_FILENO) >= 0) {
        execl(starter, starter, program->path, (char *)NULL);
    }
    _exit(EXIT_FAILURE);
}

static double seconds(struct timeval time)
{
    return (double)time.tv_sec + (double)time.tv_usec * 1e-6;
}

/* Processor time, its own and the kernel's for it, with what it takes to start the program. */
static double nanoseconds_an_event(const char *starter, const Program *program)
{
    struct rusage usage;
    int status;
    pid_t child = fork();
    if (child == 0) {
        start(starter, program);
    }
    if (child < 0 || wait4(child, &status, 0, &usage) != child || status != 0) {
        fail("a program did not run");
    }
    return (seconds(usage.ru_utime) + seconds(usage.ru_stime)) * 1e9 / EVENTS;
}

static size_t read_output(const Program *program, char *text)
{
    FILE *file = fopen(program->output, "rb");
    if (file == NULL) {
        fail("an output was not read");
    }
    size_t length = fread(text, 1, PRINTED_BYTES, file);
    fclose(file);
    return length;
}

static void compare(const Program *proved, const Program *second)
{
    static char one[PRINTED_BYTES];
    static char other[PRINTED_BYTES];
    size_t length = read_output(proved, one);
    if (length == 0 || length != read_output(second, other) || memcmp(one, other, length) != 0) {
        fail("the outputs differ");
    }
}

static void bench(const char *starter, uint32_t contract_count, Program *proved, Program *second)
{
    for (int run = 0; run < RUNS; run++) {
        proved->times[run] = nanoseconds_an_event(starter, proved);
        second->times[run] = nanoseconds_an_event(starter, second);
        compare(proved, second);
    }
    double ours = median(proved->times);
    double theirs = median(second->times);
    printf("%9u %11.1f %11.1f %9.2f\n", contract_count, ours, theirs, ours / theirs);
}

int main(int argument_count, char **arguments)
{
    static const uint32_t contract_counts[] = {1, 8, 32};
    if (argument_count != 4) {
        fail("usage: programs START PROVED SECOND");
    }
    Program proved = {.path = arguments[2], .output = "printed.proved"};
    Program second = {.path = arguments[3], .output = "printed.second"};
    uint8_t *events = malloc((size_t)EVENTS * EVENT_BYTES);
    if (events == NULL) {
        fail("no memory");
    }
    printf("%d events in a file, median of %d, nanoseconds an event\n", EVENTS, RUNS);
    printf("%9s %11s %11s %9s\n", "contracts", "program", "second", "ratio");
    for (size_t i = 0; i < sizeof contract_counts / sizeof contract_counts[0]; i++) {
        write_input(contract_counts[i], events);
        bench(arguments[1], contract_counts[i], &proved, &second);
    }
    free(events);
    return EXIT_SUCCESS;
}
