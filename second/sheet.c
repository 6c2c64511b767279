/*
 * sheet.c: the program "sheet PAGE". It reads the desk's page of growth factors and holds every factor on it to this
 * engine, which has no table and works all of them out. After some prose the page has two sheets, and
 * nothing else:
 *
 *   ## Up
 *                                                     an empty line
 *   ```
 *                 +0           +1 ..           +9
 *     0  1.000000000  1.001000520 ..  1.009040641     the thousandth at the margin, and ten factors; with 500 one
 *    ..
 *   ```
 *                                                     an empty line
 *   ## Down                                           and all of it once more
 *
 * Each factor counts for one, and so do the form of the page and the number of its right factors. What is not of that form
 * is told and ends the reading, since no factor after it would have a certain place.
 *
 * Then it damages copies of the page. Each has to be refused, since a reading that takes what is wrong says nothing of a
 * page that it takes.
 */
#include "checks.h"
#include "thousandths.h"

#include <inttypes.h>
#include <stdio.h>
#include <stdlib.h>
#include <string.h>

enum {
    PAGE_BYTES = 65536,
    FACTORS = SIDES * (LAST_THOUSANDTH + 1),
    FACTORS_IN_LINE = 10,
    MARGIN_BYTES = 3,
    FACTOR_BYTES = 13
};

static const int64_t MILLION = 1000000;
static const int64_t BILLION = 1000000000;

static const char *const NAMES[SIDES] = {[SIDE_UP] = "Up", [SIDE_DOWN] = "Down"};
static const char *const HEADINGS[SIDES] = {[SIDE_UP] = "## Up", [SIDE_DOWN] = "## Down"};

static const char FENCE[] = "```";
static const char HEAD[] = "   "
    "           +0           +1           +2           +3           +4"
    "           +5           +6           +7           +8           +9";

/* Its first end of a line is for a page whose last line has none. */
static const char ADDED[] = "\n1.000000000\n";

/* What is left of a page, and how many factors so far are right. Of the page given each factor is a check, and what is
   wrong is told; of a damaged copy nothing is. */
typedef struct {
    char *rest;
    bool given;
    int right_factors;
} Reading;

static Billionths factor_at(Side side, int thousandth)
{
    Billionths up_factor = corridor_up_factor((Billionths){thousandth * MILLION});
    return side == SIDE_UP ? up_factor : corridor_down_factor(up_factor);
}

/* Takes the next line off what is left of the page, without its end; NULL where nothing is left. */
static const char *take_line(Reading *reading)
{
    char *line = reading->rest;
    size_t length = strcspn(line, "\n");
    if (*line == '\0') {
        return NULL;
    }
    reading->rest += length + (line[length] == '\n');
    line[length] = '\0';
    return line;
}

static bool tell(const Reading *reading, Side side, const char *wanted, const char *line)
{
    if (reading->given) {
        printf("failed: sheet %s: expected %s, saw %s%s\n", NAMES[side], wanted,
               line == NULL ? "the end" : "the line\n", line == NULL ? "" : line);
    }
    return false;
}

static bool take_exactly(Reading *reading, Side side, const char *wanted)
{
    const char *line = take_line(reading);
    return (line != NULL && strcmp(line, wanted) == 0)
        || tell(reading, side, *wanted == '\0' ? "an empty line" : wanted, line);
}

/* A factor as text, so that one in another form than digit, point and nine digits is a wrong one. */
static void check_factor(Reading *reading, Side side, int thousandth, const char *text)
{
    Billionths factor = factor_at(side, thousandth);
    char name[64];
    char seen[FACTOR_BYTES + 1] = "";
    char expected[64];
    snprintf(name, sizeof name, "sheet %s, exponent 0.%03d", NAMES[side], thousandth);
    snprintf(expected, sizeof expected, "%3" PRId64 ".%09" PRId64, factor.billionths / BILLION,
             factor.billionths % BILLION);
    memcpy(seen, text, FACTOR_BYTES);
    reading->right_factors += strcmp(seen, expected) == 0;
    if (reading->given) {
        check_text(name, seen, expected);
    }
}

/* The line that begins with the factor of this thousandth. */
static bool take_factors(Reading *reading, Side side, int first)
{
    int count = first == LAST_THOUSANDTH ? 1 : FACTORS_IN_LINE;
    const char *line = take_line(reading);
    char margin[16];
    char wanted[96];
    snprintf(margin, sizeof margin, "%*d", MARGIN_BYTES, first);
    snprintf(wanted, sizeof wanted, "the line from exponent 0.%03d on (margin %d, factors %d)", first, first, count);
    if (line == NULL || strlen(line) != (size_t)(MARGIN_BYTES + count * FACTOR_BYTES)
        || strncmp(line, margin, MARGIN_BYTES) != 0) {
        return tell(reading, side, wanted, line);
    }
    for (int i = 0; i < count; i++) {
        check_factor(reading, side, first + i, line + MARGIN_BYTES + i * FACTOR_BYTES);
    }
    return true;
}

/* All that comes after the heading of a sheet. */
static bool take_sheet(Reading *reading, Side side)
{
    bool good = take_exactly(reading, side, "") && take_exactly(reading, side, FENCE) && take_exactly(reading, side, HEAD);
    for (int first = 0; good && first <= LAST_THOUSANDTH; first += FACTORS_IN_LINE) {
        good = take_factors(reading, side, first);
    }
    return good && take_exactly(reading, side, FENCE);
}

static bool take_prose(Reading *reading)
{
    const char *line = take_line(reading);
    while (line != NULL && strcmp(line, HEADINGS[SIDE_UP]) != 0) {
        line = take_line(reading);
    }
    return line != NULL || tell(reading, SIDE_UP, HEADINGS[SIDE_UP], line);
}

static bool take_end(Reading *reading)
{
    const char *line = take_line(reading);
    return line == NULL || tell(reading, SIDE_DOWN, "nothing after it", line);
}

/* Says whether the page is of the form. */
static bool take_page(Reading *reading)
{
    return take_prose(reading) && take_sheet(reading, SIDE_UP) && take_exactly(reading, SIDE_DOWN, "")
        && take_exactly(reading, SIDE_DOWN, HEADINGS[SIDE_DOWN]) && take_sheet(reading, SIDE_DOWN) && take_end(reading);
}

/* ---- Damaged copies of a page that is right ---- */

/* Where the line begins that has this thousandth at its margin. */
static char *line_of(char *page, Side side, int first)
{
    char margin[16];
    snprintf(margin, sizeof margin, "\n%*d ", MARGIN_BYTES, first);
    return strstr(strstr(page, HEADINGS[side]), margin) + 1;
}

/* Makes another digit of it, one more or one less. */
static void change_digit(char *digit)
{
    *digit ^= 1;
}

static void change_up_factor(char *page)
{
    change_digit(line_of(page, SIDE_UP, 100) + MARGIN_BYTES + FACTOR_BYTES - 1);
}

/* The last one of its line. */
static void change_down_factor(char *page)
{
    change_digit(line_of(page, SIDE_DOWN, 490) + MARGIN_BYTES + FACTORS_IN_LINE * FACTOR_BYTES - 1);
}

/* The last digit of the line over the factors. */
static void change_head(char *page)
{
    change_digit(strstr(page, HEAD) + strlen(HEAD) - 1);
}

static void change_margin(char *page)
{
    change_digit(line_of(page, SIDE_DOWN, 250) + MARGIN_BYTES - 1);
}

static void drop_line(char *page)
{
    char *line = line_of(page, SIDE_UP, 250);
    const char *next = strchr(line, '\n') + 1;
    memmove(line, next, strlen(next) + 1);
}

static void drop_sheet(char *page)
{
    *strstr(page, HEADINGS[SIDE_DOWN]) = '\0';
}

static void add_line(char *page)
{
    strcat(page, ADDED);
}

static const struct { const char *name; void (*damage)(char *page); } DAMAGES[] = {
    {"another digit in an up factor is refused", change_up_factor},
    {"another digit in a down factor is refused", change_down_factor},
    {"another number at the head is refused", change_head},
    {"another number at the margin is refused", change_margin},
    {"a page without one of its lines is refused", drop_line},
    {"a page without the second sheet is refused", drop_sheet},
    {"a page with a line more is refused", add_line},
};

static void check_damaged(const char *page)
{
    static char copy[PAGE_BYTES + sizeof ADDED];
    for (size_t i = 0; i < sizeof DAMAGES / sizeof DAMAGES[0]; i++) {
        Reading reading = {.rest = strcpy(copy, page)};
        DAMAGES[i].damage(copy);
        bool whole = take_page(&reading);
        check_shown(DAMAGES[i].name, !whole || reading.right_factors < FACTORS, true);
    }
}

/* ---- The page given ---- */

/* One that is not right has failed, and damage might mend it or find nothing to damage. */
static void check_page(const char *page)
{
    static char copy[PAGE_BYTES];
    Reading reading = {.rest = strcpy(copy, page), .given = true};
    bool whole = take_page(&reading);
    check_shown("the page has two whole sheets and nothing more", whole, true);
    check_shown("right factors on the page", reading.right_factors, FACTORS);
    if (whole && reading.right_factors == FACTORS) {
        check_damaged(page);
    }
}

/* Ends the page with a zero byte. False where it has one of its own. */
static bool read_page(const char *name, char page[PAGE_BYTES])
{
    FILE *file = fopen(name, "rb");
    size_t length = file == NULL ? 0 : fread(page, 1, PAGE_BYTES, file);
    bool good = file != NULL && !ferror(file) && length < PAGE_BYTES;
    if (file != NULL) {
        fclose(file);
    }
    page[good ? length : 0] = '\0';
    return good && strlen(page) == length;
}

int main(int argument_count, char **arguments)
{
    static char page[PAGE_BYTES];
    if (argument_count != 2) {
        fputs("usage: sheet PAGE\n", stderr);
        return EXIT_FAILURE;
    }
    if (!read_page(arguments[1], page)) {
        printf("%s: not readable, too long or no text\n", arguments[1]);
        return EXIT_FAILURE;
    }
    check_page(page);
    return checks_told() ? EXIT_SUCCESS : EXIT_FAILURE;
}
