/*
 * figures_thousandths.c: factors and lines at exponents of whole thousandths and beside them, and what the inputs that go
 * through all of these (thousandths.h, sweep.h) lead to and show. METHOD 6.5 and DECISIONS D3.
 */
#include "figures.h"

#include "checks.h"
#include "input.h"
#include "sample.h"
#include "sweep.h"

#include <string.h>

/*
 * At whole thousandths, and one billionth beside one. The terms, to which all but the first exponent's add 20:
 *
 *     1,000,000   10^9 +   1,000,000 +         500
 *    99,999,999   10^9 +  99,999,999 +   4,999,999 +    166,666 +     4,166 +      83 +      1
 *   100,000,000   10^9 + 100,000,000 +   5,000,000 +    166,666 +     4,166 +      83 +      1
 *   100,000,001   10^9 + 100,000,001 +   5,000,000 +    166,666 +     4,166 +      83 +      1
 *   499,000,000   10^9 + 499,000,000 + 124,500,500 + 20,708,583 + 2,583,395 + 257,822 + 21,442 + 1,528 + 95 + 5
 *   500,000,000   10^9 + 500,000,000 + 125,000,000 + 20,833,333 + 2,604,166 + 260,416 + 21,701 + 1,550 + 96 + 5
 */
static void figures_of_factors_at_thousandths(void)
{
    static const struct { const char *name; int64_t exponent, up_factor, down_factor; } factors[] = {
        {"factors at thousandth 0", 0, 1000000000, 1000000000},
        {"factors at thousandth 1", 1000000, 1001000520, 999000480},
        {"factors a billionth under thousandth 100", 99999999, 1105170934, 904837404},
        {"factors at thousandth 100", 100000000, 1105170936, 904837403},
        {"factors a billionth over thousandth 100", 100000001, 1105170937, 904837402},
        {"factors at thousandth 499", 499000000, 1647073390, 607137487},
        {"factors at thousandth 500", 500000000, 1648721287, 606530653},
    };
    for (size_t i = 0; i < sizeof factors / sizeof factors[0]; i++) {
        Billionths up = corridor_up_factor((Billionths){factors[i].exponent});
        check_number(factors[i].name, up.billionths, factors[i].up_factor);
        check_number(factors[i].name, corridor_down_factor(up).billionths, factors[i].down_factor);
    }
}

/*
 * Lines at a whole thousandth, where rate x days is 365,000 times it, and at the next exponents that a table can have.
 * Price 100,000,000 and half-width 46,000,000, so that the market bounds are 146,000,000 and 54,000,000: with these every
 * line is another than the one at its thousandth. The limits lie a quarter of the way between the interest bounds, rounded
 * down, from P.
 *
 *   rate x days      exponent    up factor       x 146,000,000     down factor   x 54,000,000
 *       364,999       999,997    1,001,000,516   146,146,075.336   999,000,484   53,946,026.136
 *       365,000     1,000,000    1,001,000,520   146,146,075.92    999,000,480   53,946,025.92
 *       365,001     1,000,002    1,001,000,522   146,146,076.212   999,000,478   53,946,025.812
 *    36,499,997    99,999,991    1,105,170,926   161,354,955.196   904,837,411   48,861,220.194
 *    36,500,000   100,000,000    1,105,170,936   161,354,956.656   904,837,403   48,861,219.762
 *    36,500,002   100,000,005    1,105,170,941   161,354,957.386   904,837,399   48,861,219.546
 *   182,134,998   498,999,994    1,647,073,380   240,472,713.48    607,137,491   32,785,424.514
 *   182,135,000   499,000,000    1,647,073,390   240,472,714.94    607,137,487   32,785,424.298
 *   182,135,001   499,000,002    1,647,073,392   240,472,715.232   607,137,486   32,785,424.244
 */
static void figures_of_lines_at_thousandths(void)
{
    static const uint32_t large[] = {100000000, 100000000, 1, 460000, 460000, 460000};
    static const struct { const char *name; uint32_t rate, days; const char *answer; } lines[] = {
        {"line next under thousandth 1", 953, 383, "7 76949988 123050012 53946026 146146076\n"},
        {"line at thousandth 1", 1000, 365, "7 76949988 123050012 53946025 146146076\n"},
        {"line next over thousandth 1", 121667, 3, "7 76949987 123050013 53946025 146146077\n"},
        {"line next under thousandth 100", 439759, 83, "7 71876566 128123434 48861220 161354956\n"},
        {"line at thousandth 100", 100000, 365, "7 71876566 128123434 48861219 161354957\n"},
        {"line next over thousandth 100", 744898, 49, "7 71876566 128123434 48861219 161354958\n"},
        {"line next under thousandth 499", 155538, 1171, "7 48078178 151921822 32785424 240472714\n"},
        {"line at thousandth 499", 499000, 365, "7 48078178 151921822 32785424 240472715\n"},
        {"line next over thousandth 499", 154221, 1181, "7 48078177 151921823 32785424 240472716\n"},
    };
    for (size_t i = 0; i < sizeof lines / sizeof lines[0]; i++) {
        TableDraft draft = sample_with_keys(lines[i].days, lines[i].rate, 0, 0, lines[i].days);
        memcpy(draft.contracts[0], large, sizeof large);
        check_program(lines[i].name, &draft, 0, lines[i].answer, NULL, 0);
    }
}

/* Of the keys by which generator and sweep come to thousandths and beside them: how many lead elsewhere. The next product
   that has factors in range is at most 7 less or 6 more, so the exponent is at most 20 billionths less or 16 more. */
static void figures_of_keys_at_thousandths(void)
{
    static const struct { Beside beside; int64_t least, most; } ranges[] = {
        {NEXT_BELOW, -20, -1}, {AT_THOUSANDTH, 0, 0}, {NEXT_ABOVE, 1, 16},
    };
    int seen = 0;
    int wrong = 0;
    for (int64_t thousandth = 0; thousandth <= LAST_THOUSANDTH; thousandth++) {
        for (int i = 0; i < 3; i++) {
            if (thousandths_has(thousandth, ranges[i].beside)) {
                Key key = thousandths_key(thousandth, ranges[i].beside, (Days){365});
                int64_t past = corridor_exponent(key.rate, key.days).billionths - 1000000 * thousandth;
                wrong += past < ranges[i].least || past > ranges[i].most;
                seen++;
            }
        }
    }
    check_number("keys at and beside all thousandths", seen, 1501);
    check_number("keys that lead elsewhere", wrong, 0);
}

/* The session as one of the sweep's inputs leaves it. */
static Session session_of_sweep(int number)
{
    uint8_t bytes[SWEEP_BYTES];
    Session session;
    EventAnswer answer;
    sweep_input(number, bytes);
    Input input = input_of(bytes, SWEEP_BYTES);
    corridor_open(input.table, input.table_length, &session);
    for (size_t at = 0; at < input.events_length; at += EVENT_BYTES) {
        corridor_event(&session, input.events + at, EVENT_BYTES, &answer);
    }
    return session;
}

/* Whether the line's upper interest bound tells its up factor from one that is more by this, or less. */
static bool tells_up_factor(const Line *line, int64_t more)
{
    int64_t market = line->centre.steps + line->half_width[0].steps;
    int64_t with_factor = ceiling_division(market * line->up_factor.billionths, 1000000000);
    int64_t with_other = ceiling_division(market * (line->up_factor.billionths + more), 1000000000);
    return line->interest.upper.steps == with_factor && with_factor != with_other;
}

/* The same of its lower interest bound and its down factor. */
static bool tells_down_factor(const Line *line, int64_t more)
{
    int64_t market = line->centre.steps - line->half_width[0].steps;
    int64_t with_factor = floor_division(market * line->down_factor.billionths, 1000000000);
    int64_t with_other = floor_division(market * (line->down_factor.billionths + more), 1000000000);
    return line->interest.lower.steps == with_factor && with_factor != with_other;
}

/* Of 1,501 inputs, for a factor that is greater by one billionth and for one that is smaller, 3,002: how many the sweep's
   bounds tell, so that a sweep which has lost its sharpness does not pass. Of down factors the missing one is the greater one
   at exponent 0. */
static void figures_of_sweep(void)
{
    int up_factors = 0;
    int down_factors = 0;
    for (int number = 0; number < SWEEP_INPUTS; number++) {
        Session session = session_of_sweep(number);
        up_factors += tells_up_factor(&session.lines[0], 1) + tells_up_factor(&session.lines[0], -1);
        down_factors += tells_down_factor(&session.lines[1], 1) + tells_down_factor(&session.lines[2], -1);
    }
    check_number("sweep bounds that tell an up factor", up_factors, 3002);
    check_number("sweep bounds that tell a down factor", down_factors, 3001);
}

void thousandth_figures(void)
{
    figures_of_factors_at_thousandths();
    figures_of_lines_at_thousandths();
    figures_of_keys_at_thousandths();
    figures_of_sweep();
}
