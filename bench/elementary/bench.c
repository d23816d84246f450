/* Times exp, ln, sqrt and powf beside the platform's on the same arguments, and exp below zero beside exp above zero: nanoseconds a call, the least of 27 rounds in which the two take turns, and their ratio.
   Compiled with -DEARLIER and linked to a second archive, whose symbols begin with earlier_, exp beside that archive's too. */
#include <math.h>
#include <stdio.h>
#include <string.h>
#include <time.h>
#include "../../tests/doubles.h"

double elementary_exp(double), elementary_ln(double), elementary_sqrt(double), elementary_powf(double, double);

enum { COUNT = 1 << 14, ROUNDS = 27, REPEATS = 6 };
static double arguments[COUNT], exponents[COUNT], below[COUNT], above[COUNT];
static volatile double kept;

static double now(void) { struct timespec t; clock_gettime(CLOCK_MONOTONIC, &t); return t.tv_sec * 1e9 + t.tv_nsec; }

/* a round of one call, over the arguments `at`. Where the call uses `wait`, which is 0, each argument waits for the answer before it: the time of a call by itself, where otherwise calls overlap */
#define ROUND(best, at, call)                                                        \
    do {                                                                             \
        double sum = 0, wait = 0, start = now(), each;                               \
        for (int repeat = 0; repeat < REPEATS; repeat++)                             \
            for (int i = 0; i < COUNT; i++) { double x = (at)[i], t = exponents[i], y = call; (void)t; wait = y - y; (void)wait; sum += y; } \
        each = (now() - start) / ((double)COUNT * REPEATS);                          \
        kept = sum;                                                                  \
        if (round == 0 || each < best) best = each;                                  \
    } while (0)

#define TURNS(name, range, ours_at, ours, other, other_at, theirs)                   \
    do {                                                                             \
        double a = 0, b = 0;                                                         \
        for (int round = 0; round < ROUNDS; round++) { ROUND(a, ours_at, ours); ROUND(b, other_at, theirs); } \
        printf("%-5s %-34s %7.2f ns  %-9s %6.2f ns  ratio %6.3f\n", name, range, a, other, b, a / b); \
    } while (0)

static void fill(double low, double high, double least, double most) {
    for (int i = 0; i < COUNT; i++) { arguments[i] = uniform(low, high); exponents[i] = uniform(least, most); }
}

static void exp_by_sign(void) {
    fill(-700, 0, 0, 1);
    memcpy(below, arguments, sizeof below);
    fill(0, 700, 0, 1);
    memcpy(above, arguments, sizeof above);
    TURNS("exp", "-700 to 0", below, elementary_exp(x), "0 to 700", above, elementary_exp(x));
    TURNS("exp", "-700 to 0, one after the other", below, elementary_exp(x + wait), "0 to 700", above, elementary_exp(x + wait));
}

#ifdef EARLIER
double earlier_elementary_exp(double);
static void exp_earlier(void) {
    fill(-700, 700, 0, 1);
    TURNS("exp", "-700 to 700", arguments, elementary_exp(x), "earlier", arguments, earlier_elementary_exp(x));
    TURNS("exp", "-700 to 700, one after the other", arguments, elementary_exp(x + wait), "earlier", arguments, earlier_elementary_exp(x + wait));
    TURNS("exp", "earlier, -700 to 700", arguments, earlier_elementary_exp(x), "platform", arguments, exp(x));
    TURNS("exp", "earlier, one after the other", arguments, earlier_elementary_exp(x + wait), "platform", arguments, exp(x + wait));
}
#endif

#define PLATFORM(name, range, ours, theirs) TURNS(name, range, arguments, ours, "platform", arguments, theirs)

int main(void) {
    state = 20080301;
    exp_by_sign();
#ifdef EARLIER
    exp_earlier();
#endif
    fill(-5, 5, 0, 1);
    PLATFORM("exp", "-5 to 5", elementary_exp(x), exp(x));
    fill(-700, 700, 0, 1);
    PLATFORM("exp", "-700 to 700", elementary_exp(x), exp(x));
    PLATFORM("exp", "-700 to 700, one after the other", elementary_exp(x + wait), exp(x + wait));
    fill(0.1, 10, 0, 1);
    PLATFORM("ln", "0.1 to 10", elementary_ln(x), log(x));
    PLATFORM("sqrt", "0.1 to 10", elementary_sqrt(x), sqrt(x));
    fill(1e4, 1e7, 0, 1);
    PLATFORM("sqrt", "1e4 to 1e7", elementary_sqrt(x), sqrt(x));
    fill(0.5, 3, -10, 10);
    PLATFORM("powf", "0.5 to 3, exponents -10 to 10", elementary_powf(x, t), pow(x, t));
    return 0;
}
