/* Times gerg_count_refusals over 20,000 states beside a loop over gerg_properties at the same states, which are drawn before: states a second, the
   fastest of nine rounds in which the two take turns, and their ratio. Mixtures: the first components of the NIST AGA8 example, scaled to unit sum. */
#include "example.h"
#include "gerg.h"

#include <stdio.h>
#include <string.h>
#include <time.h>

enum { STATES = 20000, ROUNDS = 9 };
static const uint64_t SEED = 20080301;
static uint8_t file[1 << 16];
static size_t file_len;
static double drawn[STATES][GERG_DRAWN_PLACES];

static double now(void)
{
    struct timespec t;
    clock_gettime(CLOCK_MONOTONIC, &t);
    return (double)t.tv_sec + (double)t.tv_nsec * 1e-9;
}

static double run(size_t count, uint64_t counts[GERG_COUNT_PLACES])
{
    const double start = now();
    gerg_count_refusals(file, file_len, list, count, fractions, count, SEED, 0, STATES, counts);
    return now() - start;
}

static double loop(size_t count, uint64_t counts[GERG_COUNT_PLACES])
{
    double out[GERG_STATE_PLACES];
    memset(counts, 0, GERG_COUNT_PLACES * sizeof *counts);
    const double start = now();
    for (int n = 0; n < STATES; n++)
        counts[gerg_number(gerg_properties(file, file_len, list, count, fractions, count, drawn[n][GERG_TEMPERATURE], drawn[n][GERG_MOLAR_DENSITY], out))]++;
    return now() - start;
}

/* Status 0 where the two counted the same. */
static int compare(size_t count)
{
    uint64_t of_run[GERG_COUNT_PLACES], of_loop[GERG_COUNT_PLACES];
    double fastest_run = 1e9, fastest_loop = 1e9;
    mix(count);
    for (int round = 0; round < ROUNDS; round++) {
        const double a = run(count, of_run), b = loop(count, of_loop);
        fastest_run = a < fastest_run ? a : fastest_run;
        fastest_loop = b < fastest_loop ? b : fastest_loop;
    }
    printf("states  %2zu components  run %8.0f a second  loop over properties %8.0f  run/loop %5.2f\n", count, STATES / fastest_run, STATES / fastest_loop,
        fastest_loop / fastest_run);
    return memcmp(of_run, of_loop, sizeof of_run) != 0;
}

int main(int count, char **words)
{
    FILE *in = count == 2 ? fopen(words[1], "rb") : NULL;
    if (!in)
        return 2;
    file_len = fread(file, 1, sizeof file, in);
    fclose(in);
    for (uint32_t n = 0; n < STATES; n++)
        gerg_state_at(SEED, n, drawn[n]);
    return compare(1) | compare(5) | compare(21);
}
