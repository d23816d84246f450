/* Times the extended calls beside the normal ones at the same inputs, which the normal range accepts: microseconds a call, the fastest of 25 rounds in which
   the two take turns, and their ratio. Mixtures: those of example.h; 300 K and 2000 mol/m3, a search for 5 MPa in 1000 .. 4000 mol/m3. */
#include "example.h"
#include "gerg.h"

#include <stdio.h>
#include <time.h>

enum { CALLS = 200, ROUNDS = 25 };
static uint8_t file[1 << 16];
static size_t file_len, count;
static double out[GERG_DENSITY_PLACES];

static uint64_t properties(void) { return gerg_properties(file, file_len, list, count, fractions, count, 300.0, 2000.0, out); }
static uint64_t properties_extended(void) { return gerg_properties_extended(file, file_len, list, count, fractions, count, 300.0, 2000.0, out); }
static uint64_t fugacity(void) { return gerg_fugacity(file, file_len, list, count, fractions, count, 300.0, 2000.0, out, count); }
static uint64_t fugacity_extended(void) { return gerg_fugacity_extended(file, file_len, list, count, fractions, count, 300.0, 2000.0, out, count); }
static uint64_t density(void) { return gerg_density(file, file_len, list, count, fractions, count, 300.0, 5e6, 1000.0, 4000.0, 100, 1e-10, out); }
static uint64_t density_extended(void)
{
    return gerg_density_extended(file, file_len, list, count, fractions, count, 300.0, 5e6, 1000.0, 4000.0, 100, 1e-10, out);
}

static const struct { const char *name; uint64_t (*normal)(void), (*extended)(void); } PAIRS[] = {
    {"properties", properties, properties_extended}, {"fugacity", fugacity, fugacity_extended}, {"density", density, density_extended}};

static double seconds(uint64_t (*call)(void))
{
    struct timespec from, to;
    clock_gettime(CLOCK_MONOTONIC, &from);
    for (int k = 0; k < CALLS; k++)
        call();
    clock_gettime(CLOCK_MONOTONIC, &to);
    return ((double)(to.tv_sec - from.tv_sec) + (double)(to.tv_nsec - from.tv_nsec) * 1e-9) / CALLS;
}

/* Status 0 where the two answered the same. */
static int compare(int pair)
{
    double normal = 1e9, extended = 1e9;
    const uint64_t answer = PAIRS[pair].normal();
    for (int round = 0; round < ROUNDS; round++) {
        const double a = seconds(PAIRS[pair].normal), b = seconds(PAIRS[pair].extended);
        normal = a < normal ? a : normal;
        extended = b < extended ? b : extended;
    }
    printf("%-10s %2zu  normal %6.2f us  extended %6.2f us  extended/normal %.3f  number %u\n", PAIRS[pair].name, count, normal * 1e6, extended * 1e6,
           extended / normal, gerg_number(answer));
    return PAIRS[pair].extended() != answer;
}

int main(int words, char **word)
{
    static const size_t COUNTS[] = {1, 5, MOST};
    FILE *in = words == 2 ? fopen(word[1], "rb") : NULL;
    if (!in) {
        fprintf(stderr, "usage: %s COEFFICIENT-FILE\n", word[0]);
        return 2;
    }
    file_len = fread(file, 1, sizeof file, in);
    fclose(in);
    int status = 0;
    for (int k = 0; k < 3; k++) {
        count = COUNTS[k];
        mix(count);
        for (int pair = 0; pair < 3; pair++)
            status |= compare(pair);
    }
    return status;
}
