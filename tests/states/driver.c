/* Over the archive of gerg_api. A second generator of its own, written from the words of request 01, draws the words of a run.
   usage: driver drawn SEED: the lines of drawn.txt for that seed, the words by this file's generator, temperature and density by gerg_state_at.
          driver counts COEFFICIENTS SEED: a run's counts of three mixtures against gerg_properties at each of its states, and its parts' counts. */
#include "gerg.h"

#include <inttypes.h>
#include <stdio.h>
#include <stdlib.h>
#include <string.h>

enum { STATES = 10000, FILE_MOST = 1 << 16 };
static uint8_t file[FILE_MOST];
static size_t file_len;
static double drawn[STATES][GERG_DRAWN_PLACES];
static int passed, failed;

struct generator {
    uint64_t s, c;
};

static uint64_t draw(struct generator *g)
{
    g->s ^= g->s << 13;
    g->s ^= g->s >> 7;
    g->s ^= g->s << 17;
    g->c += UINT64_C(0x9E3779B97F4A7C15);
    return g->s + g->c;
}

static uint64_t bits(double value)
{
    uint64_t pattern;
    memcpy(&pattern, &value, sizeof pattern);
    return pattern;
}

static void fail(const char *what)
{
    fprintf(stderr, "driver: %s\n", what);
    exit(2);
}

/* Each state reached alone, by the export. */
static void draw_states(uint64_t seed)
{
    for (uint32_t n = 0; n < STATES; n++)
        if (gerg_state_at(seed, n, drawn[n]) != 0)
            fail("a state is refused");
}

static void print_states(uint64_t seed)
{
    struct generator g = {seed, 0};
    for (uint32_t n = 0; n < STATES; n++) {
        const uint64_t first = draw(&g), second = draw(&g);
        if (n < 10 || n == STATES - 1)
            printf("%016" PRIx64 " %" PRIu32 " %016" PRIx64 " %016" PRIx64 " %016" PRIx64 " %016" PRIx64 "\n", seed, n, first, second,
                bits(drawn[n][GERG_TEMPERATURE]), bits(drawn[n][GERG_MOLAR_DENSITY]));
    }
}

static void expect(const char *name, int right)
{
    passed += right;
    failed += !right;
    if (!right)
        printf("FAILED %s\n", name);
}

/* All states of the run that this file's generator draws, against those reached alone. */
static void states_in_a_run(uint64_t seed)
{
    struct generator g = {seed, 0};
    int right = 1;
    for (uint32_t n = 0; n < STATES; n++) {
        const double t = 200.0 + 250.0 * ((double)(draw(&g) >> 11) / 0x1p53);
        const double rho = 0.001 + 29999.0 * ((double)(draw(&g) >> 11) / 0x1p53);
        right = right && bits(t) == bits(drawn[n][GERG_TEMPERATURE]) && bits(rho) == bits(drawn[n][GERG_MOLAR_DENSITY]);
    }
    expect("10,000 states alone and in a run", right);
}

struct mixture {
    const char *name;
    size_t count;
    uint8_t list[21];
    double fractions[21];
};

/* The last has the fractions of the NIST AGA8 example: data/README.md. */
static const struct mixture MIXTURES[] = {
    {"1 component", 1, {GERG_PROPANE}, {1.0}},
    {"5 components", 5, {GERG_METHANE, GERG_NITROGEN, GERG_CARBON_DIOXIDE, GERG_ETHANE, GERG_PROPANE}, {0.90, 0.02, 0.01, 0.05, 0.02}},
    {"21 components", 21, {1, 2, 3, 4, 5, 6, 7, 8, 9, 10, 11, 12, 13, 14, 15, 16, 17, 18, 19, 20, 21},
        {0.77824, 0.02, 0.06, 0.08, 0.03, 0.0015, 0.003, 0.0005, 0.00165, 0.00215, 0.00088, 0.00024, 0.00015, 0.00009, 0.004, 0.005, 0.002, 0.0001, 0.0025,
            0.007, 0.001}},
};

static uint32_t number_at(const struct mixture *m, uint32_t n)
{
    double out[GERG_STATE_PLACES];
    const double *state = drawn[n];
    return gerg_number(gerg_properties(file, file_len, m->list, m->count, m->fractions, m->count, state[GERG_TEMPERATURE], state[GERG_MOLAR_DENSITY], out));
}

/* Adds the counts of a part of the run. */
static void add(const struct mixture *m, uint64_t seed, uint32_t first, uint32_t states, uint64_t sums[GERG_COUNT_PLACES])
{
    uint64_t counts[GERG_COUNT_PLACES];
    memset(counts, 0xEE, sizeof counts);
    if (gerg_count_refusals(file, file_len, m->list, m->count, m->fractions, m->count, seed, first, states, counts) != 0)
        fail("a run is refused");
    for (int k = 0; k < GERG_COUNT_PLACES; k++)
        sums[k] += counts[k];
}

static void compare(const struct mixture *m, uint64_t seed)
{
    static const uint32_t SPLITS[] = {0, 4096, STATES - 1};
    uint64_t each[GERG_COUNT_PLACES] = {0}, last[GERG_COUNT_PLACES] = {0}, alone[GERG_COUNT_PLACES] = {0};
    for (uint32_t n = 0; n < STATES; n++)
        each[number_at(m, n)]++;
    printf("%s, seed %" PRIu64 ":", m->name, seed);
    for (int k = 0; k < GERG_COUNT_PLACES; k++)
        if (each[k])
            printf(" %d: %" PRIu64, k, each[k]);
    printf("\n");
    alone[number_at(m, STATES - 1)]++;
    add(m, seed, STATES - 1, 1, last);
    expect("state 9,999 alone", memcmp(last, alone, sizeof last) == 0);
    for (size_t k = 0; k < sizeof SPLITS / sizeof *SPLITS; k++) {
        uint64_t sums[GERG_COUNT_PLACES] = {0};
        add(m, seed, 0, SPLITS[k], sums);
        add(m, seed, SPLITS[k], STATES - SPLITS[k], sums);
        expect("a run and its parts against each state", memcmp(sums, each, sizeof sums) == 0);
    }
}

static void read_file(const char *path)
{
    FILE *in = fopen(path, "rb");
    if (!in)
        fail("no coefficient file");
    file_len = fread(file, 1, FILE_MOST, in);
    fclose(in);
}

int main(int count, char **words)
{
    if (count == 3 && !strcmp(words[1], "drawn")) {
        const uint64_t seed = strtoull(words[2], NULL, 0);
        draw_states(seed);
        print_states(seed);
        return 0;
    }
    if (count != 4 || strcmp(words[1], "counts"))
        fail("usage: driver drawn SEED | driver counts COEFFICIENTS SEED");
    const uint64_t seed = strtoull(words[3], NULL, 0);
    read_file(words[2]);
    draw_states(seed);
    states_in_a_run(seed);
    for (size_t k = 0; k < sizeof MIXTURES / sizeof *MIXTURES; k++)
        compare(&MIXTURES[k], seed);
    printf("%d passed, %d failed\n", passed, failed);
    return failed != 0;
}
