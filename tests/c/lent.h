/* What the tests of the exports share: lent memory with a known content, and what is expected of an accepted and of a refused call. */
#include "gerg.h"

#include <inttypes.h>
#include <math.h>
#include <stdio.h>
#include <string.h>

enum { LONGEST_FILE = 28377, ROOM = 64 };
static uint8_t file[LONGEST_FILE + 1];
static size_t length;
static double out[ROOM];
static uint64_t counts[ROOM];
static uint8_t listed[2 * ROOM];
static uint32_t parts[ROOM];
static int passed, failed;

static const double LENT = -12345.678;
static const uint64_t LENT_COUNT = 0x4142434445464748u;
static const uint32_t LENT_PARTS = 0x51525354u;
static const uint8_t LENT_BYTE = 0x6C;

static void lend(void)
{
    for (int k = 0; k < ROOM; k++) {
        out[k] = LENT;
        counts[k] = LENT_COUNT;
        parts[k] = LENT_PARTS;
    }
    memset(listed, LENT_BYTE, sizeof listed);
}

static void expect(const char *name, int right)
{
    if (right)
        passed++;
    else {
        failed++;
        printf("FAILED %s\n", name);
    }
}

/* From this place on `out` still holds what was lent. */
static int lent_from(int place)
{
    for (int k = place; k < ROOM; k++)
        if (memcmp(&out[k], &LENT, sizeof LENT) != 0)
            return 0;
    return 1;
}

static int counts_lent_from(int place)
{
    for (int k = place; k < ROOM; k++)
        if (counts[k] != LENT_COUNT)
            return 0;
    return 1;
}

/* From these places on the bytes and the parts still hold what was lent. */
static int lists_lent_from(int byte, int part)
{
    for (int k = byte; k < 2 * ROOM; k++)
        if (listed[k] != LENT_BYTE)
            return 0;
    for (int k = part; k < ROOM; k++)
        if (parts[k] != LENT_PARTS)
            return 0;
    return 1;
}

static void refused(const char *name, uint64_t answer, uint32_t number, uint32_t value)
{
    char full[128];
    snprintf(full, sizeof full, "%s: number %" PRIu32 ", value %" PRIu32, name, gerg_number(answer), gerg_value(answer));
    expect(full, gerg_number(answer) == number && gerg_value(answer) == value && lent_from(0) && counts_lent_from(0) && lists_lent_from(0, 0));
    lend();
}

/* Finite numbers in the first places, the others as lent. */
static void accepted(const char *name, uint64_t answer, uint32_t value, int places)
{
    int written = 1;
    for (int k = 0; k < places; k++)
        written = written && isfinite(out[k]) && out[k] != LENT;
    expect(name, gerg_number(answer) == GERG_ACCEPTED && gerg_value(answer) == value && written && lent_from(places));
}

/* Offset of the record of methane's pair with itself: behind the revision, the components and their terms. */
static size_t first_pair(void)
{
    size_t at = 41 + 21 * 108;
    for (int i = 0; i < 21; i++)
        at += 21 * (file[41 + 108 * i + 18] + file[41 + 108 * i + 19]);
    return at;
}

/* Runs a program's tests on the coefficient file that the command line names. */
static int tested(int count, char **words, void (*all)(void))
{
    FILE *in = count == 2 ? fopen(words[1], "rb") : NULL;
    if (!in) {
        fprintf(stderr, "usage: %s COEFFICIENT-FILE\n", words[0]);
        return 2;
    }
    length = fread(file, 1, LONGEST_FILE, in);
    fclose(in);
    lend();
    all();
    printf("%d passed, %d failed\n", passed, failed);
    return failed != 0;
}

#define TABLES file, length
#define METHANE_ETHANE (const uint8_t[]){GERG_METHANE, GERG_ETHANE}, 2
#define HALVES (const double[]){0.5, 0.5}, 2
#define GAS TABLES, METHANE_ETHANE, (const double[]){0.9, 0.1}, 2
#define PURE(component) TABLES, (const uint8_t[]){component}, 1, (const double[]){1.0}, 1
