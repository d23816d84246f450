/* Times gerg_read_list and gerg_write_list of 1, 5 and 21 records beside gerg_properties of the gas that was read, at 300 K and 40 mol/m3: nanoseconds a call, the
   fastest of 25 rounds in which the three take turns, and the ratios to the properties. */
#include "gerg.h"

#include <stdio.h>
#include <time.h>

enum { CALLS = 2000, ROUNDS = 25 };
static uint8_t file[1 << 16], bytes[GERG_LONGEST_LIST], list[GERG_MOST_RECORDS];
static uint32_t parts[GERG_MOST_RECORDS];
static double fractions[GERG_MOST_RECORDS], out[GERG_STATE_PLACES];
static size_t file_len, count;

static uint64_t reading(void)
{
    return gerg_read_list(bytes, GERG_RECORD_BYTES * count, list, GERG_MOST_RECORDS, parts, GERG_MOST_RECORDS, fractions, GERG_MOST_RECORDS);
}
static uint64_t writing(void) { return gerg_write_list(list, count, parts, count, bytes, GERG_LONGEST_LIST); }
static uint64_t properties(void) { return gerg_properties(file, file_len, list, count, fractions, count, 300.0, 40.0, out); }

static uint64_t (*const TIMED[])(void) = {reading, writing, properties};

static double nanoseconds(uint64_t (*call)(void))
{
    struct timespec from, to;
    clock_gettime(CLOCK_MONOTONIC, &from);
    for (int k = 0; k < CALLS; k++)
        call();
    clock_gettime(CLOCK_MONOTONIC, &to);
    return ((double)(to.tv_sec - from.tv_sec) * 1e9 + (double)(to.tv_nsec - from.tv_nsec)) / CALLS;
}

/* Status 0 where each of the three is accepted. */
static int compare(void)
{
    double least[3] = {1e18, 1e18, 1e18};
    for (uint32_t k = 0; k < count; k++) {
        list[k] = (uint8_t)(k + 1);
        parts[k] = k == 0 ? GERG_TOTAL_PARTS - 10007 * (uint32_t)(count - 1) : 10007;
    }
    for (int k = 0; k < 3; k++)
        if (gerg_number((k == 0 ? writing : k == 1 ? reading : properties)()) != GERG_ACCEPTED)
            return 1;
    for (int round = 0; round < ROUNDS; round++)
        for (int k = 0; k < 3; k++) {
            const double time = nanoseconds(TIMED[k]);
            least[k] = time < least[k] ? time : least[k];
        }
    printf("%2zu records  read %6.0f ns  written %6.0f ns  properties %6.0f ns  read/properties %.3f  written/properties %.3f\n", count, least[0], least[1],
           least[2], least[0] / least[2], least[1] / least[2]);
    return 0;
}

int main(int words, char **word)
{
    FILE *in = words == 2 ? fopen(word[1], "rb") : NULL;
    if (!in) {
        fprintf(stderr, "usage: %s COEFFICIENT-FILE\n", word[0]);
        return 2;
    }
    file_len = fread(file, 1, sizeof file, in);
    fclose(in);
    int status = 0;
    for (int k = 0; k < 3; k++) {
        count = (size_t[]){1, 5, GERG_MOST_RECORDS}[k];
        status |= compare();
    }
    return status;
}
