/* A gas as a chromatograph sends it, in packed decimal: read, its density and speed of sound at 293.15 K and 5 MPa, written again; then a damaged digit, which is
 * refused.
 *
 *     tests/archive gerg_api
 *     cc -std=c11 -Wall -Wextra -Werror -Iinclude -o target/lists examples/c/lists.c target/staticlib/libgerg_api.a
 *     target/lists data/gerg-2008.bin */
#include "gerg.h"

#include <inttypes.h>
#include <stdio.h>
#include <string.h>

static int refused(const char *what, uint64_t answer)
{
    fprintf(stderr, "%s: refused, number %" PRIu32 ", value %" PRIu32 "\n", what, gerg_number(answer), gerg_value(answer));
    return 1;
}

int main(int count, char **words)
{
    static uint8_t file[28377 + 1]; /* one byte more than the longest file has, so that a longer one is refused for its bytes over */
    uint8_t bytes[] = {
        0x10, GERG_METHANE,        0x00, 0x90, 0x12, 0x34, /* 901,234 parts per million */
        0x10, GERG_NITROGEN,       0x00, 0x02, 0x05, 0x01,
        0x10, GERG_CARBON_DIOXIDE, 0x00, 0x00, 0x99, 0x99,
        0x10, GERG_ETHANE,         0x00, 0x04, 0x82, 0x66,
        0x10, GERG_PROPANE,        0x00, 0x02, 0x00, 0x00,
    };
    uint8_t list[GERG_MOST_RECORDS], again[GERG_LONGEST_LIST];
    uint32_t parts[GERG_MOST_RECORDS];
    double fractions[GERG_MOST_RECORDS], state[GERG_DENSITY_PLACES];
    FILE *in = count == 2 ? fopen(words[1], "rb") : NULL;
    if (!in) {
        fprintf(stderr, "usage: %s COEFFICIENT-FILE\n", words[0]);
        return 2;
    }
    const size_t length = fread(file, 1, sizeof file, in);
    fclose(in);

    uint64_t answer = gerg_read_list(bytes, sizeof bytes, list, GERG_MOST_RECORDS, parts, GERG_MOST_RECORDS, fractions, GERG_MOST_RECORDS);
    if (gerg_number(answer) != GERG_ACCEPTED)
        return refused("the list", answer);
    const uint32_t listed = gerg_value(answer);
    for (uint32_t k = 0; k < listed; k++)
        printf("component %-5d %7" PRIu32 " parts, fraction %.6f\n", list[k], parts[k], fractions[k]);

    answer = gerg_density(file, length, list, listed, fractions, listed, 293.15, 5e6, 1000.0, 4000.0, 100, 1e-10, state);
    if (gerg_number(answer) != GERG_ACCEPTED)
        return refused("density", answer);
    printf("density         %.6f mol/m3 (%.6f kg/m3)\n", state[GERG_MOLAR_DENSITY], state[GERG_MASS_DENSITY]);
    printf("speed of sound  %.6f m/s\n", state[GERG_SPEED_OF_SOUND]);

    answer = gerg_write_list(list, listed, parts, listed, again, sizeof again);
    if (gerg_number(answer) != GERG_ACCEPTED)
        return refused("writing", answer);
    const int same = gerg_value(answer) == sizeof bytes && memcmp(again, bytes, sizeof bytes) == 0;
    printf("written again   %" PRIu32 " bytes, %s\n", gerg_value(answer), same ? "the same" : "others");

    bytes[2 * GERG_RECORD_BYTES + 4] = 0x9A; /* carbon dioxide's last digit but two */
    answer = gerg_read_list(bytes, sizeof bytes, list, GERG_MOST_RECORDS, parts, GERG_MOST_RECORDS, fractions, GERG_MOST_RECORDS);
    printf("digit above 9   refused, number %" PRIu32 ", value %" PRIu32 "\n", gerg_number(answer), gerg_value(answer));
    return same && gerg_number(answer) == GERG_BAD_RECORD ? 0 : 1;
}
