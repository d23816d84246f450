/* Density and speed of sound of a natural gas at 293.15 K and 5 MPa, then an input that is refused.
 *
 *     tests/archive gerg_api
 *     cc -std=c11 -Wall -Wextra -Werror -Iinclude -o target/properties examples/c/properties.c target/staticlib/libgerg_api.a
 *     target/properties data/gerg-2008.bin */
#include "gerg.h"

#include <inttypes.h>
#include <stdio.h>

enum { LONGEST_FILE = 28377 };

/* Reads one byte more than the longest file has, so that a longer one is refused for its bytes over. */
static size_t read_file(const char *path, uint8_t bytes[LONGEST_FILE + 1])
{
    FILE *in = fopen(path, "rb");
    if (!in) {
        perror(path);
        return 0;
    }
    size_t length = fread(bytes, 1, LONGEST_FILE + 1, in);
    fclose(in);
    return length;
}

int main(int count, char **words)
{
    static uint8_t file[LONGEST_FILE + 1];
    const uint8_t list[] = {GERG_METHANE, GERG_NITROGEN, GERG_CARBON_DIOXIDE, GERG_ETHANE, GERG_PROPANE};
    const double fractions[] = {0.90, 0.02, 0.01, 0.05, 0.02};
    const size_t listed = sizeof list / sizeof *list;
    const double t = 293.15, p = 5e6;
    if (count != 2) {
        fprintf(stderr, "usage: %s COEFFICIENT-FILE\n", words[0]);
        return 2;
    }
    const size_t length = read_file(words[1], file);
    if (length == 0)
        return 2;

    double state[GERG_DENSITY_PLACES];
    uint64_t answer = gerg_density(file, length, list, listed, fractions, listed, t, p, 1000.0, 4000.0, 100, 1e-10, state);
    if (gerg_number(answer) != GERG_ACCEPTED) {
        fprintf(stderr, "density: refused, number %" PRIu32 ", value %" PRIu32 "\n", gerg_number(answer), gerg_value(answer));
        return 1;
    }
    printf("density         %.6f mol/m3 (%.6f kg/m3) after %.0f trials\n", state[GERG_MOLAR_DENSITY], state[GERG_MASS_DENSITY], state[GERG_TRIALS]);
    printf("pressure        %.3f Pa\n", state[GERG_PRESSURE]);
    printf("speed of sound  %.6f m/s\n", state[GERG_SPEED_OF_SOUND]);

    double ln_phi[sizeof list];
    answer = gerg_fugacity(file, length, list, listed, fractions, listed, t, state[GERG_MOLAR_DENSITY], ln_phi, listed);
    if (gerg_number(answer) != GERG_ACCEPTED)
        return 1;
    printf("ln phi          %.6f (methane) %.6f (propane)\n", ln_phi[0], ln_phi[4]);

    answer = gerg_properties(file, length, list, listed, fractions, listed, 199.0, 1000.0, state);
    printf("at 199 K        refused, number %" PRIu32 ", value %" PRIu32 "\n", gerg_number(answer), gerg_value(answer));
    return gerg_number(answer) == GERG_OUT_OF_RANGE ? 0 : 1;
}
