/* Hydrogen in the extended range: density and speed of sound at 77 K and 10 MPa and at 600 K and 60 MPa, then the first state by the normal call, which refuses it.
 *
 *     tests/archive gerg_api
 *     cc -std=c11 -Wall -Wextra -Werror -Iinclude -o target/extended examples/c/extended.c target/staticlib/libgerg_api.a
 *     target/extended data/gerg-2008.bin */
#include "gerg.h"

#include <inttypes.h>
#include <stdio.h>

int main(int count, char **words)
{
    static uint8_t file[28377 + 1]; /* one byte more than the longest file has, so that a longer one is refused for its bytes over */
    const uint8_t list[] = {GERG_HYDROGEN};
    const double fractions[] = {1.0};
    const double states[2][2] = {{77.0, 10e6}, {600.0, 60e6}};
    double cold = 0.0, out[GERG_DENSITY_PLACES];
    FILE *in = count == 2 ? fopen(words[1], "rb") : NULL;
    if (!in) {
        fprintf(stderr, "usage: %s COEFFICIENT-FILE\n", words[0]);
        return 2;
    }
    const size_t length = fread(file, 1, sizeof file, in);
    fclose(in);

    for (int k = 0; k < 2; k++) {
        const double t = states[k][0], p = states[k][1];
        const uint64_t answer = gerg_density_extended(file, length, list, 1, fractions, 1, t, p, 100.0, 30000.0, 100, 1e-10, out);
        if (gerg_number(answer) != GERG_ACCEPTED) {
            fprintf(stderr, "density: refused, number %" PRIu32 ", value %" PRIu32 "\n", gerg_number(answer), gerg_value(answer));
            return 1;
        }
        printf("%.0f K, %.0f MPa\n", t, p / 1e6);
        printf("density         %.6f mol/m3 (%.6f kg/m3), Z %.6f\n", out[GERG_MOLAR_DENSITY], out[GERG_MASS_DENSITY], out[GERG_COMPRESSIBILITY]);
        printf("speed of sound  %.6f m/s\n", out[GERG_SPEED_OF_SOUND]);
        if (k == 0)
            cold = out[GERG_MOLAR_DENSITY];
    }
    const uint64_t answer = gerg_properties(file, length, list, 1, fractions, 1, states[0][0], cold, out);
    printf("normal, at 77 K refused, number %" PRIu32 ", value %" PRIu32 "\n", gerg_number(answer), gerg_value(answer));
    return gerg_number(answer) == GERG_OUT_OF_RANGE ? 0 : 1;
}
