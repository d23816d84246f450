/* The first components of the NIST AGA8 example (data/README.md), scaled to unit sum. */
#include <stddef.h>
#include <stdint.h>

enum { MOST = 21 };
static const double EXAMPLE[MOST] = {0.77824, 0.02, 0.06, 0.08, 0.03, 0.0015, 0.003, 0.0005, 0.00165, 0.00215, 0.00088, 0.00024, 0.00015, 0.00009, 0.004, 0.005,
    0.002, 0.0001, 0.0025, 0.007, 0.001};
static uint8_t list[MOST];
static double fractions[MOST];

static void mix(size_t count)
{
    double sum = 0.0;
    for (size_t k = 0; k < count; k++)
        sum += EXAMPLE[k];
    for (size_t k = 0; k < count; k++) {
        list[k] = (uint8_t)(k + 1);
        fractions[k] = EXAMPLE[k] / sum;
    }
}
