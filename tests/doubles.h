/* What the programs that test or time the elementary functions share: a double's pattern, and arguments drawn by splitmix64 from a seed. */
#include <stdint.h>
#include <string.h>

static inline uint64_t bits(double x) { uint64_t n; memcpy(&n, &x, 8); return n; }
static inline double of_bits(uint64_t n) { double x; memcpy(&x, &n, 8); return x; }

static uint64_t state;
static uint64_t next(void) {
    uint64_t z = state += UINT64_C(0x9e3779b97f4a7c15);
    z = (z ^ z >> 30) * UINT64_C(0xbf58476d1ce4e5b9);
    z = (z ^ z >> 27) * UINT64_C(0x94d049bb133111eb);
    return z ^ z >> 31;
}
static double uniform(double low, double high) { return low + (high - low) * ((next() >> 11) * 0x1p-53); }
