/* exp's bits: answers write COUNT prints patterns of doubles and of their exp; answers check FILE compares such a file with the archive's exp. Compiled with -DEARLIER and linked to a second archive
   whose symbols begin with earlier_, answers compare COUNT holds the two against each other. Half of the arguments are any 64 bits, the others lie where the steps work, as likely near zero as far. */
#include <inttypes.h>
#include <math.h>
#include <stdio.h>
#include <stdlib.h>
#include <string.h>
#include "../doubles.h"

double elementary_exp(double);

/* zeros, infinities, NaN, the ends of each test and the doubles beside them, and the greatest and least doubles */
static const double ends[] = { 0.0, -0.0, INFINITY, -INFINITY, NAN, 700, -700, 0x1p-54, -0x1p-54, 0x1p-1074, -0x1p-1074, 0x1p-1022, -0x1p-1022, 0x1.fffffffffffffp1023, -0x1.fffffffffffffp1023, 1, -1 };
enum { ENDS = sizeof ends / sizeof *ends };

static double argument(uint64_t i) {
    if (i < 3 * ENDS) return i % 3 == 0 ? ends[i / 3] : nextafter(ends[i / 3], i % 3 == 1 ? INFINITY : -INFINITY);
    switch (i % 4) {
    case 0: return uniform(-700, 700);
    case 1: return (next() & 1 ? -1 : 1) * exp2(uniform(-54, 9.45));
    default: return of_bits(next());
    }
}

#ifdef EARLIER
double earlier_elementary_exp(double);
static int compare(uint64_t count) {
    uint64_t unlike = 0;
    for (uint64_t i = 0; i < count; i++) {
        double x = argument(i), y = elementary_exp(x), z = earlier_elementary_exp(x);
        if (bits(y) != bits(z) && unlike++ < 5) printf("exp %016" PRIx64 ": %016" PRIx64 ", earlier %016" PRIx64 "\n", bits(x), bits(y), bits(z));
    }
    printf("%" PRIu64 " arguments, %" PRIu64 " answers differ\n", count, unlike);
    return unlike != 0;
}
#endif

static int check(const char *path) {
    FILE *file = fopen(path, "r");
    char line[200];
    int passed = 0, failed = 0;
    while (file && fgets(line, sizeof line, file)) {
        uint64_t x, y;
        if (*line == '#') continue;
        if (sscanf(line, "%" SCNx64 " %" SCNx64, &x, &y) == 2 && bits(elementary_exp(of_bits(x))) == y) passed++;
        else { failed++; printf("FAILED exp %s", line); }
    }
    printf("%d passed, %d failed\n", passed, failed);
    return failed != 0;
}

int main(int count, char **word) {
    state = 20080304;
    if (count == 3 && !strcmp(word[1], "check")) return check(word[2]);
    uint64_t arguments = count == 3 ? strtoull(word[2], 0, 10) : 0;
#ifdef EARLIER
    if (arguments && !strcmp(word[1], "compare")) return compare(arguments);
#endif
    if (!arguments || strcmp(word[1], "write")) { fputs("usage: answers write COUNT | check FILE | compare COUNT\n", stderr); return 2; }
    for (uint64_t i = 0; i < arguments; i++) { double x = argument(i); printf("%016" PRIx64 " %016" PRIx64 "\n", bits(x), bits(elementary_exp(x))); }
    return 0;
}
