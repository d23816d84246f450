/* Tests of the elementary functions as C sees them: check VECTORS, linked to libelementary.a. Bits where the answer is exact, else the stated distances.
   The last line is 'N passed, M failed'. */
#include <inttypes.h>
#include <limits.h>
#include <math.h>
#include <quadmath.h>
#include <stdio.h>
#include <stdlib.h>
#include <string.h>
#include "../doubles.h"

double elementary_exp(double), elementary_ln(double), elementary_sqrt(double), elementary_powf(double, double), elementary_powi(double, int32_t);
double elementary_sinh(double), elementary_cosh(double), elementary_tanh(double);

typedef __float128 quad;
#define QUIET UINT64_C(0x7ff8000000000000)

static int passed, failed;

static void expect(int right, const char *what) {
    if (right) passed++;
    else { failed++; printf("FAILED %s\n", what); }
}

static void same(const char *what, double got, double want) {
    char line[200];
    snprintf(line, sizeof line, "%s: %016" PRIx64 ", not %016" PRIx64, what, bits(got), bits(want));
    expect(bits(got) == bits(want), line);
}
#define SAME(call, want) same(#call, call, want)
#define IS_NAN(call) same(#call, call, of_bits(QUIET))

/* document 01's rule for powi, in C */
static double powi_rule(double x, int32_t n) {
    double r = 1, b = x;
    for (uint32_t m = n < 0 ? 0 - (uint32_t)n : (uint32_t)n; m; m >>= 1, b = b * b)
        if (m & 1) r = r * b;
    return n < 0 ? 1 / r : r;
}

/* ---- distances: how far got is from the exact value, in the unit that is allowed */
static quad exp_share(double got, quad exact) { return fabsq(got - exact) / (exact * 0x1p-46Q); }
static quad ln_share(double got, quad exact) { return fabsq(got - exact) / (fmaxq(1, fabsq(exact)) * 0x1p-48Q); }
/* exp's distance, and e to the error of t * ln x: ln's distance times t, and the product's rounding */
static quad powf_share(double got, quad exact, double x, double t) {
    quad l = fabsq(logq(x)), a = fabsq((quad)t);
    return fabsq(got - exact) / (exact * 1.01Q * (0x1p-46Q + a * fmaxq(1, l) * 0x1p-48Q + a * l * 0x1p-53Q));
}
/* one rounding for each of the |n| factors, as each squaring doubles what b has, and for each product */
static quad powi_share(double got, quad exact, int n) { return fabsq(got - exact) / (fabsq(exact) * (abs(n) + 64) * 0x1p-53Q); }
/* exp's distance of both exponentials, whose sum is 2 cosh v, and two roundings */
static quad sinh_share(double got, quad exact, double v) { return fabsq(got - exact) / (coshq(v) * (0x1p-46Q + 0x1p-51Q)); }
static quad tanh_share(double got, quad exact) { return fabsq(got - exact) / 0x1p-44Q; }

/* ---- NaN, and what is exact */
static const uint64_t nans[] = { UINT64_C(0x7ff8000000000000), UINT64_C(0xfff8000000000000), UINT64_C(0x7ff0000000000001), UINT64_C(0xfff000000000abcd), UINT64_C(0x7fffffffffffffff) };
static const double least = 0x1p-1074, subnormal = 0x0.fffffffffffffp-1022, greatest = 0x1.fffffffffffffp1023;

static void test_nan(void) {
    for (unsigned i = 0; i < sizeof nans / sizeof *nans; i++) {
        double n = of_bits(nans[i]);
        IS_NAN(elementary_exp(n)); IS_NAN(elementary_ln(n)); IS_NAN(elementary_sqrt(n));
        IS_NAN(elementary_sinh(n)); IS_NAN(elementary_cosh(n)); IS_NAN(elementary_tanh(n));
        IS_NAN(elementary_powf(n, 1)); IS_NAN(elementary_powf(n, -0.5)); IS_NAN(elementary_powf(2, n)); IS_NAN(elementary_powf(n, n));
        IS_NAN(elementary_powi(n, 1)); IS_NAN(elementary_powi(n, -1)); IS_NAN(elementary_powi(n, INT32_MAX)); IS_NAN(elementary_powi(n, INT32_MIN));
        SAME(elementary_powf(n, 0), 1); SAME(elementary_powf(n, -0.0), 1); SAME(elementary_powi(n, 0), 1);
    }
    IS_NAN(elementary_ln(-1)); IS_NAN(elementary_ln(-least)); IS_NAN(elementary_ln(-subnormal)); IS_NAN(elementary_ln(-greatest)); IS_NAN(elementary_ln(-INFINITY));
    IS_NAN(elementary_sqrt(-1)); IS_NAN(elementary_sqrt(-least)); IS_NAN(elementary_sqrt(-subnormal)); IS_NAN(elementary_sqrt(-greatest)); IS_NAN(elementary_sqrt(-INFINITY));
    IS_NAN(elementary_powf(-1, 2)); IS_NAN(elementary_powf(-least, 1)); IS_NAN(elementary_powf(0, 1)); IS_NAN(elementary_powf(-0.0, 1)); IS_NAN(elementary_powf(0, -1));
    IS_NAN(elementary_powf(INFINITY, 1)); IS_NAN(elementary_powf(-INFINITY, 1)); IS_NAN(elementary_powf(1, INFINITY)); IS_NAN(elementary_powf(1, -INFINITY));
}

static void test_exp_ln(void) {
    SAME(elementary_exp(0), 1); SAME(elementary_exp(-0.0), 1); SAME(elementary_exp(INFINITY), INFINITY); SAME(elementary_exp(-INFINITY), 0);
    SAME(elementary_exp(nextafter(700, INFINITY)), INFINITY); SAME(elementary_exp(nextafter(-700, -INFINITY)), 0);
    SAME(elementary_exp(greatest), INFINITY); SAME(elementary_exp(-greatest), 0);
    double near[] = { 700, nextafter(700, 0), -700, nextafter(-700, 0), least, -least, subnormal, -subnormal };
    for (unsigned i = 0; i < sizeof near / sizeof *near; i++) expect(exp_share(elementary_exp(near[i]), expq(near[i])) <= 1, "exp at an end");
    SAME(elementary_ln(0), -INFINITY); SAME(elementary_ln(-0.0), -INFINITY); SAME(elementary_ln(INFINITY), INFINITY); SAME(elementary_ln(1), 0);
    double ends[] = { least, subnormal, 0x1p-1022, greatest, nextafter(1, 0), nextafter(1, 2) };
    for (unsigned i = 0; i < sizeof ends / sizeof *ends; i++) expect(ln_share(elementary_ln(ends[i]), logq(ends[i])) <= 1, "ln at an end");
}

static void test_sqrt_powf(void) {
    SAME(elementary_sqrt(0), 0); SAME(elementary_sqrt(-0.0), -0.0); SAME(elementary_sqrt(INFINITY), INFINITY); SAME(elementary_sqrt(4), 2); SAME(elementary_sqrt(1), 1);
    SAME(elementary_sqrt(least), 0x1p-537); SAME(elementary_sqrt(subnormal), sqrt(subnormal)); SAME(elementary_sqrt(greatest), sqrt(greatest));
    SAME(elementary_sqrt(0x1p-1022), 0x1p-511); SAME(elementary_sqrt(nextafter(1, 0)), nextafter(1, 0)); SAME(elementary_sqrt(nextafter(4, 0)), nextafter(2, 0));
    double bases[] = { 0, -0.0, 1, -1, 5, least, -subnormal, greatest, INFINITY, -INFINITY };
    for (unsigned i = 0; i < sizeof bases / sizeof *bases; i++) { SAME(elementary_powf(bases[i], 0), 1); SAME(elementary_powf(bases[i], -0.0), 1); SAME(elementary_powi(bases[i], 0), 1); }
    SAME(elementary_powf(1, 5), 1); SAME(elementary_powf(1, least), 1); SAME(elementary_powf(2, INFINITY), INFINITY); SAME(elementary_powf(2, -INFINITY), 0);
    SAME(elementary_powf(0.5, INFINITY), 0); SAME(elementary_powf(0.5, -INFINITY), INFINITY); SAME(elementary_powf(greatest, 1), INFINITY); SAME(elementary_powf(greatest, -1), 0);
}

static void test_powi(void) {
    SAME(elementary_powi(2, 10), 1024); SAME(elementary_powi(2, -10), 0x1p-10); SAME(elementary_powi(2, 1024), INFINITY); SAME(elementary_powi(2, -1074), 0);
    SAME(elementary_powi(1, INT32_MIN), 1); SAME(elementary_powi(-1, INT32_MIN), 1); SAME(elementary_powi(-1, INT32_MAX), -1); SAME(elementary_powi(-1, -INT32_MAX), -1);
    SAME(elementary_powi(2, INT32_MAX), INFINITY); SAME(elementary_powi(2, INT32_MIN), 0); SAME(elementary_powi(0.5, INT32_MIN), INFINITY); SAME(elementary_powi(0.5, INT32_MAX), 0);
    SAME(elementary_powi(0, INT32_MIN), INFINITY); SAME(elementary_powi(-0.0, -1), -INFINITY); SAME(elementary_powi(-0.0, INT32_MAX), -0.0); SAME(elementary_powi(-0.0, INT32_MIN), INFINITY);
    SAME(elementary_powi(INFINITY, INT32_MIN), 0); SAME(elementary_powi(-INFINITY, INT32_MAX), -INFINITY); SAME(elementary_powi(-INFINITY, -INT32_MAX), -0.0);
    int32_t ends[] = { INT32_MIN, INT32_MIN + 1, -2, -1, 0, 1, 2, 3, INT32_MAX - 1, INT32_MAX };
    int wrong = 0;
    for (int i = 0; i < 400000; i++) {
        double x = i % 2 ? of_bits(next()) : uniform(-2, 2);
        if (x != x) continue;
        int32_t n = i % 4 == 0 ? (int32_t)next() : i % 4 == 1 ? ends[next() % 10] : (int32_t)(next() % 256) - 128;
        wrong += bits(elementary_powi(x, n)) != bits(powi_rule(x, n));
    }
    printf("powi: 400000 random arguments, %d unlike the rule's bits\n", wrong);
    expect(wrong == 0, "powi by the rule");
}

static void test_hyperbolic(void) {
    SAME(elementary_sinh(0), 0); SAME(elementary_sinh(-0.0), 0); SAME(elementary_cosh(0), 1); SAME(elementary_cosh(-0.0), 1); SAME(elementary_tanh(0), 0); SAME(elementary_tanh(-0.0), 0);
    SAME(elementary_sinh(INFINITY), INFINITY); SAME(elementary_sinh(-INFINITY), -INFINITY); SAME(elementary_cosh(INFINITY), INFINITY); SAME(elementary_cosh(-INFINITY), INFINITY);
    SAME(elementary_tanh(INFINITY), 1); SAME(elementary_tanh(-INFINITY), -1); SAME(elementary_tanh(nextafter(20, 21)), 1); SAME(elementary_tanh(nextafter(-20, -21)), -1);
    SAME(elementary_sinh(nextafter(700, 701)), INFINITY); SAME(elementary_sinh(nextafter(-700, -701)), -INFINITY); SAME(elementary_cosh(nextafter(700, 701)), INFINITY);
    SAME(elementary_cosh(nextafter(-700, -701)), INFINITY);
    double near[] = { 20, nextafter(20, 0), -20, nextafter(-20, 0), 700, nextafter(700, 0), -700, nextafter(-700, 0), least, -least, subnormal, -subnormal };
    for (unsigned i = 0; i < sizeof near / sizeof *near; i++) {
        double v = near[i];
        expect(sinh_share(elementary_sinh(v), sinhq(v), v) <= 1, "sinh at an end");
        expect(sinh_share(elementary_cosh(v), coshq(v), v) <= 1, "cosh at an end");
        expect(tanh_share(elementary_tanh(v), tanhq(v)) <= 1, "tanh at an end");
    }
}

static void test_sqrt_random(void) {
    int wrong = 0;
    for (int i = 0; i < 1000000; i++) {
        double x = of_bits(i % 4 ? next() & INT64_MAX : i % 8 ? next() & ((UINT64_C(1) << 52) - 1) : next()), want = sqrt(x);
        wrong += bits(elementary_sqrt(x)) != (want != want ? QUIET : bits(want));
    }
    printf("sqrt: 1000000 random doubles, %d unlike the machine's bits\n", wrong);
    expect(wrong == 0, "sqrt and the machine's");
}

static void test_random(void) {
    quad worst_exp = 0, worst_ln = 0;
    for (int i = 0; i < 200000; i++) {
        double x = i % 2 ? uniform(-700, 700) : ldexp(uniform(-1, 1), (int)(next() % 60) - 50);
        quad s = exp_share(elementary_exp(x), expq(x));
        if (!(s <= worst_exp)) worst_exp = s;
        double y = i % 3 == 0 ? uniform(0, 4) : of_bits(next() % UINT64_C(0x7ff0000000000000)), t = i % 3 == 1 ? ldexp(y, -1000) : y;
        if (t == 0) continue;
        s = ln_share(elementary_ln(t), logq(t));
        if (!(s <= worst_ln)) worst_ln = s;
    }
    printf("exp: 200000 random arguments, the worst 2^%.2f of the exact value (allowed 2^-46)\n", (double)log2q(worst_exp) - 46);
    printf("ln: 200000 random arguments, the worst 2^%.2f of max(1, |ln x|) (allowed 2^-48)\n", (double)log2q(worst_ln) - 48);
    expect(worst_exp <= 1, "exp at random arguments");
    expect(worst_ln <= 1, "ln at random arguments");
}

/* how far powf is from x to the power t relatively, by quad: its 113 bits leave 2^-105 of doubt at |t ln x| = 64 */
static quad powf_error(double x, double t) {
    quad exact = t == 0 ? 1 : expq((quad)t * logq(x));
    return fabsq(elementary_powf(x, t) - exact) / exact;
}

/* the largest double t with t <= 64 and t |ln x| <= 64 */
static double largest_exponent(double x) {
    quad l = fabsq(logq(x));
    double t = l <= 1 ? 64 : (double)(64 / l);
    return t * l > 64 ? nextafter(t, 0) : t;
}

/* at the conditions of powf-within (one pair in four) and inside them, with subnormal x, x near 1 and x near e and 1 / e, where both conditions meet; and under those of powf-table */
static void test_powf_random(void) {
    quad worst = 0, table = 0;
    double at[2] = { 0 }, table_at[2] = { 0 };
    int ends = 0, subnormals = 0;
    for (int i = 0; i < 200000; i++) {
        double x = i % 5 == 0 ? uniform(0, 4) : i % 5 == 1 ? of_bits(1 + next() % UINT64_C(0x7fefffffffffffff)) : i % 5 == 2 ? of_bits(1 + next() % ((UINT64_C(1) << 52) - 1))
                 : i % 5 == 3 ? 1 + ldexp(uniform(-1, 1), -(int)(next() % 53)) : exp(i % 2 ? 1 : -1) * uniform(0.99, 1.01);
        if (!(x > 0)) x = least;
        double most = largest_exponent(x), t = i % 8 == 0 ? most : i % 8 == 4 ? -most : i % 8 == 1 ? ldexp(uniform(-most, most), -(int)(next() % 1074)) : uniform(-most, most);
        ends += fabs(t) == most; subnormals += x < 0x1p-1022;
        quad s = powf_error(x, t);
        if (!(s <= worst)) { worst = s; at[0] = x; at[1] = t; }
        double tau = exp2(uniform(-8, 8)), power = i % 8 == 0 ? 32 : i % 8 == 4 ? -32 : uniform(-32, 32);
        s = powf_error(tau, power);
        if (!(s <= table)) { table = s; table_at[0] = tau; table_at[1] = power; }
    }
    printf("powf: 200000 random pairs, %d at |t| = 64 or |t ln x| = 64, %d with x subnormal, the worst 2^%.2f of the exact power (allowed 2^-36), at x = %a, t = %a\n", ends, subnormals, (double)log2q(worst), at[0], at[1]);
    printf("powf: 200000 random pairs with x from 1/256 to 256 and |t| <= 32, the worst 2^%.2f (allowed 2^-36), at x = %a, t = %a\n", (double)log2q(table), table_at[0], table_at[1]);
    expect(worst <= 0x1p-36Q, "powf at and inside its conditions");
    expect(table <= 0x1p-36Q, "powf at exponents of tables");
    expect(ends >= 50000 && subnormals >= 40000, "pairs at the conditions, and subnormal x");
}

/* neither condition can be left out: beyond |t| = 64 with |t ln x| = 60 powf is off by more than 2^-36, beyond |t ln x| = 64 with |t| = 64 it overflows */
static void test_powf_beyond(void) {
    double x = 1 - 4.5e-12, t = (double)(60 / -logq(x));
    quad s = powf_error(x, t);
    printf("powf: off by 2^%.2f at |t| = %.3g, |t ln x| = 60\n", (double)log2q(s), t);
    expect(s > 0x1p-36Q, "|t| <= 64 is needed");
    SAME(elementary_powf(0x1p80, 64), INFINITY);
}

/* ---- the bits at the special arguments, for a reader */
static void table(void) {
    double up = nextafter(700, 701), under = nextafter(700, 0), over = nextafter(20, 21), inside = nextafter(20, 0);
    double at[] = { NAN, 0, -0.0, INFINITY, -INFINITY, least, subnormal, under, 700, up, -under, -700, -up, inside, 20, over, -inside, -20, -over };
    printf("%16s %16s %16s %16s %16s %16s %16s\n", "argument", "exp", "ln", "sqrt", "sinh", "cosh", "tanh");
    for (unsigned i = 0; i < sizeof at / sizeof *at; i++) {
        double x = at[i], row[] = { x, elementary_exp(x), elementary_ln(x), elementary_sqrt(x), elementary_sinh(x), elementary_cosh(x), elementary_tanh(x) };
        for (int k = 0; k < 7; k++) printf("%016" PRIx64 "%s", bits(row[k]), k < 6 ? " " : "\n");
    }
    double bases[] = { NAN, 0, -0.0, INFINITY, -INFINITY, least, subnormal, 1, -1, 2, 0.5, 1.000000001 };
    printf("%16s %16s %16s %16s\n", "base", "powi -2147483648", "powi 2147483647", "powf 0.5");
    for (unsigned i = 0; i < sizeof bases / sizeof *bases; i++) {
        double x = bases[i];
        printf("%016" PRIx64 " %016" PRIx64 " %016" PRIx64 " %016" PRIx64 "\n", bits(x), bits(elementary_powi(x, INT32_MIN)), bits(elementary_powi(x, INT32_MAX)), bits(elementary_powf(x, 0.5)));
    }
}

/* ---- the stored vectors */
static void test_vectors(const char *path) {
    FILE *in = fopen(path, "r");
    char line[400], name[16], a[32], b[128], c[128];
    static const char *names[] = { "exp", "ln", "sqrt", "powf", "powi", "sinh", "cosh", "tanh" };
    int count[8] = { 0 }, wrong = 0;
    quad worst[8] = { 0 };
    expect(in != 0, "vectors.txt can be read");
    while (in && fgets(line, sizeof line, in)) {
        if (line[0] == '#') continue;
        int fields = sscanf(line, "%15s %31s %127s %127s", name, a, b, c), k = 0;
        while (k < 8 && strcmp(name, names[k])) k++;
        if (k == 8 || fields != (k == 3 || k == 4 ? 4 : 3)) { wrong++; continue; }
        double x = of_bits(strtoull(a, 0, 16)), t = of_bits(strtoull(b, 0, 16));
        quad exact = strtoflt128(fields == 4 ? c : b, 0), s;
        int n = atoi(b);
        switch (k) {
        case 0: s = exp_share(elementary_exp(x), exact); break;
        case 1: s = ln_share(elementary_ln(x), exact); break;
        case 2: s = bits(elementary_sqrt(x)) == bits(strtod(b, 0)) ? 0 : 2; break;
        case 3: s = powf_share(elementary_powf(x, t), exact, x, t); break;
        case 4: s = powi_share(elementary_powi(x, n), exact, n); break;
        case 5: s = sinh_share(elementary_sinh(x), exact, x); break;
        case 6: s = sinh_share(elementary_cosh(x), exact, x); break;
        default: s = tanh_share(elementary_tanh(x), exact);
        }
        count[k]++;
        if (!(s <= worst[k])) worst[k] = s;
        if (!(s <= 1)) { wrong++; printf("FAILED %s", line); }
    }
    if (in) fclose(in);
    for (int k = 0; k < 8; k++) {
        printf("%s: %d vectors, the worst %.4f of the allowed distance\n", names[k], count[k], (double)worst[k]);
        expect(count[k] >= 200 && worst[k] <= 1, names[k]);
    }
    expect(wrong == 0, "vectors");
}

int main(int argc, char **argv) {
    state = 20080301;
    table();
    test_nan();
    test_exp_ln();
    test_sqrt_powf();
    test_powi();
    test_hyperbolic();
    test_sqrt_random();
    test_random();
    test_powf_random();
    test_powf_beyond();
    test_vectors(argc > 1 ? argv[1] : "vectors.txt");
    printf("%d passed, %d failed\n", passed, failed);
    return failed != 0;
}
