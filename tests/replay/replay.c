/* Replays a stored list of calls over the archive of gerg_api and compares number, value and every double's bits, lent memory included.
   usage: replay COEFFICIENTS < LIST. A line: its kind in brackets where the list has kinds, the call, its list, fractions, numbers, limit and places
   lent, then ` = ` and the answer. A line that starts with # is passed over. Prints how many lines each kind has, and each feature that the head of a
   list of the extended range counts. A line of the normal range that no end of it refuses is replayed in the extended range too. */
#include <inttypes.h>
#include <stdint.h>
#include <stdio.h>
#include <stdlib.h>
#include <string.h>

typedef uint64_t properties_call(const uint8_t *, size_t, const uint8_t *, size_t, const double *, size_t, double, double, double *);
typedef uint64_t fugacity_call(const uint8_t *, size_t, const uint8_t *, size_t, const double *, size_t, double, double, double *, size_t);
typedef uint64_t density_call(const uint8_t *, size_t, const uint8_t *, size_t, const double *, size_t, double, double, double, double,
                              uint64_t, double, double *);
properties_call gerg_properties, gerg_properties_extended;
fugacity_call gerg_fugacity, gerg_fugacity_extended;
density_call gerg_density, gerg_density_extended;
uint64_t gerg_outer_roots(const uint8_t *, size_t, const uint8_t *, size_t, const double *, size_t, double, double, double *, size_t);
uint64_t gerg_pure_saturation(const uint8_t *, size_t, const uint8_t *, size_t, const double *, size_t, double, double, double, uint64_t,
                              double *);

enum { FILE_MOST = 1 << 16, PLACES = 1 << 16, KINDS = 32 };
static const uint64_t LENT = 0x4142434400000000u;
static uint8_t file[FILE_MOST], list[PLACES];
static size_t file_len;
static double fractions[PLACES], numbers[8], out[PLACES], expected[PLACES];
static char kinds[KINDS][32];
static unsigned long of_kind[KINDS], lines, passed, failed;

/* What a line says beside the lists above. */
struct line {
    size_t listed, given, room;
    uint64_t limit, refused, value;
};

static void fail(const char *what) {
    fprintf(stderr, "replay: %s\n", what);
    exit(2);
}

static uint64_t word(const char *format) {
    uint64_t value;
    if (scanf(format, &value) != 1) fail("a line is cut short");
    return value;
}

static size_t count(void) {
    uint64_t n = word("%" SCNu64);
    if (n >= PLACES) fail("a count is too large");
    return (size_t)n;
}

static double number(uint64_t bits) {
    double value;
    memcpy(&value, &bits, sizeof value);
    return value;
}

static uint64_t bits(double value) {
    uint64_t pattern;
    memcpy(&pattern, &value, sizeof pattern);
    return pattern;
}

static size_t doubles(double *into) {
    size_t n = count();
    for (size_t k = 0; k < n; k++) into[k] = number(word("%" SCNx64));
    return n;
}

static uint64_t answer(const char *call, int extended, const struct line *l) {
    const double *v = numbers, *x = fractions;
    if (!strcmp(call, "properties"))
        return (extended ? gerg_properties_extended : gerg_properties)(file, file_len, list, l->listed, x, l->given, v[0], v[1], out);
    if (!strcmp(call, "fugacity"))
        return (extended ? gerg_fugacity_extended : gerg_fugacity)(file, file_len, list, l->listed, x, l->given, v[0], v[1], out, l->room);
    if (!strcmp(call, "density"))
        return (extended ? gerg_density_extended : gerg_density)(file, file_len, list, l->listed, x, l->given, v[0], v[1], v[2], v[3], l->limit,
                                                                 v[4], out);
    if (extended) fail("a call that the extended range does not have");
    if (!strcmp(call, "roots")) return gerg_outer_roots(file, file_len, list, l->listed, x, l->given, v[0], v[1], out, l->room);
    if (!strcmp(call, "saturation"))
        return gerg_pure_saturation(file, file_len, list, l->listed, x, l->given, v[0], v[1], v[2], l->limit, out);
    fail("an unknown call");
    return 0;
}

/* Whether an answer can be of the kind that its line names; how often the pressure crosses the target is for the list's maker to say. */
static int fits(const char *kind, uint64_t number, uint64_t value, uint64_t limit) {
    if (!strncmp(kind, "row-", 4)) return number == strtoull(kind + 4, NULL, 10);
    if (!strcmp(kind, "none")) return number == 23;
    if (!strcmp(kind, "on-a-grid-point")) return number == 0;
    if (!strcmp(kind, "one-root") || !strcmp(kind, "two-crossings")) return number == 0 && value == 1;
    if (!strcmp(kind, "two-roots") || !strcmp(kind, "three-crossings")) return number == 0 && value == 2;
    if (!strcmp(kind, "found")) return number == 0 && value == 1 && expected[8] > 0.0;
    if (!strcmp(kind, "found-at-an-end")) return number == 0 && value == 1 && expected[8] == 0.0;
    if (!strcmp(kind, "not-enclosed")) return number == 0 && value == 0;
    if (!strcmp(kind, "limit")) return number == 26 && value == limit;
    return !strcmp(kind, "middle-on-an-end") && number == 26 && value < limit;
}

/* Whether the extended range must give the same answer: it has the call, and no end of the normal range refused. */
static int in_both(const char *call, uint64_t refused) {
    int has = !strcmp(call, "properties") || !strcmp(call, "fugacity") || !strcmp(call, "density");
    return has && refused != 8 && refused != 11 && refused != 14;
}

static void tally(const char *kind) {
    int k = 0;
    while (k < KINDS && of_kind[k] && strcmp(kinds[k], kind)) k++;
    if (k == KINDS) fail("too many kinds");
    strcpy(kinds[k], kind);
    of_kind[k]++;
}

/* The features of a line of the extended range. The answer to a fugacity has no pressure. */
static void tally_features(const char *call, const struct line *l) {
    int hydrogen = 0;
    for (size_t k = 0; k < l->listed && k < l->given; k++) hydrogen = hydrogen || (list[k] == 15 && fractions[k] >= 0.5);
    if (hydrogen) tally("half-hydrogen");
    if (l->refused == 11) tally("row-11");
    if (l->refused) return;
    if (numbers[0] < 200.0 || numbers[0] > 450.0) tally("outside-200-to-450-K");
    if (strcmp(call, "fugacity") && expected[3] > 35e6) tally("above-35-MPa");
}

/* The next line's kind (empty where it has none) and call; 0 at the end. */
static int next(char *kind, char *call) {
    kind[0] = 0;
    while (scanf("%31s", call) == 1) {
        size_t n = strlen(call);
        if (call[0] == '#') {
            if (scanf("%*[^\n]") == EOF) return 0;
        } else if (call[0] == '[' && call[n - 1] == ']') {
            memcpy(kind, call + 1, n - 2);
            kind[n - 2] = 0;
        } else {
            return 1;
        }
    }
    return 0;
}

static struct line rest_of_line(void) {
    struct line l = {.listed = count()};
    for (size_t k = 0; k < l.listed; k++) list[k] = (uint8_t)word("%" SCNu64);
    l.given = doubles(fractions);
    doubles(numbers);
    l.limit = word("%" SCNu64);
    l.room = count();
    if (scanf(" = ") == EOF) fail("a line is cut short");
    l.refused = word("%" SCNu64);
    l.value = word("%" SCNu64);
    for (size_t k = 0; k < l.room; k++) expected[k] = number(LENT + k);
    doubles(expected);
    return l;
}

/* Whether the archive answers a line as stored. */
static int same(const char *call, int extended, const struct line *l) {
    for (size_t k = 0; k < l->room; k++) out[k] = number(LENT + k);
    int right = answer(call, extended, l) == l->refused * 0x100000000u + l->value;
    for (size_t k = 0; k < l->room; k++) right = right && bits(out[k]) == bits(expected[k]);
    return right;
}

static void note(int right, const char *call, const char *kind) {
    passed += right;
    failed += !right;
    if (!right && failed <= 5) printf("FAILED call %lu, %s %s\n", lines, call, kind);
}

/* A line whose kind and call are read. */
static void replay(const char *kind, char *call) {
    char *suffix = strstr(call, "-extended");
    if (suffix) *suffix = 0;
    struct line l = rest_of_line();
    lines++;
    if (kind[0]) tally(kind);
    if (suffix) tally_features(call, &l);
    note(same(call, suffix != NULL, &l) && (!kind[0] || fits(kind, l.refused, l.value, l.limit)), call, suffix ? "extended" : kind);
    if (suffix || !in_both(call, l.refused)) return;
    tally("in-both-ranges");
    note(same(call, 1, &l), call, "in the extended range too");
}

int main(int argc, char **argv) {
    FILE *source = argc == 2 ? fopen(argv[1], "rb") : NULL;
    if (!source) fail("usage: replay COEFFICIENTS < LIST");
    file_len = fread(file, 1, FILE_MOST, source);
    fclose(source);
    char kind[32], call[32];
    while (next(kind, call)) replay(kind, call);
    for (int k = 0; k < KINDS && of_kind[k]; k++) printf("kind %s %lu\n", kinds[k], of_kind[k]);
    printf("%lu passed, %lu failed\n", passed, failed);
    return failed != 0;
}
