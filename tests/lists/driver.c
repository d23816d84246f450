/* Calls of gerg_read_list and gerg_write_list over the archive, on memory that ends at a page which nothing may touch.
   usage: driver calls: answers to the calls on standard input, each made twice (see `twice`); driver fractions: for p from 0 to 500,000 the fractions of p
          and 1,000,000 - p parts, in one list; driver mixtures COEFFICIENTS: of each list on standard input, what the calls on a mixture answer. */
#include "gerg.h"

#include <stdio.h>
#include <stdlib.h>
#include <string.h>
#include <sys/mman.h>

enum { MOST = 1 << 18, GUARD = 16, LONGEST_FILE = 28377 };

static void fail(const char *what)
{
    fprintf(stderr, "driver: %s\n", what);
    exit(2);
}

/* Memory with a page behind it that can neither be read nor written. */
static uint8_t *fence(void)
{
    uint8_t *base = mmap(NULL, 2 * MOST, PROT_READ | PROT_WRITE, MAP_PRIVATE | MAP_ANONYMOUS, -1, 0);
    if (base == MAP_FAILED || mprotect(base + MOST, MOST, PROT_NONE) != 0)
        fail("no memory");
    return base + MOST;
}

static uint8_t *fences[4];

static int get(void *to, size_t length) { return fread(to, 1, length, stdin) == length; }
static void put(const void *from, size_t length) { fwrite(from, 1, length, stdout); }

/* A call on standard input: which (0 gerg_read_list, 1 gerg_write_list), the lengths of its lists or of list, parts and `out`, how many bytes follow; then
   the bytes of the list, or list and parts. */
struct called {
    uint32_t writes, lengths[3], bytes;
};

/* `behind` bytes before each fence, memory of that length, with guards of the same content before and behind it. */
static uint8_t *lent(int k, size_t length, size_t behind, int content)
{
    uint8_t *at = fences[k] - behind - length;
    memset(at - GUARD, content, GUARD + length + behind);
    return at;
}

/* The answer, then all that was lent with its guards, then whether what was read stayed. */
static void reading(const struct called *c, const uint8_t *given, size_t behind, int content)
{
    static const size_t SIZES[] = {1, sizeof(uint32_t), sizeof(double)};
    uint8_t *bytes = memcpy(fences[3] - c->bytes, given, c->bytes), *lists[3];
    for (int k = 0; k < 3; k++)
        lists[k] = lent(k, SIZES[k] * c->lengths[k], behind, content);
    const uint64_t answer = gerg_read_list(bytes, c->bytes, lists[0], c->lengths[0], (uint32_t *)lists[1], c->lengths[1], (double *)lists[2], c->lengths[2]);
    put(&answer, sizeof answer);
    for (int k = 0; k < 3; k++)
        put(lists[k] - GUARD, GUARD + SIZES[k] * c->lengths[k] + behind);
    putchar(memcmp(bytes, given, c->bytes) == 0);
}

static void writing(const struct called *c, const uint8_t *given, size_t behind, int content)
{
    const size_t listed = c->lengths[0], parted = sizeof(uint32_t) * c->lengths[1];
    uint8_t *list = memcpy(fences[3] - listed, given, listed), *parts = memcpy(fences[1] - parted, given + listed, parted);
    uint8_t *out = lent(0, c->lengths[2], behind, content);
    const uint64_t answer = gerg_write_list(list, listed, (const uint32_t *)parts, c->lengths[1], out, c->lengths[2]);
    put(&answer, sizeof answer);
    put(out - GUARD, GUARD + c->lengths[2] + behind);
    putchar(memcmp(list, given, listed) == 0 && memcmp(parts, given + listed, parted) == 0);
}

/* Once with guards before and behind what is lent, once with the lent memory at the fence and another content. */
static void twice(void)
{
    static uint8_t given[MOST];
    struct called c;
    while (get(&c, sizeof c)) {
        for (int k = 0; k < 3; k++)
            if (c.lengths[k] > (MOST - 2 * GUARD) / sizeof(double))
                fail("a call is too long");
        if (c.bytes > MOST || !get(given, c.bytes))
            fail("a call is cut or too long");
        void (*call)(const struct called *, const uint8_t *, size_t, int) = c.writes ? writing : reading;
        call(&c, given, GUARD, 0xA5);
        call(&c, given, 0, 0x5A);
    }
}

static void put_record(uint8_t *at, uint8_t component, uint32_t parts)
{
    char digits[16];
    snprintf(digits, sizeof digits, "%08u", (unsigned)parts);
    at[0] = 0x10;
    at[1] = component;
    for (int k = 0; k < 4; k++)
        at[2 + k] = (uint8_t)((digits[2 * k] - '0') << 4 | (digits[2 * k + 1] - '0'));
}

static void fractions(void)
{
    for (uint32_t p = 0; p <= GERG_TOTAL_PARTS / 2; p++) {
        uint8_t bytes[2 * GERG_RECORD_BYTES], list[2];
        uint32_t parts[2];
        double found[2];
        put_record(bytes, 1, p);
        put_record(bytes + GERG_RECORD_BYTES, 2, GERG_TOTAL_PARTS - p);
        if (gerg_read_list(bytes, sizeof bytes, list, 2, parts, 2, found, 2) != 2 || parts[0] != p || parts[1] != GERG_TOTAL_PARTS - p)
            fail("a list of two is refused");
        put(found, sizeof found);
    }
}

#define GAS file, tables, list, n, x, n

/* A list on standard input is its length, a byte, and its bytes. */
static void mixtures(const char *path)
{
    static uint8_t file[LONGEST_FILE + 1], bytes[256];
    static double out[GERG_MOST_ROOTS * (GERG_ROOT_PLACES + GERG_MOST_RECORDS)];
    uint64_t counts[GERG_COUNT_PLACES];
    uint8_t length, list[GERG_MOST_RECORDS];
    uint32_t parts[GERG_MOST_RECORDS];
    double x[GERG_MOST_RECORDS];
    FILE *in = fopen(path, "rb");
    if (!in)
        fail("no coefficient file");
    const size_t tables = fread(file, 1, sizeof file, in), room = sizeof out / sizeof *out;
    fclose(in);
    while (get(&length, 1) && get(bytes, length)) {
        const uint64_t read = gerg_read_list(bytes, length, list, GERG_MOST_RECORDS, parts, GERG_MOST_RECORDS, x, GERG_MOST_RECORDS);
        const uint32_t n = gerg_value(read);
        if (gerg_number(read) != GERG_ACCEPTED || n > GERG_MOST_RECORDS)
            fail("a list is refused");
        const uint64_t answers[] = {
            gerg_properties(GAS, 300.0, 40.0, out), gerg_properties_extended(GAS, 300.0, 40.0, out),
            gerg_fugacity(GAS, 300.0, 40.0, out, room), gerg_fugacity_extended(GAS, 300.0, 40.0, out, room),
            gerg_density(GAS, 300.0, 1e5, 30.0, 60.0, 100, 1e-10, out), gerg_density_extended(GAS, 300.0, 1e5, 30.0, 60.0, 100, 1e-10, out),
            gerg_outer_roots(GAS, 300.0, 1e5, out, room), gerg_pure_saturation(GAS, 5e5, 250.0, 300.0, 100, out),
            gerg_count_refusals(GAS, 1, 0, 3, counts),
        };
        put(answers, sizeof answers);
    }
}

int main(int count, char **words)
{
    for (int k = 0; k < 4; k++)
        fences[k] = fence();
    if (count == 2 && !strcmp(words[1], "calls"))
        twice();
    else if (count == 2 && !strcmp(words[1], "fractions"))
        fractions();
    else if (count == 3 && !strcmp(words[1], "mixtures"))
        mixtures(words[2]);
    else
        fail("usage: driver calls | driver fractions | driver mixtures COEFFICIENTS");
    return 0;
}
