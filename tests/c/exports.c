/* Calls every export but those of extended.c: accepted states, the refusals that an input can bring about, and that a refusal leaves what was lent as it was. */
#include "lent.h"

static int near(double a, double b) { return fabs(a - b) <= 1e-9 * fabs(b); }

static void states(void)
{
    accepted("properties", gerg_properties(GAS, 300.0, 2000.0, out), 0, GERG_STATE_PLACES);
    expect("T and density are those given", out[GERG_TEMPERATURE] == 300.0 && out[GERG_MOLAR_DENSITY] == 2000.0);
    expect("p = rho R T Z", near(out[GERG_PRESSURE], 2000.0 * 8.314472 * 300.0 * out[GERG_COMPRESSIBILITY]));
    expect("h = u + p / rho", near(out[GERG_ENTHALPY], out[GERG_INTERNAL_ENERGY] + out[GERG_PRESSURE] / 2000.0));
    expect("g = a + p / rho", near(out[GERG_GIBBS_ENERGY], out[GERG_HELMHOLTZ_ENERGY] + out[GERG_PRESSURE] / 2000.0));
    expect("a = u - T s", near(out[GERG_HELMHOLTZ_ENERGY], out[GERG_INTERNAL_ENERGY] - 300.0 * out[GERG_ENTROPY]));
    expect("w^2 = cp/cv dp/drho / M", near(out[GERG_SPEED_OF_SOUND] * out[GERG_SPEED_OF_SOUND],
        out[GERG_CP] / out[GERG_CV] * out[GERG_DP_DRHO] / (out[GERG_MASS_DENSITY] / 2000.0)));
    expect("Z = 1 + ar_d", near(out[GERG_COMPRESSIBILITY], 1.0 + out[GERG_AR_D]));
    const double z = out[GERG_COMPRESSIBILITY], residual = out[GERG_AR] + z - 1.0 - log(z);
    lend();
    accepted("fugacity", gerg_fugacity(GAS, 300.0, 2000.0, out, ROOM), 0, 2);
    expect("the mean ln phi is the residual Gibbs energy", near(0.9 * out[0] + 0.1 * out[1], residual));
    lend();
    refused("no list", gerg_properties(TABLES, file, 0, HALVES, 300.0, 1.0, out), GERG_BAD_LIST, 0);
    refused("unknown component", gerg_properties(TABLES, (const uint8_t[]){1, 22}, 2, HALVES, 300.0, 1.0, out), GERG_BAD_LIST, 1);
    refused("repeated component", gerg_properties(TABLES, (const uint8_t[]){4, 4}, 2, HALVES, 300.0, 1.0, out), GERG_BAD_LIST, 1);
    refused("one fraction short", gerg_properties(TABLES, METHANE_ETHANE, (const double[]){1.0}, 1, 300.0, 1.0, out), GERG_BAD_FRACTIONS, 2);
    refused("negative fraction", gerg_properties(TABLES, METHANE_ETHANE, (const double[]){1.5, -0.5}, 2, 300.0, 1.0, out), GERG_BAD_FRACTIONS, 1);
    refused("sum", gerg_properties(TABLES, METHANE_ETHANE, (const double[]){0.9, 0.2}, 2, 300.0, 1.0, out), GERG_BAD_FRACTIONS, 2);
    refused("density NaN", gerg_properties(GAS, 300.0, NAN, out), GERG_DENSITY_NONFINITE, 0);
    refused("density -1 at T 100", gerg_properties(GAS, 100.0, -1.0, out), GERG_DENSITY_NOT_POSITIVE, 0);
    refused("below 200 K", gerg_properties(GAS, nextafter(200.0, 0.0), 1.0, out), GERG_OUT_OF_RANGE, 0);
    accepted("200 K", gerg_properties(GAS, 200.0, 1.0, out), 0, GERG_STATE_PLACES);
    lend();
    accepted("450 K", gerg_properties(GAS, 450.0, 1.0, out), 0, GERG_STATE_PLACES);
    lend();
    refused("above 450 K", gerg_properties(GAS, nextafter(450.0, 500.0), 1.0, out), GERG_OUT_OF_RANGE, 0);
    refused("T NaN", gerg_properties(GAS, NAN, 1.0, out), GERG_OUT_OF_RANGE, 0);
    refused("unstable", gerg_properties(PURE(GERG_PROPANE), 270.0, 2000.0, out), GERG_UNSTABLE, 0);
    refused("pressure", gerg_properties(GAS, 400.0, 20000.0, out), GERG_PRESSURE_OUT_OF_RANGE, 0);
    refused("no room, looked at before T", gerg_fugacity(GAS, 100.0, 2000.0, out, 1), GERG_OUT_TOO_SHORT, 2);
}

static void searches(void)
{
    accepted("density", gerg_density(GAS, 300.0, 5e6, 1000.0, 4000.0, 100, 1e-10, out), 0, GERG_DENSITY_PLACES);
    expect("the target is met", fabs(out[GERG_PRESSURE] - 5e6) <= 5e6 * 1e-10 && fabs(out[GERG_RESIDUAL]) <= 1e-10);
    expect("brackets", out[GERG_FIRST_LO] == 1000.0 && out[GERG_FIRST_HI] == 4000.0 && out[GERG_LAST_LO] < out[GERG_MOLAR_DENSITY]
        && out[GERG_MOLAR_DENSITY] < out[GERG_LAST_HI] && out[GERG_TRIALS] >= 1.0 && out[GERG_TRIALS] <= 100.0);
    lend();
    refused("lo = hi, limit 0, tolerance 0", gerg_density(GAS, 300.0, 5e6, 1.0, 1.0, 0, 0.0, out), GERG_BAD_SEARCH, 0);
    refused("tolerance", gerg_density(GAS, 300.0, 5e6, 1000.0, 4000.0, 100, nextafter(1e-7, 1.0), out), GERG_BAD_SEARCH, 0);
    refused("target 0", gerg_density(GAS, 300.0, 0.0, 1000.0, 4000.0, 100, 1e-10, out), GERG_BAD_TARGET, 0);
    refused("target NaN", gerg_density(GAS, 300.0, NAN, 1000.0, 4000.0, 100, 1e-10, out), GERG_BAD_TARGET, 0);
    refused("unstable end", gerg_density(PURE(GERG_PROPANE), 270.0, 4e5, 1.0, 2000.0, 100, 1e-10, out), GERG_TRIAL_UNSTABLE, 0);
    refused("not bracketed", gerg_density(GAS, 300.0, 5e6, 3000.0, 4000.0, 100, 1e-10, out), GERG_NOT_BRACKETED, 0);
    refused("limit", gerg_density(GAS, 300.0, 5e6, 1000.0, 4000.0, 3, 1e-10, out), GERG_LIMIT_REACHED, 3);
    /* With next to no tolerance a search ends on the target's very double, or with no double left between the ends. */
    int collapsed = 0, within = 1;
    for (int k = 0; k < 20; k++) {
        const uint64_t answer = gerg_density(GAS, 300.0, 5e6 + k, 1000.0, 4000.0, 10000, 1e-300, out);
        collapsed += gerg_number(answer) == GERG_COLLAPSED;
        within = within && (gerg_number(answer) == GERG_COLLAPSED ? gerg_value(answer) <= 600 && lent_from(0) : gerg_number(answer) != GERG_LIMIT_REACHED);
        lend();
    }
    expect("some collapse, none makes more than 600 trials", collapsed > 0 && within);
}

static void roots(void)
{
    accepted("two roots", gerg_outer_roots(PURE(GERG_PROPANE), 270.0, 4e5, out, ROOM), 2, 10);
    expect("roots rise", out[GERG_ROOT_DENSITY] < out[GERG_ROOT_PLACES + 1 + GERG_ROOT_DENSITY]);
    lend();
    accepted("roots: just room enough", gerg_outer_roots(PURE(GERG_PROPANE), 270.0, 4e5, out, 10), 2, 10);
    lend();
    refused("roots: no room", gerg_outer_roots(PURE(GERG_PROPANE), 270.0, 4e5, out, 9), GERG_OUT_TOO_SHORT, 10);
    accepted("roots: 230 K, 10 MPa", gerg_outer_roots(GAS, 230.0, 1e7, out, ROOM), 1, 6);
    lend();
    /* Of several causes the first in the course of the call: 20, 21, and last the room. */
    refused("roots: helium", gerg_outer_roots(PURE(GERG_HELIUM), 229.0, 4e5, out, 0), GERG_NOT_QUALIFIED, 0);
    refused("roots: below 230 K", gerg_outer_roots(GAS, nextafter(230.0, 0.0), 1e7, out, 0), GERG_ROOTS_OUT_OF_RANGE, 0);
    refused("roots: above 10 MPa", gerg_outer_roots(GAS, 230.0, nextafter(1e7, 1e8), out, ROOM), GERG_ROOTS_OUT_OF_RANGE, 0);
    refused("no exterior root", gerg_outer_roots(TABLES, (const uint8_t[]){GERG_ETHANE, GERG_NITROGEN, GERG_PROPANE}, 3,
        (const double[]){0.5, 0.3, 0.2}, 3, 257.0, 3.7e6, out, ROOM), GERG_NO_ROOT, 0);
}

static void saturation(void)
{
    accepted("saturation beside a fraction of zero", gerg_pure_saturation(TABLES, (const uint8_t[]){GERG_METHANE, GERG_PROPANE}, 2,
        (const double[]){0.0, 1.0}, 2, 5e5, 250.0, 300.0, 100, out), 1, GERG_SATURATION_PLACES);
    expect("propane boils at 0.5 MPa near 274.9 K", fabs(out[GERG_SATURATION_TEMPERATURE] - 274.9) < 0.1 && out[GERG_SATURATION_PRESSURE] == 5e5);
    expect("the two phases", out[GERG_SATURATION_LIQUID_VOLUME] < out[GERG_SATURATION_VAPOUR_VOLUME]
        && out[GERG_SATURATION_LIQUID_COMPRESSIBILITY] < out[GERG_SATURATION_VAPOUR_COMPRESSIBILITY] && out[GERG_SATURATION_RESIDUAL] <= 1e-12);
    expect("1 to 60 trials", out[GERG_SATURATION_TRIALS] >= 1.0 && out[GERG_SATURATION_TRIALS] <= 60.0);
    const double boiling = out[GERG_SATURATION_TEMPERATURE];
    lend();
    accepted("an accepted end", gerg_pure_saturation(PURE(GERG_PROPANE), 5e5, boiling, 300.0, 100, out), 1, GERG_SATURATION_PLACES);
    expect("an accepted end reports no trial", out[GERG_SATURATION_TEMPERATURE] == boiling && out[GERG_SATURATION_TRIALS] == 0.0);
    lend();
    accepted("not enclosed", gerg_pure_saturation(PURE(GERG_PROPANE), 5e5, 280.0, 300.0, 100, out), 0, 0);
    refused("two positive fractions", gerg_pure_saturation(GAS, 5e5, 250.0, 300.0, 100, out), GERG_BAD_SATURATION, 0);
    refused("falling ends, of helium", gerg_pure_saturation(PURE(GERG_HELIUM), 5e5, 300.0, 250.0, 100, out), GERG_BAD_SATURATION, 0);
    refused("an infinite end", gerg_pure_saturation(PURE(GERG_PROPANE), 5e5, 250.0, INFINITY, 100, out), GERG_BAD_SATURATION, 0);
    refused("saturation: helium", gerg_pure_saturation(PURE(GERG_HELIUM), 5e5, 250.0, 300.0, 100, out), GERG_NOT_QUALIFIED, 0);
    refused("saturation: an end at 351 K", gerg_pure_saturation(PURE(GERG_PROPANE), 5e5, 250.0, 351.0, 100, out), GERG_ROOTS_OUT_OF_RANGE, 0);
    refused("saturation: limit", gerg_pure_saturation(PURE(GERG_PROPANE), 5e5, 250.0, 300.0, 3, out), GERG_SATURATION_EXHAUSTED, 3);
    refused("saturation: limit 0", gerg_pure_saturation(PURE(GERG_PROPANE), 5e5, 250.0, 300.0, 0, out), GERG_SATURATION_EXHAUSTED, 0);
    /* Above the critical pressure there is one root at each temperature, and none is accepted until the middle falls on an end. */
    const uint64_t answer = gerg_pure_saturation(PURE(GERG_CARBON_DIOXIDE), 8e6, 300.0, 320.0, 10000, out);
    expect("the middle falls on an end", gerg_number(answer) == GERG_SATURATION_EXHAUSTED && gerg_value(answer) >= 30 && gerg_value(answer) <= 60 && lent_from(0));
}

/* Every place is written, and the counts add up to the number of states. */
static void counted(const char *name, uint64_t answer, uint64_t states)
{
    uint64_t sum = 0;
    for (int k = 0; k < GERG_COUNT_PLACES; k++)
        sum += counts[k];
    expect(name, answer == 0 && sum == states && counts_lent_from(GERG_COUNT_PLACES) && lent_from(0));
}

static void drawn_states(void)
{
    accepted("state 0", gerg_state_at(1, 0, out), 0, GERG_DRAWN_PLACES);
    lend();
    accepted("state 5000 of the largest seed", gerg_state_at(UINT64_MAX, 5000, out), 0, GERG_DRAWN_PLACES);
    const double t = out[GERG_TEMPERATURE], rho = out[GERG_MOLAR_DENSITY];
    expect("its range", t >= 200.0 && t <= 450.0 && rho >= 1e-3 && rho <= 30000.0);
    lend();
    const uint32_t number = gerg_number(gerg_properties(GAS, t, rho, out));
    lend();
    counted("one state", gerg_count_refusals(GAS, UINT64_MAX, 5000, 1, counts), 1);
    expect("under the number of properties", counts[number] == 1);
    lend();
    counted("3000 states", gerg_count_refusals(GAS, 1, 0, 3000, counts), 3000);
    expect("accepted and refused ones", counts[GERG_ACCEPTED] > 0 && counts[GERG_PRESSURE_OUT_OF_RANGE] > 0);
    expect("none out of range", counts[GERG_DENSITY_NONFINITE] + counts[GERG_DENSITY_NOT_POSITIVE] + counts[GERG_OUT_OF_RANGE] == 0);
    lend();
    counted("no state", gerg_count_refusals(GAS, 1, 7, 0, counts), 0);
    lend();
    refused("state of a zero seed", gerg_state_at(0, 7, out), GERG_ZERO_SEED, 0);
    refused("a zero seed", gerg_count_refusals(GAS, 0, 0, 10, counts), GERG_ZERO_SEED, 0);
    refused("a zero seed before the file", gerg_count_refusals(file, 0, file, 0, HALVES, 0, 0, 10, counts), GERG_ZERO_SEED, 0);
    refused("states: no list", gerg_count_refusals(TABLES, file, 0, HALVES, 1, 0, 10, counts), GERG_BAD_LIST, 0);
    refused("states: sum", gerg_count_refusals(TABLES, METHANE_ETHANE, (const double[]){0.9, 0.2}, 2, 1, 0, 10, counts), GERG_BAD_FRACTIONS, 2);
}

/* Methane 901,234 and ethane 98,766 parts per million, with another byte in one place. */
static const uint8_t *two(size_t place, uint8_t byte)
{
    static const uint8_t TWO[] = {0x10, GERG_METHANE, 0x00, 0x90, 0x12, 0x34, 0x10, GERG_ETHANE, 0x00, 0x09, 0x87, 0x66};
    static uint8_t changed[sizeof TWO];
    memcpy(changed, TWO, sizeof TWO);
    changed[place] = byte;
    return changed;
}

#define READ(bytes, length) gerg_read_list(bytes, length, listed, ROOM, parts, ROOM, out, ROOM)
#define READ_INTO(list_len, parts_len, fractions_len) gerg_read_list(two(0, 0x10), 12, listed, list_len, parts, parts_len, out, fractions_len)

static void lists_read(void)
{
    accepted("a list of two", READ(two(0, 0x10), 12), 2, 2);
    expect("its components", listed[0] == GERG_METHANE && listed[1] == GERG_ETHANE && lists_lent_from(2, 2));
    expect("its parts and fractions", parts[0] == 901234 && parts[1] == 98766 && out[0] == 901234.0 / 1e6 && out[1] == 98766.0 / 1e6);
    const double fractions[] = {out[0], out[1]};
    lend();
    accepted("properties of what was read", gerg_properties(TABLES, METHANE_ETHANE, fractions, 2, 300.0, 2000.0, out), 0, GERG_STATE_PLACES);
    lend();
    accepted("just room enough", READ_INTO(2, 2, 2), 2, 2);
    lend();
    const uint8_t one[] = {0x10, GERG_ARGON, 0x01, 0x00, 0x00, 0x00};
    accepted("a list of one", READ(one, sizeof one), 1, 1);
    expect("argon alone", listed[0] == GERG_ARGON && parts[0] == GERG_TOTAL_PARTS && out[0] == 1.0 && lists_lent_from(1, 1));
    lend();
    refused("another kind", READ(two(6, 0x11), 12), GERG_BAD_RECORD, 6);
    refused("a high digit above 9", READ(two(2, 0xA0), 12), GERG_BAD_RECORD, 0);
    refused("a low digit above 9", READ(two(11, 0x6A), 12), GERG_BAD_RECORD, 6);
    refused("a record cut, behind a repeated component", READ(two(7, GERG_METHANE), 11), GERG_BAD_RECORD, 6);
    refused("one byte", READ(two(0, 0x10), 1), GERG_BAD_RECORD, 0);
    refused("no record", READ(file, 0), GERG_BAD_LIST, 0);
    refused("component 0", READ(two(1, 0), 12), GERG_BAD_LIST, 0);
    refused("component 22", READ(two(7, 22), 12), GERG_BAD_LIST, 1);
    refused("repeated component in a list", READ(two(7, GERG_METHANE), 12), GERG_BAD_LIST, 1);
    refused("total, and no room", gerg_read_list(two(11, 0x67), 12, listed, 0, parts, 0, out, 0), GERG_BAD_TOTAL, 0);
    refused("total of the first alone", READ(two(0, 0x10), 6), GERG_BAD_TOTAL, 0);
    refused("no room for components", READ_INTO(1, ROOM, ROOM), GERG_OUT_TOO_SHORT, 2);
    refused("no room for parts", READ_INTO(ROOM, 1, ROOM), GERG_OUT_TOO_SHORT, 2);
    refused("no room for fractions", READ_INTO(ROOM, ROOM, 0), GERG_OUT_TOO_SHORT, 2);
}

#define PARTS(...) (const uint32_t[]){__VA_ARGS__}, sizeof((const uint32_t[]){__VA_ARGS__}) / sizeof(uint32_t)
#define WRITE(...) gerg_write_list(__VA_ARGS__, listed, sizeof listed)

static void lists_written(void)
{
    accepted("two written", WRITE(METHANE_ETHANE, PARTS(901234, 98766)), 2 * GERG_RECORD_BYTES, 0);
    expect("their bytes", memcmp(listed, two(0, 0x10), 12) == 0 && lists_lent_from(12, 0));
    lend();
    accepted("just room enough for bytes", gerg_write_list(METHANE_ETHANE, PARTS(0, 1000000), listed, 12), 12, 0);
    expect("zero parts and all", memcmp(listed, (const uint8_t[]){0x10, 1, 0, 0, 0, 0, 0x10, 4, 1, 0, 0, 0}, 12) == 0 && lists_lent_from(12, 0));
    lend();
    uint8_t all[GERG_MOST_RECORDS + 1];
    uint32_t each[GERG_MOST_RECORDS + 1] = {GERG_TOTAL_PARTS};
    for (int k = 0; k <= GERG_MOST_RECORDS; k++)
        all[k] = (uint8_t)(k + 1);
    accepted("21 written", WRITE(all, GERG_MOST_RECORDS, each, GERG_MOST_RECORDS), GERG_LONGEST_LIST, 0);
    expect("the longest list", listed[GERG_LONGEST_LIST - 5] == GERG_ARGON && lists_lent_from(GERG_LONGEST_LIST, 0));
    lend();
    refused("22 written", WRITE(all, GERG_MOST_RECORDS + 1, each, GERG_MOST_RECORDS + 1), GERG_BAD_LIST, 21);
    refused("none written, beside parts", WRITE(all, 0, each, 1), GERG_BAD_LIST, 0);
    refused("a component written twice, one part short", WRITE((const uint8_t[]){4, 4}, 2, PARTS(1000000)), GERG_BAD_LIST, 1);
    refused("one part short", WRITE(METHANE_ETHANE, PARTS(1000000)), GERG_BAD_FRACTIONS, 2);
    refused("one part over, and the total", WRITE(METHANE_ETHANE, PARTS(1, 2, 3)), GERG_BAD_FRACTIONS, 2);
    refused("total written, and no room", gerg_write_list(METHANE_ETHANE, PARTS(901234, 98767), listed, 0), GERG_BAD_TOTAL, 0);
    refused("total past 2^32", WRITE(METHANE_ETHANE, PARTS(UINT32_MAX, 1000001)), GERG_BAD_TOTAL, 0);
    refused("no room for bytes", gerg_write_list(METHANE_ETHANE, PARTS(901234, 98766), listed, 11), GERG_OUT_TOO_SHORT, 12);
}

/* Last: it spoils the file. */
static void files(void)
{
    const size_t whole = length, pairs = first_pair();
    length = 0;
    refused("empty file", gerg_properties(PURE(1), 300.0, 1.0, out), GERG_BAD_FILE, 0);
    length = whole - 1;
    refused("last record cut", gerg_properties(PURE(1), 300.0, 1.0, out), GERG_BAD_FILE, (uint32_t)(whole - 44));
    length = whole + 1;
    refused("a byte over", gerg_properties(PURE(1), 300.0, 1.0, out), GERG_BAD_FILE, (uint32_t)whole);
    refused("states: a byte over", gerg_count_refusals(PURE(1), 1, 0, 10, counts), GERG_BAD_FILE, (uint32_t)whole);
    length = whole;
    /* With gt of ethane, pair 60 from 0, far above its own the liquid is so stiff that no double has the pressure. */
    const double far = 1400.0, zero = 0.0, nothing = NAN;
    memcpy(file + pairs + 60 * 44 + 19, &far, sizeof far);
    refused("root not converged", gerg_outer_roots(PURE(GERG_ETHANE), 300.0, 1e5, out, ROOM), GERG_ROOT_NOT_CONVERGED, 0);
    memcpy(file + pairs + 27, &zero, sizeof zero);
    refused("gv of methane 0", gerg_properties(PURE(1), 300.0, 1.0, out), GERG_BAD_REDUCING_VALUES, 0);
    refused("states: gv of methane 0", gerg_count_refusals(PURE(1), 1, 0, 10, counts), GERG_BAD_REDUCING_VALUES, 0);
    memcpy(file + pairs + 3, &nothing, sizeof nothing);
    refused("bt NaN", gerg_properties(PURE(1), 300.0, 1.0, out), GERG_BAD_TABLE, 1);
    refused("states: bt NaN", gerg_count_refusals(PURE(1), 1, 0, 10, counts), GERG_BAD_TABLE, 1);
}

static void all(void)
{
    states();
    searches();
    roots();
    saturation();
    drawn_states();
    lists_read();
    lists_written();
    files();
}

int main(int count, char **words) { return tested(count, words, all); }
