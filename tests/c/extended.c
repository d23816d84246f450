/* The calls in the extended range: its ends, what it takes that the normal one refuses, the same bits within the normal one, and the refusals that come first. */
#include "lent.h"

#define HYDROGEN PURE(GERG_HYDROGEN)

static const double LOW = 60.0, HIGH = 700.0, MOST = 70e6;

/* The double next to an end, outside. */
static double beyond(double end) { return nextafter(end, end == LOW || end == 1e-3 ? 0.0 : INFINITY); }

static uint64_t search(double t, double target, double lo, double hi) { return gerg_density_extended(HYDROGEN, t, target, lo, hi, 100, 1e-10, out); }

static void temperatures(void)
{
    const double ends[] = {LOW, HIGH};
    for (int k = 0; k < 2; k++) {
        const double t = ends[k], other = beyond(t);
        accepted("properties at an end", gerg_properties_extended(HYDROGEN, t, 100.0, out), 0, GERG_STATE_PLACES);
        expect("its temperature", out[GERG_TEMPERATURE] == t);
        const double target = out[GERG_PRESSURE];
        lend();
        refused("properties beyond it", gerg_properties_extended(HYDROGEN, other, 100.0, out), GERG_OUT_OF_RANGE, 0);
        accepted("fugacity at an end", gerg_fugacity_extended(HYDROGEN, t, 100.0, out, ROOM), 0, 1);
        lend();
        refused("fugacity beyond it", gerg_fugacity_extended(HYDROGEN, other, 100.0, out, ROOM), GERG_OUT_OF_RANGE, 0);
        accepted("density at an end", search(t, target, 10.0, 1000.0), 0, GERG_DENSITY_PLACES);
        expect("its density", fabs(out[GERG_MOLAR_DENSITY] - 100.0) < 1e-6 && out[GERG_TEMPERATURE] == t);
        lend();
        refused("density beyond it", search(other, target, 10.0, 1000.0), GERG_OUT_OF_RANGE, 0);
        refused("the normal calls there", gerg_properties(HYDROGEN, t, 100.0, out), GERG_OUT_OF_RANGE, 0);
        refused("fugacity there", gerg_fugacity(HYDROGEN, t, 100.0, out, ROOM), GERG_OUT_OF_RANGE, 0);
        refused("density there", gerg_density(HYDROGEN, t, target, 10.0, 1000.0, 100, 1e-10, out), GERG_OUT_OF_RANGE, 0);
    }
    refused("T NaN", gerg_properties_extended(HYDROGEN, NAN, 100.0, out), GERG_OUT_OF_RANGE, 0);
}

static void densities(void)
{
    const double ends[] = {1e-3, 30000.0};
    for (int k = 0; k < 2; k++) {
        const double rho = ends[k], other = beyond(rho);
        accepted("density of a state", gerg_properties_extended(HYDROGEN, LOW, rho, out), 0, GERG_STATE_PLACES);
        lend();
        accepted("density of a fugacity", gerg_fugacity_extended(HYDROGEN, LOW, rho, out, ROOM), 0, 1);
        lend();
        refused("beyond it", gerg_properties_extended(HYDROGEN, LOW, other, out), GERG_OUT_OF_RANGE, 0);
        refused("fugacity beyond it", gerg_fugacity_extended(HYDROGEN, LOW, other, out, ROOM), GERG_OUT_OF_RANGE, 0);
    }
    accepted("the widest bracket", search(LOW, 1e6, 1e-3, 30000.0), 0, GERG_DENSITY_PLACES);
    lend();
    refused("a bracket below", search(LOW, 1e6, beyond(1e-3), 30000.0), GERG_BAD_SEARCH, 0);
    refused("a bracket above", search(LOW, 1e6, 1e-3, beyond(30000.0)), GERG_BAD_SEARCH, 0);
    refused("density NaN", gerg_properties_extended(HYDROGEN, 50.0, NAN, out), GERG_DENSITY_NONFINITE, 0);
    refused("density -1 at T 50", gerg_fugacity_extended(HYDROGEN, 50.0, -1.0, out, ROOM), GERG_DENSITY_NOT_POSITIVE, 0);
}

static void pressures(void)
{
    expect("the highest target passes row 14", gerg_number(search(300.0, MOST, 1000.0, 30000.0)) != GERG_BAD_TARGET);
    lend();
    refused("the double above it", search(300.0, beyond(MOST), 1000.0, 30000.0), GERG_BAD_TARGET, 0);
    refused("target NaN", search(300.0, NAN, 1000.0, 30000.0), GERG_BAD_TARGET, 0);
    refused("target 0", search(300.0, 0.0, 1000.0, 30000.0), GERG_BAD_TARGET, 0);
    refused("69 MPa, normal", gerg_density(HYDROGEN, 300.0, 69e6, 1000.0, 30000.0, 100, 1e-10, out), GERG_BAD_TARGET, 0);
    accepted("69 MPa", search(300.0, 69e6, 1000.0, 30000.0), 0, GERG_DENSITY_PLACES);
    expect("its pressure", fabs(out[GERG_PRESSURE] - 69e6) <= 69e6 * 1e-10);
    const double rho = out[GERG_MOLAR_DENSITY];
    lend();
    accepted("properties at 69 MPa", gerg_properties_extended(HYDROGEN, 300.0, rho, out), 0, GERG_STATE_PLACES);
    lend();
    accepted("fugacity at 69 MPa", gerg_fugacity_extended(HYDROGEN, 300.0, rho, out, ROOM), 0, 1);
    lend();
    refused("properties, normal", gerg_properties(HYDROGEN, 300.0, rho, out), GERG_PRESSURE_OUT_OF_RANGE, 0);
    refused("fugacity, normal", gerg_fugacity(HYDROGEN, 300.0, rho, out, ROOM), GERG_PRESSURE_OUT_OF_RANGE, 0);
    refused("properties above 70 MPa", gerg_properties_extended(HYDROGEN, 300.0, 1.05 * rho, out), GERG_PRESSURE_OUT_OF_RANGE, 0);
    refused("fugacity above 70 MPa", gerg_fugacity_extended(HYDROGEN, 300.0, 1.05 * rho, out, ROOM), GERG_PRESSURE_OUT_OF_RANGE, 0);
}

/* A normal call with that number, then the extended one, on memory lent alike: the same answer and the same bytes. */
#define SAME(name, number, normal, extended) \
    do { \
        double kept[ROOM]; \
        const uint64_t answer = normal; \
        memcpy(kept, out, sizeof kept); \
        lend(); \
        expect(name, answer == extended && gerg_number(answer) == number && memcmp(kept, out, sizeof kept) == 0); \
        lend(); \
    } while (0)

static void within_the_normal_range(void)
{
    const double at[][2] = {{200.0, 1e-3}, {300.0, 2000.0}, {450.0, 5000.0}, {273.15, 9000.0}}, targets[] = {1e5, 5e6, 12e6};
    for (int k = 0; k < 4; k++) {
        const double t = at[k][0], rho = at[k][1];
        SAME("the same state", GERG_ACCEPTED, gerg_properties(GAS, t, rho, out), gerg_properties_extended(GAS, t, rho, out));
        SAME("the same coefficients", GERG_ACCEPTED, gerg_fugacity(GAS, t, rho, out, ROOM), gerg_fugacity_extended(GAS, t, rho, out, ROOM));
    }
    for (int k = 0; k < 3; k++)
        SAME("the same search", GERG_ACCEPTED, gerg_density(GAS, 300.0, targets[k], 10.0, 9000.0, 100, 1e-10, out),
            gerg_density_extended(GAS, 300.0, targets[k], 10.0, 9000.0, 100, 1e-10, out));
    SAME("the same limit", GERG_LIMIT_REACHED, gerg_density(GAS, 300.0, 5e6, 10.0, 9000.0, 3, 1e-10, out),
        gerg_density_extended(GAS, 300.0, 5e6, 10.0, 9000.0, 3, 1e-10, out));
    SAME("the same unstable state", GERG_UNSTABLE, gerg_properties(PURE(GERG_PROPANE), 270.0, 2000.0, out),
        gerg_properties_extended(PURE(GERG_PROPANE), 270.0, 2000.0, out));
}

/* Each call with all that a later row refuses: no number, no room, no bracket. */
#define FIRST(name, number, value, ...) \
    refused(name ", properties", gerg_properties_extended(__VA_ARGS__, NAN, NAN, out), number, value); \
    refused(name ", fugacity", gerg_fugacity_extended(__VA_ARGS__, NAN, NAN, out, 0), number, value); \
    refused(name ", density", gerg_density_extended(__VA_ARGS__, NAN, NAN, NAN, NAN, 0, NAN, out), number, value)

static void mixtures(void)
{
    FIRST("no list", GERG_BAD_LIST, 0, TABLES, file, 0, HALVES);
    FIRST("repeated component", GERG_BAD_LIST, 1, TABLES, (const uint8_t[]){15, 15}, 2, HALVES);
    FIRST("one fraction short", GERG_BAD_FRACTIONS, 2, TABLES, METHANE_ETHANE, (const double[]){1.0}, 1);
    FIRST("sum", GERG_BAD_FRACTIONS, 2, TABLES, METHANE_ETHANE, (const double[]){0.9, 0.2}, 2);
    refused("no room, looked at before T and density", gerg_fugacity_extended(GAS, 50.0, NAN, out, 1), GERG_OUT_TOO_SHORT, 2);
    accepted("just room enough", gerg_fugacity_extended(GAS, 100.0, 1.0, out, 2), 0, 2);
    lend();
    refused("the search before the target", gerg_density_extended(GAS, 50.0, NAN, 1.0, 1.0, 0, 0.0, out), GERG_BAD_SEARCH, 0);
    refused("the target before T", gerg_density_extended(GAS, 50.0, NAN, 1.0, 2.0, 100, 1e-10, out), GERG_BAD_TARGET, 0);
}

/* Last: it spoils the file. */
static void files(void)
{
    const size_t whole = length, pairs = first_pair();
    length = 0;
    FIRST("empty file", GERG_BAD_FILE, 0, PURE(1));
    length = whole - 1;
    FIRST("last record cut", GERG_BAD_FILE, (uint32_t)(whole - 44), PURE(1));
    length = whole;
    const double zero = 0.0, nothing = NAN;
    memcpy(file + pairs + 27, &zero, sizeof zero);
    FIRST("gv of methane 0", GERG_BAD_REDUCING_VALUES, 0, PURE(1));
    memcpy(file + pairs + 3, &nothing, sizeof nothing);
    FIRST("bt NaN", GERG_BAD_TABLE, 1, PURE(1));
}

static void all(void)
{
    temperatures();
    densities();
    pressures();
    within_the_normal_range();
    mixtures();
    files();
}

int main(int count, char **words) { return tested(count, words, all); }
