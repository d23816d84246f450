/* GERG-2008 gas properties: the exports of target/staticlib/libgerg_api.a (made by `tests/archive gerg_api`; x86-64 Linux).
 *
 * Units: K, Pa, mol/m3, kg/m3, J/mol, J/(mol K), m/s.
 *
 * Every call but gerg_state_at, gerg_read_list and gerg_write_list starts from the same three slices, each a pointer and a length:
 *   file       the bytes of a coefficient file, as data/gerg-2008.bin
 *   list       component numbers, 1 to 21, none twice
 *   fractions  one mole fraction for each of the list, adding up to 1 within 1e-9; a zero fraction is allowed
 * No call needs anything else to hold: every byte and every number is either accepted or refused. No call keeps a pointer,
 * allocates or writes anything but the memory lent for its answer, which is what its pointers without const point to; calls may run at
 * the same time in several threads.
 *
 * An empty slice has the length 0; its pointer must still not be null. Memory lent for an answer must not overlap any other slice of the call.
 *
 * The answer is number * 2^32 + value (gerg_number, gerg_value below). Number 0: accepted. Any other number is one of
 * enum gerg_refusal, and then the memory lent for the answer is as it was before the call. */
#ifndef GERG_H
#define GERG_H

#include <stddef.h>
#include <stdint.h>

#ifdef __cplusplus
extern "C" {
#endif

/* Components by number. */
enum gerg_component {
    GERG_METHANE = 1,
    GERG_NITROGEN = 2,
    GERG_CARBON_DIOXIDE = 3,
    GERG_ETHANE = 4,
    GERG_PROPANE = 5,
    GERG_ISOBUTANE = 6,
    GERG_N_BUTANE = 7,
    GERG_ISOPENTANE = 8,
    GERG_N_PENTANE = 9,
    GERG_N_HEXANE = 10,
    GERG_N_HEPTANE = 11,
    GERG_N_OCTANE = 12,
    GERG_N_NONANE = 13,
    GERG_N_DECANE = 14,
    GERG_HYDROGEN = 15,
    GERG_OXYGEN = 16,
    GERG_CARBON_MONOXIDE = 17,
    GERG_WATER = 18,
    GERG_HYDROGEN_SULFIDE = 19,
    GERG_HELIUM = 20,
    GERG_ARGON = 21
};

/* Refusals by number. The value is 0 unless the comment says what it is. */
enum gerg_refusal {
    GERG_ACCEPTED = 0,
    GERG_BAD_FILE = 1,                /* a record cut, missing, out of turn, with a count over its limit or of another revision, or bytes over: offset */
    GERG_BAD_TABLE = 2,               /* nonfinite bt, bv, gt, gv, f: 1 to 5; Tc or mass: 6; bt or bv not positive: 7; mNumb: 8 */
    GERG_BAD_LIST = 3,                /* list empty, over 21, a number unknown or repeated: first bad place from 0 */
    GERG_BAD_FRACTIONS = 4,           /* length differs (of parts too): list length; nonfinite or negative: first bad place from 0; sum not 1: list length */
    GERG_BAD_REDUCING_VALUES = 5,     /* reducing values not finite and positive, or a gradient nonfinite */
    GERG_DENSITY_NONFINITE = 6,
    GERG_DENSITY_NOT_POSITIVE = 7,
    GERG_OUT_OF_RANGE = 8,            /* T not in 200..450 (extended range: 60..700) or density not in 1e-3..30000 */
    GERG_DERIVATIVE_NONFINITE = 9,
    GERG_UNSTABLE = 10,               /* stiffness dp/drho or cv not positive */
    GERG_PRESSURE_OUT_OF_RANGE = 11,  /* pressure not in (0, 35e6] (extended range: (0, 70e6]) */
    GERG_PROPERTY_NONFINITE = 12,     /* a property, a fugacity coefficient or a density trial's pressure or stiffness nonfinite */
    GERG_BAD_SEARCH = 13,             /* bracket, limit or tolerance */
    GERG_BAD_TARGET = 14,             /* target pressure nonfinite, not positive or above 35e6 (extended range: 70e6) */
    GERG_TRIAL_UNSTABLE = 15,         /* a density trial's stiffness not positive */
    GERG_NOT_BRACKETED = 16,          /* the target is not between the pressures at the two ends */
    GERG_FINAL_CHECK = 17,            /* the state's pressure misses the tolerance that the trial's met */
    GERG_COLLAPSED = 18,              /* no double left between the ends: trials */
    GERG_LIMIT_REACHED = 19,          /* that many trials made: trials */
    GERG_NOT_QUALIFIED = 20,          /* roots and saturation: a listed component is not one of 1 to 5 */
    GERG_ROOTS_OUT_OF_RANGE = 21,     /* T not in 230..350 or p not in 1e5..1e7 */
    GERG_ROOT_NOT_CONVERGED = 22,
    GERG_NO_ROOT = 23,
    GERG_OUT_TOO_SHORT = 24,          /* doubles needed; of a chromatograph's list: places or bytes needed */
    GERG_BAD_SATURATION = 25,         /* not one positive fraction, or ends nonfinite or not rising */
    GERG_SATURATION_EXHAUSTED = 26,   /* limit made, or the middle falls on an end: trials */
    GERG_ZERO_SEED = 27,              /* states: the seed is 0 */
    GERG_BAD_RECORD = 28,             /* a chromatograph's list: a record of another kind than 0x10, cut, or with a digit above 9: its offset, modulo 2^32 */
    GERG_BAD_TOTAL = 29               /* a chromatograph's list: parts not totalling 1,000,000 */
};

/* Places of `out`: gerg_properties writes the first 24, gerg_density all 30, in either range. */
enum gerg_state {
    GERG_TEMPERATURE,       /* K */
    GERG_MOLAR_DENSITY,     /* mol/m3 */
    GERG_MASS_DENSITY,      /* kg/m3 */
    GERG_PRESSURE,          /* Pa */
    GERG_COMPRESSIBILITY,   /* Z = p / (rho R T), no unit; R = 8.314472 J/(mol K) */
    GERG_DP_DRHO,           /* Pa m3/mol, at constant T: the stiffness */
    GERG_DP_DT,             /* Pa/K, at constant density */
    GERG_INTERNAL_ENERGY,   /* J/mol; reference: enthalpy and entropy of the ideal gas are 0 at 298.15 K, 101325 Pa */
    GERG_ENTHALPY,          /* J/mol */
    GERG_ENTROPY,           /* J/(mol K) */
    GERG_CV,                /* J/(mol K) */
    GERG_CP,                /* J/(mol K) */
    GERG_SPEED_OF_SOUND,    /* m/s */
    GERG_HELMHOLTZ_ENERGY,  /* J/mol */
    GERG_GIBBS_ENERGY,      /* J/mol */
    GERG_AR,                /* residual Helmholtz energy / RT, and its derivatives by delta (d) and tau (t), */
    GERG_AR_D,              /* each times that power of delta and tau */
    GERG_AR_DD,
    GERG_AR_T,
    GERG_AR_TT,
    GERG_AR_DT,
    GERG_A0,                /* ideal Helmholtz energy / RT, and its derivatives by tau times tau, tau^2 */
    GERG_A0_T,
    GERG_A0_TT,
    GERG_STATE_PLACES,
    GERG_RESIDUAL = GERG_STATE_PLACES, /* (p - target) / max(target, 1 Pa), of the state's pressure */
    GERG_TRIALS,            /* interior densities tried, a whole number; 0 where an end was accepted */
    GERG_FIRST_LO,          /* mol/m3: the bracket given */
    GERG_FIRST_HI,
    GERG_LAST_LO,           /* mol/m3: the bracket before the accepted trial */
    GERG_LAST_HI,
    GERG_DENSITY_PLACES
};

/* Places of one root; its coefficients follow, so a root has GERG_ROOT_PLACES + list_len doubles. */
enum gerg_root {
    GERG_ROOT_DENSITY,         /* mol/m3 */
    GERG_ROOT_PRESSURE,        /* Pa */
    GERG_ROOT_COMPRESSIBILITY,
    GERG_ROOT_GIBBS_ENERGY,    /* J/mol */
    GERG_ROOT_PLACES,
    GERG_MOST_ROOTS = 385      /* one between two neighbours of the grid, which has 386 densities at most */
};

/* Places of `out` of gerg_pure_saturation. */
enum gerg_saturation {
    GERG_SATURATION_TEMPERATURE,            /* K */
    GERG_SATURATION_PRESSURE,               /* Pa: the one given */
    GERG_SATURATION_LIQUID_COMPRESSIBILITY,
    GERG_SATURATION_VAPOUR_COMPRESSIBILITY,
    GERG_SATURATION_LIQUID_VOLUME,          /* m3/mol */
    GERG_SATURATION_VAPOUR_VOLUME,          /* m3/mol */
    GERG_SATURATION_LN_FUGACITY_COEFFICIENT, /* of the vapour */
    GERG_SATURATION_RESIDUAL,               /* difference of the two phases' ln phi, its size */
    GERG_SATURATION_TRIALS,                 /* a whole number; 0 where an end was accepted */
    GERG_SATURATION_PLACES
};

/* Places of `out` of gerg_state_at: GERG_TEMPERATURE and GERG_MOLAR_DENSITY. Of gerg_count_refusals: the numbers of enum gerg_refusal, GERG_ACCEPTED too;
 * places of numbers that no refusal has get 0. */
enum gerg_drawn {
    GERG_DRAWN_PLACES = 2,
    GERG_COUNT_PLACES = 38
};

/* A chromatograph's list is records one behind the other. A record is the kind byte 0x10, a component number, and eight decimal digits in four bytes,
 * two to a byte, the higher digit in the byte's high half and the highest byte first: parts per million. Zero parts are allowed. */
enum gerg_list {
    GERG_RECORD_BYTES = 6,
    GERG_MOST_RECORDS = 21,
    GERG_LONGEST_LIST = 126,   /* bytes of the longest list that can be accepted */
    GERG_TOTAL_PARTS = 1000000 /* what the parts of a list add up to */
};

/* Properties at a temperature and a molar density. Value: 0. */
uint64_t gerg_properties(const uint8_t *file, size_t file_len, const uint8_t *list, size_t list_len, const double *fractions, size_t fractions_len,
                         double t, double rho, double out[GERG_STATE_PLACES]);

/* ln of the fugacity coefficient of each listed component, in list order, zero fractions too. Doubles of `out` past the list's length stay. Value: 0. */
uint64_t gerg_fugacity(const uint8_t *file, size_t file_len, const uint8_t *list, size_t list_len, const double *fractions, size_t fractions_len,
                       double t, double rho, double *out, size_t out_len);

/* The density in [lo, hi] at which the pressure is the target within tolerance * max(target, 1 Pa), and the state there.
 * 1e-3 <= lo < hi <= 30000, limit >= 1 interior trials, 0 < tolerance <= 1e-7. Which root of several is found follows from the bracket. Value: 0. */
uint64_t gerg_density(const uint8_t *file, size_t file_len, const uint8_t *list, size_t list_len, const double *fractions, size_t fractions_len,
                      double t, double target, double lo, double hi, uint64_t limit, double tolerance, double out[GERG_DENSITY_PLACES]);

/* The three calls above in the extended range: numbers 8, 11 and 14 refuse a T not in 60..700 and pressures not in (0, 70e6]; densities keep their bounds.
 * What a call accepts in the normal range has the same doubles in both. */
uint64_t gerg_properties_extended(const uint8_t *file, size_t file_len, const uint8_t *list, size_t list_len, const double *fractions, size_t fractions_len,
                                  double t, double rho, double out[GERG_STATE_PLACES]);
uint64_t gerg_fugacity_extended(const uint8_t *file, size_t file_len, const uint8_t *list, size_t list_len, const double *fractions, size_t fractions_len,
                                double t, double rho, double *out, size_t out_len);
uint64_t gerg_density_extended(const uint8_t *file, size_t file_len, const uint8_t *list, size_t list_len, const double *fractions, size_t fractions_len,
                               double t, double target, double lo, double hi, uint64_t limit, double tolerance, double out[GERG_DENSITY_PLACES]);

/* Densities at which the pressure is p, outside the unstable region seen on a grid of densities, rising. Components 1 to 5 only,
 * T in 230..350, p in 1e5..1e7. Value: the number of roots; where `out` is too short it is refused with the doubles needed as the value.
 * Doubles of `out` past the roots stay. */
uint64_t gerg_outer_roots(const uint8_t *file, size_t file_len, const uint8_t *list, size_t list_len, const double *fractions, size_t fractions_len,
                          double t, double p, double *out, size_t out_len);

/* The temperature in [lo, hi] at which a pure fluid's outermost roots have one fugacity. One positive fraction, components 1 to 5 only,
 * 230 <= lo < hi <= 350, p in 1e5..1e7. Value: 1 found; 0 where [lo, hi] does not enclose it, and then `out` is as it was. */
uint64_t gerg_pure_saturation(const uint8_t *file, size_t file_len, const uint8_t *list, size_t list_len, const double *fractions, size_t fractions_len,
                              double p, double lo, double hi, uint64_t limit, double out[GERG_SATURATION_PLACES]);

/* Temperature and molar density of state n of a seed, the first being 0, drawn as docs/METROLOGY.md says: T in 200..450, density in 1e-3..30000.
 * 2n + 2 draws are made, and the equations are worked out for no state. Value: 0. */
uint64_t gerg_state_at(uint64_t seed, uint32_t n, double out[GERG_DRAWN_PLACES]);

/* Of the states first, first + 1, .. of a seed, `states` in number: in place k how many gerg_properties refuses under number k, in place 0 how many it
 * accepts. The file is read and the mixture prepared once. The numbers of the states may pass 2^32, and the counts of a run are the sums of its parts'.
 * A zero seed is refused before a bad file, list or fraction. Value: 0. */
uint64_t gerg_count_refusals(const uint8_t *file, size_t file_len, const uint8_t *list, size_t list_len, const double *fractions, size_t fractions_len,
                             uint64_t seed, uint32_t first, uint32_t states, uint64_t out[GERG_COUNT_PLACES]);

/* Components, parts and fractions of a chromatograph's list, in its order, each fraction the double nearest to its parts over 1,000,000: list and
 * fractions as the calls above take them. Refused in this order: 28, a wrong record anywhere in the bytes; 3, no record, over 21, a component unknown or
 * repeated; 29; 24, value: the places needed. Value: the number of records. Each of the three lists needs so many places, and its places past them stay. */
uint64_t gerg_read_list(const uint8_t *bytes, size_t bytes_len, uint8_t *list, size_t list_len, uint32_t *parts, size_t parts_len,
                        double *fractions, size_t fractions_len);

/* The chromatograph's list that gerg_read_list reads as these components and parts. Refused in this order: 3; 4, parts not as many as components,
 * value: list_len; 29, by the exact total, past 2^32 too; 24, value: the bytes needed. Value: the number of bytes, GERG_RECORD_BYTES * list_len. Bytes of `out`
 * past them stay. */
uint64_t gerg_write_list(const uint8_t *list, size_t list_len, const uint32_t *parts, size_t parts_len, uint8_t *out, size_t out_len);

static inline uint32_t gerg_number(uint64_t answer) { return (uint32_t)(answer >> 32); }
static inline uint32_t gerg_value(uint64_t answer) { return (uint32_t)answer; }

#ifdef __cplusplus
}
#endif

#endif
