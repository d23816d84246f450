"""GERG-2008 gas properties from the proved archive libgerg_api.a, through ctypes.

    import gerg
    file = gerg.read()                                   # data/gerg-2008.bin
    gas = {"methane": 0.9, "ethane": 0.1}
    found = gerg.density(file, gas, 293.15, 5e6, lo=1000.0, hi=4000.0)
    print(found.state.mass_density, found.state.speed_of_sound)

Units: K, Pa, mol/m3, kg/m3, J/mol, J/(mol K), m/s. A mixture maps component names (or numbers 1 to 21) to mole fractions, in the caller's order;
pairs in a list do as well. A call that is refused raises Refusal. No call makes a claim about the phase.

properties, fugacity and density take range="extended": 60 to 700 K and up to 70 MPa, where the normal range has 200 to 450 K and up to 35 MPa.

read_list takes the bytes that a chromatograph sends and gives a mixture for every other call, write_list makes such bytes; they need no file.

The archive is made by `tests/archive gerg_api`. ctypes needs a shared library: it is linked from the archive with `cc` at the first call, beside it.
"""
import ctypes
import os
from typing import NamedTuple

from gerg_archive import CAUSES, COMPONENTS, RANGES, ROOT, Refusal, fits, number_of, value_of  # CAUSES for callers

DEFAULT_FILE = os.path.join(ROOT, "data", "gerg-2008.bin")


class State(NamedTuple):
    """A homogeneous state; from ar on, the derivatives of the Helmholtz energy over RT."""
    temperature: float
    molar_density: float
    mass_density: float
    pressure: float
    compressibility: float
    dp_drho: float
    dp_dt: float
    internal_energy: float
    enthalpy: float
    entropy: float
    cv: float
    cp: float
    speed_of_sound: float
    helmholtz_energy: float
    gibbs_energy: float
    ar: float
    ar_d: float
    ar_dd: float
    ar_t: float
    ar_tt: float
    ar_dt: float
    a0: float
    a0_t: float
    a0_tt: float


class Density(NamedTuple):
    state: State
    residual: float
    trials: int
    first_bracket: tuple
    last_bracket: tuple


class Root(NamedTuple):
    molar_density: float
    pressure: float
    compressibility: float
    gibbs_energy: float
    ln_fugacity_coefficients: tuple


class Saturation(NamedTuple):
    temperature: float
    pressure: float
    liquid_compressibility: float
    vapour_compressibility: float
    liquid_molar_volume: float
    vapour_molar_volume: float
    ln_fugacity_coefficient: float
    residual: float
    iterations: int


class DrawnState(NamedTuple):
    """A temperature and a molar density drawn from a seed."""
    temperature: float
    density: float


class Counts(NamedTuple):
    """Of the states of a run, how many were accepted, and by number how many were refused; numbers that refused none are left out."""
    accepted: int
    refused: dict


class List(dict):
    """A chromatograph's list. It maps component names to mole fractions in the list's order, so it is a mixture; `parts` are the parts per million."""

    def __init__(self, components, parts, fractions):
        super().__init__(zip(components, fractions))
        self.parts = tuple(parts)

    @property
    def components(self):
        return tuple(self)

    @property
    def fractions(self):
        return tuple(self.values())


_COUNT_PLACES = 38
_MOST_RECORDS, _RECORD_BYTES = 21, 6
_MOST_ROOTS = 385  # one between two neighbours of the grid, which has 386 densities at most


def read(path=DEFAULT_FILE):
    """The bytes of a coefficient file."""
    with open(path, "rb") as source:
        return source.read()


def _pairs(mixture):
    return list(mixture.items() if hasattr(mixture, "items") else mixture)


def _call(name, file, mixture, *arguments):
    """An export that starts with the file and the mixture."""
    pairs = _pairs(mixture)
    numbers = bytes(number_of(component) for component, _ in pairs)
    fractions = (ctypes.c_double * len(pairs))(*(x for _, x in pairs))
    return value_of(name, file, len(file), numbers, len(numbers), fractions, len(pairs), *arguments)


def check(file):
    """Raises Refusal where the coefficient file is refused."""
    try:
        _call("gerg_properties", file, [], 300.0, 1.0, (ctypes.c_double * 24)())
    except Refusal as refusal:
        if refusal.number != 3:  # an empty list is refused as the first cause after those of the file
            raise


def _in(range, name):
    """The export of that name in a range."""
    if range not in RANGES:
        raise ValueError(f"{range!r} is no range; known: {', '.join(RANGES)}")
    return name + RANGES[range]


def properties(file, mixture, t, rho, range="normal"):
    """The State at a temperature and a molar density."""
    out = (ctypes.c_double * 24)()
    _call(_in(range, "gerg_properties"), file, mixture, t, rho, out)
    return State(*out)


def fugacity(file, mixture, t, rho, range="normal"):
    """ln of each component's fugacity coefficient, in the mixture's order, zero fractions too."""
    out = (ctypes.c_double * len(mixture))()
    _call(_in(range, "gerg_fugacity"), file, mixture, t, rho, out, len(out))
    return tuple(out)


def density(file, mixture, t, target, lo, hi, limit=100, tolerance=1e-10, range="normal"):
    """The Density between lo and hi at which the pressure is the target. Which of several roots is found follows from the bracket."""
    out = (ctypes.c_double * 30)()
    _call(_in(range, "gerg_density"), file, mixture, t, target, lo, hi, limit, tolerance, out)
    n = list(out)
    return Density(State(*n[:24]), n[24], int(n[25]), (n[26], n[27]), (n[28], n[29]))


def outer_roots(file, mixture, t, p):
    """The exterior Roots seen on the grid, densities rising."""
    places = 4 + len(mixture)
    out = (ctypes.c_double * (_MOST_ROOTS * places))()
    count = _call("gerg_outer_roots", file, mixture, t, p, out, len(out))
    rows = [out[k * places : (k + 1) * places] for k in range(count)]
    return [Root(*row[:4], tuple(row[4:])) for row in rows]


def pure_saturation(file, mixture, p, lo, hi, limit=100):
    """The Saturation of a pure fluid between two temperatures, or None where they do not enclose it."""
    out = (ctypes.c_double * 9)()
    found = _call("gerg_pure_saturation", file, mixture, p, lo, hi, limit, out)
    return Saturation(*out[:8], int(out[8])) if found else None


def state_at(seed, n):
    """DrawnState number n of a seed, the first being 0, drawn as docs/METROLOGY.md says. The equations are worked out for no state."""
    fits(seed=seed, n=n)
    out = (ctypes.c_double * 2)()
    value_of("gerg_state_at", seed, n, out)
    return DrawnState(*out)


def count_refusals(file, mixture, seed, first, states):
    """The Counts of `properties` at the states first, first + 1, .. of a seed, so many in number."""
    fits(seed=seed, first=first, states=states)
    out = (ctypes.c_uint64 * _COUNT_PLACES)()
    _call("gerg_count_refusals", file, mixture, seed, first, states, out)
    return Counts(out[0], {number: count for number, count in enumerate(out) if number and count})


def read_list(data):
    """The List that a chromatograph's bytes hold: records of 0x10, component number and eight decimal digits in four bytes, parts per million."""
    most = _MOST_RECORDS
    numbers, parts, fractions = (ctypes.c_uint8 * most)(), (ctypes.c_uint32 * most)(), (ctypes.c_double * most)()
    count = value_of("gerg_read_list", data, len(data), numbers, most, parts, most, fractions, most)
    return List((COMPONENTS[number - 1] for number in numbers[:count]), parts[:count], fractions[:count])


def write_list(components, parts):
    """The chromatograph's bytes of components, by name or number, and as many whole parts (else number 4), which must total 1,000,000."""
    numbers, parts = bytes(number_of(component) for component in components), list(parts)
    for each in parts:
        fits(parts=each)
    out = (ctypes.c_uint8 * (_RECORD_BYTES * len(numbers)))()
    value_of("gerg_write_list", numbers, len(numbers), (ctypes.c_uint32 * len(parts))(*parts), len(parts), out, len(out))
    return bytes(out)
