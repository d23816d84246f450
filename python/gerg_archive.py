"""What the calls of gerg.py share: the archive as a shared library, its exports, the components' names, the causes of refusals."""
import ctypes
import os
import subprocess
import tempfile

ROOT = os.path.dirname(os.path.dirname(os.path.abspath(__file__)))

COMPONENTS = (
    "methane", "nitrogen", "carbon-dioxide", "ethane", "propane", "isobutane", "n-butane", "isopentane", "n-pentane", "n-hexane", "n-heptane",
    "n-octane", "n-nonane", "n-decane", "hydrogen", "oxygen", "carbon-monoxide", "water", "hydrogen-sulfide", "helium", "argon",
)

CAUSES = {
    1: "coefficient file: a record is cut, missing, out of turn, has a count over its limit or another revision, or bytes are left over",
    2: "coefficient table: a number that the equations cannot take",
    3: "component list empty, over 21 long, or with a number unknown or repeated",
    4: "fractions: as many as components (a list's parts too), each finite and not negative, adding up to 1 within 1e-9",
    5: "reducing values of this composition not finite and positive, or a gradient of them not finite",
    6: "density not finite",
    7: "density not positive",
    8: "temperature not in 200..450 K (extended range: 60..700 K) or density not in 1e-3..30000 mol/m³",
    9: "a derivative of the Helmholtz energy not finite",
    10: "locally unstable state: dp/drho or cv not positive",
    11: "pressure of the state not in (0, 35 MPa] (extended range: (0, 70 MPa])",
    12: "a property, a fugacity coefficient or a density trial not finite",
    13: "density search: bracket not rising within 1e-3..30000 mol/m³, limit 0, or tolerance not in (0, 1e-7]",
    14: "target pressure not in (0, 35 MPa] (extended range: (0, 70 MPa])",
    15: "density search met a density where dp/drho is not positive; choose another bracket",
    16: "target pressure not between the pressures at the bracket's ends",
    17: "the found state's pressure misses the tolerance",
    18: "density search: no double left between the ends and the tolerance not met",
    19: "density search: limit of trials reached",
    20: "roots and saturation take methane, nitrogen, carbon-dioxide, ethane and propane only",
    21: "roots: temperature not in 230..350 K or pressure not in 0.1..10 MPa",
    22: "a root's pressure did not converge",
    23: "no exterior root",
    24: "memory lent for the answer too short",
    25: "saturation: one positive fraction and finite, rising ends are needed",
    26: "saturation: limit of trials reached, or no double left between the ends",
    27: "states: the seed is zero",
    28: "chromatograph's list: a record of another kind than 0x10, cut, or with a digit above 9",
    29: "chromatograph's list: the parts do not total 1,000,000",
}


class Refusal(Exception):
    """A refused call: number and value as in the README's table, and the cause in words."""

    __module__ = "gerg"  # what a traceback calls it by

    def __init__(self, number, value):
        self.number, self.value, self.cause = number, value, CAUSES[number]
        super().__init__(f"refused, number {number}, value {value}: {self.cause}")


_DOUBLES, _BYTES, _PARTS = ctypes.POINTER(ctypes.c_double), ctypes.POINTER(ctypes.c_uint8), ctypes.POINTER(ctypes.c_uint32)
_MIXTURE = [ctypes.c_char_p, ctypes.c_size_t, ctypes.c_char_p, ctypes.c_size_t, _DOUBLES, ctypes.c_size_t]
_F, _N, _NUMBER, _LENGTH = ctypes.c_double, ctypes.c_uint64, ctypes.c_uint32, ctypes.c_size_t
EXPORTS = {
    "gerg_properties": _MIXTURE + [_F, _F, _DOUBLES],
    "gerg_fugacity": _MIXTURE + [_F, _F, _DOUBLES, _LENGTH],
    "gerg_density": _MIXTURE + [_F, _F, _F, _F, _N, _F, _DOUBLES],
    "gerg_outer_roots": _MIXTURE + [_F, _F, _DOUBLES, _LENGTH],
    "gerg_pure_saturation": _MIXTURE + [_F, _F, _F, _N, _DOUBLES],
    "gerg_state_at": [_N, _NUMBER, _DOUBLES],
    "gerg_count_refusals": _MIXTURE + [_N, _NUMBER, _NUMBER, ctypes.POINTER(_N)],
    "gerg_read_list": [ctypes.c_char_p, _LENGTH, _BYTES, _LENGTH, _PARTS, _LENGTH, _DOUBLES, _LENGTH],
    "gerg_write_list": [ctypes.c_char_p, _LENGTH, _PARTS, _LENGTH, _BYTES, _LENGTH],
}
RANGES = {"normal": "", "extended": "_extended"}  # what the name of an export ends with
EXPORTS.update({name + RANGES["extended"]: EXPORTS[name] for name in ("gerg_properties", "gerg_fugacity", "gerg_density")})
_loaded = {}


def _shared_library():
    """The shared library beside the archive, linked anew where the archive is newer."""
    folder = os.environ.get("RATTLE_ARCHIVES") or os.path.join(ROOT, "target", "staticlib")
    archive, shared = os.path.join(folder, "libgerg_api.a"), os.path.join(folder, "libgerg_api.so")
    if not os.path.exists(archive):
        raise OSError(f"there is no {archive}; make it with:  cd {ROOT} && tests/archive gerg_api  (or name its folder in RATTLE_ARCHIVES)")
    if not os.path.exists(shared) or os.path.getmtime(shared) < os.path.getmtime(archive):
        handle, fresh = tempfile.mkstemp(suffix=".so", dir=folder)
        os.close(handle)
        subprocess.run(["cc", "-shared", "-o", fresh, "-Wl,--whole-archive", archive, "-Wl,--no-whole-archive"], check=True)
        os.replace(fresh, shared)  # whole or not at all, for others that load it now
    return shared


def _export(name):
    if name not in _loaded:
        export = getattr(ctypes.CDLL(_shared_library()), name)
        export.argtypes, export.restype = EXPORTS[name], ctypes.c_uint64
        _loaded[name] = export
    return _loaded[name]


def number_of(component):
    """The number of a component by its name; a number is its own."""
    if isinstance(component, int):
        return component
    if component not in COMPONENTS:
        raise ValueError(f"{component!r} is no component; known: {', '.join(COMPONENTS)}")
    return COMPONENTS.index(component) + 1


def value_of(name, *arguments):
    """The value of an accepted call; a refusal is raised."""
    answer = _export(name)(*arguments)
    number, value = answer >> 32, answer & 0xFFFFFFFF
    if number:
        raise Refusal(number, value)
    return value


def fits(**numbers):
    """ctypes would take a whole number that is too large modulo its bits: another number."""
    for name, number in numbers.items():
        bits = 64 if name == "seed" else 32
        if not 0 <= number < 1 << bits:
            raise ValueError(f"{name} {number} is no whole number of {bits} bits")
