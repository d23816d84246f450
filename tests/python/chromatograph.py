"""The Python module's lists of a chromatograph."""
import ctypes
import math

from checks import expect, gerg, gerg_archive, refused

TWO = bytes.fromhex("1001 00901234  1004 00098766")  # methane and ethane, a chromatograph's list


def put(place, byte):
    """That list with another byte in one place."""
    return TWO[:place] + bytes([byte]) + TWO[place + 1 :]


def read_and_written():
    gas = gerg.read_list(TWO)
    expect("a list's components and fractions", gas == {"methane": 0.901234, "ethane": 0.098766} and gas.components == ("methane", "ethane"))
    expect("its parts", gas.parts == (901234, 98766) and gas.fractions == (901234 / 10**6, 98766 / 10**6))
    expect("written again", gerg.write_list(gas.components, gas.parts) == TWO == gerg.write_list([1, 4], iter(gas.parts)))
    names = gerg.COMPONENTS[::-1]
    for n in range(1, 22):
        parts = [10**6 // n] * (n - 1) + [10**6 - 10**6 // n * (n - 1)]
        data = gerg.write_list(names[:n], parts)
        back = gerg.read_list(data)
        expect(f"{n} written and read back", len(data) == 6 * n and back.components == names[:n] and back.parts == tuple(parts))
    expect("zero parts", gerg.read_list(gerg.write_list(["argon", "methane"], [0, 10**6])) == {"argon": 0.0, "methane": 1.0})
    for name, number, value, data in (
        ("another kind", 28, 6, put(6, 0)), ("a digit above 9", 28, 0, put(5, 0x3A)), ("a cut record", 28, 6, TWO[:11]), ("a record over, cut", 28, 12, TWO + b"\x10"),
        ("no record", 3, 0, b""), ("an unknown component", 3, 1, put(7, 22)), ("a repeated component", 3, 1, put(7, 1)), ("22 records", 3, 2, TWO * 11),
        ("a bad total", 29, 0, put(5, 0x35)), ("the first alone", 29, 0, TWO[:6]),
    ):  # fmt: skip
        refused(name, number, value, gerg.read_list, data)
    for name, number, value, components, parts in (
        ("no component", 3, 0, [], [10**6]), ("a component twice", 3, 1, [4, "ethane"], [1]), ("number 22", 3, 0, [22], [10**6]), ("22 components", 3, 21, [*names, 1], [0] * 22),
        ("a part short", 4, 2, [1, 4], [10**6]), ("a part over", 4, 1, [1], [10**6, 0]), ("the total", 29, 0, [1, 4], [10**6, 1]), ("a total past 2^32", 29, 0, [1, 4], [2**32 - 1, 10**6 + 1]),
    ):  # fmt: skip
        refused(name, number, value, gerg.write_list, components, parts)
    for name, components, parts in (("'metane'", ["metane"], [10**6]), ("parts 4294967296", [1], [2**32]), ("parts -1", [1, 4], [10**6 + 1, -1])):
        try:
            gerg.write_list(components, parts)
            expect(f"{name} is a ValueError", False)
        except ValueError as error:
            expect(f"{name} is said: {error}", str(error).startswith(name))


def in_calls():
    """A read list is a mixture for every call, and a refused one leaves what was lent."""
    file, gas, pure = gerg.read(), gerg.read_list(TWO), gerg.read_list(gerg.write_list(["propane"], [10**6]))
    state = gerg.properties(file, {"methane": 0.901234, "ethane": 0.098766}, 300.0, 2000.0)
    expect("properties of a list", gerg.properties(file, gas, 300.0, 2000.0) == state == gerg.properties(file, gas, 300.0, 2000.0, range="extended"))
    expect("fugacity of a list", len(gerg.fugacity(file, gas, 300.0, 2000.0)) == 2)
    expect("density of a list", math.isclose(gerg.density(file, gas, 300.0, state.pressure, 1000.0, 4000.0).state.molar_density, 2000.0, rel_tol=1e-9))
    expect("roots of a list", len(gerg.outer_roots(file, gas, 300.0, 5e6)) == 1)
    expect("saturation of a list", abs(gerg.pure_saturation(file, pure, 5e5, 250.0, 300.0).temperature - 274.9) < 0.1)
    counted = gerg.count_refusals(file, gas, 1, 0, 20)
    expect("states of a list", counted.accepted + sum(counted.refused.values()) == 20)
    kinds, content = (ctypes.c_uint8, ctypes.c_uint32, ctypes.c_double), (0x6C, 0x51525354, -77.25)
    for number, value, data, rooms in ((28, 6, TWO[:11], (3, 3, 3)), (3, 1, put(7, 1), (3, 3, 3)), (29, 0, put(5, 0), (3, 3, 3)), (24, 2, TWO, (1, 3, 3)), (24, 2, TWO, (3, 3, 1))):
        lent = [(kind * 3)(*[each] * 3) for kind, each in zip(kinds, content)]
        call = [word for memory, room in zip(lent, rooms) for word in (memory, room)]
        refused(f"number {number}, rooms {rooms}", number, value, gerg_archive.value_of, "gerg_read_list", data, len(data), *call)
        expect(f"number {number}, rooms {rooms}, leaves what was lent", [list(memory) for memory in lent] == [[each] * 3 for each in content])
    for number, value, parts, room in ((4, 2, [10**6], 12), (29, 0, [1, 2], 12), (24, 12, [10**6, 0], 11)):
        lent = (ctypes.c_uint8 * 12)(*[0x6C] * 12)
        given = (ctypes.c_uint32 * len(parts))(*parts)
        refused(f"writing, number {number}", number, value, gerg_archive.value_of, "gerg_write_list", b"\x01\x04", 2, given, len(parts), lent, room)
        expect(f"writing, number {number}, leaves what was lent", bytes(lent) == b"\x6c" * 12)


def lists():
    read_and_written()
    in_calls()
