#!/usr/bin/env python3
"""Writes the coefficient file of document 01 from the customer's gerg-2008.json.

    tools/json_to_coefficients.py gerg-2008.json gerg-2008.bin

The JSON is the one that gerg.rs reads: `provenance.revision`, `components`, `tables`, each table counted from 1 with an unused place 0.
A fault is one line on standard error that says what and where, with exit status 1 (2 for a wrong call); the output file is then left as it
was. What the converter accepts still meets rows 1 and 2 when the library reads it: run `tablecheck` on the result.
"""
import json
import math
import os
import struct
import sys
import tempfile

REVISION = "3bdb9ab8ff317c618b0b59d1b704c2c86ddc5fce"
COMPONENTS = 21
TERMS = 24
FUNCTIONS = 10
FUNCTION_TERMS = 12
# Document 01 fixes the numbers of these five; their names are those of gerg_flash.rs.
FIRST_NAMES = ["methane", "nitrogen", "carbon-dioxide", "ethane", "propane"]


class Malformed(Exception):
    """A fault of the input: what is wrong, and where."""


def unique_keys(pairs):
    seen = {}
    for key, value in pairs:
        if key in seen:
            raise Malformed(f"key {key!r} stands twice in one object")
        seen[key] = value
    return seen


def not_a_number(token):
    raise Malformed(f"{token} is no JSON number")


def parse(text):
    try:
        return json.loads(text, object_pairs_hook=unique_keys, parse_constant=not_a_number)
    except json.JSONDecodeError as fault:
        raise Malformed(f"not JSON: {fault.msg} at line {fault.lineno}, column {fault.colno}") from fault
    except RecursionError as fault:
        raise Malformed("not JSON of this shape: nested too deeply") from fault


def member(value, key, kind, where):
    if not isinstance(value, dict) or key not in value:
        raise Malformed(f"{where} has no {key!r}")
    if not isinstance(value[key], kind):
        raise Malformed(f"{where}.{key} is no {kind.__name__}")
    return value[key]


class Tables:
    """The JSON's tables, each number checked where it is read."""

    def __init__(self, tables):
        self.tables = tables

    def at(self, name, *places):
        value, where = member(self.tables, name, list, "tables"), name
        for place in places:
            if not isinstance(value, list):
                raise Malformed(f"{where} is no list")
            if place >= len(value):
                raise Malformed(f"{where} has {len(value)} places and no place {place}")
            value, where = value[place], f"{where}[{place}]"
        return value, where

    def double(self, name, *places):
        value, where = self.at(name, *places)
        if isinstance(value, bool) or not isinstance(value, (int, float)):
            raise Malformed(f"{where} is no number")
        try:
            number = float(value)
        except OverflowError:
            number = math.inf
        if not math.isfinite(number):
            raise Malformed(f"{where} is outside the range of a double")
        return struct.pack("<d", number)

    def integer(self, low, high, name, *places):
        value, where = self.at(name, *places)
        if isinstance(value, bool) or not isinstance(value, int):
            raise Malformed(f"{where} is no whole number")
        if not low <= value <= high:
            raise Malformed(f"{where} is {value}, not in {low}..{high}")
        return value

    def signed(self, name, *places):
        return struct.pack("b", self.integer(-128, 127, name, *places))

    def counts(self, first, second, place, limit):
        pair = self.integer(0, 255, first, place), self.integer(0, 255, second, place)
        if sum(pair) > limit:
            raise Malformed(f"{first}[{place}] + {second}[{place}] is {sum(pair)}, over {limit}")
        return pair


def check_head(data):
    revision = member(member(data, "provenance", dict, "the file"), "revision", str, "provenance")
    if revision != REVISION:
        raise Malformed(f"provenance.revision is {revision!r}, not {REVISION!r}")
    names = member(data, "components", list, "the file")
    if len(names) != COMPONENTS or len({str(name) for name in names}) != COMPONENTS:
        raise Malformed(f"components: {COMPONENTS} different names are wanted")
    for place, name in enumerate(FIRST_NAMES):
        if names[place] != name:
            raise Malformed(f"components[{place}] is {names[place]!r}, not {name!r}")


def component_records(table):
    for i in range(1, COMPONENTS + 1):
        counts = bytes(table.counts("kpol", "kexp", i, TERMS))
        body = table.double("Tc", i) + table.double("MMiGERG", i) + counts
        body += b"".join(table.double("n0i", i, j) for j in range(1, 8))
        body += b"".join(table.double("th0i", i, j) for j in range(4, 8))
        yield bytes([2, i]) + body


def term_records(table):
    for i in range(1, COMPONENTS + 1):
        for k in range(1, sum(table.counts("kpol", "kexp", i, TERMS)) + 1):
            body = table.signed("coik", i, k) + table.signed("doik", i, k)
            yield bytes([3, i, k]) + body + table.double("noik", i, k) + table.double("toik", i, k)


def pair_records(table):
    for i in range(1, COMPONENTS + 1):
        for j in range(i, COMPONENTS + 1):
            body = b"".join(table.double(name, i, j) for name in ("btij", "bvij", "gtij", "gvij", "fij"))
            yield bytes([4, i, j]) + body + table.signed("mNumb", i, j)


def function_records(table, functions):
    for m in range(1, functions + 1):
        yield bytes([5, m]) + bytes(table.counts("kpolij", "kexpij", m, FUNCTION_TERMS))
    for m in range(1, functions + 1):
        for k in range(1, sum(table.counts("kpolij", "kexpij", m, FUNCTION_TERMS)) + 1):
            body = table.signed("dijk", m, k)
            body += b"".join(table.double(name, m, k) for name in ("cijk", "eijk", "gijk", "nijk", "tijk"))
            yield bytes([6, m, k]) + body


def coefficient_file(text):
    data = parse(text)
    check_head(data)
    table = Tables(member(data, "tables", dict, "the file"))
    functions = len(member(table.tables, "kpolij", list, "tables")) - 1
    if not 0 <= functions <= FUNCTIONS:
        raise Malformed(f"kpolij has {functions + 1} places: 1 to {FUNCTIONS + 1} are wanted, the first unused")
    records = [b"\x01" + REVISION.encode("ascii")]
    records += component_records(table)
    records += term_records(table)
    records += pair_records(table)
    records += function_records(table, functions)
    return b"".join(records)


def write_whole(path, data):
    """The file appears whole or not at all."""
    handle, name = tempfile.mkstemp(dir=os.path.dirname(path) or ".", prefix=".coefficients-")
    try:
        with os.fdopen(handle, "wb") as out:
            out.write(data)
        os.chmod(name, 0o644)
        os.replace(name, path)
    except BaseException:
        os.unlink(name)
        raise


def main(words):
    if len(words) != 2:
        print("usage: json_to_coefficients.py INPUT.json OUTPUT.bin", file=sys.stderr)
        return 2
    try:
        with open(words[0], encoding="utf-8") as source:
            data = coefficient_file(source.read())
        write_whole(words[1], data)
    except Malformed as fault:
        print(f"{words[0]}: {fault}", file=sys.stderr)
        return 1
    except UnicodeDecodeError as fault:
        print(f"{words[0]}: not UTF-8 at byte {fault.start}", file=sys.stderr)
        return 1
    except OSError as fault:
        print(f"{fault.filename or words[1]}: {fault.strerror}", file=sys.stderr)
        return 1
    return 0


if __name__ == "__main__":
    sys.exit(main(sys.argv[1:]))
