#!/usr/bin/env python3
"""Made-up coefficient files for the comparison, from the real one and a seed: oracle/files.py FOLDER SEED. Each keeps the layout of document 01.

nonfinite: NaN and infinite coefficients where no row refuses them (n0i, th0i, noik, toik, cijk, eijk, gijk, nijk, tijk)
exponents: coik, doik and dijk over all bytes
none, ten: 0 and 10 departure functions, with zero terms in some
empty: no terms at all
steep: some noik up to 10^7 times as large, of either sign, so that isotherms rise steeply (row 22) and fall often
huge: some n0i so large that an energy overflows and no derivative does (row 12)
reducing: some gtij and gvij that are zero, negative or huge, some btij and bvij that are tiny or huge (row 5)
table: one fault of row 2
"""
import os
import random
import struct
import sys

ROOT = os.path.dirname(os.path.dirname(os.path.abspath(__file__)))
SIZES = {1: 41, 2: 108, 3: 21, 4: 44, 5: 4, 6: 44}
ODD = [float("nan"), float("inf"), float("-inf"), 0.0, -0.0, 1e300, -1e300, 5e-324]


def records(data):
    at, found = 0, []
    while at < len(data):
        size = SIZES[data[at]]
        found.append(bytearray(data[at : at + size]))
        at += size
    return found


def put(record, at, value):
    record[at : at + 8] = struct.pack("<d", value)


def nonfinite(r, found):
    for record in found:
        if record[0] == 2 and r.random() < 0.3:
            put(record, 20 + 8 * r.randrange(11), r.choice(ODD))
        if record[0] == 3 and r.random() < 0.05:
            put(record, r.choice([5, 13]), r.choice(ODD))
        if record[0] == 6 and r.random() < 0.05:
            put(record, 4 + 8 * r.randrange(5), r.choice(ODD))
    return found


def exponents(r, found):
    for record in found:
        if record[0] == 3 and r.random() < 0.1:
            record[r.choice([3, 4])] = r.randrange(256)
        if record[0] == 6 and r.random() < 0.1:
            record[3] = r.randrange(256)
    return found


def functions(r, found, count):
    kept = [record for record in found if record[0] not in (5, 6)]
    terms = []
    for m in range(1, count + 1):
        polynomial = r.randrange(13)
        kept.append(bytearray([5, m, polynomial, r.randrange(13 - polynomial) if m % 3 else 0]))
        for k in range(1, sum(kept[-1][2:4]) + 1):
            record = bytearray([6, m, k, r.randrange(8)])
            for value in (-r.random(), r.uniform(-1, 1), r.uniform(-1, 1), r.uniform(-0.1, 0.1), r.uniform(0, 8)):
                record += struct.pack("<d", value)
            terms.append(record)
    for record in kept:
        if record[0] == 4 and record[1] < record[2]:
            record[43] = r.randrange(1, count + 1) if count and r.random() < 0.5 else r.randrange(128, 256)
    return kept + terms


def empty(found):
    kept = [record for record in found if record[0] not in (3, 5, 6)]
    for record in kept:
        if record[0] == 2:
            record[18] = record[19] = 0
        if record[0] == 4:
            record[43] = 255
    return kept


def steep(r, found):
    for record in found:
        if record[0] == 3 and r.random() < 0.1:
            factor = r.choice([-1.0, 1.0]) * 10.0 ** r.uniform(0, 7)
            put(record, 5, struct.unpack("<d", record[5:13])[0] * factor)
    return found


def huge(r, found):
    for record in found:
        if record[0] == 2 and r.random() < 0.3:
            put(record, 20 + 8 * r.randrange(3), r.choice([-1.0, 1.0]) * 10.0 ** r.uniform(303, 308))
    return found


def reducing(r, found):
    for record in found:
        if record[0] == 4 and r.random() < 0.05:
            put(record, r.choice([19, 27]), r.choice([0.0, -1.0, 1e308, -1e308, 5e-324]))
        if record[0] == 4 and r.random() < 0.05:
            put(record, r.choice([3, 11]), r.choice([5e-324, 1e-300, 1e300, 1e308]))
    return found


def table(r, found):
    pairs = [record for record in found if record[0] == 4]
    cause = r.randrange(8)
    record = r.choice([each for each in pairs if each[1] < each[2]])
    if cause < 5:
        put(record, 3 + 8 * cause, float("nan"))
    elif cause == 5:
        put(r.choice([each for each in found if each[0] == 2]), 10, r.choice([0.0, -1.0, float("inf")]))
    elif cause == 6:
        put(record, 3 + 8 * r.randrange(2), -0.5)
    else:
        record[43] = r.choice([0, 11, 127])
    return found


def main(words):
    folder, seed = words[0], int(words[1])
    with open(os.path.join(ROOT, "data", "gerg-2008.bin"), "rb") as source:
        data = source.read()
    r = random.Random(seed)
    made = {
        "nonfinite": nonfinite(r, records(data)),
        "exponents": exponents(r, records(data)),
        "none": functions(r, records(data), 0),
        "ten": functions(r, records(data), 10),
        "empty": empty(records(data)),
        "table": table(r, records(data)),
        "steep": steep(r, records(data)),
        "huge": huge(r, records(data)),
        "reducing": reducing(r, records(data)),
    }
    for name, found in made.items():
        path = os.path.join(folder, name + ".bin")
        with open(path, "wb") as out:
            out.write(b"".join(found))
        print(path)


if __name__ == "__main__":
    main(sys.argv[1:])
