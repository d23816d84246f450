"""Coefficient files for the tests: the longest one, and files damaged in named ways."""
import struct

from reference import BODY, REVISION


def double(value):
    return struct.pack("<d", value)


def longest():
    """24 terms for each component, 10 departure functions of 12 terms: 28,377 bytes."""
    out = bytearray(b"\x01" + REVISION)
    for i in range(1, 22):
        out += bytes([2, i]) + double(300.0 + i) + double(16.0 + i) + bytes([6, 18]) + b"".join(double(0.25 * k) for k in range(11))
    for i in range(1, 22):
        for k in range(1, 25):
            out += bytes([3, i, k, 0 if k < 7 else 1, 1 + k % 7]) + double(0.5 / k) + double(0.125 * k)
    for i in range(1, 22):
        for j in range(i, 22):
            m = (i + j) % 12
            out += bytes([4, i, j]) + double(1.0) + double(1.0) + double(300.0) + double(0.125) + double(0.0) + bytes([m if 1 <= m <= 10 else 255])
    for m in range(1, 11):
        out += bytes([5, m, 4, 8])
    for m in range(1, 11):
        for k in range(1, 13):
            out += bytes([6, m, k, 2]) + b"".join(double(0.5 + n) for n in range(5))
    return bytes(out)


def records(data):
    """Offset and kind of each record of a good file."""
    at, out = 0, []
    while at < len(data):
        out.append((at, data[at]))
        at += 1 + BODY[data[at]]
    return out


# where the fields of a body begin, from the start of the record
FIELDS = {
    1: [0, 1],
    2: [0, 1, 2, 10, 18, 19] + [20 + 8 * k for k in range(11)],
    3: [0, 1, 2, 3, 4, 5, 13],
    4: [0, 1, 2, 3, 11, 19, 27, 35, 43],
    5: [0, 1, 2, 3],
    6: [0, 1, 2, 3, 4, 12, 20, 28, 36],
}
NAN, INF = float("nan"), float("inf")


def damaged(good):
    """Pairs of a name and a file."""
    recs = records(good)
    of = {kind: [at for at, k in recs if k == kind] for kind in BODY}

    def put(*changes):
        b = bytearray(good)
        for at, value in changes:
            b[at : at + len(value)] = value
        return bytes(b)

    for kind, places in of.items():
        size = 1 + BODY[kind]
        chosen = {"first": places[0], "middle": places[len(places) // 2], "last": places[-1]}
        for name, at in chosen.items():
            if len(places) == 1 and name != "first":
                continue
            for field in FIELDS[kind]:
                yield f"kind {kind}, {name}: cut at byte {field}", good[: at + field]
            yield f"kind {kind}, {name}: cut before its last byte", good[: at + size - 1]
            for other in (0, kind - 1, kind + 1, 7, 255):
                yield f"kind {kind}, {name}: kind {other}", put((at, bytes([other])))
            for field in (1, 2)[: {1: 0, 2: 1, 3: 2, 4: 2, 5: 1, 6: 2}[kind]]:
                for step in (1, 255):
                    yield f"kind {kind}, {name}: leading number {field} changed by {step}", put((at + field, bytes([(good[at + field] + step) % 256])))
            yield f"kind {kind}, {name}: missing", good[:at] + good[at + size :]
            yield f"kind {kind}, {name}: twice", good[: at + size] + good[at:]
            yield f"kind {kind}, {name}: one byte more", good[: at + size] + b"\x00" + good[at + size :]
            yield f"kind {kind}, {name}: swapped with what follows", good[:at] + good[at + size : at + 2 * size] + good[at : at + size] + good[at + 2 * size :]
    yield "revision, first character", put((1, b"4"))
    yield "revision, last character", put((40, b"f"))
    yield "bytes over: a zero", good + b"\x00"
    yield "bytes over: a record of kind 6", good + good[of[6][-1] :]
    yield "bytes over: a record of kind 1", good + good[:41]
    c1, c21 = of[2][0], of[2][-1]
    for i, at in (("1", c1), ("21", c21)):
        yield f"component {i}: 25 terms", put((at + 18, bytes([12, 13])))
        yield f"component {i}: 24 terms said", put((at + 18, bytes([12, 12])))
        yield f"component {i}: 0 terms said", put((at + 18, bytes([0, 0])))
        yield f"component {i}: 255 + 255 terms", put((at + 18, bytes([255, 255])))
    f1, f_last = of[5][0], of[5][-1]
    yield "departure function 1: 13 terms", put((f1 + 2, bytes([6, 7])))
    yield "last departure function: 12 terms said", put((f_last + 2, bytes([6, 6])))
    yield "an eleventh departure function", good[: f_last + 4] + b"".join(bytes([5, n, 0, 0]) for n in range(len(of[5]) + 1, 12)) + good[f_last + 4 :]
    yield "no departure functions at all", good[:f1]
    yield "no departure functions, their terms kept", good[:f1] + good[f_last + 4 :]
    # row 2, each cause, at the first, a middle and the last pair
    pairs = {"1, 1": of[4][0], "1, 2": of[4][1], "11, 11": of[4][sum(21 - h for h in range(10))], "21, 21": of[4][-1]}
    for name, at in pairs.items():
        for column, what in enumerate(("bt", "bv", "gt", "gv", "f")):
            for value in (NAN, INF, -INF):
                yield f"pair {name}: {what} {value}", put((at + 3 + 8 * column, double(value)))
        for column, what in ((0, "bt"), (1, "bv")):
            for value in (0.0, -0.0, -1.0, 5e-324):
                yield f"pair {name}: {what} {value}", put((at + 3 + 8 * column, double(value)))
        for m in (0, 1, 7, 10, 11, 127, 128, 255):
            yield f"pair {name}: mNumb byte {m}", put((at + 43, bytes([m])))
        yield f"pair {name}: bt a NaN with another pattern", put((at + 3, struct.pack("<Q", 0xFFF0000000000001)))
    for i, at in (("1", c1), ("21", c21)):
        for offset, what in ((2, "Tc"), (10, "mass")):
            for value in (NAN, INF, -INF, 0.0, -1.0, 5e-324):
                yield f"component {i}: {what} {value}", put((at + offset, double(value)))
    # where the order decides
    p11, p12, p22, plast = of[4][0], of[4][1], of[4][21], of[4][-1]
    bt, bv, gt, gv, f, m = 3, 11, 19, 27, 35, 43
    nan, zero = double(NAN), double(0.0)
    yield "f of the first pair and bt of the last: 1", put((p11 + f, nan), (plast + bt, nan))
    yield "bv of the first pair and bt of the last: 1", put((p11 + bv, nan), (plast + bt, nan))
    yield "gt of the last pair and gv of the first: 3", put((plast + gt, nan), (p11 + gv, nan))
    yield "Tc of component 1 and f of the last pair: 5", put((c1 + 2, nan), (plast + f, nan))
    yield "mass of component 21 and bt of the pair 1, 1 not positive: 7", put((c21 + 10, zero), (p11 + bt, zero))
    yield "mass of component 1 and bt of the pair 1, 1 not positive: 6", put((c1 + 10, zero), (p11 + bt, zero))
    yield "Tc of component 2 and bv of the pair 1, 2 not positive: 7", put((of[2][1] + 2, nan), (p12 + bv, zero))
    yield "Tc of component 2 and bv of the pair 2, 2 not positive: 6", put((of[2][1] + 2, nan), (p22 + bv, zero))
    yield "mNumb of the pair 1, 2 and mass of component 21: 6", put((p12 + m, b"\x00"), (c21 + 10, nan))
    yield "mNumb of the pair 1, 2 and bv of the last pair: 7", put((p12 + m, b"\x00"), (plast + bv, double(-1.0)))
    yield "a fault of row 2 and a byte over: row 1", put((p11 + bt, nan)) + b"\x00"


def random_damage(rng, good):
    """One of the real file's random damages."""
    b = bytearray(good)
    choice = rng.randrange(12)
    values = [NAN, INF, -INF, 0.0, -0.0, -1.0, 5e-324, 1e308, 1.0]
    recs = records(good)
    if choice == 0:
        del b[rng.randrange(len(b) + 1) :]
    elif choice == 1:
        for _ in range(rng.choice([1, 1, 2, 5])):
            b[rng.randrange(len(b))] = rng.randrange(256)
    elif choice == 2:
        b += bytes(rng.randrange(256) for _ in range(rng.randrange(1, 60)))
    elif choice == 3:
        at = rng.randrange(len(b))
        del b[at : at + rng.choice([1, 4, 21, 44, 108])]
    elif choice == 4:
        at = 41 + 108 * rng.randrange(21) + rng.choice([18, 19])
        b[at] = rng.choice([0, 1, 24, 25, (b[at] + 1) % 256, 255])
    elif choice == 5:
        at, kind = rng.choice(recs)
        b[at + rng.randrange(3)] = rng.randrange(8)
    elif choice == 6:
        (at, kind), (other, _) = rng.choice(recs), rng.choice(recs)
        piece = bytes(b[at : at + 1 + BODY[kind]])
        b[other:other] = piece
    elif choice == 7:
        b = bytearray(rng.randrange(256) for _ in range(rng.randrange(120)))
    else:
        for _ in range(rng.choice([1, 1, 2, 3])):
            at, kind = rng.choice([r for r in recs if r[1] == (2 if rng.random() < 0.4 else 4)])
            if kind == 2:
                place = at + rng.choice([2, 10])
            elif rng.random() < 0.3:
                b[at + 43] = rng.choice([0, 1, 7, 8, 10, 11, 127, 128, 255])
                continue
            else:
                place = at + 3 + 8 * rng.randrange(5)
            b[place : place + 8] = double(rng.choice(values)) if rng.random() < 0.8 else bytes(rng.randrange(256) for _ in range(6)) + b"\xf0\x7f"
    return bytes(b)
