"""An independent reader of the coefficient file, written from the prose of document 01 (the table of kinds, and rows 1 and 2 of "Cause and number").

It shares nothing with the Rattle sources: records are first laid out one by one as a list of what must stand next, and the tables are kept by
name. `answer(data)` is the line that `tablecheck` has to print.
"""
import math
import struct

REVISION = b"3bdb9ab8ff317c618b0b59d1b704c2c86ddc5fce"
BODY = {1: 40, 2: 107, 3: 20, 4: 43, 5: 3, 6: 43}
COMPONENTS = 21


class Refused(Exception):
    """Row 1, with the offset."""


class Reader:
    """Takes the records off the file in turn."""

    def __init__(self, data):
        self.data = data
        self.at = 0

    def record(self, kind, *leading):
        """The body of the next record, which must be of this kind, whole, and begin with these numbers."""
        body = self.data[self.at + 1 : self.at + 1 + BODY[kind]]
        if self.data[self.at : self.at + 1] != bytes([kind]) or len(body) != BODY[kind] or tuple(body[: len(leading)]) != leading:
            self.refuse()
        return body

    def accept(self, kind):
        self.at += 1 + BODY[kind]

    def refuse(self):
        raise Refused(self.at)


def read(data):
    """The tables by name, or Refused."""
    r = Reader(data)
    if r.record(1) != REVISION:
        r.refuse()
    r.accept(1)
    component, terms = {}, {}
    for i in range(1, COMPONENTS + 1):
        body = r.record(2, i)
        tc, mass, kpol, kexp = struct.unpack_from("<ddBB", body, 1)
        if kpol + kexp > 24:
            r.refuse()
        component[i] = (tc, mass)
        terms[i] = kpol + kexp
        r.accept(2)
    for i in range(1, COMPONENTS + 1):
        for k in range(1, terms[i] + 1):
            r.record(3, i, k)
            r.accept(3)
    pair, number = {}, {}
    for i in range(1, COMPONENTS + 1):
        for j in range(i, COMPONENTS + 1):
            body = r.record(4, i, j)
            pair[i, j] = struct.unpack_from("<5d", body, 2)
            number[i, j] = struct.unpack_from("<b", body, 42)[0]
            r.accept(4)
    functions = []
    while len(functions) < 10 and data[r.at : r.at + 1] == b"\x05":
        body = r.record(5, len(functions) + 1)
        if body[1] + body[2] > 12:
            r.refuse()
        functions.append(body[1] + body[2])
        r.accept(5)
    for m, count in enumerate(functions, 1):
        for k in range(1, count + 1):
            r.record(6, m, k)
            r.accept(6)
    if r.at != len(data):
        r.refuse()
    return component, pair, number, len(functions)


def fault(component, pair, number, functions):
    """Row 2's cause, 1 to 8, or 0."""
    for column in range(5):
        for value in pair.values():
            if not math.isfinite(value[column]):
                return column + 1
    for i in range(1, COMPONENTS + 1):
        tc, mass = component[i]
        if not math.isfinite(tc) or not math.isfinite(mass) or not mass > 0:
            return 6
        for j in range(i, COMPONENTS + 1):
            bt, bv = pair[i, j][:2]
            if not bt > 0 or not bv > 0:
                return 7
    for (i, j), m in number.items():
        if i < j and m >= 0 and (m == 0 or m > functions):
            return 8
    return 0


def answer(data):
    try:
        tables = read(data)
    except Refused as refusal:
        return f"1 {refusal.args[0]}"
    cause = fault(*tables)
    return f"2 {cause}" if cause else f"0 {len(data)}"
