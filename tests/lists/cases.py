"""Calls of gerg_read_list and gerg_write_list: named ones, and as many as asked for drawn from a seed."""
import random
from typing import NamedTuple

from reference import MILLION, RECORD, record


class Read(NamedTuple):
    data: bytes
    rooms: tuple  # places lent for components, parts and fractions


class Write(NamedTuple):
    components: bytes
    parts: tuple
    room: int


PLENTY = (21, 21, 21)
ALL = bytes(range(1, 22))


def listed(*pairs):
    return b"".join(record(component, parts) for component, parts in pairs)


def equal(n):
    """Parts of n components, as equal as can be."""
    return tuple(MILLION // n + (k < MILLION % n) for k in range(n))


def bytes_in_turn():
    """Each byte in each place of the only record, of the first and of a later one."""
    for data, at in ((listed((7, MILLION)), 0), (listed((7, 500_000), (21, 499_990), (3, 10)), 0), (listed((7, 500_000), (21, 499_990), (3, 10)), 6)):
        for place in range(RECORD):
            for byte in range(256):
                changed = bytearray(data)
                changed[at + place] = byte
                yield f"byte {byte:#04x} in place {place} of the record at {at} of {len(data)} bytes", Read(bytes(changed), PLENTY)


def lengths():
    """Lists of 0 to 21 records with every shortage of room by one; longer ones."""
    for n in range(22):
        parts = equal(n) if n else ()
        data = listed(*zip(ALL[:n], parts))
        for rooms in ((n, n, n), (n + 1, n + 3, n + 2), (n - 1, n, n), (n, n - 1, n), (n, n, n - 1), (0, 30, 30), (30, 0, 30), (30, 30, 0), (0, 0, 0)):
            if min(rooms) >= 0:
                yield f"{n} records, rooms {rooms}", Read(data, rooms)
        for room in {0, 1, 6 * n - 6, 6 * n - 1, 6 * n, 6 * n + 1, 6 * n + 20} - {-6, -1}:
            yield f"{n} records written, room {room}", Write(ALL[:n], parts, room)
        for at in range(len(data)):
            yield f"{n} records cut at {at}", Read(data[:at], PLENTY)
    for n in (22, 23, 42, 43, 1000, 5000):
        components = (ALL * n)[:n]
        data = listed(*((component, MILLION if k == 0 else 0) for k, component in enumerate(components)))
        yield f"{n} records", Read(data, (n, n, n))
        yield f"{n} records, the last cut", Read(data[:-1], (n, n, n))
        yield f"{n} records, the last of another kind", Read(data[:-6] + b"\x11" + data[-5:], (n, n, n))
        yield f"{n} records, a digit of the last above 9", Read(data[:-1] + b"\x0a", (n, n, n))
        yield f"{n} records of one component", Read(data[:6] * n, (n, n, n))
        yield f"{n} records written", Write(components, (MILLION, *[0] * (n - 1)), 6 * n)
    yield "22 records, the 22nd unknown", Read(listed(*zip(ALL + b"\x16", equal(22))), (22, 22, 22))
    yield "22 written, the 22nd unknown", Write(ALL + b"\x16", equal(22), 132)


def amounts():
    for place in range(3):
        parts = [0, 0, 0]
        parts[place] = MILLION
        data = listed(*zip((9, 1, 21), parts))
        yield f"all parts in place {place}", Read(data, PLENTY)
        yield f"all parts in place {place}, written", Write(b"\x09\x01\x15", tuple(parts), 18)
    yield "a million parts of one", Read(listed((1, MILLION)), (1, 1, 1))
    for parts in ((0,), (0, 0), (999_999,), (1_000_001,), (999_999, 2), (99_999_999,), (99_999_999,) * 21, (MILLION, 1), (500_000, 499_999), (10_000_000,)):
        components = ALL[: len(parts)]
        yield f"parts {parts}", Read(listed(*zip(components, parts)), PLENTY)
        yield f"parts {parts} written", Write(components, parts, 126)
    top = 2**32 - 1
    for parts in (
        (top,), (top, MILLION + 1), (MILLION + 1, top), (2**31, 2**31 + MILLION), (top, 1, MILLION), (100_000_000,), (2**32 - MILLION, 2 * MILLION),
        (top, top, MILLION + 2), (top,) * 20 + (MILLION + 20,), (top,) * 21, (0, top, MILLION + 1, 0), (MILLION, 2**31, 2**31), (MILLION, top, 1),
    ):  # fmt: skip
        for room in (6 * len(parts), 0):
            yield f"parts {parts} written, total {sum(parts) % 2**32} modulo 2^32, room {room}", Write(ALL[: len(parts)], parts, room)


def digits():
    """Each digit in each place, the other record making up the total where it can."""
    for place in range(8):
        for digit in range(10):
            parts = digit * 10**place
            data = listed((4, parts), (5, max(0, MILLION - parts)))
            yield f"digit {digit} in place {place}", Read(data, PLENTY)
            yield f"digit {digit} in place {place}, written", Write(b"\x04\x05", (parts, max(0, MILLION - parts)), 12)
        for digit in range(10, 16):
            packed = bytearray(listed((4, MILLION)))
            packed[5 - place // 2] = digit << 4 if place % 2 else digit
            yield f"digit {digit} in place {place}", Read(bytes(packed), PLENTY)


def orders():
    """Of several refusals the first, down to the last."""
    cut, repeated, total = b"\x10", listed((4, 400_000), (4, 600_000)), listed((4, 400_000), (5, 500_000))
    for rooms in ((0, 0, 0), PLENTY):
        yield f"a cut record behind a repeated component, rooms {rooms}", Read(repeated + cut, rooms)
        yield f"a wrong kind behind a bad total, rooms {rooms}", Read(total + b"\x00" * 6, rooms)
        yield f"two wrong records, rooms {rooms}", Read(b"\x11" + total[1:] + cut, rooms)
        yield f"a repeated component and a bad total, rooms {rooms}", Read(listed((4, 400_000), (4, 500_000)), rooms)
        yield f"a bad total, rooms {rooms}", Read(total, rooms)
        yield f"no record, rooms {rooms}", Read(b"", rooms)
        yield f"one byte, rooms {rooms}", Read(b"\x10", rooms)
    for room in (0, 126):
        yield f"no component beside parts, room {room}", Write(b"", (MILLION,), room)
        yield f"no component, no parts, room {room}", Write(b"", (), room)
        yield f"an unknown component, one part too many, room {room}", Write(b"\x01\x16", (MILLION, 0, 0), room)
        yield f"components of one number, room {room}", Write(b"\x05\x05", (400_000, 600_000), room)
        for parts in ((), (MILLION,), (MILLION, 0, 0), (1,), (1, 2, 3, 4)):
            yield f"{len(parts)} parts {parts} of 2, room {room}", Write(b"\x02\x01", parts, room)
        yield f"a bad total, room {room}", Write(b"\x02\x01", (MILLION, 1), room)


def named():
    for make in (bytes_in_turn, lengths, amounts, digits, orders):
        yield from make()


# ---- drawn calls


def drawn_parts(r, n):
    """n parts that total 1,000,000: anyhow, or many of them 0, or a few small ones."""
    how = r.randrange(4)
    if how == 0:
        parts = [0] * n
        for k in r.sample(range(n), r.randint(1, min(n, 3))):
            parts[k] = r.randrange(MILLION // 3)
        parts[r.randrange(n)] += MILLION - sum(parts)
        return parts
    most = 20 if how == 1 else MILLION
    cuts = sorted(r.randint(0, most) for _ in range(n - 1))
    parts = [b - a for a, b in zip([0, *cuts], [*cuts, MILLION])]
    r.shuffle(parts)
    return parts


def drawn_list(r):
    n = r.choice((1, 2, 3, 5, 21, r.randint(1, 21), r.randint(1, 21)))
    return r.sample(range(1, 22), n), drawn_parts(r, n)


def flipped(r, data):
    changed = bytearray(data)
    for _ in range(r.randint(1, 3)):
        changed[r.randrange(len(changed))] ^= r.randint(1, 255)
    return bytes(changed)


def put(data, at, *new):
    return data[:at] + bytes(new) + data[at + len(new) :]


def drawn_record(r, data):
    """The offset of one of its records."""
    return RECORD * r.randrange(len(data) // RECORD)


def half(r, data):
    """A digit above 9 in either half of a byte."""
    at, digit = drawn_record(r, data) + r.randint(2, 5), r.randint(10, 15)
    return put(data, at, r.choice((data[at] & 0xF0 | digit, data[at] & 0x0F | digit << 4)))


def other_total(r, data):
    at = drawn_record(r, data)
    digits = data[at + 2 : at + 6].hex()
    parts = int(digits) if digits.isdecimal() else 0
    new = r.choice((parts + 1, abs(parts - 1), parts * 10, r.randrange(10**8), r.randrange(MILLION)))
    return put(data, at + 2, *bytes.fromhex(f"{new % 10**8:08}"))


def moved(r, data):
    """A byte too many or too few."""
    at = r.randrange(len(data))
    return data[:at] + (bytes([r.randrange(256)]) + data[at:] if r.random() < 0.5 else data[at + 1 :])


DAMAGES = (
    flipped,
    lambda r, data: data[: r.randrange(len(data))],
    lambda r, data: put(data, drawn_record(r, data), r.choice((0, 1, 0x11, 0x00, 0x90, r.randrange(256)))),
    half,
    lambda r, data: put(data, drawn_record(r, data) + 1, data[drawn_record(r, data) + 1]),
    lambda r, data: put(data, drawn_record(r, data) + 1, r.choice((0, 22, 23, 255, r.randrange(256)))),
    other_total,
    moved,
    lambda r, data: data + b"".join(record(r.randint(1, 21), r.choice((0, 0, 1))) for _ in range(r.randint(1, 22))),
    lambda r, data: r.randbytes(r.randrange(60)),
)


def drawn_rooms(r, n):
    how = r.randrange(5)
    if how == 0:
        return (n, n, n)
    if how == 1:
        rooms = [n + r.randrange(3) for _ in range(3)]
        rooms[r.randrange(3)] = max(0, n - 1)
        return tuple(rooms)
    if how == 2:
        return tuple(r.randint(0, 24) for _ in range(3))
    return tuple(n + r.randrange(6) for _ in range(3))


def drawn_read(r):
    data = listed(*zip(*drawn_list(r)))
    for _ in range(r.choice((0, 0, 1, 1, 2))):
        data = r.choice(DAMAGES)(r, data) if len(data) >= RECORD else data
    return Read(data, drawn_rooms(r, len(data) // RECORD))


def wrapping(r, n):
    """Parts that total 1,000,000 modulo 2^32, as good as always only so."""
    parts = [r.randrange(2**32) for _ in range(n - 1)]
    return [*parts, (MILLION - sum(parts)) % 2**32]


def drawn_write(r):
    components, parts = drawn_list(r)
    how = r.randrange(8)
    if how == 0:
        components[r.randrange(len(components))] = r.choice((0, 22, 255, r.randrange(256), r.choice(components)))
    elif how == 1:
        parts = parts[: r.randrange(len(parts))] if r.random() < 0.5 else parts + [r.choice((0, r.randrange(2**32))) for _ in range(r.randint(1, 3))]
    elif how == 2:
        parts[r.randrange(len(parts))] = r.choice((0, MILLION, r.randrange(MILLION), r.randrange(2**32)))
    elif how == 3:
        parts = wrapping(r, len(parts))
    elif how == 4 and r.random() < 0.3:
        components = r.choice(([], components + [r.randint(1, 21) for _ in range(r.randint(1, 30))]))
    needed = RECORD * len(components)
    room = r.choice((needed, needed, needed + r.randrange(20), max(0, needed - r.randint(1, 6)), r.randrange(140)))
    return Write(bytes(components), tuple(parts), room)


def drawn(seed, count):
    """Three in five are read."""
    r = random.Random(seed)
    for k in range(count):
        yield f"drawn call {k}", drawn_read(r) if k % 5 < 3 else drawn_write(r)
