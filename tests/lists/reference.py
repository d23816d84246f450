"""An independent reader and writer of chromatograph lists, written from the words of request 05 alone; it shares nothing with the Rattle sources.

A byte of packed decimal is, in hexadecimal, the two digits that it holds, so the digits of a record are read and written as text. The nearest double is found
with whole numbers, as a bit pattern: no floating-point operation is made.
"""
KIND, RECORD, MILLION = 0x10, 6, 1_000_000
NUMBERS = range(1, 22)


def nearest(parts):
    """The bits of the double nearest to parts / 1,000,000, ties to even."""
    if parts == 0:
        return 0
    shift = 52 + MILLION.bit_length() - parts.bit_length()
    shift += parts << shift < MILLION << 52  # so that the quotient has 53 bits
    quotient, rest = divmod(parts << shift, MILLION)
    quotient += 2 * rest > MILLION or (2 * rest == MILLION and quotient % 2 == 1)
    return (1075 - shift << 52) + quotient - (1 << 52)  # a quotient rounded up to 2^53 carries into the exponent


def record(component, parts):
    return bytes([KIND, component]) + bytes.fromhex(f"{parts:08}")


def records(data):
    """Each record's offset and bytes, the last one perhaps cut."""
    return [(at, data[at : at + RECORD]) for at in range(0, len(data), RECORD)]


def wrong(each):
    return len(each) < RECORD or each[0] != KIND or not each[2:].hex().isdecimal()


def first_bad_place(components):
    """None where there is none."""
    if not components:
        return 0
    return next((k for k, number in enumerate(components) if k >= len(NUMBERS) or number not in NUMBERS or number in components[:k]), None)


def read(data, rooms):
    """Number and value, and the three lists: components, parts, and the bits of the fractions."""
    every = records(data)
    for at, each in every:
        if wrong(each):
            return (28, at % 2**32), None
    components = [each[1] for _, each in every]
    parts = [int(each[2:].hex()) for _, each in every]
    place = first_bad_place(components)
    if place is not None:
        return (3, place), None
    if sum(parts) != MILLION:
        return (29, 0), None
    if min(rooms) < len(every):
        return (24, len(every)), None
    return (0, len(every)), (components, parts, [nearest(each) for each in parts])


def write(components, parts, room):
    """Number and value, and the bytes."""
    place = first_bad_place(components)
    if place is not None:
        return (3, place), None
    if len(parts) != len(components):
        return (4, len(components)), None
    if sum(parts) != MILLION:
        return (29, 0), None
    if room < RECORD * len(components):
        return (24, RECORD * len(components)), None
    data = b"".join(record(component, each) for component, each in zip(components, parts))
    return (0, len(data)), data
