#!/usr/bin/env python3
"""An independent program for the generator of states, written from the words of request 01 alone; it shares nothing with the Rattle sources.

Prints for three seeds states 0 to 9 and state 9,999: the seed, the state's number, the two words drawn for it, and the bits of its temperature and density.
What it printed is stored in drawn.txt.
"""
import struct

SEEDS = (1, 2**63 + 12345, 0xFFFFFFFFFFFFFFFF)
WRAP = 2**64


def words(seed):
    """The drawn words, the first first."""
    s, c = seed, 0
    while True:
        s = s ^ (s << 13) % WRAP
        s = s ^ (s >> 7)
        s = s ^ (s << 17) % WRAP
        c = (c + 0x9E3779B97F4A7C15) % WRAP
        yield (s + c) % WRAP


def unit(word):
    """The top 53 bits over 2^53."""
    return (word // 2**11) / 2**53


def bits(number):
    return struct.pack(">d", number).hex()


def line(seed, n, first, second):
    temperature, density = 200 + 250 * unit(first), 0.001 + 29999 * unit(second)
    return f"{seed:016x} {n} {first:016x} {second:016x} {bits(temperature)} {bits(density)}"


def lines(seed):
    drawn = words(seed)
    for n in range(10_000):
        first, second = next(drawn), next(drawn)
        if n < 10 or n == 9_999:
            yield line(seed, n, first, second)


if __name__ == "__main__":
    for seed in SEEDS:
        print("\n".join(lines(seed)))
