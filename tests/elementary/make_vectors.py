#!/usr/bin/env python3
"""Writes vectors.txt: some 200 inputs for each elementary function with the exact answer to 50 significant digits, by mpmath at 80 digits.

An input is given by its bits, so it is the double itself and not a decimal near it. The inputs come from a fixed seed: the file is the same each time."""
import os
import random
import struct

import mpmath

mpmath.mp.dps = 80
COUNT = 200


def bits(x):
    return '%016x' % struct.unpack('<Q', struct.pack('<d', x))[0]


def double(n):
    return struct.unpack('<d', struct.pack('<Q', n))[0]


def positive(rng):
    """A positive finite double of any exponent, subnormals included."""
    return double(rng.randrange(1, 0x7ff0000000000000))


def written(value):
    return mpmath.nstr(value, 50, min_fixed=0, max_fixed=0)


def exp_inputs(rng):
    yield from (-700.0, 700.0, 1.0, -1.0, 0.5, double(1), double(0x000fffffffffffff), 2.0 ** -54, -2.0 ** -54, 2.0 ** -53)
    for k in range(1, 21):
        near = float(k * mpmath.log(2) / 64 * rng.randrange(1, 3000))
        yield near if near <= 700 else near / 100
    while True:
        yield rng.choice((-1, 1)) * rng.choice((rng.uniform(0, 700), 2.0 ** rng.uniform(-60, 9.4)))


def ln_inputs(rng):
    yield from (double(1), double(0x000fffffffffffff), 2.0 ** -1022, double(0x7fefffffffffffff), 2.0, 0.5, 10.0)
    for k in range(1, 21):
        yield double(0x3ff0000000000000 + rng.randrange(1, 2 ** (2 * k)))
        yield double(0x3ff0000000000000 - rng.randrange(1, 2 ** (2 * k)))
    while True:
        yield rng.choice((positive(rng), rng.uniform(0, 10), double(rng.randrange(1, 2 ** 52))))


def sqrt_inputs(rng):
    yield from (double(1), double(0x000fffffffffffff), 2.0 ** -1022, double(0x7fefffffffffffff), 2.0, 4.0, 3.0)
    for k in range(1, 21):
        root = rng.randrange(2 ** 26)
        yield float(root * root)
        yield float(root * root + 1)
    while True:
        yield rng.choice((positive(rng), rng.uniform(0, 10), double(rng.randrange(1, 2 ** 52))))


def powf_inputs(rng):
    while True:
        x = rng.choice((positive(rng), rng.uniform(0, 10), rng.uniform(0.5, 2)))
        t = rng.choice((rng.uniform(-20, 20), rng.randrange(-64, 65) / 8))
        if t != 0 and abs(t * float(mpmath.log(x))) < 690:
            yield x, t


def powi_inputs(rng):
    while True:
        x = rng.choice((-1, 1)) * rng.choice((rng.uniform(0, 10), rng.uniform(0.5, 2)))
        n = rng.choice((rng.randrange(-128, 128), rng.randrange(-4, 5)))
        if abs(n * float(mpmath.log(abs(x)))) < 690:
            yield x, n


def hyperbolic_inputs(rng):
    yield from (20.0, -20.0, 700.0, -700.0, 1.0, -1.0)
    while True:
        yield rng.choice((-1, 1)) * rng.choice((rng.uniform(0, 700), rng.uniform(0, 20), 2.0 ** rng.uniform(-40, 0)))


def vectors():
    one = (('exp', exp_inputs, mpmath.exp), ('ln', ln_inputs, mpmath.log), ('sqrt', sqrt_inputs, mpmath.sqrt),
           ('sinh', hyperbolic_inputs, mpmath.sinh), ('cosh', hyperbolic_inputs, mpmath.cosh), ('tanh', hyperbolic_inputs, mpmath.tanh))
    for name, inputs, exact in one:
        rng = random.Random('elementary ' + name)
        source = inputs(rng)
        for _ in range(COUNT):
            x = next(source)
            yield '%s %s %s' % (name, bits(x), written(exact(mpmath.mpf(x))))
    rng = random.Random('elementary powf')
    source = powf_inputs(rng)
    for _ in range(COUNT):
        x, t = next(source)
        yield 'powf %s %s %s' % (bits(x), bits(t), written(mpmath.power(mpmath.mpf(x), mpmath.mpf(t))))
    rng = random.Random('elementary powi')
    source = powi_inputs(rng)
    for _ in range(COUNT):
        x, n = next(source)
        yield 'powi %s %d %s' % (bits(x), n, written(mpmath.mpf(x) ** n))


if __name__ == '__main__':
    path = os.path.join(os.path.dirname(os.path.abspath(__file__)), 'vectors.txt')
    with open(path, 'w') as out:
        out.write('# Exact answers of the elementary functions to 50 significant digits, by mpmath %s at 80 digits; written by make_vectors.py.\n' % mpmath.__version__)
        out.write('# function, the bits of its argument (powf: of both; powi: of the base, and the exponent), the exact answer\n')
        for line in vectors():
            out.write(line + '\n')
