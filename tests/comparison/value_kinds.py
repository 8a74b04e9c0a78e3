"""The kinds of operands that a comparison must reach, each a name and a test."""

import math
import struct

LEAST, GREATEST = -2**63, 2**63 - 1
SIGN = 1 << 63
MAGNITUDE = SIGN - 1
INFINITY = 0x7ff << 52
QUIET = 1 << 51
SMALLEST_NORMAL = 1 << 52
EXACT_DIGITS = 53


def named(group, tests):
    """The tests of a group under full names, as they are printed."""
    return {f'{group}: {name}': test for name, test in tests.items()}


def float_of(bits):
    return struct.unpack('>d', struct.pack('>Q', bits))[0]


def bits_of(value):
    return struct.unpack('>Q', struct.pack('>d', value))[0]


def at_half(x):
    return math.isfinite(x) and abs(x) % 1 == 0.5


def beside_half(x):
    """Whether the next float below or above is a half."""
    around = (math.nextafter(x, -math.inf), math.nextafter(x, math.inf))
    return not at_half(x) and any(map(at_half, around))


def near_power(power):
    """The test for that power of two and the floats beside it, with either sign."""
    bits = bits_of(2.0**power)
    return lambda b: abs((b & MAGNITUDE) - bits) <= 1


def near_tie(off, place):
    """The test for a whole number whose last `off` digits are a half, one less or one more."""
    last = (1 << off - 1) + place
    return lambda n: abs(n) % (1 << off) == last


# Floats, by their bits.
FLOATS = named('float', {
    '+0': lambda b: b == 0,
    '-0': lambda b: b == SIGN,
    '+infinity': lambda b: b == INFINITY,
    '-infinity': lambda b: b == SIGN | INFINITY,
    'NaN, quiet': lambda b: b & MAGNITUDE > INFINITY and b & QUIET,
    'NaN, signalling': lambda b: b & MAGNITUDE > INFINITY and not b & QUIET,
    'NaN, negative': lambda b: b > SIGN | INFINITY,
    'subnormal': lambda b: 0 < b & MAGNITUDE < SMALLEST_NORMAL,
    **{f'2^{power} or beside it': near_power(power) for power in (52, 53, 63, 64)},
    'a half': lambda b: at_half(float_of(b)),
    'beside a half': lambda b: beside_half(float_of(b)),
})

# Whole numbers that are cast to a float.
INTS = named('int', {
    'the least': lambda n: n == LEAST,
    'the greatest': lambda n: n == GREATEST,
    'beside an end': lambda n: n in (LEAST + 1, GREATEST - 1),
    '2^52 or beside it': lambda n: abs(abs(n) - 2**52) <= 1,
    '2^53': lambda n: abs(n) == 2**53,
    'beside 2^53': lambda n: abs(n) in (2**53 - 1, 2**53 + 1),
})

# Whole numbers of more than 53 digits, by how many are rounded off. With one off, the numbers beside a
# tie are exact.
TIES = {
    off: named(f'int, {off} digits off', {
        'below a tie': near_tie(off, -1),
        'a tie': near_tie(off, 0),
        'above a tie': near_tie(off, 1),
    })
    for off in range(2, 11)
}
TIES[1] = {'int, 1 digit off: a tie': near_tie(1, 0)}

# Quanta of phases, by value.
QUANTA = named('quantum', {
    '+0': lambda q: bits_of(q) == 0,
    '-0': lambda q: bits_of(q) == SIGN,
    'negative': lambda q: q < 0,
    'huge': lambda q: 2.0**100 < abs(q) < math.inf,
    'tiny': lambda q: 0 < abs(q) < 2.0**-100,
    'subnormal': lambda q: 0 < abs(q) < 2.0**-1022,
    'infinite': math.isinf,
    'NaN': math.isnan,
    'whole, 1 to 16': lambda q: q in range(1, 17),
})

# Phases, by the exact beat and the quantum.
PHASES = named('phase', {
    'of a whole beat in a whole quantum': lambda p: p[0] % 1 == 0 and p[1] in range(1, 17),
    'of a negative beat': lambda p: p[0] < 0 and p[1] in range(1, 17),
})

# Tempos of states.
TEMPOS = named('tempo', {
    '0': lambda n: n == 0,
    'negative': lambda n: n < 0,
    '1': lambda n: n == 1,
    '60,000,000': lambda n: n == 60_000_000,
    'the least': lambda n: n == LEAST,
    'the greatest': lambda n: n == GREATEST,
})

# Numbers that `round` is given, worked out from the operand.
ROUNDED = {
    'at a half': at_half,
    'beside a half': beside_half,
    'past the 64-bit range': lambda x: 2.0**63 <= abs(x) < math.inf,
}
PRODUCTS = named('beat x 1,000,000', ROUNDED)
QUOTIENTS = named('60,000,000 / bpm', ROUNDED)

# Differences of two times, exact.
DIFFERENCES = named('time - time origin', {
    'wraps above': lambda d: d > GREATEST,
    'wraps below': lambda d: d < LEAST,
    'is 0': lambda d: d == 0,
})

ALL = [FLOATS, INTS, *TIES.values(), TEMPOS, DIFFERENCES, PRODUCTS, QUOTIENTS, QUANTA, PHASES]
