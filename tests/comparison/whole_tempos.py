"""Tempos around the table of `from_tempo`: whole numbers from 20 to 999, and what stands beside them.

What an entry is and which floats take one is written here from the order's words, apart from the code and its definition."""

import math
import struct

from comparison.value_kinds import bits_of, float_of, named

FROM_TEMPO, SET_TEMPO = 0x12, 0x1a

SLOWEST, FASTEST = 20, 999
TABLE = range(SLOWEST, FASTEST + 1)
# Whole tempos below and above the table.
SLOWER, FASTER = range(SLOWEST), range(FASTEST + 1, 1_101)
# Whole tempos times powers of two.
SCALED = sorted({n * 2.0**k for n in TABLE for k in range(-12, 13) if k})

# A state at 120 beats a minute, and when its tempo is set.
STATE = (500_000, 0, 0, 0, 0, 0)
SET_AT = 1_000_000


def entry(whole):
    """Microseconds per beat at a whole tempo of the table."""
    return (120_000_000 + whole) // (2 * whole)


def in_table(tempo):
    """The whole number of the table that this float is, or nothing."""
    return int(tempo) if SLOWEST <= tempo <= FASTEST and tempo == int(tempo) else None


def below(tempo):
    return math.nextafter(tempo, -math.inf)


def above(tempo):
    return math.nextafter(tempo, math.inf)


# What `from_tempo` must be asked for: names, each with its tempos.
BESIDE_THE_TABLE = {
    'whole tempos of the table': [float(n) for n in TABLE],
    'floats just below one': [below(n) for n in TABLE],
    'floats just above one': [above(n) for n in TABLE],
    'halves between two': [n + 0.5 for n in TABLE if n < FASTEST],
    'whole tempos from 0 to 19': [float(n) for n in SLOWER],
    'whole tempos from 1,000 to 1,100': [float(n) for n in FASTER],
}
ASKED = {
    **BESIDE_THE_TABLE,
    'the negatives of all these': [-tempo for tempos in BESIDE_THE_TABLE.values() for tempo in tempos],
    'whole tempos times a power of two, in the table': [tempo for tempo in SCALED if in_table(tempo)],
    'whole tempos times a power of two, not in it': [tempo for tempo in SCALED if not in_table(tempo)],
}
SWEEPS = {f'from_tempo: {name}': {bits_of(tempo) for tempo in tempos} for name, tempos in ASKED.items()}
SET_WHOLE = 'set_tempo: whole tempos of the table'
SWEEPS[SET_WHOLE] = {bits_of(float(n)) for n in TABLE}

# Single tempos that the stored sample has too, and both ways out.
SAMPLED = [20.0, 512.0, 999.0, 19.0, 1000.0, 120.5, math.inf, -math.inf]
KINDS = named('from_tempo', {
    **{f'{tempo:g}': lambda x, tempo=tempo: x == tempo for tempo in SAMPLED},
    'NaN': math.isnan,
    'by the table': lambda x: in_table(x) is not None,
    'by the formula': lambda x: in_table(x) is None,
})
SET_KIND = 'set_tempo: to a whole tempo of the table'


def kinds(record):
    """The kinds of a record, by name."""
    if record.first == SET_TEMPO and in_table(float_of(record.fields['bpm'])):
        return [SET_KIND]
    if record.first == FROM_TEMPO:
        return [name for name, test in KINDS.items() if test(float_of(record.fields['bpm']))]
    return []


def cases(record):
    """The sweeps that a record belongs to, each with its case."""
    of_call = {FROM_TEMPO: SWEEPS.keys() - {SET_WHOLE}, SET_TEMPO: {SET_WHOLE}}.get(record.first, ())
    return [(name, record.fields['bpm']) for name in of_call if record.fields['bpm'] in SWEEPS[name]]


def from_tempo(tempo):
    """The record that asks `from_tempo`."""
    return struct.pack('>Bd', FROM_TEMPO, tempo)


def set_tempo(tempo):
    """The record that sets a tempo."""
    return struct.pack('>BqqqBqqdq', SET_TEMPO, *STATE, tempo, SET_AT)


def sampled():
    """The records of the stored sample."""
    return [*map(from_tempo, (*SAMPLED, math.nan)), set_tempo(128.0)]


def chosen():
    """Records for every kind and every sweep."""
    tempos = [tempo for group in ASKED.values() for tempo in group]
    return [*sampled(), *map(from_tempo, tempos), *(set_tempo(float(n)) for n in TABLE)]
