"""What scripts of value calls reach: kinds of operands, exponents, tempos around the table."""

from fractions import Fraction

from comparison import value_kinds, whole_tempos
from comparison.reach import Reach
from comparison.value_calls import VALUE_CALLS

# Signs and exponents of a float, 12 bits.
TOPS = 1 << 12


def top(call, name):
    """The sweep over the exponents, with both signs, of one float of a call."""
    return f'{call.name}, {name}: exponents with both signs'


class ValueReach(Reach):
    def __init__(self):
        kinds = [name for table in (*value_kinds.ALL, whole_tempos.KINDS) for name in table] + [whole_tempos.SET_KIND]
        tops = {top(call, name): range(TOPS) for call in VALUE_CALLS.values() for name in call.floats}
        super().__init__(VALUE_CALLS, kinds, {**tops, **whole_tempos.SWEEPS})

    def kinds_of(self, record):
        return operand_kinds(record) + whole_tempos.kinds(record)

    def cases_of(self, record):
        call = VALUE_CALLS[record.first]
        tops = [(top(call, name), record.fields[name] >> 52) for name in call.floats]
        return tops + whole_tempos.cases(record)


def matching(table, value):
    return [name for name, test in table.items() if test(value)]


def operand_kinds(record):
    """The kinds of the operands of a record, by name."""
    fields = record.fields
    found = []
    for name in VALUE_CALLS[record.first].floats:
        found += matching(value_kinds.FLOATS, fields[name])
    for value in cast_to_float(fields):
        off = abs(value).bit_length() - value_kinds.EXACT_DIGITS
        found += matching(value_kinds.INTS, value) + matching(value_kinds.TIES.get(off, {}), value)
    if 'time_origin' in fields:
        found += matching(value_kinds.TEMPOS, fields['tempo'])
    if 'time' in fields:
        found += matching(value_kinds.DIFFERENCES, difference(fields))
    return found + kinds_of_call(record)


def kinds_of_call(record):
    """The kinds that matter to one call alone."""
    fields = record.fields
    if record.first == 0x10:
        return matching(value_kinds.PRODUCTS, value_kinds.float_of(fields['beat']) * 1e6)
    if record.first == 0x12 and fields['bpm'] & value_kinds.MAGNITUDE:
        return matching(value_kinds.QUOTIENTS, 60e6 / value_kinds.float_of(fields['bpm']))
    if record.first == 0x16:
        quantum = value_kinds.float_of(fields['quantum'])
        return matching(value_kinds.QUANTA, quantum) + matching(value_kinds.PHASES, (beats(fields), quantum))
    return []


def cast_to_float(fields):
    """The whole numbers that the call casts to a float."""
    values = [fields[name] for name in ('micro_beats', 'tempo', 'beat_origin') if name in fields]
    if 'time' in fields:
        values.append((difference(fields) - value_kinds.LEAST) % 2**64 + value_kinds.LEAST)
    return values


def beats(fields):
    """The exact beat of a state at a time; 0 where the tempo is."""
    if not fields['tempo']:
        return 0
    return Fraction(fields['beat_origin'], 10**6) + Fraction(difference(fields), fields['tempo'])


def difference(fields):
    return fields['time'] - fields['time_origin']
