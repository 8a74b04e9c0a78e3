"""The methods of a session's state: how they are written, and what the oracle answers."""

import math
import struct
from collections import namedtuple
from decimal import Decimal

from comparison.programs import ORACLE_REPLAY, run
from comparison.value_calls import VALUE_CALLS
from definition_check.statements import flag, signed

FIRST = {call.name: first for first, call in VALUE_CALLS.items()}

# Something that a case speaks of: how it is written, its value, how that is written, and the proof that it is that.
Said = namedtuple('Said', 'text value answer proof')


# ---- numbers

def bits(value):
    return struct.unpack('>Q', struct.pack('>d', value))[0]


def decimal(value):
    """The shortest decimal that reads back as this number."""
    number = Decimal(repr(value)).normalize()
    places = max(0, -number.as_tuple().exponent)
    return f'(decimal {signed(int(number.scaleb(places)))} {places})'


def exact(value):
    """An odd number times a power of two, or zero."""
    top, bottom = abs(value).as_integer_ratio()
    twos = (top & -top).bit_length() - 1 if top else 0
    negative = flag(math.copysign(1, value) < 0)
    return f'(fin {negative} {top >> twos} {signed(twos - bottom.bit_length() + 1)})'


def number(text, value):
    if math.isnan(value):
        return Said(text, value, 'nan', 'refl')
    return Said(text, value, decimal(value), f'both {exact(value)} refl refl')


def time(text, value):
    return Said(text, value, moment(value), 'refl')


def moment(value):
    """A time as an argument: one that was asked for, or a number."""
    return f'({value.text})' if isinstance(value, Said) else f'(at {signed(value)})'


def value_of(argument):
    return argument.value if isinstance(argument, Said) else argument


def remainder(dividend, divisor):
    return number(f'rem binary64 ({dividend.text}) {decimal(divisor)}', math.fmod(dividend.value, divisor))


# ---- a state

class State:
    """How it is written, and its six fields."""

    def __init__(self, text, fields):
        self.text = text
        self.fields = fields

    def asked(self, method, layout, *arguments):
        """The oracle's answer to a method's call; the arguments are numbers, a float by its bits."""
        first = FIRST[method]
        record = VALUE_CALLS[first].layout.pack(first, *self.fields, *arguments)
        return struct.unpack(layout, run(ORACLE_REPLAY, record).output)

    def changed(self, text, method, *arguments):
        return State(f'({text})', self.asked(method, '>qqqBqq', *arguments))

    # The quantum counts in the phase alone: it is 4 elsewhere.

    def beat_at(self, at):
        value, = self.asked('beat_at_time', '>d', value_of(at), bits(4.0))
        return number(f'beat_at_time {self.text} {moment(at)}', value)

    def phase_at(self, at, quantum):
        value, = self.asked('phase_at_time', '>d', at, bits(quantum))
        return number(f'phase_at_time {self.text} {moment(at)} {decimal(quantum)}', value)

    def time_at(self, beat):
        value, = self.asked('time_at_beat', '>q', bits(beat), bits(4.0))
        return time(f'time_at_beat {self.text} {decimal(beat)}', value)

    def forced(self, at, beat):
        return self.changed(f'force_beat_at_time {self.text} {moment(at)} {decimal(beat)}', 'force_beat_at_time', at, bits(beat))

    def requested(self, at, beat):
        text = f'request_beat_at_time {self.text} {moment(at)} {decimal(beat)}'
        return self.changed(text, 'request_beat_at_time', at, bits(beat), bits(4.0))

    def with_tempo(self, bpm, at):
        return self.changed(f'set_tempo {self.text} {decimal(bpm)} {moment(at)}', 'set_tempo', bits(bpm), at)

    def beat_origin(self):
        return Said(f'{self.text}.timeline.beat_origin.0', self.fields[1], signed(self.fields[1]), 'refl')


DEFAULT = State('default_state', (500_000, 0, 0, 0, 0, 0))
