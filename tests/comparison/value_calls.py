"""Value calls as bytes: what a record holds and how long its answer is. Every number is big-endian."""

import struct

from comparison.value_kinds import float_of
from comparison.whole_tempos import entry, in_table

# Kinds of fields, as the module struct writes them. A float is read as its bits.
INT, FLOAT, BYTE = 'q', 'Q', 'B'

STATE = [('tempo', INT), ('beat_origin', INT), ('time_origin', INT),
         ('playing', BYTE), ('start_stop_beat', INT), ('start_stop_time', INT)]
TIME = ('time', INT)
BEAT = ('beat', FLOAT)
QUANTUM = ('quantum', FLOAT)
STATE_SIZE = 41


class ValueCall:
    def __init__(self, name, fields, answer):
        self.name = name
        self.fields = [field for field, _ in fields]
        self.floats = [field for field, kind in fields if kind == FLOAT]
        self.layout = struct.Struct('>B' + ''.join(kind for _, kind in fields))
        self.size_of_answer = STATE_SIZE if answer is STATE else 8

    def read(self, script, start):
        """The fields of the record that begins there and where it ends; nothing where it is cut short."""
        end = start + self.layout.size
        if end > len(script):
            return None
        _, *values = self.layout.unpack_from(script, start)
        return dict(zip(self.fields, values)), end

    def answer_size(self, _fields):
        return self.size_of_answer

    def answer(self, _fields):
        """What a value call answers is not worked out here."""

    def shown(self, fields):
        """The fields in hexadecimal, by name."""
        for name, value in fields.items():
            digits = 2 if name in ('playing', 'flag') else 16
            yield name, f'{value % 2**64:0{digits}x}'


class FromTempo(ValueCall):
    def answer(self, fields):
        """The entry, where the tempo is one of the table."""
        whole = in_table(float_of(fields['bpm']))
        return struct.pack('>q', entry(whole)) if whole else None


VALUE_CALLS = {
    0x10: ValueCall('MicroBeats::from_beats', [BEAT], INT),
    0x11: ValueCall('MicroBeats::to_beats', [('micro_beats', INT)], FLOAT),
    0x12: FromTempo('TempoWire::from_tempo', [('bpm', FLOAT)], INT),
    0x13: ValueCall('TempoWire::to_tempo', [('tempo', INT)], FLOAT),
    0x14: ValueCall('Tempo::micros_per_beat', [('bpm', FLOAT)], FLOAT),
    0x15: ValueCall('beat_at_time', [*STATE, TIME, QUANTUM], FLOAT),
    0x16: ValueCall('phase_at_time', [*STATE, TIME, QUANTUM], FLOAT),
    0x17: ValueCall('time_at_beat', [*STATE, BEAT, QUANTUM], INT),
    0x18: ValueCall('request_beat_at_time', [*STATE, TIME, BEAT, QUANTUM], STATE),
    0x19: ValueCall('force_beat_at_time', [*STATE, TIME, BEAT], STATE),
    0x1a: ValueCall('set_tempo', [*STATE, ('bpm', FLOAT), TIME], STATE),
    0x1b: ValueCall('set_is_playing', [*STATE, ('flag', BYTE), TIME], STATE),
}
