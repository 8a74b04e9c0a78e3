"""Calls on tempo lists as bytes: what a record holds and what its answer is. Every number is big-endian."""

import struct

from comparison import smf
from comparison.packet_calls import LENGTH_BOUND, ROOM_BOUND, UNTOUCHED, Fields, PacketCall

WRITE, READ = 0x30, 0x31
PAIR = struct.Struct('>qq')


def list_of(fields):
    """The count and the pairs, of which a record has no more than 64."""
    count = int.from_bytes(fields.take(2), 'big')
    held = min(count, smf.MOST_PAIRS)
    return count, [smf.Pair(*pair) for pair in PAIR.iter_unpack(fields.take(PAIR.size * held))]


class ListWriter(PacketCall):
    def with_meaning(self, fields):
        count, pairs = fields['list']
        number = smf.refusal(count, pairs)
        file = b'' if number else smf.file_of(pairs)
        return {**fields, 'file': file, 'number': number or 7 * (len(file) > fields['room'])}

    def answer(self, fields):
        number, file = fields['number'], b'' if fields['number'] else fields['file']
        return bytes([number]) + len(file).to_bytes(2, 'big') + file.ljust(fields['room'], UNTOUCHED)

    def answer_size(self, fields):
        return 1 + 2 + fields['room']


class ListReader(PacketCall):
    def with_meaning(self, fields):
        return {**fields, 'reading': smf.read(fields['file'])}

    def answer(self, fields):
        reading = fields['reading']
        if reading.wrong:
            return bytes([10, 0])
        return bytes([0, len(reading.pairs)]) + b''.join(PAIR.pack(*pair) for pair in reading.pairs)

    def answer_size(self, fields):
        return 2 + PAIR.size * len(fields['reading'].pairs or [])


def write_record(room, pairs):
    return bytes([WRITE]) + struct.pack('>HH', room, len(pairs)) + b''.join(PAIR.pack(*pair) for pair in pairs)


# Where the lengths and rooms of a record stand, each with its bound.
LENGTHS = {WRITE: [(1, ROOM_BOUND)], READ: [(1, LENGTH_BOUND)]}

TEMPO_LIST_CALLS = {
    WRITE: ListWriter('tempo list written', room=Fields.room, list=list_of),
    READ: ListReader('tempo list read', file=Fields.counted),
}
