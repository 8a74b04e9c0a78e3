"""Packet calls as bytes: what a record holds and what its answer is. Every number is big-endian."""

from collections import namedtuple

from comparison import wire

LENGTH_BOUND = 1_024
ROOM_BOUND = 8_192
UNTOUCHED = b'\xa5'

# What a writer does in a room: the number that it answers, and the packet's size.
Outcome = namedtuple('Outcome', 'number size')


class Unreadable(Exception):
    """A record is cut short, or one of its lengths is over its bound."""


class Fields:
    """The fields of a record, taken in order."""

    def __init__(self, script, at):
        self.script = script
        self.at = at

    def take(self, length):
        taken = self.script[self.at:self.at + length]
        if len(taken) < length:
            raise Unreadable
        self.at += length
        return taken

    def bounded(self, bound):
        length = int.from_bytes(self.take(2), 'big')
        if length > bound:
            raise Unreadable
        return length

    def room(self):
        return self.bounded(ROOM_BOUND)

    def counted(self):
        return self.take(self.bounded(LENGTH_BOUND))

    def optional(self, length):
        return self.take(length) if self.take(1) != b'\x00' else None


class PacketCall:
    """A call, its fields by name, each with the function that takes it. To these is added what they mean."""

    def __init__(self, name, **fields):
        self.name = name
        self.fields = fields

    def read(self, script, start):
        """The fields of the record that begins there and where it ends; nothing where it is unreadable."""
        taken = Fields(script, start + 1)
        try:
            fields = {name: take(taken) for name, take in self.fields.items()}
        except Unreadable:
            return None
        return self.with_meaning(fields), taken.at

    def shown(self, fields):
        """The fields in hexadecimal, by name."""
        for name in self.fields:
            value = fields[name]
            yield name, value.hex() if isinstance(value, bytes) else str(value)


class Reader(PacketCall):
    def with_meaning(self, fields):
        packet = fields['packet']
        reading = wire.read(packet)
        return {'packet': packet, 'reading': reading, 'answer': wire.reader_answer(packet, reading)}

    def answer(self, fields):
        return fields['answer']

    def answer_size(self, fields):
        return len(fields['answer'])


class Writer(PacketCall):
    def __init__(self, name, write, **fields):
        super().__init__(name, room=Fields.room, **fields)
        self.write = write

    def with_meaning(self, fields):
        packet = self.write(fields)
        if len(fields.get('echo', b'')) > wire.LONGEST_ECHO:
            number = 3
        else:
            number = 7 if len(packet) > fields['room'] else 0
        return {**fields, 'outcome': Outcome(number, len(packet))}

    def answer(self, fields):
        number = fields['outcome'].number
        packet = b'' if number else self.write(fields)
        return bytes([number]) + packet.ljust(fields['room'], UNTOUCHED)

    def answer_size(self, fields):
        return 1 + fields['room']


def fixed(length):
    return lambda fields: fields.take(length)


def maybe(length):
    return lambda fields: fields.optional(length)


# Where the lengths and rooms of a record stand, each with its bound.
LENGTHS = {
    0x20: [(1, LENGTH_BOUND)],
    0x21: [(1, ROOM_BOUND)],
    0x22: [(1, ROOM_BOUND)],
    0x23: [(1, ROOM_BOUND)],
    0x24: [(1, ROOM_BOUND), (19, LENGTH_BOUND)],
}

PACKET_CALLS = {
    0x20: Reader('reader', packet=Fields.counted),
    0x21: Writer('alive writer', wire.alive, node=fixed(8), session=fixed(8), line=fixed(24), ss=fixed(17),
                 addr=maybe(6), response=fixed(1)),
    0x22: Writer('bye writer', wire.bye, node=fixed(8)),
    0x23: Writer('ping writer', wire.ping, time=fixed(8), prev=maybe(8)),
    0x24: Writer('pong writer', wire.pong, session=fixed(8), time=fixed(8), echo=Fields.counted),
}
