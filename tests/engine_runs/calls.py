"""The engine's calls, and the records that they are in a script (docs/REPLAY.md)."""

import struct
from collections import namedtuple

from engine_runs.boxes import line_bytes, start_stop_bytes

Packet = namedtuple('Packet', 'interface sender bytes now room')
Tick = namedtuple('Tick', 'now room')
Commit = namedtuple('Commit', 'state now room')
Switch = namedtuple('Switch', 'on now room')
Added = namedtuple('Added', 'interface addr')
Removed = namedtuple('Removed', 'interface')
IoError = namedtuple('IoError', 'interface kind')
Preview = namedtuple('Preview', 'state now')

# How calls are made: whether their rooms are filled and tested, and whether by value. At its start a replay makes them so.
Manner = namedtuple('Manner', 'tested by_value', defaults=[True, False])

DUMP = b'\x09'


def new_record(node):
    return struct.pack('>BQ', 1, node)


def manner_records(manner):
    return bytes([0x0a, manner.tested, 0x0b, manner.by_value])


def packet(call):
    head = struct.pack('>BI6sqHH', 2, call.interface, call.sender, call.now, call.room, len(call.bytes))
    return head + call.bytes


def state_bytes(state):
    return line_bytes(state.line) + start_stop_bytes(state.start_stop)


RECORD = {
    Packet: packet,
    Tick: lambda call: struct.pack('>BqH', 3, call.now, call.room),
    Commit: lambda call: struct.pack('>BqH', 4, call.now, call.room) + state_bytes(call.state),
    Switch: lambda call: struct.pack('>B?qH', 5, call.on, call.now, call.room),
    Added: lambda call: struct.pack('>BI6s', 6, call.interface, call.addr),
    Removed: lambda call: struct.pack('>BI', 7, call.interface),
    IoError: lambda call: struct.pack('>BIB', 8, call.interface, call.kind),
    Preview: lambda call: struct.pack('>Bq', 0x32, call.now) + state_bytes(call.state),
}


def record(call):
    return RECORD[type(call)](call)


def buffered(call):
    """Whether it takes a time and a buffer."""
    return hasattr(call, 'room')
