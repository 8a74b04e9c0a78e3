"""The calls that docs/HOST.md speaks of, as records of a script (docs/REPLAY.md)."""

import struct
from collections import namedtuple

from engine_runs.calls import Added, Packet, Switch, Tick, record
from engine_runs.packets import address_of, alive, pong

ROOM = 4_096
MAGIC = b'_asdp_v\x01'
BYE = MAGIC + bytes([3, 0, 0, 0]) + bytes(8)

# A case of a number: who gives it, the records before the one that has it, that record, and the nearest one that is done.
Case = namedtuple('Case', 'by before record within')


def ticked(now, room=ROOM):
    return record(Tick(now, room))


def heard(packet):
    return record(Packet(1, address_of(2), packet, 0, ROOM))


def announced(node):
    return heard(alive(node, session=node))


def added(number):
    return record(Added(number, address_of(number)))


def read(packet):
    return struct.pack('>BH', 0x20, len(packet)) + packet


def bye_written(room):
    return struct.pack('>BHQ', 0x22, room, 1)


# The example: switched on at 1,000 without a port.
SWITCHED = record(Switch(True, 1_000, ROOM))

# A neighbour that is seen at 0 and never again.
NEIGHBOUR = record(Switch(True, 0, ROOM)) + announced(2)

# It is measured, and the answer to the ping of time 0 was counted.
PONGED = NEIGHBOUR + heard(pong(1_000, 0))

FULL = NEIGHBOUR + b''.join(map(announced, range(3, 18)))
FOUR = b''.join(map(added, range(4)))

CASES = {
    'time 0': Case('engine', b'', ticked(0), ticked(0)),
    'time −1': Case('engine', b'', ticked(-1), ticked(0)),
    '4,095 bytes lent': Case('engine', b'', ticked(0, ROOM - 1), ticked(0)),
    'a packet of 513 bytes': Case('engine', b'', heard(bytes(513)), heard(bytes(512))),
    '8 bytes, magic only': Case('reader', b'', read(MAGIC), read(BYE)),
    'a 17th id': Case('engine', FULL, announced(18), announced(17)),
    'a fifth interface': Case('engine', FOUR, added(4), added(3)),
    'a bye into 19 bytes': Case('writer', b'', bye_written(19), bye_written(20)),
    'a pong that comes twice': Case('engine', PONGED, heard(pong(1_000, 0)), heard(pong(1_000, 1))),
}
