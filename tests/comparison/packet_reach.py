"""What scripts of packet calls reach: messages, refusals, ends of the scan, sizes, rooms, echoes."""

from itertools import chain, combinations

from comparison import wire
from comparison.packet_calls import LENGTH_BOUND, PACKET_CALLS
from comparison.reach import Reach

READER = 0x20
LEAST, GREATEST = -2**63, 2**63 - 1
ALL_KEYS = {key for sizes in wire.SIZES.values() for key in sizes}

# Messages whose entries are scanned alike.
FAMILY = {'alive': 'alive', 'response': 'alive', 'ping': 'ping', 'pong': 'pong'}


def shape(kind, keys):
    """A message with the entries that it has, by name."""
    names = [key.decode() for key in wire.SIZES[kind] if key in keys]
    return f'{kind} with {", ".join(names) or "no entry"}'


def shapes_of(kind):
    keys = wire.SIZES[kind]
    chosen = chain.from_iterable(combinations(keys, count) for count in range(len(keys) + 1))
    return [shape(kind, some) for some in chosen if set(some) >= set(wire.NEEDED.get(kind, []))]


SHAPES = [name for kind in wire.SIZES for name in shapes_of(kind)]

REFUSED = [f'refused: {reason}' for reason in (
    'shorter than a magic', 'wrong magic', 'discovery head cut short', 'measurement without a kind',
    'unknown discovery kind', 'unknown measurement kind', 'ping without __ht', 'pong without __gt',
    'pong without __ht', 'pong without __gt and __ht')]

HEADS = ['TTL other than written', 'group other than 0', 'bye with bytes after it']

# What can become of a key that a message has.
OF_A_KEY = ['a byte too short', 'a byte too long', 'empty', 'right in the low 8 bits of its size',
            'twice, the last counts', 'twice, the last of a wrong size']
KEYS = [f'{family} {key.decode()}: {name}' for family in ('alive', 'ping', 'pong')
        for key in wire.SIZES[family] for name in OF_A_KEY]

SCAN = [f'scan: {name}' for name in (
    'ends with the packet', *(f'ends with {left} left' for left in range(1, 8)),
    'past the end after fields', 'past the end at once', 'past the end by one byte',
    'size 2^31 - 1', 'size 2^31', 'size 2^32 - 1', 'size wraps at 32 bits', 'size right in its low 16 bits',
    'size 0', 'unknown key before a field', "another message's key before a field", 'key with one byte wrong',
    'entries not in the written order')]

VALUES = ['playing byte 0', 'playing byte 1', 'playing byte 2', 'playing byte 255', 'port 0', 'port 65535']

WRITERS = {
    0x21: ['alive writer', 'alive writer, mep4', 'alive writer, response', 'alive writer, response, mep4'],
    0x22: ['bye writer'],
    0x23: ['ping writer', 'ping writer, _pgt'],
    0x24: ['pong writer'],
}
ROOMS = [f'{writer}: {room}' for writers in WRITERS.values() for writer in writers
         for room in ('room of its size', 'room a byte too small', 'no room', 'room to spare')]

FLAGS = ['playing flag over 1', 'response flag over 1']

ECHOES = [f'echo: {name}' for name in (
    'none', 'of 503 bytes, written', 'of 504 bytes, refused', 'too long, and the room too small',
    'a ping without _pgt', 'a ping with _pgt', 'a ping with other entries', 'unreadable, and written')]

# Sweeps. A prefix or a stray end is one of a packet that has the entries of its shape, each once and in order.
LENGTHS = 'lengths of packets'
DISCOVERIES = 'lengths of readable discovery packets'
MEASUREMENTS = 'lengths of readable measurement packets'
MAGICS = 'magics with one byte wrong'
KINDS = 'kinds after each magic'
PREFIXES = 'readable packets with all their prefixes'
STRAY = 'readable packets with 1 to 20 bytes after them'
NUMBERS = 'numbers at their ends'
EACH_ROOM = 'rooms from 0 to three over the size'
EACH_ECHO = 'echoes of each length, with a room too small, right and too large by a byte'
PLAYING = 'playing bytes'

# The numbers of an entry, by where they stand in its value.
NUMBERS_OF = {b'tmln': (0, 8, 16), b'stst': (1, 9), b'__ht': (0,), b'_pgt': (0,), b'__gt': (0,)}
ENDS = {'least': LEAST, 'greatest': GREATEST, '-1': -1, '0': 0}

# Pongs are tried in every room with no echo, the two sorts of pings, and the longest echo with the next.
SWEPT_ECHOES = (0, 16, 32, 503, 504)
SIZES = {'alive writer': 93, 'alive writer, mep4': 107, 'alive writer, response': 93,
         'alive writer, response, mep4': 107, 'bye writer': 20, 'ping writer': 25, 'ping writer, _pgt': 41,
         **{f'pong writer, echo of {length}': 41 + length for length in SWEPT_ECHOES}}

SWEEPS = {
    LENGTHS: range(LENGTH_BOUND + 1),
    DISCOVERIES: range(20, LENGTH_BOUND + 1),
    MEASUREMENTS: range(25, LENGTH_BOUND + 1),
    MAGICS: [(magic, place) for magic in wire.KINDS for place in range(8)],
    KINDS: [(magic, kind) for magic in wire.KINDS for kind in range(256)],
    PREFIXES: SHAPES,
    STRAY: [(name, length) for name in SHAPES for length in range(1, 21)],
    NUMBERS: [(family, key, place, end) for family in ('alive', 'ping', 'pong') for key in wire.SIZES[family]
              for place in NUMBERS_OF.get(key, ()) for end in ENDS],
    EACH_ROOM: [(name, room) for name, size in SIZES.items() for room in range(size + 4)],
    EACH_ECHO: [(length, more) for length in range(LENGTH_BOUND + 1) for more in (-1, 0, 1)],
    PLAYING: range(256),
}

NUMBER_OF_END = {number.to_bytes(8, 'big', signed=True): name for name, number in ENDS.items()}


class PacketReach(Reach):
    def __init__(self):
        kinds = [*SHAPES, *REFUSED, *HEADS, *KEYS, *SCAN, *VALUES, *ROOMS, *FLAGS, *ECHOES]
        super().__init__(PACKET_CALLS, kinds, SWEEPS)
        self.seen = set()

    def kinds_of(self, record):
        fields = record.fields
        if record.first == READER:
            return list(reading_kinds(fields['packet'], fields['reading']))
        return list(writing_kinds(record.first, fields))

    def cases_of(self, record):
        fields = record.fields
        if record.first != READER:
            return writing_cases(record.first, fields)
        packet, reading = fields['packet'], fields['reading']
        return chain(reading_cases(packet, reading), self.prefixes(packet, reading))

    def prefixes(self, packet, reading):
        """The shape of a packet whose prefixes have all been read before it."""
        self.seen.add(packet)
        if orderly(reading) and not reading.rest:
            if all(packet[:length] in self.seen for length in reversed(range(len(packet)))):
                yield PREFIXES, shape(reading.kind, reading.fields)


def orderly(reading):
    """Whether the entries are those that count, each once, in the order in which they are written."""
    if reading.refusal:
        return False
    written = [key for key in wire.SIZES[reading.kind] if key in reading.fields]
    return [key for key, _ in reading.entries] == written


def reading_kinds(packet, reading):
    """The kinds that a packet for the reader reaches."""
    if reading.refusal:
        yield f'refused: {reading.refusal}'
        return
    yield shape(reading.kind, reading.fields)
    if packet[:8] == wire.DISCOVERY:
        yield from head_kinds(packet, reading)
    if reading.kind != 'bye':
        yield from end_kinds(packet, reading)
        yield from order_kinds(reading)
    if len(reading.entries) > len(reading.fields):
        yield from key_kinds(reading)
        yield from passed_over_kinds(reading)


def head_kinds(packet, reading):
    if packet[9] != (0 if reading.kind == 'bye' else 5):
        yield 'TTL other than written'
    if packet[10:12] != b'\x00\x00':
        yield 'group other than 0'
    if reading.kind == 'bye' and len(packet) > wire.DISCOVERY_HEAD:
        yield 'bye with bytes after it'
    stst, mep4 = reading.fields.get(b'stst'), reading.fields.get(b'mep4')
    if stst and stst[0] in (0, 1, 2, 255):
        yield f'playing byte {stst[0]}'
    if mep4 and mep4[4:] in (b'\x00\x00', b'\xff\xff'):
        yield f'port {int.from_bytes(mep4[4:], "big")}'


def key_kinds(reading):
    """What becomes of each key that the message has; wrong sizes only where the entry is whole."""
    family = FAMILY[reading.kind]
    for key, right in wire.SIZES[family].items():
        values = [value for name, value in reading.entries if name == key]
        title = f'{family} {key.decode()}'
        for size in map(len, values):
            if size in (right - 1, right + 1, 0):
                yield f'{title}: {"empty" if not size else OF_A_KEY[size > right]}'
            elif size != right and size % 256 == right:
                yield f'{title}: right in the low 8 bits of its size'
        good = [value for value in values if len(value) == right]
        if len(good) > 1 and good[0] != good[-1]:
            yield f'{title}: twice, the last counts'
        if good and len(values[-1]) != right:
            yield f'{title}: twice, the last of a wrong size'


def passed_over_kinds(reading):
    """What the scan passes over."""
    sizes = wire.SIZES[reading.kind]
    right = right_entries(reading)
    for place, (key, value) in enumerate(reading.entries):
        if not value:
            yield 'scan: size 0'
        if key not in sizes and any(right[place:]):
            yield ("scan: another message's key before a field" if key in ALL_KEYS
                   else 'scan: unknown key before a field')
        if key not in ALL_KEYS and len(value) == 8 and any(off_by_one_byte(key, known) for known in sizes):
            yield 'scan: key with one byte wrong'


def right_entries(reading):
    """Of each entry, whether it is one of the message's and of the right size."""
    sizes = wire.SIZES[reading.kind]
    return [sizes.get(key) == len(value) for key, value in reading.entries]


def off_by_one_byte(one, other):
    return sum(a != b for a, b in zip(one, other)) == 1


def order_kinds(reading):
    written = list(wire.SIZES[reading.kind])
    places = [written.index(key) for (key, _), right in zip(reading.entries, right_entries(reading)) if right]
    if places != sorted(places):
        yield 'scan: entries not in the written order'


def end_kinds(packet, reading):
    """Where the scan ends: near the packet's end, or at an entry with a size past it."""
    if len(reading.rest) < 8:
        yield f'scan: ends with {len(reading.rest)} left' if reading.rest else 'scan: ends with the packet'
        return
    key, size = wire.ENTRY_HEAD.unpack_from(reading.rest)
    yield 'scan: past the end after fields' if reading.fields else 'scan: past the end at once'
    if size == len(reading.rest) - 8 + 1:
        yield 'scan: past the end by one byte'
    names = {2**31 - 1: '2^31 - 1', 2**31: '2^31', 2**32 - 1: '2^32 - 1'}
    if size in names:
        yield f'scan: size {names[size]}'
    if len(packet) - len(reading.rest) + 8 + size >= 2**32:
        yield 'scan: size wraps at 32 bits'
    if size >> 16 and size & 0xffff == wire.SIZES[reading.kind].get(key):
        yield 'scan: size right in its low 16 bits'


def reading_cases(packet, reading):
    """The cases of sweeps that a packet for the reader reaches."""
    yield LENGTHS, len(packet)
    magic = packet[:8]
    if reading.refusal == 'wrong magic':
        for known in wire.KINDS:
            wrong = [place for place in range(8) if magic[place] != known[place]]
            if len(wrong) == 1:
                yield MAGICS, (known, wrong[0])
    if magic in wire.KINDS and len(packet) >= wire.DISCOVERY_HEAD:
        yield KINDS, (magic, packet[8])
    if reading.refusal:
        return
    yield DISCOVERIES if magic == wire.DISCOVERY else MEASUREMENTS, len(packet)
    if 1 <= len(reading.rest) <= 20 and orderly(reading):
        yield STRAY, (shape(reading.kind, reading.fields), len(reading.rest))
    if b'stst' in reading.fields:
        yield PLAYING, reading.fields[b'stst'][0]
    yield from number_cases(reading)


def number_cases(reading):
    for key, value in reading.fields.items():
        for place in NUMBERS_OF.get(key, ()):
            end = NUMBER_OF_END.get(value[place:place + 8])
            if end:
                yield NUMBERS, (FAMILY[reading.kind], key, place, end)


def writer_name(first, fields):
    """The writer with what decides its packet."""
    name = PACKET_CALLS[first].name
    if first == 0x21:
        name += ', response' if fields['response'] != b'\x00' else ''
        name += ', mep4' if fields['addr'] else ''
    if first == 0x23:
        name += ', _pgt' if fields['prev'] else ''
    return name


def writing_kinds(first, fields):
    """The kinds that a writer's call reaches."""
    room, outcome = fields['room'], fields['outcome']
    name = writer_name(first, fields)
    if outcome.number != 3:
        if room in (outcome.size, outcome.size - 1, 0):
            yield f'{name}: {"no room" if not room else ROOM_NAMES[room - outcome.size]}'
        elif room > outcome.size:
            yield f'{name}: room to spare'
    if first == 0x21 and fields['ss'][0] > 1:
        yield 'playing flag over 1'
    if first == 0x21 and fields['response'][0] > 1:
        yield 'response flag over 1'
    if first == 0x24:
        yield from echo_kinds(fields['echo'], room, outcome)


ROOM_NAMES = {0: 'room of its size', -1: 'room a byte too small'}


def echo_kinds(echo, room, outcome):
    if outcome.number == 3:
        if room < outcome.size:
            yield 'echo: too long, and the room too small'
        elif len(echo) == wire.LONGEST_ECHO + 1:
            yield 'echo: of 504 bytes, refused'
    if outcome.number:
        return
    if not echo:
        yield 'echo: none'
    if len(echo) == wire.LONGEST_ECHO:
        yield 'echo: of 503 bytes, written'
    reading = wire.read(wire.MEASUREMENT + b'\x01' + echo)
    if reading.refusal:
        yield 'echo: unreadable, and written'
    elif orderly(reading) and not reading.rest:
        yield f'echo: a ping {"with" if b"_pgt" in reading.fields else "without"} _pgt'
    elif any(key not in wire.SIZES['ping'] for key, _ in reading.entries):
        yield 'echo: a ping with other entries'


def writing_cases(first, fields):
    """The cases of sweeps that a writer's call reaches."""
    room, name = fields['room'], writer_name(first, fields)
    if first == 0x24:
        length = len(fields['echo'])
        if room - fields['outcome'].size in (-1, 0, 1):
            yield EACH_ECHO, (length, room - fields['outcome'].size)
        name += f', echo of {length}'
    if name in SIZES:
        yield EACH_ROOM, (name, room)
