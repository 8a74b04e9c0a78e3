"""Packets read and written once more, from the scope's words and apart from the Rust."""

import struct
from collections import namedtuple

DISCOVERY, MEASUREMENT = b'_asdp_v\x01', b'_link_v\x01'
DISCOVERY_HEAD, MEASUREMENT_HEAD = 20, 9
KINDS = {DISCOVERY: {1: 'alive', 2: 'response', 3: 'bye'}, MEASUREMENT: {1: 'ping', 2: 'pong'}}

# The sizes of each message's entries, in the order in which they are written.
ALIVE_SIZES = {b'tmln': 24, b'sess': 8, b'stst': 17, b'mep4': 6}
SIZES = {
    'alive': ALIVE_SIZES,
    'response': ALIVE_SIZES,
    'bye': {},
    'ping': {b'__ht': 8, b'_pgt': 8},
    'pong': {b'sess': 8, b'__gt': 8, b'__ht': 8, b'_pgt': 8},
}
NEEDED = {'ping': [b'__ht'], 'pong': [b'__gt', b'__ht']}

ENTRY_HEAD = struct.Struct('>4sI')
LONGEST_ECHO = 503

# A packet as it is read. Where it is refused, `refusal` says why; `kind` may be known all the same. `entries`
# are the whole ones, keys with values; `fields` the values that count, by key; `rest` the bytes after the last
# whole entry.
Reading = namedtuple('Reading', 'kind refusal entries fields rest')


def read(packet):
    magic = packet[:8]
    if len(packet) < 8:
        return refused('shorter than a magic')
    if magic not in KINDS:
        return refused('wrong magic')
    head = DISCOVERY_HEAD if magic == DISCOVERY else MEASUREMENT_HEAD
    if len(packet) < head:
        return refused('discovery head cut short' if magic == DISCOVERY else 'measurement without a kind')
    kind = KINDS[magic].get(packet[8])
    if not kind:
        return refused(f'unknown {"discovery" if magic == DISCOVERY else "measurement"} kind')
    entries, rest = scan(packet[head:]) if SIZES[kind] else ([], packet[head:])
    fields = {key: value for key, value in entries if SIZES[kind].get(key) == len(value)}
    lacking = [key.decode() for key in NEEDED.get(kind, []) if key not in fields]
    refusal = f'{kind} without {" and ".join(lacking)}' if lacking else ''
    return Reading(kind, refusal, entries, fields, rest)


def refused(reason):
    return Reading(None, reason, [], {}, b'')


def scan(rest):
    """The whole entries, and what is left after them."""
    entries = []
    while len(rest) >= 8:
        key, size = ENTRY_HEAD.unpack_from(rest)
        if 8 + size > len(rest):
            break
        entries.append((key, rest[8:8 + size]))
        rest = rest[8 + size:]
    return entries, rest


def reader_answer(packet, reading):
    """What a replay answers to a packet."""
    if reading.refusal:
        return b'\x04'
    field = reading.fields.get
    if reading.kind in ('alive', 'response'):
        parts = [b'\x01', packet[12:20], optional(field(b'tmln')), optional(start_stop(field(b'stst'))),
                 optional(field(b'sess')), optional(field(b'mep4'))]
    elif reading.kind == 'bye':
        parts = [b'\x02', packet[12:20]]
    elif reading.kind == 'ping':
        parts = [b'\x03', field(b'__ht'), optional(field(b'_pgt'))]
    else:
        parts = [b'\x04', optional(field(b'sess')), field(b'__gt'), field(b'__ht'), optional(field(b'_pgt'))]
    return b'\x00' + b''.join(parts)


def optional(field):
    return b'\x00' if field is None else b'\x01' + field


def start_stop(value):
    """A start-stop state, its playing byte made 0 or 1."""
    return value and bytes([value[0] != 0]) + value[1:]


def entry(key, value):
    return ENTRY_HEAD.pack(key, len(value)) + value


def alive(fields):
    kind = b'\x02' if fields['response'] != b'\x00' else b'\x01'
    mep4 = fields['addr']
    return b''.join([
        DISCOVERY, kind, b'\x05\x00\x00', fields['node'],
        entry(b'tmln', fields['line']), entry(b'sess', fields['session']),
        entry(b'stst', start_stop(fields['ss'])), entry(b'mep4', mep4) if mep4 else b''])


def bye(fields):
    return DISCOVERY + b'\x03\x00\x00\x00' + fields['node']


def ping(fields):
    prev = fields['prev']
    return MEASUREMENT + b'\x01' + entry(b'__ht', fields['time']) + (entry(b'_pgt', prev) if prev else b'')


def pong(fields):
    entries = entry(b'sess', fields['session']) + entry(b'__gt', fields['time'])
    return MEASUREMENT + b'\x02' + entries + fields['echo']
