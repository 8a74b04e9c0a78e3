"""Tempo lists as Standard MIDI Files: which are refused, their bytes, and what is wrong with a file that is none."""

import struct
from collections import namedtuple

MOST_PAIRS = 64
TEMPOS = range(1, 16_777_216)
MICRO_BEATS_PER_TICK = 1_000
MOST_TICKS = 268_435_455
HEAD = b'MThd' + struct.pack('>IHHH', 6, 0, 1, 1_000)
TRACK = len(HEAD) + 8
END_OF_TRACK = b'\xff\x2f\x00'
SET_TEMPO = b'\xff\x51\x03'
SMALLEST_FILE = 26

Pair = namedtuple('Pair', 'tempo beat_origin')
# What a file says: its pairs, or what is wrong with it.
Reading = namedtuple('Reading', 'pairs wrong')


class Wrong(Exception):
    """No list has such a file."""


# ---- lists

def bad_tempos(pairs):
    return [place for place, pair in enumerate(pairs) if pair.tempo not in TEMPOS]


def origin_faults(pairs):
    """The beat origins that are refused: each one's place and what is wrong with it."""
    before = 0
    for place, (_, origin) in enumerate(pairs):
        if origin < 0:
            yield place, 'negative'
        elif origin < before:
            yield place, 'below its forerunner'
        elif origin % MICRO_BEATS_PER_TICK:
            yield place, 'off a tick'
        elif (origin - before) // MICRO_BEATS_PER_TICK > MOST_TICKS:
            yield place, 'too far'
        before = origin


def refusal(count, pairs):
    if count > MOST_PAIRS or bad_tempos(pairs):
        return 8
    return 9 if any(origin_faults(pairs)) else 0


def deltas(pairs):
    origins = [0] + [pair.beat_origin for pair in pairs]
    return [(after - before) // MICRO_BEATS_PER_TICK for before, after in zip(origins, origins[1:])]


def quantity(value):
    """Seven bits a byte, the highest first; all but the last byte have their highest bit set."""
    digits = [value & 0x7f]
    while value := value >> 7:
        digits.append(0x80 | value & 0x7f)
    return bytes(reversed(digits))


def file_of(pairs):
    events = [quantity(delta) + SET_TEMPO + pair.tempo.to_bytes(3, 'big') for delta, pair in zip(deltas(pairs), pairs)]
    track = b''.join(events) + b'\x00' + END_OF_TRACK
    return HEAD + b'MTrk' + len(track).to_bytes(4, 'big') + track


# ---- files

def read(file):
    try:
        return Reading(pairs_of(file), None)
    except Wrong as wrong:
        return Reading(None, str(wrong))


def pairs_of(file):
    check_heads(file)
    at, beat, pairs = TRACK, 0, []
    while file[at:] != b'\x00' + END_OF_TRACK:
        ticks, at = take_quantity(file, at)
        check_event(file[at:])
        tempo = int.from_bytes(file[at + 3:at + 6], 'big')
        if not tempo:
            raise Wrong('tempo 0')
        if len(pairs) == MOST_PAIRS:
            raise Wrong('a 65th pair')
        beat += ticks * MICRO_BEATS_PER_TICK
        pairs.append(Pair(tempo, beat))
        at += 6
    return pairs


def check_heads(file):
    """Each field of both heads in turn."""
    fields = (('no MThd', 0, 4), ('another header length', 4, 8), ('another format', 8, 10),
              ('another number of tracks', 10, 12), ('another division', 12, 14))
    for wrong, start, end in fields:
        if file[start:end] != HEAD[start:end]:
            raise Wrong('empty' if not file else 'heads cut short' if len(file) < end else wrong)
    if len(file) < TRACK:
        raise Wrong('heads cut short')
    if file[14:18] != b'MTrk':
        raise Wrong('no MTrk')
    length, rest = int.from_bytes(file[18:TRACK], 'big'), file[TRACK:]
    if length > len(rest):
        raise Wrong('length too large')
    if length < len(rest):
        raise Wrong('a second track' if rest[length:].startswith(b'MTrk') else 'length too small')


def take_quantity(file, at):
    """The quantity at a place, in the fewest bytes, and the place behind it."""
    if at == len(file):
        raise Wrong('no end of track')
    end = next((end for end in range(at, len(file)) if file[end] < 0x80), None)
    if end is None:
        raise Wrong('track breaks off in a delta')
    if end - at >= 4:
        raise Wrong('a delta of five bytes')
    value = 0
    for byte in file[at:end + 1]:
        value = value << 7 | byte & 0x7f
    if quantity(value) != file[at:end + 1]:
        raise Wrong('a delta with a leading 80')
    return value, end + 1


def check_event(rest):
    """A whole tempo event must be in front."""
    if rest[:3] == END_OF_TRACK:
        raise Wrong('bytes behind the end of track' if rest[3:] else 'an end of track with another delta')
    if rest[:3] != SET_TEMPO[:len(rest[:3])]:
        raise Wrong('another event')
    if len(rest) < 6:
        raise Wrong('track breaks off in an event')
