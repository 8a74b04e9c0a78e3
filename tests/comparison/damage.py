"""Damaged scripts: cut short, with unknown first bytes, with lengths over their bounds, or random.

Each must end quietly."""

import random

from comparison import packet_calls, tempo_list_calls
from comparison.records import KNOWN, readable, records

# Where the lengths and rooms of a record stand, each with its bound.
LENGTHS = {**packet_calls.LENGTHS, **tempo_list_calls.LENGTHS}


def cuts(script):
    """The script cut at every byte."""
    return [script[:length] for length in range(len(script) + 1)]


def unknown_first_bytes(script):
    """Each unknown first byte after the script and before it again, which is longer than any record."""
    return [script + bytes([byte]) + script for byte in range(256) if byte not in KNOWN]


def bounds(script):
    """Each length and room of each record at its bound and over it, before more bytes than it asks for."""
    scripts = []
    for record in records(script):
        for place, bound in LENGTHS.get(record.first, []):
            at = record.start + place
            for length in (bound, bound + 1, 0xffff):
                changed = script[:at] + length.to_bytes(2, 'big') + script[at + 2:]
                scripts.append(changed + bytes(length) + script)
    return scripts


def random_strings(seed, count, script, calls):
    """Noisy scripts in which no other calls come up."""
    return [without_other_calls(noisy, calls) for noisy in noisy_scripts(seed, count, script, calls)]


def noisy_scripts(seed, count, script, calls):
    """Random bytes, random bytes after the first byte of one of these calls, and the script with bytes changed, in turn."""
    source = random.Random(seed)
    makers = [noise, lambda source: noisy_record(source, calls), lambda source: changed(source, script)]
    return [makers[i % len(makers)](source) for i in range(count)]


def noise(source):
    return source.randbytes(source.randrange(120))


def noisy_record(source, calls):
    return bytes([source.choice(list(calls))]) + noise(source)


def changed(source, script):
    """The script with one to three bytes replaced, removed or put in."""
    result = bytearray(script)
    for _ in range(source.randint(1, 3)):
        at = source.randrange(len(result))
        result[at:at + source.randrange(2)] = source.randbytes(source.randrange(2))
    return bytes(result)


def without_other_calls(script, calls):
    """The script, its first record that is not one of these calls made one that no replay knows.

    What is compared is the calls of one topic, so that no other may come up in them."""
    end = readable(script, calls)
    if script[end:end + 1] and script[end] in KNOWN - calls.keys():
        return script[:end] + b'\xff' + script[end + 1:]
    return script
