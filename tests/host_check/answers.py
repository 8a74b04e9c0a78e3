"""What the programs answer to a call, and how a host reads it."""

import struct
from itertools import pairwise

from comparison.programs import ORACLE_REPLAY, our_program, run
from engine_runs.calls import Manner, manner_records, new_record

BEGUN = new_record(1)
TIMER = 4


def programs():
    """Each with the records that come first in its scripts."""
    ours, by_value = our_program('replay'), manner_records(Manner(True, True))
    return {'ours, in place': (ours, BEGUN), 'ours, by value': (ours, by_value + BEGUN), 'the Rust': (ORACLE_REPLAY, BEGUN)}


def answer(program, before, last):
    """What it answers to the last record of a script."""
    command, first = program
    return run(command, first + before + last).output[len(run(command, first + before).output):]


def buffer(program, before, last):
    """The bytes that a call left in its buffer, none where it is refused."""
    given = answer(program, before, last)
    number, size = struct.unpack_from('>BH', given)
    return given[3:3 + size] if number == 0 else b''


def outputs(data):
    """The kinds and contents in an answer buffer, by its layout alone, and what is left of it."""
    count, size = struct.unpack_from('>HH', data)
    lengths = struct.unpack_from(f'>{count}H', data, 4 + count)
    contents, ends = data[4 + 3 * count:], [sum(lengths[:place]) for place in range(count + 1)]
    return list(zip(data[4:4 + count], (contents[start:end] for start, end in pairwise(ends)))), contents[size:]


def timer(data):
    """The time that a buffer's output of that kind has."""
    found, _ = outputs(data)
    return int.from_bytes(dict(found)[TIMER], 'big')
