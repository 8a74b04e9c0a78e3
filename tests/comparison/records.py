"""The records of a script, with the places of their answers."""

from collections import namedtuple

from comparison.packet_calls import PACKET_CALLS
from comparison.tempo_list_calls import TEMPO_LIST_CALLS
from comparison.value_calls import VALUE_CALLS

# The first bytes of what has to do with the engine: its calls, the dump, how calls are made, and the preview.
ENGINE_CALLS = [*range(0x01, 0x0c), 0x32]

# Every first byte that a replay knows, of these calls and of all others.
KNOWN = {*ENGINE_CALLS, *range(0x10, 0x1c), *range(0x20, 0x25), *TEMPO_LIST_CALLS}

CALLS = {**VALUE_CALLS, **PACKET_CALLS, **TEMPO_LIST_CALLS}

# A record of a script: where it stands, its first byte, its fields by name, where its answer stands.
Record = namedtuple('Record', 'start end first fields answer_start answer_end')


def records(script, calls=CALLS):
    """The whole records of these calls in a script, up to its end or to one that cannot be read."""
    start = answer = 0
    while start < len(script) and script[start] in calls:
        first = script[start]
        read = CALLS[first].read(script, start)
        if not read:
            return
        fields, end = read
        answer_end = answer + CALLS[first].answer_size(fields)
        yield Record(start, end, first, fields, answer, answer_end)
        start, answer = end, answer_end


def readable(script, calls):
    """How many bytes the whole records of these calls at the front of a script have."""
    return max((record.end for record in records(script, calls)), default=0)


def titled(first):
    return f'{first:02x} {CALLS[first].name}'


def described(record):
    """The lines that show a record: its call and its fields."""
    yield f'at byte {record.start}: {titled(record.first)}'
    for name, value in CALLS[record.first].shown(record.fields):
        yield f'  {name:16} {value}'
