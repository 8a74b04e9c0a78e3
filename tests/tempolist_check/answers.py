"""What `tempolist` answers to an input, computed with Python's own numbers, bytes and lines."""

import re

from comparison import smf
from tempolist_check.cases import BAD, LONGEST_INPUT, REFUSED, TOO_LONG

KINDS = ['file', 'lines', 'bad line', 'refused 8', 'refused 9', 'refused 10', 'input too long']


def lines(data):
    """A line ends with a newline, which the last may lack."""
    parts = data.split(b'\n')
    return parts if parts[-1] else parts[:-1]


def pair(line):
    """The two numbers of a line, or None."""
    match = re.fullmatch(rb'(-?[0-9]+) (-?[0-9]+)', line)
    numbers = [int(word) for word in match.groups()] if match else []
    return smf.Pair(*numbers) if numbers and all(-2 ** 63 <= n < 2 ** 63 for n in numbers) else None


def text(pairs):
    return b''.join(b'%d %d\n' % numbers for numbers in pairs)


def answer(data):
    """The kind of the answer, and the answer."""
    if len(data) > LONGEST_INPUT:
        return 'input too long', TOO_LONG
    if data.startswith(b'M'):
        pairs = smf.read(data).pairs
        return ('refused 10', REFUSED % 10) if pairs is None else ('lines', text(pairs))
    pairs = [pair(line) for line in lines(data)]
    if None in pairs:
        return 'bad line', BAD % (pairs.index(None) + 1)
    number = smf.refusal(len(pairs), pairs)
    return (f'refused {number}', REFUSED % number) if number else ('file', smf.file_of(pairs))
