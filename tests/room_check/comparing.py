"""What is wrong with two runs on one scenario; empty where nothing is."""

import re
from itertools import zip_longest

from comparison.verdict import ended_badly
from room_check.cases import TOO_LONG

BAD_LINE = re.compile(rf'line \d+: (.*)\n|({TOO_LONG})\n')


def complaint(case, ours, oracle):
    """Both must end with status 0, print no error, take the scenario as is expected, and print the same."""
    for who, ran in (('oracle', oracle), ('ours', ours)):
        if bad := ended_badly(who, ran):
            return f'  {case.name}: {bad}'
    return differing(case, ours.output, oracle.output) or unexpected(case, oracle.output)


def reason(output):
    """Why the scenario is bad, empty where it ran."""
    found = BAD_LINE.fullmatch(output.decode())
    return found[1] or found[2] if found else ''


def unexpected(case, output):
    if case.line is None:
        return ''
    if case.line:
        wrong = output != f'{case.line}\n'.encode()
        return f'  {case.name}: not as expected\n  expected {case.line}\n  printed  {shown(output)}' if wrong else ''
    bad = reason(output)
    return f'  {case.name}: must run, but is bad: {bad}' if bad else ''


def differing(case, ours, oracle):
    """The first line of the output that is not the same."""
    pairs = zip_longest(ours.split(b'\n'), oracle.split(b'\n'), fillvalue=b'nothing: it ended before')
    for number, (own, theirs) in enumerate(pairs, 1):
        if own != theirs:
            return f'  {case.name}: line {number} of what is printed\n  oracle {shown(theirs)}\n  ours   {shown(own)}'
    return ''


def shown(output):
    return output[:200].decode(errors='backslashreplace') + '...' * (len(output) > 200)
