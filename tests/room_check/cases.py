"""The scenarios that both programs are run on."""

import random
from collections import namedtuple
from pathlib import Path

from room_check.generated import damaged, scenario

FOLDER = Path(__file__).resolve().parents[1] / 'rooms'
BAD = FOLDER / 'bad'
EXPECTED = BAD / 'expected.txt'

SEED = 1
SCENARIOS = 120
DAMAGED = 100
LONGEST = 65_536

TOO_LONG = 'the scenario is too long'

# A scenario with its name, and the one line that is printed where it is bad: '' where it must run, None where it may be either.
Case = namedtuple('Case', 'name text line')


def stored():
    return [Case(f'rooms/{file.name}', file.read_bytes(), '') for file in sorted(FOLDER.glob('*.txt'))]


def stored_bad():
    """The bad scenarios, with their lines in expected.txt; 'none' for one that has no line there."""
    lines = dict(row.split(' ', 1) for row in EXPECTED.read_text().splitlines())
    names = sorted(lines.keys() | {file.name for file in BAD.glob('*.txt')} - {EXPECTED.name})
    return [Case(f'rooms/bad/{name}', (BAD / name).read_bytes(), lines.get(name, 'none')) for name in names]


def long():
    """The longest scenario, and one byte more."""
    text = b'end 5\n' + b'#' * (LONGEST - 6)
    return [Case(f'{LONGEST:,} bytes', text, ''), Case(f'{LONGEST + 1:,} bytes', text + b'#', TOO_LONG)]


def generated(extent):
    source = random.Random(SEED)
    return [Case(f'scenario {number} of seed {SEED}', scenario(source), '') for number in range(extent.count(SCENARIOS))]


def generated_damaged(extent):
    source = random.Random(SEED)
    return [Case(f'damaged {number} of seed {SEED}', damaged(source, scenario(source)), None) for number in range(extent.count(DAMAGED))]
