"""What the papers say of a room right behind its link, and what is printed at the end of its run."""

import re

# A link to a scenario, and what is said of it: `[name](tests/rooms/name.txt): 1,750 ms apart`.
SAID = re.compile(r'\]\((?:\.\./)?tests/rooms/(\w+\.txt)\): ([\d,.]+ ms apart|not in one session|at two tempos)')
STAND = re.compile(r'^\w and \w stand (\S+), (\S+), (\S+) millionths', re.MULTILINE)
MILLISECOND = 1_000_000_000


def verdict(printed):
    """The same words for what is printed: how far the two stand apart that are farthest, where all have one tempo."""
    if ' are not in one session' in printed:
        return 'not in one session'
    rows = [[int(number) for number in row] for row in STAND.findall(printed)]
    if any(len(set(row)) > 1 for row in rows):
        return 'at two tempos'
    farthest = max(abs(row[0]) for row in rows)
    return f'{farthest / MILLISECOND:,.9f}'.rstrip('0').rstrip('.') + ' ms apart'


def figures(paper):
    """Each scenario that a paper says such words of, and the words."""
    return SAID.findall(paper)
