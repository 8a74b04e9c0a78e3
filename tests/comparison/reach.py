"""What a topic's scripts reach, counted from their bytes alone."""

from collections import Counter

from comparison.records import titled


class Reach:
    """Calls and kinds are counted by name. A sweep is a set of cases, each of which must come up.

    A topic says what a record reaches: `kinds_of` gives names, `cases_of` pairs of a sweep and a case."""

    def __init__(self, calls, kinds, sweeps):
        self.calls = Counter({first: 0 for first in calls})
        self.kinds = Counter({name: 0 for name in kinds})
        self.sizes = {name: len(cases) for name, cases in sweeps.items()}
        self.left = {name: set(cases) for name, cases in sweeps.items()}

    def add(self, record):
        """Counts one record; gives whether it is the first of its call or of a kind."""
        reached = self.kinds_of(record)
        new = not self.calls[record.first] or not all(self.kinds[name] for name in reached)
        self.calls[record.first] += 1
        for name in reached:
            self.kinds[name] += 1
        for sweep, case in self.cases_of(record):
            self.left[sweep].discard(case)
        return new

    def calls_missed(self):
        return [titled(first) for first, count in self.calls.items() if not count]

    def kinds_missed(self):
        return [name for name, count in self.kinds.items() if not count]

    def cases_missed(self):
        return [f'{name}: {len(left)} of {self.sizes[name]}, as {min(left)}'
                for name, left in self.left.items() if left]
