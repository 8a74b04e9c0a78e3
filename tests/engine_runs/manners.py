"""How calls are made: by value or in place, and with their rooms filled and tested or not (the records 0a and 0b)."""

import random

from engine_runs.calls import RECORD, Manner, buffered
from engine_runs.reached import LISTED, Reached

# The runs by value, and those that go to and fro, by the remainder of their seeds.
FORMS, BY_VALUE, TO_AND_FRO = 4, 0, 2

# Those whose rooms are not tested: one by value, one in place, and one that goes to and fro in this too.
KEPT, UNTESTED = 64, (4, 5, 6)

# How often a run that goes to and fro changes.
CHANGE = 0.25


def manners(seed):
    """Those of a run's calls, without end. They are chosen apart from the calls, which are the same in every manner."""
    source = random.Random(seed + 2**32)
    manner = Manner(seed % KEPT not in UNTESTED, seed % FORMS == BY_VALUE)
    while True:
        yield manner
        if seed % FORMS == TO_AND_FRO:
            manner = changed(source, manner, seed % KEPT in UNTESTED)


def changed(source, manner, untested):
    tested, by_value = (value != (source.random() < CHANGE) for value in manner)
    return Manner(tested if untested else manner.tested, by_value)


# ---- what is reached

FORM = {False: 'in place', True: 'by value'}

# What comes up in each form: each call, and all that is listed of calls.
IN_FORMS = [*(call.__name__ for call in RECORD), *LISTED]

CHANGES = [
    'by value right after in place', 'in place right after by value',
    *(f'{what} {form}, its room not tested' for form in FORM.values() for what in ('answer', 'refusal')),
    'room tested right after one that was not', 'room not tested right after one that was']


class ReachedManners(Reached):
    """How often each call and each listed kind came up in each form, and each change of the manner."""

    listed = [*((name, form) for name in IN_FORMS for form in FORM.values()), *((name, '') for name in CHANGES)]

    def kinds(self, step):
        form = FORM[step.manner.by_value]
        yield type(step.call).__name__, form
        yield from ((name, form) for name in super().kinds(step))
        yield from ((name, '') for name in self.change_kinds(step, form))

    def change_kinds(self, step, form):
        if buffered(step.call) and not step.manner.tested:
            yield f'{"refusal" if step.outcome.number else "answer"} {form}, its room not tested'
        if not self.last or step.before is not self.last.after:
            return
        last = self.last.manner
        if step.manner.by_value != last.by_value:
            yield f'{form} right after {FORM[last.by_value]}'
        if step.manner.tested != last.tested:
            yield 'room tested right after one that was not' if step.manner.tested else 'room not tested right after one that was'

    def times(self, name):
        """How often this came up in all forms."""
        return sum(self.counts[name, form] for form in FORM.values())

    def lines(self):
        for name in IN_FORMS:
            yield ''.join(f'  {self.counts[name, form]:9,} {form}' for form in FORM.values()) + f'  {name}'
        for name in CHANGES:
            yield f'  {self.counts[name, ""]:9,} of {name}'

    def missed(self):
        return [f'{name} {form}'.strip() for name, form in super().missed()]
