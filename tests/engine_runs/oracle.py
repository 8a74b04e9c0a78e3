"""The oracle's engine, led on call by call."""

import subprocess
from collections import namedtuple
from functools import cache

from comparison.programs import ORACLE_REPLAY
from engine_runs.boxes import Outcome, Reader
from engine_runs.calls import DUMP, Manner, Preview, buffered, manner_records, new_record, record

# One call of a run: the box before it, the call, its outcome, the box after it, the manner in which it is made.
Step = namedtuple('Step', 'before call outcome after manner')


def script_of(node, steps):
    """The script of these steps, with a dump at its end."""
    manner = steps[0].manner
    script = manner_records(manner) + new_record(node)
    for step in steps:
        if step.manner != manner:
            manner = step.manner
            script += manner_records(manner)
        script += record(step.call)
    return script + DUMP


def outcome_of(call, read, tested):
    """The outcome of a call, taken from the answers."""
    if isinstance(call, Preview):
        return read.preview()
    return read.outcome(tested) if buffered(call) else Outcome(read.number(1), [], b'')


@cache
def running_replay():
    """One replay for all runs; a new engine begins each of them."""
    return subprocess.Popen((*ORACLE_REPLAY, '--at-once'), stdin=subprocess.PIPE, stdout=subprocess.PIPE)


class LiveReader(Reader):
    """The answers of the running replay, and their bytes."""

    def __init__(self):
        super().__init__(b'', 0)
        self.bytes = bytearray()

    def take(self, length):
        taken = running_replay().stdout.read(length)
        if len(taken) < length:
            raise EOFError('the oracle has ended')
        self.bytes += taken
        return taken


class Oracle:
    """One engine, with a dump after each call: the script and the answers so far, and where the answers to its making and to
    each call end. A new one ends the one before it."""

    def __init__(self, node, manner=Manner()):
        self.node = node
        self.script = bytearray()
        self.read = LiveReader()
        self.manner = manner
        self.ask(manner_records(manner) + new_record(node))
        self.read.number(1)
        self.first = self.box = self.read.box()
        self.ends = [len(self.read.bytes)]

    @property
    def answers(self):
        return bytes(self.read.bytes)

    def ask(self, record):
        self.script += record + DUMP
        replay = running_replay()
        replay.stdin.write(record + DUMP)
        replay.stdin.flush()

    def call(self, call, manner=Manner()):
        self.ask((b'' if manner == self.manner else manner_records(manner)) + record(call))
        self.manner = manner
        outcome = outcome_of(call, self.read, manner.tested)
        step = Step(self.box, call, outcome, self.read.box(), manner)
        if outcome.number and step.after != step.before:
            raise ValueError('the oracle took a call that it refused')
        self.box = step.after
        self.ends.append(len(self.read.bytes))
        return step
