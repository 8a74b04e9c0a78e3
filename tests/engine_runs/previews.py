"""What previews reach; and that they change nothing, and that the commit right after one reports its state first."""

from comparison.packet_calls import Unreadable
from engine_runs.boxes import Reader, StateChanged
from engine_runs.calls import Commit, Preview, buffered
from engine_runs.numbers import LATEST

# By the number and the time.
EDGES = {(1, -1): 'preview refused at -1', (1, LATEST + 1): 'preview refused at 10^15 + 1',
         (0, 0): 'preview given at 0', (0, LATEST): 'preview given at 10^15'}

FORETOLD = 'commit right after its preview'

LISTED = [
    *EDGES.values(), 'preview while disabled', 'preview of the held state', 'preview with the line moved',
    'preview with a changed line not moved', 'preview with the line moved by a negative number',
    'preview with a line below the held one moved by 0', 'preview with the start-stop time moved',
    FORETOLD, f'{FORETOLD} reports nothing', f'{FORETOLD} reports another state then', f'{FORETOLD} reports the same state twice']


# ---- what is reached

def kinds(step):
    number, now = step.outcome.number, step.call.now
    if (number, now) in EDGES:
        yield EDGES[number, now]
    if number:
        return
    if not step.before.enabled:
        yield 'preview while disabled'
    yield from given_kinds(step.call.state, step.before.state, *step.outcome.outputs)


def given_kinds(asked, held, given):
    if asked == held:
        yield 'preview of the held state'
    if given.state.start_stop.time != asked.start_stop.time:
        yield 'preview with the start-stop time moved'
    if asked.line == held.line:
        return
    if given.state.line != asked.line:
        yield 'preview with the line moved'
    elif asked.line.beat > held.line.beat:
        yield 'preview with a changed line not moved'
    if given.moved < 0:
        yield 'preview with the line moved by a negative number'
    if given.moved == 0 and asked.line.beat < held.line.beat:
        yield 'preview with a line below the held one moved by 0'


def pair_kinds(last, step):
    """What a call reaches by the one before it."""
    if not foretold(last, step):
        return
    yield FORETOLD
    first, *more = reported(step.outcome) or [None]
    if first is None:
        yield f'{FORETOLD} reports nothing'
    if more:
        yield f'{FORETOLD} reports {"the same state twice" if more == [first] else "another state then"}'


def foretold(last, step):
    """Whether a step is the accepted commit of the preview that stands right before it in its run."""
    if not (last and isinstance(last.call, Preview) and isinstance(step.call, Commit) and step.before is last.after):
        return False
    return last.call == Preview(step.call.state, step.call.now) and not step.outcome.number


def reported(outcome):
    return [output.state for output in outcome.outputs if isinstance(output, StateChanged)]


# ---- what holds of the answers to a run, be they the oracle's or ours

def dump_at(run, answers, place):
    """Where the dump after a call begins, after the making of the engine at place -1."""
    if place < 0:
        return 1
    start, step = run.ends[place], run.steps[place]
    if isinstance(step.call, Preview):
        return start + (1 + 41 + 8 if answers[start:start + 1] == b'\x00' else 1)
    if not buffered(step.call):
        return start + 1
    return start + 1 + 2 + int.from_bytes(answers[start + 1:start + 3], 'big') + step.manner.tested


def dump_after(run, answers, place):
    return answers[dump_at(run, answers, place):run.ends[place + 1]]


def touched(run, answers):
    """The first preview after which the dump is not as before it."""
    for place, step in enumerate(run.steps):
        if isinstance(step.call, Preview) and dump_after(run, answers, place) != dump_after(run, answers, place - 1):
            return f'call {place} changes the engine: {step.call}'
    return ''


def unforetold(run, answers):
    """The first commit that does not report first what the preview right before it gave, or nothing where that is the held
    state."""
    for place, (last, step) in enumerate(zip(run.steps, run.steps[1:])):
        if foretold(last, step) and not agree(run, answers, place):
            return f'call {place} gave another state than the commit after it: {last.call}'
    return ''


def agree(run, answers, place):
    """Whether a preview and the commit after it do."""
    try:
        given, = Reader(answers, run.ends[place]).preview().outputs
        states = reported(Reader(answers, run.ends[place + 1]).outcome(run.steps[place + 1].manner.tested))
        held = states or [Reader(answers, dump_at(run, answers, place)).box().state]
    except (Unreadable, ValueError, KeyError):
        return False
    return given.state == held[0]
