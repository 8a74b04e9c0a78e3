"""The comparison of the engine's calls, 01 to 0b and 32: generated runs, what they reach, damaged scripts, the stored sample."""

import os
from collections import namedtuple
from concurrent.futures import ProcessPoolExecutor
from itertools import accumulate, pairwise

from comparison import damage
from comparison.comparing import test_each
from comparison.programs import ORACLE_REPLAY, RUST_REPLAY, SAMPLE, run, run_in_pieces
from comparison.records import ENGINE_CALLS
from comparison.verdict import answers, ended_badly
from engine_runs.boxes import Line, StartStop, State
from engine_runs.calls import (
    DUMP, RECORD, Added, Commit, IoError, Manner, Packet, Preview, Removed, Switch, Tick, manner_records, new_record, record)
from engine_runs.manners import ReachedManners
from engine_runs.packets import address_of, alive, pong
from engine_runs.previews import FORETOLD, touched, unforetold
from engine_runs.runs import LONG_SEEDS, engine_sample, run_of

SEEDS = 8_400
# The runs that make one script.
SEEDS_AT_ONCE = 60
FEWEST_CALLS = 300_000

RANDOM_STRINGS = 2_000
DAMAGE_SEED = 6
ROOM = 4_096

# What comparing some runs gives: what is reached how often, and the complaints: about our answers, about previews that
# change the engine, about commits that do not report what their preview gave.
Compared = namedtuple('Compared', 'reached answers touched unforetold')


def compare_engine(ours, report, extent):
    reached = ReachedManners()
    parts = seeds_of(extent)
    with ProcessPoolExecutor(os.cpu_count()) as pool:
        compared = list(pool.map(compare_runs, [ours] * len(parts), parts))
    for part in compared:
        reached.counts.update(part.reached)
    test_runs(compared, reached, report, sum(map(len, parts)))
    demand_reach(reached, report, extent)
    test_damage(ours, report, extent)
    report.test('a pong that comes twice is refused in front of the Rust, which alone would take it', doubled_complaint())
    stored = (SAMPLE / 'stdin').read_bytes()
    held = stored.endswith(engine_sample())
    report.test('the stored sample has the runs that reach all', '' if held else 'make it anew with: tests/sample')


def doubled_complaint():
    """The numbers of a neighbour's pong and of the same one again: with ping times kept beside the Rust, and with the Rust alone."""
    calls = [Switch(True, 0, ROOM), *(Packet(1, address_of(2), packet, 0, ROOM) for packet in (alive(2, session=2), pong(7, 0), pong(7, 0)))]
    records = [manner_records(Manner(False, False)) + new_record(1), *map(record, calls)]
    scripts = list(accumulate(records))[-3:]
    numbers = {}
    for name, program in {'with ping times': ORACLE_REPLAY, 'alone': RUST_REPLAY}.items():
        outputs = [run(program, script).output for script in scripts]
        numbers[name] = [after[len(before)] for before, after in pairwise(outputs)]
    return '' if numbers == {'with ping times': [0, 11], 'alone': [0, 0]} else f'  {numbers}'


def seeds_of(extent):
    """The seeds of each script: those of the long runs make one."""
    seeds = range(extent.count(SEEDS))
    return [extent.some(LONG_SEEDS), *(seeds[first:first + SEEDS_AT_ONCE] for first in range(0, len(seeds), SEEDS_AT_ONCE))]


def engine_calls(reached):
    """How many calls there were, previews aside."""
    return sum(reached.times(call.__name__) for call in RECORD) - reached.times(Preview.__name__)


def demand_reach(reached, report, extent):
    print('\n'.join(reached.lines()))
    total = engine_calls(reached)
    extent.demand(report, f'at least {FEWEST_CALLS:,} calls', '' if total >= FEWEST_CALLS else f'  only {total:,}')
    missed = '\n'.join(f'  never reached: {name}' for name in reached.missed())
    extent.demand(report, 'everything listed reached, in place and by value', missed)


def test_runs(compared, reached, report, runs):
    previews, foretold = reached.times(Preview.__name__), reached.times(FORETOLD)
    report.test(f'{engine_calls(reached):,} calls of the engine and {previews:,} previews in {runs:,} runs, with a dump after each',
                first_complaint(compared, 'answers'))
    report.test(f'{previews:,} previews, each with the same dump before and after it', first_complaint(compared, 'touched'))
    report.test(f'{foretold:,} commits right after their preview: its state is the first that they report, the held one where '
                'they report none', first_complaint(compared, 'unforetold'))


def first_complaint(compared, field):
    """The first complaint of a kind."""
    return next((getattr(part, field) for part in compared if getattr(part, field)), '')


def compare_runs(ours, seeds):
    """The runs of these seeds compared."""
    runs = [run_of(seed) for seed in seeds]
    steps = [step for one in runs for step in one.steps]
    reached = ReachedManners()
    for step in steps:
        reached.add(step)
    got = run(ours, b''.join(one.script for one in runs))
    outputs = outputs_of(runs, got.output)
    return Compared(reached.counts, runs_complaint(seeds, runs, got, outputs),
                    *(previews_complaint(seeds, runs, outputs, wrong) for wrong in (touched, unforetold)))


def outputs_of(runs, output):
    """The part of our output that answers each run, and what is left after them."""
    places = [0, *accumulate(len(one.answers) for one in runs), None]
    return [output[start:end] for start, end in pairwise(places)]


def runs_complaint(seeds, runs, got, outputs):
    if bad := ended_badly('ours', got):
        return f'{bad}, seeds {seeds}'
    for seed, one, output in zip(seeds, runs, outputs):
        if output != one.answers:
            return run_complaint(seed, one, output)
    return f'more answers than calls, seeds {seeds}' if outputs[-1] else ''


def run_complaint(seed, one, output):
    """The first call of a run whose answer or whose dump differs."""
    named = ['the engine that is made first', *(f'call {number}: {step.call}' for number, step in enumerate(one.steps))]
    parts = [slice(start, end) for start, end in pairwise([0, *one.ends])]
    what, part = next((what, part) for what, part in zip(named, parts) if output[part] != one.answers[part])
    return f'seed {seed}, {what}\n' + answers({'ours': output[part], 'oracle': one.answers[part]})


def previews_complaint(seeds, runs, outputs, wrong):
    """The first complaint of `wrong` about the oracle's answers to a run, or about ours."""
    for seed, one, output in zip(seeds, runs, outputs):
        for name, given in (('oracle', one.answers), ('ours', output)):
            if found := wrong(one, given):
                return f'{name}, seed {seed}, {found}'
    return ''


# ---- damage

def short_script():
    """Each call in place with its room tested, then by value with its room not tested, and a dump after each round."""
    state = State(Line(500_000, 7, 9), StartStop(True, 1, 2))
    calls = [Added(1, address_of(1)), Switch(True, 1_000, ROOM), Packet(1, address_of(2), alive(2, session=2), 2_000, ROOM),
             Tick(60_000, ROOM), Preview(state, 70_000), Commit(state, 70_000, ROOM), IoError(3, 1), Removed(1)]
    once = new_record(5) + b''.join(map(record, calls)) + DUMP
    return once + manner_records(Manner(False, True)) + once


# Where a room or a length stands in a record, by first byte, and the bound of each.
BOUNDED = {0x02: [(19, 8_192), (21, 1_024)], 0x03: [(9, 8_192)], 0x04: [(9, 8_192)], 0x05: [(10, 8_192)]}


def bounds():
    """Each length and room at its bound and over it, before more bytes than it asks for."""
    scripts = []
    for first, places in BOUNDED.items():
        for at, bound in places:
            for value in (bound, bound + 1, 0xffff):
                fields = bytearray(60)
                fields[at - 1:at + 1] = value.to_bytes(2, 'big')
                scripts.append(bytes([first]) + bytes(fields) + bytes(value) + DUMP)
    return scripts


def test_damage(ours, report, extent):
    script = short_script()
    damaged = {
        'scripts of engine calls cut at every byte': damage.cuts(script),
        'unknown first bytes after engine calls': damage.unknown_first_bytes(script),
        'lengths at their bounds and over': bounds(),
        'random byte strings': damage.noisy_scripts(DAMAGE_SEED, RANDOM_STRINGS, script, ENGINE_CALLS),
    }
    for name, scripts in damaged.items():
        test_each(ours, name, extent.some(scripts), report)
    pieces, oracle = run_in_pieces(ours, script, 7), run(ORACLE_REPLAY, script)
    report.test('engine calls in small pieces', '' if pieces.output == oracle.output else answers(
        {'ours': pieces.output, 'oracle': oracle.output}))
