"""Runs of calls from seeds: each begins with a new engine, has a few scenes, and goes on at random."""

import random
from collections import namedtuple

from engine_runs.calls import Added, Manner
from engine_runs.manners import manners
from engine_runs.moves import MOVES, switch
from engine_runs.oracle import script_of
from engine_runs.packets import address_of
from engine_runs.reached import Reached
from engine_runs.scenes import SCENES, duel, measured_crowd, opposite, restart
from engine_runs.world import Enough, World

CALLS_OF_RUN = 36

# The seeds of the long runs, whose first scene takes many calls.
LONG_SEEDS = range(1_000_000, 1_000_012)
CALLS_OF_LONG_RUN = 400

# The runs of the stored sample, which reach everything listed: each scene comes first in one of them, and one is long.
FIRST_OF_SAMPLE = 242
SHORT_OF_SAMPLE = range(FIRST_OF_SAMPLE, FIRST_OF_SAMPLE + len(SCENES))
SAMPLE_SEEDS = [*SHORT_OF_SAMPLE, LONG_SEEDS[0]]

# The node ids of runs whose first scene needs ids above and below it, or the largest.
NODE_OF = {duel: 2**63, opposite: 2**63, restart: 2**64 - 1}

# A run: the box that it begins with, its node id, its steps; its script, with a dump after each call, the oracle's
# answers, and where the answers to the engine's making and to each step end.
Run = namedtuple('Run', 'first node steps script answers ends')


def run_of(seed):
    """The run of a seed. Its remainder decides its first scene, but for the long ones."""
    is_long = seed in LONG_SEEDS
    first = measured_crowd if is_long else SCENES[seed % len(SCENES)]
    world = World(random.Random(seed), CALLS_OF_LONG_RUN if is_long else CALLS_OF_RUN, NODE_OF.get(first), manners(seed))
    try:
        begin(world)
        act(world, world.source.choice((0, 0, 4)))
        play(world, first)
        while True:
            act(world, world.source.choice((6, 12, 20)))
            play(world, world.source.choice(SCENES))
    except Enough:
        oracle = world.oracle
        return Run(oracle.first, oracle.node, world.steps, bytes(oracle.script), oracle.answers, oracle.ends)


def engine_sample():
    """A script of runs that reach everything listed, with a dump at the end of each: in place, and then the short ones by value, with
    rooms that are not tested."""
    runs = [run_of(seed) for seed in SAMPLE_SEEDS]
    reached = Reached()
    for step in (step for one in runs for step in one.steps):
        reached.add(step)
    if reached.missed():
        raise ValueError(f'the sample does not reach: {", ".join(reached.missed())}')
    made = [*((one, Manner()) for one in runs), *((one, Manner(False, True)) for one in runs[:len(SHORT_OF_SAMPLE)])]
    return b''.join(script_of(one.node, in_manner(one.steps, manner)) for one, manner in made)


def in_manner(steps, manner):
    return [step._replace(manner=manner) for step in steps]


def begin(world):
    for number in range(world.source.choice((0, 1, 1, 2))):
        world.call(Added(number, address_of(200 + number)))
    act(world, world.source.choice((0, 0, 3)))
    world.switch(True)


def play(world, scene):
    if not world.box.enabled:
        world.switch(True)
    scene(world)


def act(world, count):
    """So many single calls."""
    for _ in range(count):
        world.pass_time()
        dormant = not world.box.enabled and world.source.random() < 0.35
        move, = [switch] if dormant else world.source.choices(list(MOVES), MOVES.values())
        move(world)
