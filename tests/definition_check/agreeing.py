"""Runs stated of the definition, and what the prover says of them."""

from definition_check.checking import Scratch, difference
from engine_runs.oracle import script_of
from engine_runs.runs import run_of
from definition_check.statements import HEAD, statements_of

# Runs stated in one file, and files that the prover gets at once.
RUNS_OF_FILE = 6
FILES = 6


def agree(seeds, folder, report, reached):
    """One test for each run: the definition must make of each call what the oracle makes of it."""
    scratch = Scratch(folder)
    for seeds_at_once in parts(seeds, RUNS_OF_FILE * FILES):
        runs = {seed: run_of(seed) for seed in seeds_at_once}
        found = scratch.check(texts(runs))
        for seed, run in runs.items():
            for step in run.steps:
                reached.add(step)
            report.test(f'{len(run.steps)} calls, seed {seed}', run_complaint(f'run_{seed}', run, found))
        for complaint in others(runs, found):
            report.test('the statements', complaint)


def parts(seeds, size):
    return [seeds[at:at + size] for at in range(0, len(seeds), size)]


def texts(runs):
    """Files of statements by name."""
    files = parts(list(runs.items()), RUNS_OF_FILE)
    return {f'Runs{number}': HEAD + ''.join(statements_of(f'run_{seed}', run) for seed, run in some)
            for number, some in enumerate(files)}


def run_complaint(name, run, found):
    """Each statement of a run that is not true, with where it parts, its call, and the script that leads there."""
    lines = []
    for statement, complaint in found.items():
        if statement.startswith(f'{name}_'):
            place = statement.rpartition('_')[2]
            lines.append(f'  {statement}: {difference(complaint)}')
            if place.isdecimal():
                lines.append(f'    {run.steps[int(place)].call}')
                lines.append(f'    script {script_of(run.node, run.steps[:int(place) + 1]).hex()}')
    return '\n'.join(lines)


def others(runs, found):
    """What the prover says of no run's statement."""
    names = tuple(f'run_{seed}_' for seed in runs)
    return [complaint for statement, complaint in found.items() if not statement.startswith(names)]
