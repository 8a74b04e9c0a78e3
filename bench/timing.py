"""Times our replay and the oracle's on the same script."""

import subprocess
import sys
import tempfile
import time
from pathlib import Path

ROOT = Path(__file__).resolve().parents[1]
sys.path.insert(0, str(ROOT / 'tests'))

from comparison.programs import RUST_REPLAY, build_oracle, generate, our_program

from building.programs import build

SEED = 1
CALLS = 1_000_000
RUNS = 9


def built_replay(arguments, usage):
    """The replay to time: the one named, or the one of the repository, which is built first; and the oracle."""
    if len(arguments) > 1:
        sys.exit(usage)
    if not arguments:
        build('replay')
    build_oracle()
    return our_program('replay', *arguments)


def run(program, script, output):
    """The seconds that one run on the script takes."""
    with open(script, 'rb') as stdin, open(output, 'wb') as stdout:
        start = time.perf_counter()
        subprocess.run(program, stdin=stdin, stdout=stdout, check=True)
        return time.perf_counter() - start


def check_same(ours, script, folder):
    """A program that gives other answers is not timed."""
    run(ours, script, folder / 'ours')
    run(RUST_REPLAY, script, folder / 'oracle')
    if (folder / 'ours').read_bytes() != (folder / 'oracle').read_bytes():
        sys.exit('the answers differ: run tests/compare')


def best_times(ours, script):
    """The best of several runs of each, taken in turn so that both meet the same disturbances."""
    times = [(run(ours, script, '/dev/null'), run(RUST_REPLAY, script, '/dev/null'))
             for _ in range(RUNS)]
    return map(min, zip(*times))


def time_topic(ours, topic, what, calls=CALLS):
    """Times a script of the generator's topic."""
    time_script(ours, generate(topic, SEED, calls), calls, what)


def times_of(ours, data):
    """The best seconds of each on a script."""
    with tempfile.TemporaryDirectory() as folder:
        script = Path(folder) / 'script'
        script.write_bytes(data)
        check_same(ours, script, Path(folder))
        return best_times(ours, script)


def time_script(ours, data, calls, what):
    """Times a script of so many calls and prints how many of them each does in a second."""
    our_time, oracle_time = times_of(ours, data)
    print(f'{calls:,} {what}, best of {RUNS} runs')
    print(f'ours  {calls / our_time:14,.0f} a second')
    print(f'Rust  {calls / oracle_time:14,.0f} a second')
    print(f'ours / Rust, by time: {our_time / oracle_time:.2f}', flush=True)
