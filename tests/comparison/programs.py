"""The programs: how the oracle is built, how a script for it is made, how one is run."""

import subprocess
import sys
import time
from collections import namedtuple
from pathlib import Path

ROOT = Path(__file__).resolve().parents[2]
sys.path.append(str(ROOT))

# What `./run` uses too.
from building.programs import our_program

ORACLE = ROOT / 'tests' / 'oracle'
BUILT = ORACLE / 'target'
# The Rust alone keeps no ping times; where it is compared, its replay does so in every manner of calls.
RUST_REPLAY = (BUILT / 'release' / 'replay',)
ORACLE_REPLAY = (*RUST_REPLAY, '--times')
GENERATE = BUILT / 'release' / 'generate'
SAMPLE = ROOT / 'crates' / 'replay'

# Seconds between two pieces of input, and after the first, in which the program starts and reads it.
PAUSE = 0.0005
FIRST_PAUSE = 0.05

# A run that takes longer than this many seconds counts as one that does not end.
PATIENCE = 60

Run = namedtuple('Run', 'output status errors')


def build_oracle():
    command = ['cargo', 'build', '--release', '--offline', '--quiet', '--target-dir', BUILT]
    try:
        subprocess.run(command, cwd=ORACLE, check=True)
    except FileNotFoundError:
        sys.exit('cargo is not found: it must be on the path')


def generate(topic, seed, count):
    """A script of `count` calls; the same arguments always give the same script."""
    command = [GENERATE, topic, str(seed), str(count)]
    return subprocess.run(command, check=True, stdout=subprocess.PIPE).stdout


def run(program, data):
    """Runs it with the data as standard input."""
    with started(program) as running:
        return ended(running, data)


def run_in_pieces(program, data, size):
    """Hands over the data a few bytes at a time, so that a read gets less than it asked for."""
    with started(program) as running:
        try:
            for at in range(0, len(data), size):
                running.stdin.write(data[at:at + size])
                time.sleep(PAUSE if at else FIRST_PAUSE)
        except BrokenPipeError:
            pass  # It ended early; what it wrote tells the rest.
        return ended(running, b'')


def started(program):
    pipe = subprocess.PIPE
    return subprocess.Popen(program, bufsize=0, stdin=pipe, stdout=pipe, stderr=pipe)


def ended(running, rest):
    """Hands over the rest of the data and waits for the end."""
    try:
        output, errors = running.communicate(rest, timeout=PATIENCE)
    except subprocess.TimeoutExpired:
        running.kill()
        return Run(b'', f'no end within {PATIENCE} s', b'')
    return Run(output, running.returncode, errors)
