"""The programs of this repository: where they stand, and how one is built."""

import os
import subprocess
import sys
from pathlib import Path

ROOT = Path(__file__).resolve().parents[1]
LINES_SHOWN = 40


def our_program(name, path=None):
    """The command of a program: the one at the path, or the one that `rt` left in its crate's out/."""
    program = Path(path or folder_of(name) / 'out' / name).resolve()
    if not os.access(program, os.X_OK):
        sys.exit(f'{program}: no such program; `rt ci` builds it, and so does `rt run` in crates/{name}')
    return (program,)


def folder_of(name):
    return ROOT / 'crates' / name


def build(name):
    """Proves a program and all that it stands on, and builds it; what has not changed since is not proved again. A line tells of
    each crate. `rt` builds a program only to run it: here it gets no input, and what it prints is left out."""
    nothing = subprocess.DEVNULL
    try:
        running = subprocess.Popen(['rt', 'run'], cwd=folder_of(name), stdin=nothing, stdout=nothing, stderr=subprocess.PIPE, text=True)
    except FileNotFoundError:
        sys.exit("rt is not found: the Rattle kit's commands must be on the path")
    lines = []
    with running:
        for line in running.stderr:
            lines.append(line)
            if line.startswith('crate '):
                print(line, end='', file=sys.stderr, flush=True)
    if running.returncode:
        sys.exit(''.join(lines[-LINES_SHOWN:]) + f'{name} is not built')
