"""What bench/stack does inside the debugger. Where the program stands in memory is known once it reads."""

import os
import re

import gdb

CALLS = re.compile(r'\S+::(\w+_in)$', re.MULTILINE)
FILL = b'\xa5'
DEPTH = 1 << 15


def quietly(command):
    return gdb.execute(command, to_string=True)


def started():
    """Runs it up to its first read of standard input."""
    quietly(f'set args < {os.environ["SCRIPT"]} > /dev/null')
    quietly('starti')
    quietly('catch syscall read')
    while True:
        quietly('continue')
        if int(gdb.parse_and_eval('(long)$rdi')) == 0:
            break
    quietly('delete')


def changed(memory, top):
    """How many bytes below this place were changed, with the return address there."""
    left = bytes(memory.read_memory(top - DEPTH, DEPTH))
    return len(left.lstrip(FILL)) + 8


def measured(memory):
    """The stack of the call at which the program stands; it runs on to the call's end."""
    top = int(gdb.parse_and_eval('(unsigned long)$rsp'))
    memory.write_memory(top - DEPTH, FILL * DEPTH)
    back = int.from_bytes(bytes(memory.read_memory(top, 8)), 'little')
    for point in gdb.breakpoints():
        point.enabled = False
    quietly(f'tbreak *{back}')
    quietly('continue')
    for point in gdb.breakpoints():
        point.enabled = True
    return changed(memory, top)


def main():
    quietly('set confirm off')
    started()
    for name in sorted({found[0] for found in re.finditer(CALLS, quietly('info functions _in$'))}):
        quietly(f"break *'{name.split()[-1]}'")
    memory, most, times = gdb.selected_inferior(), {}, {}
    quietly('continue')
    while gdb.selected_thread():
        name = gdb.selected_frame().name()
        most[name] = max(most.get(name, 0), measured(memory))
        times[name] = times.get(name, 0) + 1
        quietly('continue')
    for name, size in most.items():
        print(f'{size:6,} bytes at most in {times[name]:,} calls of {name}')


main()
