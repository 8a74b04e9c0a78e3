"""Calls with what the oracle makes of them, as closed statements of the definition."""

from pathlib import Path

from comparison.packet_calls import UNTOUCHED
from engine_runs.boxes import CountChanged, Send, StateChanged, Timer
from engine_runs.calls import Added, Commit, IoError, Packet, Preview, Removed, Switch, Tick, buffered

HEAD = Path(__file__).with_name('head.txt').read_text() + '\n'

# One call in so many has the bytes of its answer stated, and one those of its buffer; long answers always are.
BYTES = 6
LONG_ANSWER = 2_000

# So many calls of a run, up to this place, are stated as a list too.
LISTED = 4
LISTED_UP_TO = 20

IO_ERRORS = ['join_multicast_failed', 'open_unicast_failed', 'send_failed']


def signed(value):
    return f'(pos {value})' if value >= 0 else f'(negsuc {-value - 1})'


def flag(value):
    return 'true' if value else 'false'


def several(written):
    return '(' + ''.join(f'{one} ∷ ' for one in written) + '[])'


def time(value):
    return f'(at {signed(value)})'


def node(value):
    return f'(node {value})'


def addr(value):
    return f'(addr {int.from_bytes(value[:4], "big")} {int.from_bytes(value[4:], "big")})'


def line(value):
    return f'(line {" ".join(map(signed, value))})'


def start_stop(value):
    return f'(start_stop {flag(value.playing)} {signed(value.beat)} {signed(value.time)})'


def state(value):
    return f'(state {line(value.line)} {start_stop(value.start_stop)})'


def maybe(write, value):
    return 'None' if value is None else f'(Some {write(value)})'


def interface(value):
    return f'interface {value.id} {addr(value.addr)}'


def peer(value):
    return ' '.join([
        'peer', node(value.id), maybe(node, value.session), maybe(line, value.line),
        maybe(start_stop, value.start_stop), time(value.last_seen), addr(value.addr),
        several(map(signed, value.offsets)), several(map(time, value.ping_times)), time(value.next_ping), str(value.timeouts),
        flag(value.measuring)])


def box(value):
    return ' '.join([
        'box', node(value.node), flag(value.enabled), node(value.session), signed(value.offset), state(value.state),
        several(map(interface, value.interfaces)), several(map(peer, value.peers)), str(value.count),
        time(value.next_broadcast)])


OUTPUT = {
    Send: lambda o: f'send {o.interface} {addr(o.to)} {several(o.packet)}',
    StateChanged: lambda o: f'state_changed {state(o.state)}',
    CountChanged: lambda o: f'num_peers_changed {o.count}',
    Timer: lambda o: f'set_timer {time(o.time)}',
}

CALL = {
    Packet: lambda c: f'packet {c.interface} {addr(c.sender)} {several(c.bytes)} {time(c.now)} {c.room}',
    Tick: lambda c: f'tick {time(c.now)} {c.room}',
    Commit: lambda c: f'commit {state(c.state)} {time(c.now)} {c.room}',
    Switch: lambda c: f'switch {flag(c.on)} {time(c.now)} {c.room}',
    Added: lambda c: f'interface_added {c.interface} {addr(c.addr)}',
    Removed: lambda c: f'interface_removed {c.interface}',
    IoError: lambda c: f'io_error {c.interface} {IO_ERRORS[c.kind % 3]}',
}


def outputs(values):
    return several(OUTPUT[type(value)](value) for value in values)


def call(value):
    return CALL[type(value)](value)


def preview(before, asked):
    return f'preview {before} {state(asked.state)} {time(asked.now)}'


def preview_outcome(outcome):
    if outcome.number:
        return f'refused {outcome.number}'
    given, = outcome.outputs
    return f'given {state(given.state)} {signed(given.moved)}'


# ---- the statements of a run

def statement(name, claim):
    return f'{name} : {claim}\nunfolding everything\n{name} = refl\n\n'


def named_box(name, value):
    return f'abbrev {name} : Box\n{name} = {box(value)}\n\n'


def statements_of(name, run):
    """A run's statements. The name of each ends in its call's place, by which a complaint is told."""
    boxes = [f'{name}_box_new']
    text = named_box(boxes[0], run.first) + statement(f'{name}_new', f'new (node {run.node}) ≡ {boxes[0]}')
    for place, step in enumerate(run.steps):
        kept = step.outcome.number or isinstance(step.call, Preview)
        boxes.append(boxes[place] if kept else f'{name}_box_{place}')
        if not kept:
            text += named_box(boxes[-1], step.after)
        for kind, claim in claims(place, boxes, run.steps):
            text += statement(f'{name}_{kind}_{place}', claim)
    return text


def claims(place, boxes, steps):
    """What is stated of a preview or a call, and of one of them the calls that led to it."""
    before, after, step = boxes[place], boxes[place + 1], steps[place]
    if isinstance(step.call, Preview):
        yield 'preview', f'{preview(before, step.call)} ≡ previews.{preview_outcome(step.outcome)}'
    else:
        yield from call_claims(place, before, after, step)
    if place == LISTED_UP_TO:
        made = [step.call for step in steps[place - LISTED:place] if not isinstance(step.call, Preview)]
        yield 'list', f'run {boxes[place - LISTED]} {several(map(call, made))} ≡ {before}'


def call_claims(place, before, after, step):
    """What is stated of a call: its outcome, of some the bytes of answer or buffer."""
    number, values, answer = step.outcome
    result = f'refused {number}' if number else f'done {after} {outputs(values)}'
    yield 'call', f'step {before} ({call(step.call)}) ≡ {result}'
    if buffered(step.call) and place % BYTES == 0:
        yield 'buffer', buffer_claim(result, answer)
    elif answer and (place % BYTES == 3 or len(answer) > LONG_ANSWER):
        yield 'answer', f'answer {outputs(values)} ≡ {several(answer)}'


def buffer_claim(result, answer):
    """Of a buffer a few bytes longer than the answer: nothing after the answer is written."""
    old, new = UNTOUCHED * (len(answer) + 3), answer + UNTOUCHED * 3
    return f'buffer_after ({result}) {several(old)} ≡ {several(new)}'
