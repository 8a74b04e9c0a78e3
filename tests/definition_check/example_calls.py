"""Short lists of calls, and what can be asked of the box after them: what worked examples are made of."""

from collections import namedtuple

from comparison import wire
from engine_runs import packets
from engine_runs.boxes import Line, Reader, Send, StartStop, State, StateChanged, Timer, line_bytes, start_stop_bytes
from engine_runs.calls import Added, Commit, Packet, Preview, Switch, Tick
from engine_runs.numbers import half
from definition_check.statements import flag, line, maybe, node, preview, preview_outcome, several, signed, start_stop, state, time

# A call, with the way it is written in the file of examples.
Said = namedtuple('Said', 'call text')

# What can be asked of the box after calls, or of the last one's outputs: how that is written, the oracle's answer, and where
# it takes a record of its own to ask, that record.
Question = namedtuple('Question', 'text answer record', defaults=[None])

# Calls of a node, and what is asked after them.
Case = namedtuple('Case', 'node calls asked')

# An example: its name, what it shows, its cases.
Example = namedtuple('Example', 'name comment cases')

ROOM = 4096
KEYS = {'__ht': 'keys.ht', '_pgt': 'keys.pgt', 'sess': 'keys.sess'}
STOPPED = StartStop(False, 0, 0)


# ---- calls

def on(now):
    return Said(Switch(True, now, ROOM), f'on_at {now}')


def off(now):
    return Said(Switch(False, now, ROOM), f'off_at {now}')


def tick(now):
    return Said(Tick(now, ROOM), f'ticks {now}')


def commits(now, of_line, of_start_stop=STOPPED):
    text = f'commits_at {line(of_line)} {start_stop(of_start_stop)} {now}'
    return Said(Commit(State(of_line, of_start_stop), now, ROOM), text)


def port_addr(port):
    return bytes(4) + port.to_bytes(2, 'big')


def hears(sender, now, packet, text, port=None):
    port = port or sender
    return Said(Packet(0, port_addr(port), packet, now, ROOM), f'hears_at {port} ({text}) {now}')


def placed():
    return Said(Added(0, bytes(6)), 'placed')


def alive(sender, now, session=None, of_line=None, twice=None, of_start_stop=None, addr=None, port=None):
    """An alive, and with `twice` one that has a second line after the first."""
    entries, said = [], []
    if session is not None:
        entries.append((b'sess', session.to_bytes(8, 'big')))
        said.append(f'in_session {session}')
    for one in (of_line, twice):
        if one is not None:
            entries.append((b'tmln', line_bytes(one)))
            said.append(f'with_line {line(one)}')
    if of_start_stop is not None:
        entries.append((b'stst', start_stop_bytes(of_start_stop)))
        said.append(f'with_start_stop {start_stop(of_start_stop)}')
    if addr is not None:
        entries.append((b'mep4', port_addr(addr)))
        said.append(f'with_addr {addr}')
    text = f'announces {sender} ({" ++ ".join(said) or "[]"})'
    return hears(sender, now, packets.discovery(packets.ALIVE, sender, entries), text, port)


def bye(sender, now):
    return hears(sender, now, packets.bye(sender), f'byebye_bytes {node(sender)}')


def pong(sender, now, session, ghost, port=None, ping=0):
    """The answer to a ping of a time, so that it gives the offset ghost − (now + ping) / 2."""
    text = f'pong {session} {signed(ghost)} {signed(ping)}'
    return hears(sender, now, packets.pong(ghost, ping, session=session), text, port)


def pong_for(sender, now, session, offset, ping):
    """The answer to a ping of a time that gives this offset."""
    return pong(sender, now, session, offset + half(now + ping), ping=ping)


def pong_after(sender, now, session, ghost, before, ping=0):
    """The answer to a ping of a time that told the shared time before it."""
    text = f'pong_after {session} {signed(ghost)} {signed(ping)} {signed(before)}'
    return hears(sender, now, packets.pong(ghost, ping, before, session), text)


def ping(sender, now, keys):
    """A ping with an entry of zeros under each of these keys."""
    entries = b''.join(wire.entry(key.encode(), bytes(8)) for key in keys.split())
    text = ' ++ '.join(['measurement_head measurement_kinds.ping', *(f'zeros {KEYS[key]}' for key in keys.split())])
    return hears(sender, now, wire.MEASUREMENT + b'\x01' + entries, text)


# ---- what can be asked

def of_box(projection, answer):
    return Question('({box}).' + projection, lambda step: answer(step.after))


def of_peers(projection, answer):
    return Question(f'map (λ p. p.{projection}) ({{box}}).peers', lambda step: several(map(answer, step.after.peers)))


def of_outputs(function, answer):
    close = ')' * function.count('(')
    return Question(f'{function} ({{outputs}}){close}', lambda step: several(answer(step.outcome)))


def previewed(now, of_line, of_start_stop=STOPPED):
    """What a commit after the calls would report."""
    asked = Preview(State(of_line, of_start_stop), now)
    return Question(preview('({box})', asked), lambda step: preview_outcome(step.outcome), asked)


def kinds(outcome):
    return [str(kind) for kind in outcome.answer[4:4 + len(outcome.outputs)]]


def states(outcome):
    return [state(output.state) for output in outcome.outputs if isinstance(output, StateChanged)]


def sent(outcome, key, take, write):
    """The value under a key of each packet that is sent, where it has one."""
    packets_sent = [output.packet for output in outcome.outputs if isinstance(output, Send)]
    values = [take(Reader(packet, packet.index(key) + 8)) if key in packet else None for packet in packets_sent]
    return [maybe(write, value) for value in values]


def destinations(outcome):
    """The port that each packet is sent to."""
    return [str(int.from_bytes(output.to[4:], 'big')) for output in outcome.outputs if isinstance(output, Send)]


def timers(outcome):
    return [signed(output.time) for output in outcome.outputs if isinstance(output, Timer)]


NODE = of_box('node_id.0', lambda box: str(box.node))
SESSION = of_box('session_id.0', lambda box: str(box.session))
OFFSET = of_box('session_offset', lambda box: signed(box.offset))
NEXT_BROADCAST = of_box('next_broadcast.0', lambda box: signed(box.next_broadcast))
COUNT = of_box('num_session_peers', lambda box: str(box.count))
LINE = of_box('state.timeline', lambda box: line(box.state.line))
START_STOP = of_box('state.start_stop', lambda box: start_stop(box.state.start_stop))
IDS = of_peers('id.0', lambda peer: str(peer.id))
SESSIONS = of_peers('session_id', lambda peer: f'Some {node(peer.session)}')
OFFSETS = of_peers('samples.offsets', lambda peer: several(map(signed, peer.offsets)))
PING_TIMES = of_peers('samples.ping_times', lambda peer: several(map(time, peer.ping_times)))
TIMEOUTS = of_peers('ping_timeouts', lambda peer: str(peer.timeouts))
MEASURING = of_peers('measuring', lambda peer: flag(peer.measuring))
LINES = of_peers('timeline_ghost', lambda peer: f'Some {line(peer.line)}')
KINDS = of_outputs('map kind', kinds)
STATES = of_outputs('states', states)
SENT_LINES = of_outputs('map line_said (messages', lambda outcome: sent(outcome, b'tmln', Reader.line, line))
SENT_START_STOPS = of_outputs(
    'map start_stop_said (messages', lambda outcome: sent(outcome, b'stst', Reader.start_stop, start_stop))
DESTINATIONS = of_outputs('destinations', destinations)
TIMERS = of_outputs('timers', timers)
BYTES = of_outputs('answer', lambda outcome: map(str, outcome.answer))


def beat(origin, tempo=500_000):
    return Line(tempo, origin, 0)
