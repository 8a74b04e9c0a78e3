"""What a call reaches, told from its bytes and from the boxes before and after it."""

from collections import Counter

from comparison import wire
from engine_runs import commits, messages, neighbours, pongs, previews
from engine_runs.boxes import CountChanged, Send, StateChanged, Timer
from engine_runs.calls import Added, Commit, IoError, Packet, Preview, Removed, Switch, Tick, buffered
from engine_runs.election import EVENTS, walked
from engine_runs.numbers import LATEST, LONGEST_PACKET, SMALLEST_ROOM, wraps
from engine_runs.world import SILENCE

REFUSALS = [
    'refused 1', 'refused 2', 'refused 3', 'refused 5', 'refused 6', 'refused 1, the room too small',
    'refused 1, the packet too long', 'refused 2, the packet too long', 'refused 3 while disabled',
    'refused 5, a stale neighbour among the 16', 'refused 5, a response', 'time 0 taken', 'time 10^15 taken',
    'room of 4,096 taken', 'packet of 512 bytes taken']

OUTPUTS = [
    'send: alive', 'send: response', 'send: response without mep4', 'send: bye', 'send: ping', 'send: ping with _pgt',
    'send: pong', 'state', 'two states', 'count, up', 'count, down', 'timer: broadcast', 'timer: ping',
    'timer: silence', 'timer: ping of a neighbour that goes', 'timer not after now', '73 outputs',
    'shared time origin wraps']

UPKEEP = [
    'lapse at 6,000,001', 'kept at 6,000,000', 'lapse of several', 'lapse whose election changes something',
    'fifth due ping', 'sixth due ping', 'sixth due ping with samples']

ELECTIONS = [
    'session changed', 'session changed, no line known', 'session changed, no start-stop state known',
    'line changed in the same session', 'start-stop state changed in the same session', 'only the offset changed',
    'two wins in a walk', 'wins back to the held session', *EVENTS]

OTHERS = [
    'on', 'on while on', 'off', 'off while off', 'on at time origin 0', 'on at another time origin',
    'on at time 0 and time origin 0', 'off with a count', 'node id wraps', 'interface added',
    'interface added in front of another', 'interface replaced', 'interface removed', 'unknown interface removed',
    'i/o error', 'i/o error of an unknown interface', 'tick while disabled']

LISTED = [*REFUSALS, *OUTPUTS, *UPKEEP, *ELECTIONS, *messages.LISTED, *pongs.LISTED, *neighbours.LISTED, *commits.LISTED, *OTHERS,
          *previews.LISTED]


class Reached:
    """How often each listed kind came up."""

    listed = LISTED

    def __init__(self):
        self.counts = Counter({name: 0 for name in self.listed})
        self.last = None
        self.counted = pongs.Counted()

    def add(self, step):
        self.counts.update(set(self.kinds(step)))
        self.last = step

    def kinds(self, step):
        """Those of a step after the last one."""
        if self.last and step.before is not self.last.after:
            self.counted = pongs.Counted()
        yield from kinds_of(step)
        yield from self.counted.kinds(step)
        yield from previews.pair_kinds(self.last, step)

    def missed(self):
        return [name for name, count in self.counts.items() if not count]


def kinds_of(step):
    if isinstance(step.call, Preview):
        yield from previews.kinds(step)
        return
    if step.outcome.number:
        yield from refusal_kinds(step)
        return
    if buffered(step.call):
        yield from bound_kinds(step.call)
        yield from output_kinds(step)
        yield from neighbours.kinds(step, lapsed(step))
    yield from OF_CALL[type(step.call)](step)
    if any(isinstance(output, Timer) for output in step.outcome.outputs):
        yield from timer_kinds(step)
        yield from upkeep_kinds(step)
    if elected(step):
        yield from election_kinds(step)


# ---- refusals and bounds

def refusal_kinds(step):
    call, number = step.call, step.outcome.number
    yield f'refused {number}'
    if number == 1 and call.room < SMALLEST_ROOM:
        yield 'refused 1, the room too small'
    if number < 3 and isinstance(call, Packet) and len(call.bytes) > LONGEST_PACKET:
        yield f'refused {number}, the packet too long'
    if number == 3 and not step.before.enabled:
        yield 'refused 3 while disabled'
    if number == 5 and any(peer.last_seen < call.now - SILENCE for peer in step.before.peers):
        yield 'refused 5, a stale neighbour among the 16'
    if number == 5 and wire.read(call.bytes).kind == 'response':
        yield 'refused 5, a response'


def bound_kinds(call):
    if call.now in (0, LATEST):
        yield f'time {"10^15" if call.now else 0} taken'
    if call.room == SMALLEST_ROOM:
        yield 'room of 4,096 taken'
    if isinstance(call, Packet) and len(call.bytes) == LONGEST_PACKET:
        yield 'packet of 512 bytes taken'


# ---- outputs

def output_kinds(step):
    outputs = step.outcome.outputs
    for output in outputs:
        if isinstance(output, Send):
            yield from send_kinds(step, output)
        if isinstance(output, CountChanged):
            yield f'count, {"up" if output.count > step.before.count else "down"}'
    if states := states_of(step):
        yield 'state' if states == 1 else 'two states'
    if len(outputs) == 73:
        yield '73 outputs'


def states_of(step):
    return sum(isinstance(output, StateChanged) for output in step.outcome.outputs)


def send_kinds(step, output):
    reading = wire.read(output.packet)
    yield f'send: {reading.kind}'
    if reading.kind == 'response' and b'mep4' not in reading.fields:
        yield 'send: response without mep4'
    if reading.kind == 'ping' and b'_pgt' in reading.fields:
        yield 'send: ping with _pgt'
    if reading.kind == 'alive' and wraps(step.after.state.line.time + step.after.offset):
        yield 'shared time origin wraps'


def timer_kinds(step):
    timer = next(output.time for output in step.outcome.outputs if isinstance(output, Timer))
    peers, now = step.after.peers, step.call.now
    reasons = {
        'timer: broadcast': [step.after.next_broadcast, now + 250_000],
        'timer: ping': [peer.next_ping for peer in peers if peer.measuring],
        'timer: silence': [peer.last_seen + SILENCE for peer in peers]}
    named = [name for name, times in reasons.items() if timer in times]
    yield from named
    if not named and lapsed(step):
        yield 'timer: ping of a neighbour that goes'
    if timer <= now:
        yield 'timer not after now'


# ---- upkeep

def lapsed(step):
    """The neighbours that went since they were not seen."""
    kept = {peer.id for peer in step.after.peers}
    return [peer for peer in step.before.peers if peer.id not in kept and peer.last_seen < step.call.now - SILENCE]


def upkeep_kinds(step):
    gone, now = lapsed(step), step.call.now
    if any(peer.last_seen == now - SILENCE - 1 for peer in gone):
        yield 'lapse at 6,000,001'
    if any(peer.last_seen == now - SILENCE for peer in step.after.peers):
        yield 'kept at 6,000,000'
    if len(gone) > 1:
        yield 'lapse of several'
    if gone and isinstance(step.call, Tick) and states_of(step):
        yield 'lapse whose election changes something'
    yield from ping_kinds(step)


def ping_kinds(step):
    before = {peer.id: peer for peer in step.before.peers}
    for peer in step.after.peers:
        was = before.get(peer.id)
        if was and was.measuring and was.timeouts == 5 and not peer.measuring and was.offsets == peer.offsets:
            yield 'sixth due ping'
            if peer.offsets:
                yield 'sixth due ping with samples'
        if was and (was.timeouts, peer.timeouts) == (4, 5):
            yield 'fifth due ping'


# ---- elections

def elected(step):
    """Whether there was an election, and no other after one that changed something."""
    if not isinstance(step.call, (Packet, Tick)) or not step.before.enabled:
        return False
    states = states_of(step)
    return states == 1 or states == 0 and (bool(lapsed(step)) or messages.elects(step))


def election_kinds(step):
    before, after = step.before, step.after
    walk = walked(before, after.peers, step.call.now)
    if (walk.session, walk.offset) != (after.session, after.offset):
        return
    yield from walk.events
    wins = sum(event.startswith('won') for event in walk.events)
    if wins > 1:
        yield 'two wins in a walk'
    if wins and after.session == before.session:
        yield 'wins back to the held session'
    if after.session != before.session:
        yield 'session changed'
        known = [peer for peer in after.peers if peer.session == after.session]
        if not any(peer.line for peer in known):
            yield 'session changed, no line known'
        if not any(peer.start_stop for peer in known):
            yield 'session changed, no start-stop state known'
    else:
        yield from kept_session_kinds(before, after)


def kept_session_kinds(before, after):
    if after.state.line != before.state.line:
        yield 'line changed in the same session'
    if after.state.start_stop != before.state.start_stop:
        yield 'start-stop state changed in the same session'
    if after.state == before.state and after.offset != before.offset:
        yield 'only the offset changed'


# ---- the calls without packet or state

def switch_kinds(step):
    before, on = step.before, step.call.on
    yield ('on' if on else 'off') + (f' while {"on" if on else "off"}' if before.enabled == on else '')
    if before.enabled == on:
        return
    if on:
        origin = before.state.line.time
        yield 'on at another time origin' if origin else 'on at time origin 0'
        if step.call.now == origin == 0:
            yield 'on at time 0 and time origin 0'
    elif before.count:
        yield 'off with a count'
    if step.after.node < before.node:
        yield 'node id wraps'


def added_kinds(step):
    held = [interface.id for interface in step.before.interfaces]
    yield 'interface replaced' if step.call.interface in held else 'interface added'
    if step.call.interface < max(held, default=0) and step.call.interface not in held:
        yield 'interface added in front of another'


def removed_kinds(step):
    gone = len(step.after.interfaces) < len(step.before.interfaces)
    yield 'interface removed' if gone else 'unknown interface removed'


def io_error_kinds(step):
    gone = len(step.after.interfaces) < len(step.before.interfaces)
    yield 'i/o error' if gone else 'i/o error of an unknown interface'


def tick_kinds(step):
    if not step.before.enabled:
        yield 'tick while disabled'


OF_CALL = {Packet: messages.kinds, Commit: commits.kinds, Switch: switch_kinds, Tick: tick_kinds,
           Added: added_kinds, Removed: removed_kinds, IoError: io_error_kinds}
