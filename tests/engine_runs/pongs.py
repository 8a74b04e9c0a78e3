"""What pongs reach whose ping time was counted before: those that are turned down, and those that count again."""

from comparison import wire
from engine_runs.calls import Packet, Switch
from engine_runs.numbers import ENDS, LONGEST_PACKET, SMALLEST_ROOM, wrap
from engine_runs.world import SILENCE

MOST_SAMPLES = 20
# Where the node id stands in a bye.
NODE = slice(12, 20)

# Of a pong that is turned down.
REFUSED = [
    'refused 11', 'refused 11, no session named', 'refused 11, the held session named', 'refused 11, no session held',
    'refused 11, the neighbour would lapse', 'refused 11, the neighbour seen 6,000,000 ago', 'refused 11, its sixth ping due',
    'refused 11, its sixth ping due a microsecond later', 'refused 11, the first of several times',
    'refused 11, the last of several times', 'refused 11, 19 samples held', 'refused 11, two neighbours at its address',
    'refused 11, a time at the ends', 'refused 11, another sample', 'refused 11, the same bytes',
    'refused 11, the same bytes by another interface', 'refused 11, a packet of 512 bytes',
    'refused 11 after an alive from another address']

# Of one that would be, but for what is tested before.
BEFORE = [
    'refused 1, a doubled pong', 'refused 2, a doubled pong', 'refused 3, a doubled pong',
    'refused 1, a doubled pong too long, the room too small', 'refused 2, a doubled pong too long', 'doubled pong while disabled',
    'doubled pong cut short']

# Of one that is taken.
AGAIN = 'counted again after {}'
CLEARED = ['an alive with another session', 'a pong with another session', 'a bye', 'a lapse', 'switching off']
TAKEN = [
    *map(AGAIN.format, CLEARED), 'counted time, another session named', 'counted time, a session named and none held',
    'counted time of another neighbour', 'counted time of the second neighbour at its address', 'counted time, 20 samples held',
    'counted time, given up', 'counted time, from nobody', 'counted time, from another port', 'time beside a counted one']

LISTED = [*REFUSED, *BEFORE, *TAKEN]


class Counted:
    """The pongs that were taken in a run, each with the interfaces that it came by, and the times that its neighbours lost, each
    with how it lost them."""

    def __init__(self):
        self.taken = {}
        self.lost = {}
        self.moved = set()

    def kinds(self, step):
        """Those of the next step."""
        if isinstance(step.call, Packet):
            yield from self.packet_kinds(step)
        self.learn(step)

    def packet_kinds(self, step):
        if not step.before.enabled:
            if (step.call.sender, step.call.bytes) in self.taken and not step.outcome.number:
                yield 'doubled pong while disabled'
            return
        pong = pong_of(step.call.bytes)
        there = [peer for peer in step.before.peers if peer.addr == step.call.sender]
        if not pong:
            if not step.outcome.number and any(doubled(whole, there) for whole in self.begun_with(step.call)):
                yield 'doubled pong cut short'
            return
        if step.outcome.number:
            yield from self.refused_kinds(step, pong, there)
        else:
            yield from self.taken_kinds(step, pong, there)

    def begun_with(self, call):
        """The pongs taken from this sender that begin with a packet of some bytes."""
        return [pong_of(packet) for sender, packet in self.taken
                if sender == call.sender and call.bytes and packet.startswith(call.bytes)]

    # ---- turned down

    def refused_kinds(self, step, pong, there):
        number, call = step.outcome.number, step.call
        if not doubled(pong, there):
            return
        if number == 11:
            yield 'refused 11'
            yield from (f'refused 11{what}' for what, so in self.facts(step, pong, there) if so)
            return
        yield f'refused {number}, a doubled pong'
        if number < 3 and len(call.bytes) > LONGEST_PACKET:
            small = number == 1 and call.room < SMALLEST_ROOM
            yield f'refused {number}, a doubled pong too long' + (', the room too small' if small else '')

    def facts(self, step, pong, there):
        owner, call = there[0], step.call
        several = len(owner.ping_times) > 1
        sixth = owner.timeouts == 5
        return {
            ', no session named': owner.session is not None and pong.session is None,
            ', the held session named': pong.session is not None,
            ', no session held': owner.session is None,
            ', the neighbour would lapse': owner.last_seen == call.now - SILENCE - 1,
            ', the neighbour seen 6,000,000 ago': owner.last_seen == call.now - SILENCE,
            ', its sixth ping due': sixth and call.now == owner.next_ping,
            ', its sixth ping due a microsecond later': sixth and call.now == owner.next_ping - 1,
            ', the first of several times': several and pong.time == owner.ping_times[0],
            ', the last of several times': several and pong.time == owner.ping_times[-1],
            ', 19 samples held': len(owner.offsets) == MOST_SAMPLES - 1,
            ', two neighbours at its address': len(there) > 1,
            ', a time at the ends': pong.time in ENDS,
            ', another sample': pong.ghost not in self.ghosts_of(call.sender, pong.time),
            ', the same bytes': (call.sender, call.bytes) in self.taken,
            ', the same bytes by another interface': bool(self.taken.get((call.sender, call.bytes), set()) - {call.interface}),
            ', a packet of 512 bytes': len(call.bytes) == LONGEST_PACKET,
            ' after an alive from another address': owner.id in self.moved,
        }.items()

    def ghosts_of(self, sender, time):
        """The shared times of the pongs from there to a ping of this time."""
        pongs = [pong_of(packet) for one, packet in self.taken if one == sender]
        return [pong.ghost for pong in pongs if pong.time == time]

    # ---- taken

    def taken_kinds(self, step, pong, there):
        times = {time for peer in step.before.peers for time in peer.ping_times}
        if not there:
            if pong.time in times:
                yield 'counted time, from nobody'
            if any(peer.addr[:4] == step.call.sender[:4] and pong.time in peer.ping_times for peer in step.before.peers):
                yield 'counted time, from another port'
            return
        owner, *others = there
        if pong.time in owner.ping_times:
            yield from counted_kinds(owner, pong)
            return
        if not owner.measuring:
            return
        if (owner.id, pong.time) in self.lost:
            yield AGAIN.format(self.lost[owner.id, pong.time])
        if any(pong.time in peer.ping_times for peer in others):
            yield 'counted time of the second neighbour at its address'
        elif pong.time in times:
            yield 'counted time of another neighbour'
        if {wrap(pong.time - 1), wrap(pong.time + 1)} & set(owner.ping_times):
            yield 'time beside a counted one'

    # ---- what is remembered

    def learn(self, step):
        if step.outcome.number:
            return
        after = {peer.id: peer for peer in step.after.peers}
        for peer in step.before.peers:
            stays = after.get(peer.id)
            kept = stays.ping_times if stays else []
            if peer.ping_times and kept[:len(peer.ping_times)] != peer.ping_times:
                self.moved.discard(peer.id)
                self.lost.update(((peer.id, time), how_lost(step, peer, stays)) for time in peer.ping_times)
            elif stays and peer.ping_times and stays.addr != peer.addr:
                self.moved.add(peer.id)
        if isinstance(step.call, Packet) and step.before.enabled and pong_of(step.call.bytes):
            self.taken.setdefault((step.call.sender, step.call.bytes), set()).add(step.call.interface)


class Pong:
    """What a pong says."""

    def __init__(self, fields):
        self.session = fields.get(b'sess') and int.from_bytes(fields[b'sess'], 'big')
        self.ghost, self.time = (int.from_bytes(fields[key], 'big', signed=True) for key in (b'__gt', b'__ht'))


def pong_of(packet):
    reading = wire.read(packet)
    return Pong(reading.fields) if not reading.refusal and reading.kind == 'pong' else None


def names_another(owner, pong):
    return pong.session is not None and pong.session != owner.session


def doubled(pong, there):
    return bool(there) and there[0].measuring and not names_another(there[0], pong) and pong.time in there[0].ping_times


def counted_kinds(owner, pong):
    """Of one that its owner counted, and that is not turned down."""
    if not owner.measuring:
        yield 'counted time, 20 samples held' if len(owner.offsets) == MOST_SAMPLES else 'counted time, given up'
    elif owner.session is None:
        yield 'counted time, a session named and none held'
    else:
        yield 'counted time, another session named'


def how_lost(step, peer, stays):
    """Which of the ways in which times are lost a step is for a neighbour, which may be held still."""
    if isinstance(step.call, Switch):
        return 'switching off'
    kind = wire.read(step.call.bytes).kind if isinstance(step.call, Packet) else None
    if stays:
        return 'a pong with another session' if kind == 'pong' else 'an alive with another session'
    own = kind == 'bye' and step.call.bytes[NODE] == peer.id.to_bytes(8, 'big')
    return 'a bye' if own else 'a lapse'
