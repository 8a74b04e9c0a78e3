"""Packets that matter to an engine, made from what it holds."""

from itertools import count

from comparison import wire
from engine_runs.boxes import Line, StartStop, line_bytes, signed_bytes, start_stop_bytes
from engine_runs.numbers import ENDS, LONGEST_PACKET, STEPS, half, wrap

MANY_IDS = [0, 255, 256, 2**32, 2**63 - 1, 2**63, 2**64 - 1]
TEMPOS = [500_000, 500_000, 500_001, 1, 0, -1, -500_001, 60_000_000, 333_333]
SIZES = [LONGEST_PACKET, LONGEST_PACKET, LONGEST_PACKET - 1, 300]

ALIVE, RESPONSE = b'\x01', b'\x02'


# ---- values

def signed(world, *near):
    """A number that differs by a step from one of those given; in a wild run also one at the ends."""
    source = world.source
    if world.wild and source.random() < 0.35:
        return source.choice(ENDS)
    return wrap(source.choice(near) + source.choice(STEPS))


def some_id(world):
    """An id near the others."""
    source = world.source
    return source.choice(MANY_IDS) if source.random() < 0.1 else source.randrange(1, 21)


def some_session(world):
    box = world.box
    known = [peer.session for peer in box.peers if peer.session is not None]
    return world.source.choice([box.session, box.session, box.node, some_id(world), *known])


def some_line(world):
    box = world.box
    beats = [box.state.line.beat, *(peer.line.beat for peer in box.peers if peer.line)]
    times = [box.state.line.time + box.offset, world.now + box.offset, 0]
    tempo = signed(world, *TEMPOS) if world.wild else world.source.choice(TEMPOS)
    return Line(tempo, signed(world, *beats), signed(world, *times))


def some_start_stop(world):
    box = world.box
    known = [peer.start_stop.time for peer in box.peers if peer.start_stop]
    times = [box.state.start_stop.time + box.offset, *known]
    return StartStop(world.source.random() < 0.5, signed(world, 0, 4_000_000), signed(world, *times))


def address_of(node):
    return bytes([10, 0, node >> 8 & 255, node & 255]) + (20_000 + node % 2_000).to_bytes(2, 'big')


def some_address(world, node):
    """A neighbour's own address, or now and then that of another one."""
    source = world.source
    if world.box.peers and source.random() < 0.12:
        return source.choice(world.box.peers).addr
    return address_of(node)


# ---- entries and packets

def alive(node, line=None, start_stop=None, session=None, mep4=None, kind=ALIVE):
    return discovery(kind, node, [
        (b'tmln', line and line_bytes(line)), (b'sess', session_bytes(session)),
        (b'stst', start_stop and start_stop_bytes(start_stop)), (b'mep4', mep4)])


def session_bytes(session):
    return None if session is None else session.to_bytes(8, 'big')


def discovery(kind, node, entries):
    head = wire.DISCOVERY + kind + b'\x05\x00\x00' + node.to_bytes(8, 'big')
    return head + b''.join(wire.entry(key, value) for key, value in entries if value is not None)


def bye(node):
    return wire.bye({'node': node.to_bytes(8, 'big')})


def ping(time, prev=None):
    return wire.ping({'time': signed_bytes(time), 'prev': prev if prev is None else signed_bytes(prev)})


def pong(ghost, time, prev=None, session=None):
    sess = b'' if session is None else wire.entry(b'sess', session_bytes(session))
    pgt = b'' if prev is None else wire.entry(b'_pgt', signed_bytes(prev))
    times = wire.entry(b'__gt', signed_bytes(ghost)) + wire.entry(b'__ht', signed_bytes(time))
    return wire.MEASUREMENT + b'\x02' + sess + times + pgt


def owner_at(world, sender):
    """The neighbour that a pong from there belongs to."""
    return next((peer for peer in world.box.peers if peer.addr == sender), None)


def fresh_time(world, sender, latest):
    """The latest ping time that no pong from there has had, so that one counts."""
    owner = owner_at(world, sender)
    counted = owner.ping_times if owner else []
    return next(time for time in count(latest, -1) if time not in counted)


def pong_for(offset, now, time, twice, session=None):
    """A pong whose sample is this offset, by one shared time or by two."""
    ghost = wrap(offset + half(wrap(now + time)))
    prev = wrap(2 * (offset + time) - ghost) if twice else None
    return pong(ghost, time, prev, session)


def padded(packet, size):
    """The packet with an entry of an unknown key after it, so that it has this size."""
    return packet + wire.entry(b'____', bytes(size - len(packet) - 8))


def damaged(world, packet):
    """The packet cut short, with a byte changed, or with stray bytes or one more entry after it."""
    source = world.source
    way = source.randrange(5)
    if way == 0:
        return packet[:source.randrange(len(packet))]
    if way == 1:
        at = source.randrange(len(packet))
        return packet[:at] + source.randbytes(1) + packet[at + 1:]
    if way == 2:
        return packet + source.randbytes(source.randrange(1, 12))
    if way == 3:
        return packet + wire.entry(b'sess', session_bytes(some_session(world)))
    return padded(packet, source.choice(SIZES))
