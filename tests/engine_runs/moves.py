"""Single calls, chosen at random from what the engine holds."""

from engine_runs.boxes import State
from engine_runs.calls import Added, Commit, IoError, Packet, Removed, Switch, Tick
from engine_runs.numbers import GREATEST, LATEST, LEAST, LONGEST_PACKET, SMALLEST_ROOM, median
from engine_runs.packets import (
    ALIVE, RESPONSE, SIZES, address_of, alive, bye, damaged, fresh_time, padded, ping, pong, pong_for, signed, some_address,
    some_id, some_line, some_session, some_start_stop)

WRONG_TIMES = [-1, LATEST + 1, LEAST, GREATEST]
SMALL_ROOMS = [SMALLEST_ROOM - 1, 0, 4]

# Whether an alive has another line, another start-stop state, another session.
CHANGES = [(0, 0, 0), (1, 0, 0), (1, 0, 0), (0, 1, 0), (1, 1, 0), (0, 0, 1), (1, 1, 1)]


def some_peer(world):
    return world.source.choice(world.box.peers) if world.box.peers else None


# ---- alives

def meet(world):
    """An alive of any node, each entry there or not."""
    node = some_id(world)
    return world.hear(some_alive(world, node), some_address(world, node))


def some_alive(world, node):
    def perhaps(value):
        return value if world.source.random() < 0.8 else None
    source = world.source
    mep4 = some_address(world, node) if source.random() < 0.3 else None
    return alive(node, perhaps(some_line(world)), perhaps(some_start_stop(world)), perhaps(some_session(world)), mep4,
                 source.choice((ALIVE, ALIVE, RESPONSE)))


def meet_again(world):
    """An alive of a neighbour that says what is held of it, but for nothing, something or all."""
    peer, source = some_peer(world), world.source
    if not peer:
        return meet(world)
    other_line, other_start_stop, other_session = source.choice(CHANGES)
    line = some_line(world) if other_line else peer.line
    start_stop = some_start_stop(world) if other_start_stop else peer.start_stop
    session = source.choice((some_session(world), None)) if other_session else peer.session
    mep4 = peer.addr if source.random() < 0.2 else None
    sender = source.choice((peer.addr, peer.addr, peer.addr, some_address(world, peer.id), address_of(peer.id + 40)))
    return world.hear(alive(peer.id, line, start_stop, session, mep4), sender)


def hear_self(world):
    return world.hear(some_alive(world, world.box.node), address_of(99))


# ---- other packets

def leave(world):
    peer = some_peer(world)
    known = peer and world.source.random() < 0.7
    node = peer.id if known else world.source.choice((some_id(world), world.box.node))
    return world.hear(bye(node), address_of(node))


def ask(world):
    """A ping, with more after its entries or not."""
    source, time = world.source, signed(world, world.now, 0)
    packet = ping(time, source.choice((None, signed(world, world.now))))
    if source.random() < 0.3:
        packet = padded(packet, source.choice(SIZES))
    return world.hear(packet, some_address(world, some_id(world)))


def answer(world):
    """A pong of a neighbour, whose sample is near our offset or a neighbour's."""
    peer, source = some_peer(world), world.source
    if not peer:
        return ask(world)
    offsets = [world.box.offset, world.box.offset, *(median(one.offsets) for one in world.box.peers if one.offsets)]
    session = source.choice((None, peer.session, peer.session, peer.session, some_session(world)))
    packet = some_pong(world, peer, signed(world, *offsets), session)
    return world.hear(packet, peer.addr if source.random() < 0.95 else address_of(77))


def some_pong(world, peer, offset, session):
    """To a ping that it has not answered, or now and then to one that some neighbour has."""
    source = world.source
    if world.wild and source.random() < 0.3:
        return pong(signed(world, 0), signed(world, 0), source.choice((None, signed(world, 0))), session)
    time = fresh_time(world, peer.addr, world.now - source.choice((0, 1, 30, 40_001)))
    counted = source.choice(world.box.peers).ping_times if source.random() < 0.15 else []
    return pong_for(offset, world.now, source.choice(counted or [time]), source.random() < 0.5, session)


def hear_noise(world):
    makers = [lambda: some_alive(world, some_id(world)), lambda: ping(world.now), lambda: bye(some_id(world)),
              lambda: pong(world.now, world.now, None, some_session(world))]
    packet = damaged(world, world.source.choice(makers)())
    peer = some_peer(world)
    return world.hear(packet, peer.addr if peer else address_of(5))


# ---- the other calls

def tick(world):
    return world.tick()


def some_state(world):
    """The state as it is, or with another line, another start-stop state, or both."""
    box, source = world.box, world.source
    line, start_stop = box.state
    way = source.randrange(7)
    if way in (1, 2, 3, 6):
        line = some_line(world)
    if way in (3, 4, 5, 6):
        start_stop = some_start_stop(world)
        start_stop = start_stop._replace(time=signed(world, start_stop.time - box.offset, world.now))
    return State(line, start_stop)


def commit(world):
    return world.commit(*some_state(world))


def preview(world):
    """A preview alone, now or at a time at the edges."""
    now = world.source.choice((world.now, world.now, world.now, 0, LATEST, *WRONG_TIMES))
    return world.preview(some_state(world), now)


def switch(world):
    return world.switch(world.source.random() < (0.2 if world.box.enabled else 0.8))


def change_interfaces(world):
    source, interface = world.source, world.interface()
    return world.call(source.choice((
        Added(interface, address_of(200 + source.randrange(3))), Added(source.randrange(9), address_of(210)),
        Removed(interface), IoError(interface, source.randrange(3)))))


def be_refused(world):
    """A call with a wrong time, a room too small, a packet too long, or several of these."""
    source = world.source
    wrong = source.choice(((1,), (2,), (3,), (1, 2), (1, 3), (2, 3), (1, 2, 3)))
    now = source.choice(WRONG_TIMES) if 1 in wrong else world.now
    room = source.choice(SMALL_ROOMS) if 2 in wrong else SMALLEST_ROOM
    packet = some_alive(world, some_id(world))
    long = padded(packet, source.choice((LONGEST_PACKET + 1, 1_024)))
    heard = Packet(world.interface(), address_of(1), long if 3 in wrong else packet, now, room)
    others = [Tick(now, room), Commit(State(some_line(world), some_start_stop(world)), now, room),
              Switch(source.random() < 0.5, now, room)]
    return world.call(heard if 3 in wrong else source.choice([heard, *others]))


# Each move with how often it comes up.
MOVES = {meet: 5, meet_again: 10, hear_self: 1, leave: 2, ask: 2, answer: 14, hear_noise: 3, tick: 8, commit: 6,
         preview: 1, switch: 1, change_interfaces: 2, be_refused: 2}
