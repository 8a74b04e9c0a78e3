"""Courses of calls that lead to where single calls seldom do."""

from engine_runs.boxes import Line, StartStop, State
from engine_runs.calls import Added, IoError, Packet, Removed, Tick
from engine_runs.moves import answer, some_alive
from engine_runs.numbers import (
    ENDS, GREATEST, LATEST, LEAST, LONGEST_PACKET, SMALLEST_ROOM, median, wrap)
from engine_runs.packets import (
    RESPONSE, address_of, alive, bye, fresh_time, padded, ping, pong, pong_for, some_line, some_start_stop)
from engine_runs.world import SILENCE

MOST_NEIGHBOURS, MOST_SAMPLES = 16, 20
PING_INTERVAL = 50_000


# ---- parts of scenes

def held(world, node):
    return next((peer for peer in world.box.peers if peer.id == node), None)


def last_seen(world, node):
    peer = held(world, node)
    return peer.last_seen if peer else world.now


def taken_ids(world):
    ids = {world.box.node, world.box.session}
    return ids | {number for peer in world.box.peers for number in (peer.id, peer.session) if number is not None}


def free_ids(world, count):
    """The smallest ids that stand for nobody and for no session."""
    taken = taken_ids(world)
    return [number for number in range(1, 100) if number not in taken][:count]


def free_id(world):
    return free_ids(world, 1)[0]


def smaller_id(world):
    """A free id below our session's, if there is one."""
    taken = taken_ids(world)
    below = range(world.box.session - 1, -1, -1)
    return next((number for number in below[:100] if number not in taken), free_id(world))


def larger_id(world):
    """A free id above our session's, if there is one."""
    taken = taken_ids(world)
    above = range(world.box.session + 1, 2**64)
    return next((number for number in above[:100] if number not in taken), free_id(world))


def hear_alive(world, node, session, line=None, start_stop=None):
    return world.hear(alive(node, line, start_stop, session), address_of(node))


def hear_pong(world, node, offset, session=None):
    """A pong of the neighbour with the sample `offset`, to a ping of its own."""
    time = fresh_time(world, address_of(node), world.now - 20)
    return hear_pong_to(world, node, time, offset, session)


def hear_pong_to(world, node, time, offset=None, session=None):
    """A pong of the neighbour to a ping of this time."""
    offset = wrap(world.box.offset + world.source.choice((0, 3, 600_000)) if offset is None else offset)
    packet = pong_for(offset, world.now, time, world.source.random() < 0.5, session)
    return world.hear(packet, address_of(node))


def join(world, node, session, lead, line=None):
    """A neighbour with one sample that is ahead of our offset."""
    hear_alive(world, node, session, line)
    world.wait(world.source.choice((1, 400)))
    return hear_pong(world, node, world.box.offset + lead)


def largest_beat(world):
    return max([world.box.state.line.beat, *(peer.line.beat for peer in world.box.peers if peer.line)])


# ---- scenes

def crowd(world):
    """16 neighbours, a 17th, and what a full table still takes."""
    fill(world)
    extra, first = free_id(world), world.box.peers[0].id
    hear_alive(world, extra, extra)
    world.hear(alive(world.box.node, session=3, kind=RESPONSE), address_of(3))
    world.hear(bye(extra), address_of(extra))
    world.hear(padded(alive(extra), LONGEST_PACKET + 1), address_of(extra))
    hear_alive(world, first, first, some_line(world))
    world.wait(SILENCE + 1)
    world.hear(alive(extra, session=extra, kind=RESPONSE), address_of(extra))
    world.hear(bye(first), address_of(first))
    hear_alive(world, extra, extra)


def fill(world):
    while len(world.box.peers) < MOST_NEIGHBOURS:
        node = free_id(world)
        world.hear(some_alive(world, node), address_of(node))
        world.wait(world.source.choice((0, 1, 1_000)))


def measure(world):
    """One neighbour up to its 20th sample, and pongs after that."""
    node = free_id(world)
    join(world, node, node, world.source.choice((0, 600_000, -600_000)))
    while (peer := held(world, node)) and peer.measuring:
        if len(peer.offsets) == MOST_SAMPLES - 1:
            hear_pong_to(world, node, world.source.choice((peer.ping_times[0], peer.ping_times[-1])))
        world.wait(world.source.choice((1, 30_000)))
        hear_pong(world, node, median(peer.offsets) + world.source.choice((-700, -1, 0, 3, 600)), peer.session)
    if peer:
        hear_pong_to(world, node, peer.ping_times[0])
    hear_pong(world, node, 5)
    hear_pong(world, node, 6, free_id(world))
    hear_alive(world, node, node, some_line(world))


def fall_silent(world):
    """A neighbour that is asked five times and does not answer."""
    node = free_id(world)
    hear_alive(world, node, node)
    while (peer := held(world, node)) and peer.measuring:
        world.wait_until(peer.next_ping + world.source.choice((-1, 0, 0, 1)))
        world.tick()
    world.wait(PING_INTERVAL)
    world.tick()
    hear_pong(world, node, world.box.offset, free_id(world))


def duel(world):
    """Foreign sessions at each bound of the election, with ids above and below ours."""
    for lead, other_id in ((500_000, larger_id), (500_001, larger_id), (-500_001, smaller_id), (500_000, smaller_id),
                           (-500_000, smaller_id), (world.source.choice((0, 499_999, 700_000)), larger_id)):
        node, session = free_id(world), other_id(world)
        join(world, node, session, lead, some_line(world) if world.source.random() < 0.7 else None)
        world.hear(bye(node), address_of(node))


def drift(world):
    """Neighbours of one session whose offsets part by 500 and by 501."""
    near = free_id(world)
    join(world, near, near, 900_000, some_line(world))
    join(world, near + 1, near, world.source.choice((500, -500)))
    join(world, near + 2, near, world.source.choice((501, -501)))
    hear_alive(world, near + 1, near, some_line(world), some_start_stop(world))
    for _ in range(2):
        hear_pong(world, near + 1, world.box.offset + world.source.choice((501, -501, 3_000)))
    hear_alive(world, near + 1, near, some_line(world))
    hear_alive(world, near, near, some_line(world))


def win_back(world):
    """A session that wins, and loses to the held one in the same election."""
    first, second = free_id(world), free_id(world) + 1
    join(world, second, world.box.session, 0)
    for _ in range(2):
        hear_pong(world, second, world.box.offset + 300_000)
    join(world, first, larger_id(world), 600_000)


def lapse(world):
    """Neighbours that were last seen 6,000,000 ago, and one microsecond more."""
    first, second = free_id(world), free_id(world) + 1
    join(world, first, first, 800_000, some_line(world))
    join(world, second, first, 2_000)
    hear_pong(world, second, world.box.offset + 5_000)
    seen = last_seen(world, first)
    world.wait_until(seen + SILENCE - 1)
    hear_alive(world, second, first)
    world.wait_until(seen + SILENCE)
    world.tick()
    world.wait(1)
    world.tick()


def lapse_in_election(world):
    """An election by an alive, and another since a neighbour goes in the same call."""
    node = free_id(world)
    other = node + 1
    join(world, node, node, 900_000)
    hear_alive(world, other, node)
    seen = world.now
    hear_pong(world, other, world.box.offset + 400)
    world.wait_until(seen + SILENCE)
    hear_alive(world, node, node)
    for _ in range(2):
        hear_pong(world, node, world.box.offset + 900)
        hear_pong(world, other, world.box.offset - 900)
    world.wait_until(seen + SILENCE + 1)
    hear_alive(world, node, node, some_line(world))


def lapse_in_commit(world):
    """A commit in which a neighbour goes, and the one that stays then wins."""
    node, other = free_id(world), free_id(world) + 1
    join(world, node, node, 900_000, some_line(world))
    seen = last_seen(world, node)
    world.wait_until(seen + SILENCE - 10)
    join(world, other, other, -500_001, some_line(world))
    for _ in range(2):
        hear_pong(world, other, world.box.offset + 700_000)
    world.wait_until(seen + SILENCE + 1)
    world.commit(some_line(world), some_start_stop(world))


def about_to_lapse(world):
    """A neighbour that goes within a millisecond, when those that went before it are gone; gives the time."""
    hear_alive(world, free_id(world), None)
    seen = world.now
    world.wait_until(seen + SILENCE - 1_000)
    world.tick()
    return seen + SILENCE + 1


def lapse_in_foretold(world):
    """Commits in which a neighbour goes, right after their previews: the election finds a later start-stop state, or no
    more than another offset."""
    for meet in (announce_start, shift_offset):
        time = about_to_lapse(world)
        meet(world, free_id(world))
        world.wait_until(time)
        line, start_stop = world.box.state
        world.foretold(line._replace(beat=wrap(line.beat + 1)), start_stop)


def announce_start(world, node):
    """A neighbour without samples, whose alives elect nothing, with a later start-stop state in our session."""
    box = world.box
    later = wrap(box.state.start_stop.time + box.offset + 1_000)
    hear_alive(world, node, box.session, None, StartStop(True, 0, later))


def shift_offset(world, node):
    """A neighbour whose session wins, and whose median is then another with no election after it."""
    join(world, node, node, 900_000)
    for _ in range(2):
        hear_pong(world, node, world.box.offset + 700)


def come_and_go(world):
    """Neighbours that come, leave and lapse in front of one with samples and behind it; then it says less and less."""
    front, node, back = free_ids(world, 3)
    join(world, node, node, world.source.choice((0, 600_000)), some_line(world))
    hear_alive(world, front, front)
    world.hear(bye(front), address_of(front))
    for other in (front, back):
        hear_alive(world, other, other)
    seen = world.now
    world.wait(1_000)
    hear_alive(world, node, node, some_line(world), some_start_stop(world))
    world.wait_until(seen + SILENCE + 1)
    world.tick()
    hear_alive(world, node, node)
    hear_alive(world, node, None)


def share_address(world):
    """Two neighbours at one address: a pong belongs to the first."""
    node = free_id(world)
    other = node + 1
    for one in (other, node):
        world.hear(alive(one, some_line(world), None, other), address_of(node))
    hear_pong(world, node, world.box.offset + 600_000)
    hear_pong(world, node, world.box.offset + 600_000, node)
    world.hear(bye(node), address_of(node))
    hear_pong(world, node, world.box.offset)


def say_little(world):
    """Alives with no entry at all, and sessions that come and go."""
    node = free_id(world)
    hear_alive(world, node, None)
    hear_pong(world, node, world.box.offset + 600_000)
    hear_alive(world, node, None, some_line(world))
    hear_pong(world, node, world.box.offset + 600_000, world.box.session)
    hear_alive(world, node, None)
    hear_alive(world, node, node, None, some_start_stop(world))
    hear_alive(world, node, node)


def compose(world):
    """Commits below, at and above the largest known beat origin and start-stop time."""
    node, line = free_id(world), world.box.state.line
    larger = Line(500_000, wrap(line.beat + 8_000_000), 0)
    hear_alive(world, node, world.box.session, larger, StartStop(True, 0, world.now + 10))
    for more, tempo in ((-1, 500_001), (0, -500_001), (1, 0)):
        start_stop = world.box.state.start_stop
        world.commit(Line(tempo, wrap(largest_beat(world) + more), world.now), start_stop)
        world.commit(world.box.state.line, StartStop(True, tempo, wrap(start_stop.time + more)))
    world.commit(*world.box.state)


def overflow(world):
    """Lines, commits and samples whose sums wrap."""
    source, node, start_stop = world.source, free_id(world), world.box.state.start_stop
    largest = Line(500_000, source.choice((GREATEST, GREATEST - 999_999)), 0)
    hear_alive(world, node, world.box.session, largest, StartStop(True, 1, GREATEST))
    for tempo, time in ((GREATEST, 0), (60_000_000, GREATEST), (LEAST, source.choice(ENDS))):
        world.commit(Line(tempo, source.choice((5, 10**15)), time), start_stop._replace(beat=tempo))
    world.hear(bye(node), address_of(node))
    hear_alive(world, node, node, Line(500_000, 0, GREATEST), StartStop(False, 0, LEAST))
    world.hear(pong(GREATEST, GREATEST), address_of(node))
    world.hear(pong(source.choice(ENDS), LEAST, source.choice(ENDS)), address_of(node))
    hear_pong(world, node, source.choice((LEAST, GREATEST, world.box.offset + LEAST)))
    hear_alive(world, node, node, some_line(world))
    world.hear(ping(LEAST, GREATEST), address_of(node))


def foresee(world):
    """Previews alone at the edges of time, and before commits at the ends of the beat origins, where they come out above,
    below and as asked."""
    line, start_stop = world.box.state
    for now in (-1, 0, LATEST, LATEST + 1):
        world.preview(world.box.state, now)
    world.preview(State(line._replace(beat=wrap(largest_beat(world) + 1)), start_stop))
    world.preview(State(line._replace(tempo=wrap(line.tempo + 1)), start_stop._replace(beat=wrap(start_stop.beat + 1))))
    for beat in (GREATEST, LEAST + 999_999, GREATEST, 5):
        world.foretold(Line(world.source.choice((500_000, -1)), beat, world.now), start_stop)
    world.foretold(*world.box.state)


def opposite(world):
    """Offsets that differ by the smallest number, whose size is itself, and by more than there are numbers for."""
    node = smaller_id(world)
    join(world, node, node, LEAST)
    for lead in (LEAST, -(2**63) + 1_000_000, 2**62 + 1):
        join(world, free_id(world), world.box.session, lead)
    far = GREATEST if world.box.offset < 0 else LEAST
    join(world, free_id(world), world.box.session, far - world.box.offset)
    join(world, free_id(world), larger_id(world), far - world.box.offset)
    world.hear(ping(world.now), address_of(node))


def repeat(world, heard, **changes):
    """The packet of a step again, now, and with these changes of the call."""
    again = Packet(world.interface(), heard.call.sender, heard.call.bytes, world.now, world.room())
    return world.call(again._replace(**changes))


def double(world):
    """Pongs to one ping: with each session that they can name, with each refusal that comes before theirs, from where no neighbour
    is, beside others by a microsecond, and after what clears the samples and what does not."""
    node, other = free_ids(world, 2)
    time = world.source.choice((world.now - 20, world.now, *ENDS))
    hear_alive(world, node, node)
    first = hear_pong_to(world, node, time)
    for session in (None, node):
        hear_pong_to(world, node, time, session=session)
    repeat(world, first)
    long = padded(first.call.bytes, LONGEST_PACKET + 1)
    for changes in ({'now': -1}, {'now': LATEST + 1, 'room': 0, 'bytes': long}, {'room': SMALLEST_ROOM - 1, 'bytes': long},
                    {'bytes': long}, {'bytes': padded(first.call.bytes, LONGEST_PACKET)}, {'bytes': first.call.bytes[:-20]},
                    {'sender': first.call.sender[:4] + bytes(2)}):
        repeat(world, first, **changes)
    for near in (wrap(time - 1), wrap(time + 1), time):
        hear_pong_to(world, node, near)
    world.hear(alive(node, session=node), address_of(other))
    world.hear(first.call.bytes, address_of(other))
    hear_alive(world, node, other)
    for session in (None, other, node, other):
        hear_pong_to(world, node, time, session=session)
    hear_pong(world, node, world.box.offset, node)
    hear_pong_to(world, node, time)


def double_nameless(world):
    """Pongs to one ping of a neighbour without a session, and of a second one; then the first would lapse, lapses and comes again."""
    node, other = free_ids(world, 2)
    time = world.now - 20
    hear_alive(world, node, None)
    seen = world.now
    for sender in (node, node, other, node):
        if sender == other:
            hear_alive(world, other, other)
        hear_pong_to(world, sender, time)
    world.wait_until(seen + SILENCE)
    hear_pong_to(world, node, time)
    world.wait(1)
    hear_pong_to(world, node, time)
    world.tick()
    hear_alive(world, node, None)
    hear_pong_to(world, node, time)
    for session in (None, node, None):
        hear_pong_to(world, node, time, session=session)


def double_unanswered(world):
    """Pongs to one ping of a neighbour whose sixth ping is due, and after that; after its bye, while we are off, and after that."""
    node, time = free_id(world), world.now - 20
    hear_alive(world, node, node)
    first = hear_pong_to(world, node, time)
    while (peer := held(world, node)) and peer.measuring and peer.timeouts < 5:
        world.wait_until(peer.next_ping)
        world.tick()
    if peer:
        world.wait_until(peer.next_ping - 1)
        repeat(world, first)
    world.wait(1)
    repeat(world, first)
    world.tick()
    repeat(world, first)
    world.hear(bye(node), address_of(node))
    for on in (False, True):
        hear_alive(world, node, node)
        repeat(world, first)
        world.switch(on)
        repeat(world, first)
    hear_alive(world, node, node)
    repeat(world, first)


def double_at_one_address(world):
    """Two neighbours at one address: the times of the first decide."""
    node = free_id(world)
    other, time = node + 1, world.now - 20
    for one in (other, node):
        world.hear(alive(one, session=other), address_of(node))
    for _ in range(2):
        hear_pong_to(world, node, time)
    world.hear(bye(node), address_of(node))
    for _ in range(2):
        hear_pong_to(world, node, time)
    hear_alive(world, node, other)
    for _ in range(2):
        hear_pong_to(world, node, time)


def measured_crowd(world):
    """16 neighbours with 20 samples each, of which the first leaves and comes again."""
    for peer in world.box.peers:
        world.hear(bye(peer.id), address_of(peer.id))
    for _ in range(MOST_NEIGHBOURS):
        node = free_id(world)
        hear_alive(world, node, world.source.choice((None, node)))
        while (peer := held(world, node)) and peer.measuring:
            world.wait(1)
            hear_pong(world, node, world.source.choice((world.box.offset, world.source.randrange(10**6))))
    first = world.box.peers[0].id
    world.hear(bye(first), address_of(first))
    hear_alive(world, first, first)


def rewire(world):
    """Interfaces added, replaced, refused and removed."""
    for number in (3, 1, 4, 2):
        world.call(Added(number, address_of(200 + number)))
    world.call(Added(9, address_of(209)))
    world.call(Added(4, address_of(240)))
    world.wait(250_000)
    world.tick()
    node = free_id(world)
    world.call(Packet(4, address_of(node), alive(node, None, None, node), world.now, SMALLEST_ROOM))
    world.call(Packet(9, address_of(node), alive(node, some_line(world), None, node), world.now, SMALLEST_ROOM))
    for call in (Removed(9), Removed(3), IoError(2, 1), IoError(8, 0), IoError(1, 2)):
        world.call(call)


def restart(world):
    """Switched off and on, with calls between; at time 0 too."""
    node, now = free_id(world), world.now
    join(world, node, world.box.session, 100)
    for on in (True, False, False):
        world.switch(on)
    hear_alive(world, node, node)
    world.hear(padded(ping(0), LONGEST_PACKET + 1), address_of(node))
    world.tick()
    line, start_stop = world.box.state
    world.foretold(line._replace(beat=wrap(line.beat + 1), time=0), start_stop)
    world.now = world.source.choice((0, now))
    world.switch(True)


def last_moment(world):
    """The first and the last time that is taken, and the longest packet."""
    node, now = free_id(world), world.now
    world.call(Tick(LATEST, SMALLEST_ROOM))
    world.call(Packet(1, address_of(node), padded(alive(node, session=node), LONGEST_PACKET), LATEST, 8_192))
    world.call(Tick(LATEST + 1, 0))
    world.call(Tick(0, SMALLEST_ROOM))
    world.call(Packet(1, address_of(node), padded(ping(0), LONGEST_PACKET), 0, SMALLEST_ROOM))
    world.call(Tick(now, SMALLEST_ROOM - 1))
    answer(world)


def all_at_once(world):
    """The most outputs of a call: a response, two elections, all broadcasts and pings, the timer and the count."""
    for number in range(4):
        world.call(Added(number, address_of(200 + number)))
    near = free_id(world)
    far = near + 1
    join(world, far, near, 900_000)
    seen = last_seen(world, far)
    world.wait_until(seen + SILENCE - 100_000)
    join(world, near, near, 2_000)
    fill(world)
    world.wait_until(seen + SILENCE + 1)
    hear_alive(world, near, near, Line(500_000, wrap(largest_beat(world) + 1), 0))


SCENES = [crowd, measure, fall_silent, duel, drift, win_back, lapse, lapse_in_election, lapse_in_commit, lapse_in_foretold,
          come_and_go, share_address, say_little, compose, overflow, foresee, opposite, double, double_nameless, double_unanswered,
          double_at_one_address, rewire, restart, last_moment, all_at_once]
