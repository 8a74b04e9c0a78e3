"""The scripts of bench/rooms and bench/growth. What the oracle's engine puts out steers them; all times are in microseconds."""

import random
from collections import namedtuple
from heapq import heappop, heappush
from itertools import cycle, islice

import timing  # After it the modules of tests are found.
from comparison import wire
from comparison.programs import ORACLE_REPLAY, RUST_REPLAY, run
from engine_runs.boxes import Line, Reader, Send, StartStop, State, Timer, signed_bytes
from engine_runs.calls import Added, Commit, Manner, Packet, Preview, Switch, Tick, manner_records, new_record, record
from engine_runs.oracle import Oracle
from engine_runs.packets import address_of, alive, bye, ping, session_bytes
from engine_runs.scenes import all_at_once
from engine_runs.world import World

CALLS = 300_000
ROOM = 4_096
SEED = 0

# The boxes of the largest room.
LARGE_ROOM = 16

SECOND = 1_000_000
BEGINNING = 10 * SECOND
DURATION = 60 * SECOND

# Our only interface and its address.
INTERFACE, OUR_ADDR = 1, address_of(1)

# From one alive of another box to the next; how often it pings us, and how far apart; from our ping to its pong.
ALIVE_INTERVAL = 250_000
PINGS, PING_INTERVAL = 20, 50_000
PONG_DELAY = 1_000

# The others' shared time less our host time, and by how much a shared time in a pong is off at most.
LEAD = 90 * SECOND
JITTER = 200

# From one change of tempo of ours to the next, and to the others' change after it.
CHANGE_INTERVAL, THEIR_CHANGE = 5 * SECOND, 2_500_000
# When a box leaves first, how long until one leaves again, and how long it is away.
LEAVING, LEAVE_INTERVAL, ABSENCE = 30 * SECOND, 60 * SECOND, 2 * SECOND

FIRST_LINE = Line(500_000, 4_000_000, LEAD + BEGINNING)
STOPPED = StartStop(False, 0, 0)

# How long boxes are met and measured before the flood, the previews and the growth; how many the flood has, and how far apart
# its alives are.
ACQUAINTANCE = 2 * SECOND
MOST_NEIGHBOURS = 16
FLOOD_INTERVAL = 10

# The samples after which a box is no longer measured.
SAMPLES = 20

# As many outputs as a call can have.
MOST_OUTPUTS = 73

# How calls are made. Their rooms are neither filled nor tested: the Rust has no such buffer.
FORMS = {'in place': Manner(False, False), 'by value': Manner(False, True)}

# A script to time: what its calls are, its bytes, and how many calls it has.
Script = namedtuple('Script', 'what bytes calls')
Other = namedtuple('Other', 'node addr')


def scripts():
    """One after the other, since they are large."""
    for boxes in (2, 8, LARGE_ROOM):
        yield from in_each_form(f'calls in a room of {boxes} boxes', room_course(boxes))
    yield from in_each_form(f'calls up to one with {MOST_OUTPUTS} outputs', worst_course())
    yield from in_each_form(f'calls in a flood of alives of {MOST_NEIGHBOURS} boxes', flood_course())
    yield from in_each_form(f'calls that measure the others in a room of {LARGE_ROOM} boxes', measuring_course())
    yield repeated(f'calls that are previews in a room of {LARGE_ROOM} boxes', preview_course(), 'in place')


def in_each_form(what, course):
    return (repeated(what, course, form) for form in FORMS)


def repeated(what, course, form):
    """The course as often as it takes."""
    times = -(-CALLS // len(course))
    return Script(f'{what}, {form}', manner_records(FORMS[form]) + b''.join(course) * times, len(course) * times)


def course_of(node, calls):
    """The records of these calls after that of a new engine. None may be a doubled pong: the Rust that is timed keeps no ping times, and
    would take it."""
    course = [new_record(node), *map(record, calls)]
    script = manner_records(FORMS['in place']) + b''.join(course)
    alone, beside_times = (run(replay, script).output for replay in (RUST_REPLAY, ORACLE_REPLAY))
    assert alone == beside_times, 'a pong of the course is refused'
    return course


# ---- the courses

def room_course(boxes):
    room = Room(boxes - 1)
    room.live(DURATION)
    assert room.settled(), 'not every box is in the session and measured'
    return course_of(room.node, room.calls)


class EvenWorld(World):
    """A world in which all rooms are of one size."""

    def room(self):
        return ROOM


def worst_course():
    world = EvenWorld(random.Random(SEED), CALLS)
    world.switch(True)
    all_at_once(world)
    outputs = world.steps[-1].outcome.outputs
    assert len(outputs) == MOST_OUTPUTS, f'the last call has {len(outputs)} outputs'
    return course_of(world.oracle.node, [step.call for step in world.steps])


def acquainted(others):
    """A room in which all others were just met and measured."""
    room = Room(others)
    room.live(ACQUAINTANCE)
    assert room.settled(), 'not every box is held and measured'
    return room


def flood_course():
    room = acquainted(MOST_NEIGHBOURS)
    again = cycle([(other.addr, room.alive_of(other)) for other in room.others])
    flood = [Packet(INTERFACE, sender, packet, room.now + FLOOD_INTERVAL * number, ROOM)
             for number, (sender, packet) in enumerate(islice(again, CALLS - len(room.calls)), 1)]
    return course_of(room.node, room.calls + flood)


def measuring_course():
    """The others change their session again and again and are measured anew, so that 20 of 21 calls take a sample."""
    room = acquainted(LARGE_ROOM - 1)
    sessions = cycle([room.node + 1, room.session])
    while len(room.calls) < CALLS:
        room.session = next(sessions)
        for other in room.others:
            room.measure(other)
    return course_of(room.node, room.calls)


def preview_course():
    """Previews of lines below and above those known, with the start-stop state as it is and another, in turn."""
    room = acquainted(LARGE_ROOM - 1)
    line, start_stop = room.oracle.box.state
    asked = cycle([State(line._replace(beat=line.beat + more), start_stop._replace(playing=playing))
                   for more in (-1, SECOND) for playing in (False, True)])
    previews = [Preview(state, room.now) for state in islice(asked, CALLS - len(room.calls))]
    return course_of(room.node, room.calls + previews)


def growth_course(neighbours):
    """Pings and ticks in turn, which take as much at every number of neighbours but for the walks over them."""
    room = acquainted(neighbours)
    times = (room.now + FLOOD_INTERVAL * number for number in range(1, CALLS - len(room.calls)))
    calls = [Tick(now, ROOM) if number % 2 else Packet(INTERFACE, address_of(99), ping(now), now, ROOM)
             for number, now in enumerate(times)]
    return course_of(room.node, room.calls + calls)


# ---- a room

class Room:
    """Our box among others, or alone, that are all in one session, each thing in it at its time."""

    def __init__(self, others):
        self.source = random.Random(SEED)
        self.node, *nodes = [self.source.getrandbits(64) for _ in range(1 + others)]
        self.others = [Other(node, address_of(number)) for number, node in enumerate(nodes, 2)]
        self.session = nodes[0] if nodes else self.node
        self.present = set()
        self.line = FIRST_LINE
        self.oracle = Oracle(self.node)
        self.calls = []
        self.now = BEGINNING
        self.timer = None
        self.events = []
        self.planned = 0
        self.begin()

    def begin(self):
        self.call(Added(INTERFACE, OUR_ADDR))
        self.call(Switch(True, self.now, ROOM))
        for number, other in enumerate(self.others):
            self.plan(ALIVE_INTERVAL * number // len(self.others), self.join, other)
        self.plan(CHANGE_INTERVAL, self.commit)
        self.plan(CHANGE_INTERVAL + THEIR_CHANGE, self.change_line)
        self.plan(LEAVING, self.leave)

    def plan(self, delay, action, *arguments):
        """Events at the same time happen in the order in which they were planned."""
        self.planned += 1
        heappush(self.events, (self.now + delay, self.planned, action, arguments))

    def live(self, duration):
        end = self.now + duration
        while min(self.timer, self.events[0][0]) <= end:
            if self.timer <= self.events[0][0]:
                self.now = self.timer
                self.call(Tick(self.now, ROOM))
            else:
                self.now, _, action, arguments = heappop(self.events)
                action(*arguments)
        self.now = end

    def settled(self):
        """Whether each box is held, in the session and measured."""
        box = self.oracle.box
        measured = [peer.id for peer in box.peers if len(peer.offsets) == 20 and not peer.measuring]
        return sorted(measured) == sorted(other.node for other in self.others) and box.count == len(self.others)

    # ---- our box

    def call(self, call):
        outcome = self.oracle.call(call).outcome
        assert outcome.number == 0, f'refused: {call}'
        self.calls.append(call)
        for output in outcome.outputs:
            if isinstance(output, Timer):
                self.timer = output.time
            elif isinstance(output, Send):
                self.deliver(output)

    def deliver(self, send):
        """The others answer pings and follow a line whose beat origin is larger."""
        reading = wire.read(send.packet)
        if reading.kind == 'ping':
            asked = next(other for other in self.others if other.addr == send.to)
            self.plan(PONG_DELAY, self.answer, asked, send.packet)
        elif reading.kind == 'alive':
            self.line = max(self.line, Reader(reading.fields[b'tmln'], 0).line(), key=lambda line: line.beat)

    def commit(self):
        line, start_stop = self.oracle.box.state
        self.call(Commit(State(self.retuned(line, self.now), start_stop), self.now, ROOM))
        self.plan(CHANGE_INTERVAL, self.commit)

    def retuned(self, line, time):
        """The line with another tempo from that time on."""
        beat = line.beat + (time - line.time) * 1_000_000 // line.tempo
        return Line(60_000_000 // self.source.randrange(80, 161), beat, time)

    # ---- the others

    def hear(self, other, packet):
        self.call(Packet(INTERFACE, other.addr, packet, self.now, ROOM))

    def join(self, other):
        self.present.add(other)
        for number in range(PINGS):
            self.plan(PING_INTERVAL * (1 + number), self.ask, other, number)
        self.announce(other)

    def announce(self, other):
        if other in self.present:
            self.hear(other, self.alive_of(other))
            self.plan(ALIVE_INTERVAL, self.announce, other)

    def alive_of(self, other):
        return alive(other.node, self.line, STOPPED, self.session, other.addr)

    def ask(self, other, number):
        """A ping; all but the first have a shared time, which is that of the ping before."""
        self.hear(other, ping(self.now, self.now + LEAD - PING_INTERVAL if number else None))

    def answer(self, other, asked):
        """A pong that was written halfway between our ping and now."""
        shared = self.now - PONG_DELAY // 2 + LEAD + self.source.randint(-JITTER, JITTER)
        fields = {'session': session_bytes(self.session), 'time': signed_bytes(shared),
                  'echo': asked[wire.MEASUREMENT_HEAD:]}
        self.hear(other, wire.pong(fields))

    def measure(self, other):
        """Its alive, and its answers to as many pings as it takes, each of a time of its own."""
        self.hear(other, self.alive_of(other))
        for _ in range(SAMPLES):
            asked = ping(self.now)
            self.now += FLOOD_INTERVAL
            self.answer(other, asked)

    def change_line(self):
        """One of the others changes the tempo and says so at once; the rest say so in their next alives."""
        self.line = self.retuned(self.line, self.now + LEAD)
        teller = self.source.choice([other for other in self.others if other in self.present])
        self.hear(teller, self.alive_of(teller))
        self.plan(CHANGE_INTERVAL, self.change_line)

    def leave(self):
        leaver = self.source.choice(self.others)
        self.present.remove(leaver)
        self.hear(leaver, bye(leaver.node))
        self.plan(ABSENCE, self.join, leaver)
        self.plan(LEAVE_INTERVAL, self.leave)
