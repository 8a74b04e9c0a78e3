"""A run in the making: the oracle's engine, the time, and the calls so far."""

from itertools import repeat

from engine_runs.boxes import State
from engine_runs.calls import Commit, Manner, Packet, Preview, Switch, Tick
from engine_runs.numbers import LATEST, SMALLEST_ROOM
from engine_runs.oracle import Oracle

SILENCE = 6_000_000
INTERFACES = [0, 1, 2, 3, 7, 2**32 - 1]
NODES = [*range(1, 21), *range(10, 21), 0, 2**63, 2**64 - 1]
BEGINNINGS = [0, 1, 1_000, 5_000_000, 10**9, 10**15 - 20_000_000]
LITTLE = [0, 0, 1, 7, 999, 20_000, 49_999, 50_000, 50_001]


class Enough(Exception):
    """The run has as many calls as it was to have, previews aside."""


class World:
    """In a wild run numbers are often at the ends of their range."""

    def __init__(self, source, calls, node=None, manners=repeat(Manner())):
        self.source = source
        self.left = calls
        self.wild = source.random() < 0.25
        self.manners = manners
        self.oracle = Oracle(source.choice(NODES) if node is None else node, next(manners))
        self.now = source.choice(BEGINNINGS)
        self.steps = []

    @property
    def box(self):
        return self.oracle.box

    def call(self, call):
        if not self.left:
            raise Enough
        self.left -= 1
        return self.made(call)

    def made(self, call):
        self.steps.append(self.oracle.call(call, next(self.manners)))
        return self.steps[-1]

    # ---- the time

    def wait(self, micros):
        self.now = min(max(self.now + micros, 0), LATEST)

    def wait_until(self, time):
        self.wait(time - self.now)

    def pass_time(self):
        """Time goes on by little, to when something is due, or by much; now and then it goes back."""
        chance = self.source.random()
        if chance < 0.6:
            self.wait(self.source.choice(LITTLE))
        elif chance < 0.9:
            self.wait_until(self.source.choice(self.due_times()) + self.source.choice((-1, 0, 0, 1)))
        elif chance < 0.95:
            self.wait(self.source.choice((250_000, 1_000_000, 3_000_000)))
        else:
            self.wait(-self.source.choice((1, 50_000, 300_000, 7_000_000)))

    def due_times(self):
        peers = self.box.peers
        pings = [peer.next_ping for peer in peers if peer.measuring]
        silences = [peer.last_seen + SILENCE for peer in peers][:1]
        return [self.box.next_broadcast, self.box.next_broadcast, *pings, *silences]

    # ---- calls at that time

    def room(self):
        return self.source.choice((SMALLEST_ROOM, SMALLEST_ROOM, SMALLEST_ROOM + 1, 8_192))

    def interface(self):
        held = [interface.id for interface in self.box.interfaces]
        return self.source.choice([*held, *held, *held, *INTERFACES] if held else INTERFACES)

    def tick(self):
        return self.call(Tick(self.now, self.room()))

    def preview(self, state, now=None):
        return self.made(Preview(state, self.now if now is None else now))

    def commit(self, line, start_stop, chance=0.3):
        """Now and then right after its preview."""
        state = State(line, start_stop)
        if self.source.random() < chance:
            self.preview(state)
        return self.call(Commit(state, self.now, self.room()))

    def foretold(self, line, start_stop):
        """A commit that always has its preview before it."""
        return self.commit(line, start_stop, 1)

    def switch(self, on):
        return self.call(Switch(on, self.now, self.room()))

    def hear(self, packet, sender):
        return self.call(Packet(self.interface(), sender, packet, self.now, self.room()))
