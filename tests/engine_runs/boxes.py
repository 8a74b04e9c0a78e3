"""What the engine holds and puts out, read from the oracle's dumps and answers. Every number is big-endian."""

from collections import namedtuple

from comparison.packet_calls import Fields

Line = namedtuple('Line', 'tempo beat time')
StartStop = namedtuple('StartStop', 'playing beat time')
State = namedtuple('State', 'line start_stop')
Interface = namedtuple('Interface', 'id addr')
Peer = namedtuple('Peer', 'id session line start_stop last_seen addr offsets ping_times next_ping timeouts measuring')
Box = namedtuple('Box', 'node enabled session offset state interfaces peers count next_broadcast')

Send = namedtuple('Send', 'interface to packet')
StateChanged = namedtuple('StateChanged', 'state')
CountChanged = namedtuple('CountChanged', 'count')
Timer = namedtuple('Timer', 'time')

# What a preview gives in place of outputs: the state, and the micro-beats that its beat origin is moved by.
Given = namedtuple('Given', 'state moved')

# What becomes of a call: the number that it answers, the outputs in order, the bytes of the answer.
Outcome = namedtuple('Outcome', 'number outputs answer')


def line_bytes(line):
    return b''.join(map(signed_bytes, line))


def start_stop_bytes(start_stop):
    return bytes([start_stop.playing]) + signed_bytes(start_stop.beat) + signed_bytes(start_stop.time)


def signed_bytes(value):
    return value.to_bytes(8, 'big', signed=True)


class Reader(Fields):
    """The numbers, lines and boxes of an answer, taken in order."""

    def number(self, length):
        return int.from_bytes(self.take(length), 'big')

    def signed(self):
        return int.from_bytes(self.take(8), 'big', signed=True)

    def flag(self):
        return self.take(1) != b'\x00'

    def maybe(self, take):
        return take() if self.flag() else None

    def node(self):
        return self.number(8)

    def line(self):
        return Line(self.signed(), self.signed(), self.signed())

    def start_stop(self):
        return StartStop(self.flag(), self.signed(), self.signed())

    def state(self):
        return State(self.line(), self.start_stop())

    def interface(self):
        return Interface(self.number(4), self.take(6))

    def peer(self):
        return Peer(
            id=self.node(), session=self.maybe(self.node), line=self.maybe(self.line),
            start_stop=self.maybe(self.start_stop), last_seen=self.signed(), addr=self.take(6),
            **self.samples(), next_ping=self.signed(), timeouts=self.number(4), measuring=self.flag())

    def samples(self):
        """The samples, and as many ping times after them."""
        offsets = self.several(self.signed)
        return {'offsets': offsets, 'ping_times': [self.signed() for _ in offsets]}

    def several(self, take):
        return [take() for _ in range(self.number(1))]

    def box(self):
        """A dump."""
        node, enabled, session, offset, state = self.node(), self.flag(), self.node(), self.signed(), self.state()
        next_broadcast, count = self.signed(), self.number(4)
        interfaces, peers = self.several(self.interface), self.several(self.peer)
        return Box(node, enabled, session, offset, state, interfaces, peers, count, next_broadcast)

    def outcome(self, tested=True):
        """The answer of a call with a buffer, which was tested or not."""
        number, answer = self.number(1), self.take(self.number(2))
        if tested and not self.flag():
            raise ValueError('the oracle wrote past its answer')
        return Outcome(number, outputs(answer) if number == 0 else [], answer)

    def preview(self):
        """The answer of a preview."""
        number = self.number(1)
        return Outcome(number, [] if number else [Given(self.state(), self.signed())], b'')

    def content(self, kind, length):
        if kind == 1:
            return Send(self.number(4), self.take(6), self.take(length - 10))
        return {2: lambda: StateChanged(self.state()), 3: lambda: CountChanged(self.number(4)),
                4: lambda: Timer(self.signed())}[kind]()


def outputs(answer):
    """The outputs that an answer's bytes spell."""
    taken = Reader(answer, 0)
    count, total = taken.number(2), taken.number(2)
    kinds = list(taken.take(count))
    lengths = [taken.number(2) for _ in kinds]
    read = [taken.content(kind, length) for kind, length in zip(kinds, lengths)]
    if sum(lengths) != total or taken.at != len(answer):
        raise ValueError("the oracle's answer has other sizes than it says")
    return read
