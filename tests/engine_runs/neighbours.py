"""What becomes of neighbours that others come and go around, and of what they no longer say."""

from comparison import wire
from engine_runs.calls import Packet

MOST_NEIGHBOURS, MOST_SAMPLES = 16, 20

FULL = '16 neighbours with 20 samples each'
INSERTED = 'neighbour with samples behind one that is inserted'
LEFT = 'neighbour with samples behind one that says bye'
LAPSED = 'neighbour with samples behind one that lapses'
BETWEEN = 'neighbour with samples between two that lapse'
GONE = {name: f'{said} gone after it was there'
        for name, said in (('session', 'session'), ('line', 'line'), ('start_stop', 'start-stop state'))}

LISTED = [FULL, INSERTED, LEFT, LAPSED, BETWEEN, *GONE.values()]


def kinds(step, lapsed):
    """Of a call that was taken, in which the neighbours `lapsed` went since they were not seen."""
    before, after = ({peer.id: peer for peer in box.peers} for box in (step.before, step.after))
    stayed = [(before[peer.id], peer) for peer in step.after.peers if peer.id in before]
    sampled = [peer.id for was, peer in stayed if was.offsets and was.offsets == peer.offsets]
    gone = {peer.id for peer in lapsed}
    for node in sampled:
        yield from kinds_around(node, after.keys() - before.keys(), left(step, before.keys() - after.keys()), gone)
    for was, peer in stayed:
        yield from (GONE[name] for name in GONE if getattr(was, name) is not None and getattr(peer, name) is None)
    if len(after) == MOST_NEIGHBOURS and all(len(peer.offsets) == MOST_SAMPLES for peer in after.values()):
        yield FULL


def left(step, missing):
    """Of those that are missing, the one that said bye."""
    if not isinstance(step.call, Packet) or wire.read(step.call.bytes).kind != 'bye':
        return set()
    return missing & {int.from_bytes(step.call.bytes[12:20], 'big')}


def kinds_around(node, inserted, left, lapsed):
    for name, others in ((INSERTED, inserted), (LEFT, left), (LAPSED, lapsed)):
        if any(other < node for other in others):
            yield name
    if any(other < node for other in lapsed) and any(other > node for other in lapsed):
        yield BETWEEN
