"""What packets reach that are taken: alives, byes, pings, pongs and unreadable ones."""

from comparison import wire
from engine_runs.boxes import Send
from engine_runs.numbers import half, wrap, wraps

LISTED = [
    'packet while disabled', 'unreadable packet', 'own alive', 'own response', 'own alive or response with 16 held',
    'alive of a new neighbour', 'alive of a new neighbour that says nothing', 'alive with nothing new',
    'alive with another line only', 'alive with another start-stop state only', 'alive with another session',
    'alive with another session, samples held', 'alive that takes its session back', 'alive with mep4',
    'alive from another address', 'alive in front of another neighbour', 'bye of a neighbour', 'bye of nobody',
    'bye of our own', 'ping', "pong's shared time wraps", 'pong of nobody', 'pong, two neighbours at its address',
    'pong without a session', 'pong with the held session', 'pong with another session, measured',
    'pong with another session, not measured', 'pong, not measured',
    'first sample', 'sample after others', '20th sample', 'sample by one shared time', 'sample by two shared times',
    'odd negative sum halved', 'sample whose sums wrap', 'sample by two whose sums wrap']


def kinds(step):
    if not step.before.enabled:
        return ['packet while disabled']
    reading = wire.read(step.call.bytes)
    if reading.refusal:
        return ['unreadable packet']
    return OF_KIND[reading.kind](step, reading)


def node_of(step):
    return int.from_bytes(step.call.bytes[12:20], 'big')


def peer_of(box, node):
    return next((peer for peer in box.peers if peer.id == node), None)


def elects(step):
    """Whether a bye or a pong calls for an election."""
    reading = wire.read(step.call.bytes) if hasattr(step.call, 'bytes') else None
    if not reading or reading.refusal:
        return False
    if reading.kind == 'bye':
        return peer_of(step.before, node_of(step)) is not None
    return reading.kind == 'pong' and not {'first sample', '20th sample'}.isdisjoint(pong_kinds(step, reading))


# ---- alives and byes

def alive_kinds(step, reading):
    node = node_of(step)
    was, peer = peer_of(step.before, node), peer_of(step.after, node)
    if node == step.before.node:
        yield f'own {reading.kind}'
        if len(step.before.peers) == 16:
            yield 'own alive or response with 16 held'
        return
    if b'mep4' in reading.fields:
        yield 'alive with mep4'
    if was:
        yield from news_kinds(was, peer)
        return
    yield 'alive of a new neighbour'
    sent = [wire.read(output.packet).kind for output in step.outcome.outputs if isinstance(output, Send)]
    if 'response' not in sent:
        yield 'alive of a new neighbour that says nothing'
    if any(other.id > node for other in step.before.peers):
        yield 'alive in front of another neighbour'


def news_kinds(was, peer):
    changed = was.line != peer.line, was.start_stop != peer.start_stop, was.session != peer.session
    name = {(False, False, False): 'alive with nothing new', (True, False, False): 'alive with another line only',
            (False, True, False): 'alive with another start-stop state only'}
    if changed in name:
        yield name[changed]
    if changed[2]:
        yield 'alive that takes its session back' if peer.session is None else 'alive with another session'
        if was.offsets:
            yield 'alive with another session, samples held'
    if was.addr != peer.addr:
        yield 'alive from another address'


def bye_kinds(step, _):
    node = node_of(step)
    if node == step.before.node:
        yield 'bye of our own'
    yield 'bye of a neighbour' if peer_of(step.before, node) else 'bye of nobody'


# ---- pings and pongs

def ping_kinds(step, _):
    yield 'ping'
    if wraps(step.call.now + step.before.offset):
        yield "pong's shared time wraps"


def pong_kinds(step, reading):
    there = [peer for peer in step.before.peers if peer.addr == step.call.sender]
    if not there:
        yield 'pong of nobody'
        return
    if len(there) > 1:
        yield 'pong, two neighbours at its address'
    peer = there[0]
    moved = yield from session_kinds(peer, reading.fields.get(b'sess'))
    if not peer.measuring:
        yield 'pong, not measured'
        return
    samples = 1 if moved else len(peer.offsets) + 1
    yield {1: 'first sample', 20: '20th sample'}.get(samples, 'sample after others')
    yield from sample_kinds(reading.fields, step.call.now)


def session_kinds(peer, session):
    """The kind of a pong by its session; gives whether that replaces the held one."""
    if session is None:
        yield 'pong without a session'
        return False
    if int.from_bytes(session, 'big') == peer.session:
        yield 'pong with the held session'
        return False
    yield f'pong with another session, {"" if peer.measuring else "not "}measured'
    return True


def sample_kinds(fields, now):
    b2, a2, *b1 = [int.from_bytes(fields[key], 'big', signed=True)
                   for key in (b'__gt', b'__ht', b'_pgt') if key in fields]
    halved = [now + a2]
    sums = [now + a2, b2 - half(wrap(now + a2))]
    for earlier in b1:
        sums += [b2 + earlier, half(wrap(b2 + earlier)) - a2]
        sums.append(wrap(sums[1]) + wrap(sums[3]))
        halved += [sums[2], sums[4]]
    yield f'sample by {"two shared times" if b1 else "one shared time"}'
    if any(map(wraps, sums)):
        yield 'sample by two whose sums wrap' if b1 else 'sample whose sums wrap'
    if any(wrap(value) < 0 and value % 2 for value in halved):
        yield 'odd negative sum halved'


OF_KIND = {'alive': alive_kinds, 'response': alive_kinds, 'bye': bye_kinds, 'ping': ping_kinds, 'pong': pong_kinds}
