"""How an election's walk comes out, from the scope's words, to tell what a call reached."""

from collections import namedtuple

from engine_runs.numbers import LEAST, median, wrap, wraps

# The session that leads in the end, its offset, and what came about with each neighbour.
Walk = namedtuple('Walk', 'session offset events')

BOUND, STEP = 500_000, 500

EVENTS = [
    'won by time', 'won by time at 500,001', 'lost by time', 'lost by time at -500,001',
    'won by smaller id', 'won by smaller id at 500,000', 'won by smaller id at -500,000',
    'won by smaller id at the smallest number', 'lost by larger id', 'lost by larger id at 500,000', 'lead wraps',
    'offset readopted', 'offset readopted at 501 apart', 'offset readopted over a difference that wraps',
    'offset kept', 'offset kept at 500 apart', 'offset kept at the smallest number apart',
    'offset kept, the session is our own']


def walked(box, peers, now):
    """The walk over these neighbours, from a box's session and offset."""
    session, offset, events = box.session, box.offset, []
    for peer in peers:
        if peer.session is None or not peer.offsets:
            continue
        theirs = median(peer.offsets)
        if peer.session == session:
            taken, event = met_own(session == box.node, offset, theirs)
        else:
            lead = wrap(now + theirs) - wrap(now + offset)
            taken, event = met_foreign(peer.session < session, wrap(lead))
            events += ['lead wraps'] if wraps(lead) else []
        events.append(event)
        if taken:
            session, offset = peer.session, theirs
    return Walk(session, offset, events)


def size(value):
    """As it wraps: that of the smallest number is itself."""
    return wrap(abs(value))


def met_own(ours, offset, theirs):
    apart = size(wrap(offset - theirs))
    if ours:
        return False, 'offset kept, the session is our own'
    if apart <= STEP:
        return False, 'offset kept' + at(apart, {STEP: '500 apart', LEAST: 'the smallest number apart'})
    if wraps(offset - theirs):
        return True, 'offset readopted over a difference that wraps'
    return True, 'offset readopted' + at(apart, {STEP + 1: '501 apart'})


def met_foreign(smaller, ahead):
    if ahead > BOUND:
        return True, 'won by time' + at(ahead, {BOUND + 1: '500,001'})
    if size(ahead) > BOUND:
        return False, 'lost by time' + at(ahead, {-BOUND - 1: '-500,001'})
    if not smaller:
        return False, 'lost by larger id' + at(ahead, {BOUND: '500,000'})
    return True, 'won by smaller id' + at(ahead, {BOUND: '500,000', -BOUND: '-500,000', LEAST: 'the smallest number'})


def at(value, names):
    return f' at {names[value]}' if value in names else ''
