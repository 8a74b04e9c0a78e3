"""What commits reach that are taken."""

from engine_runs.numbers import toward_zero, wrap, wraps

MILLION = 1_000_000

LISTED = [
    'commit of the same state', 'commit of another line only', 'commit of another start-stop state only',
    'commit of both', 'commit while disabled', 'beat origin kept', 'beat origin moved',
    'beat origin moved above a neighbour', 'beat origin equal to the largest', 'beat origin one above the largest',
    'largest beat origin wraps', 'beat shift wraps', 'time shift over 64 bits', 'time shift cut toward zero',
    'time origin wraps', 'start-stop time kept', 'start-stop time moved', 'start-stop time moved above a neighbour',
    'largest start-stop time wraps']


def kinds(step):
    asked, held = step.call.state, step.before.state
    if asked == held:
        yield 'commit of the same state'
        return
    if not step.before.enabled:
        yield 'commit while disabled'
    changed = asked.line != held.line, asked.start_stop != held.start_stop
    yield {(True, False): 'commit of another line only', (False, True): 'commit of another start-stop state only',
           (True, True): 'commit of both'}[changed]
    if changed[0]:
        yield from line_kinds(step.before, asked.line)
    if changed[1]:
        yield from start_stop_kinds(step.before, asked.start_stop)


def in_session(box):
    return [peer for peer in box.peers if peer.session == box.session]


def line_kinds(box, asked):
    ours = box.state.line.beat
    known = max([ours, *(peer.line.beat for peer in in_session(box) if peer.line)])
    if asked.beat == known + 1:
        yield 'beat origin one above the largest'
    if asked.beat > known:
        yield 'beat origin kept'
        return
    yield 'beat origin moved' + (' above a neighbour' if known > ours else '')
    if asked.beat == known:
        yield 'beat origin equal to the largest'
    yield from shift_kinds(asked, known)


def shift_kinds(asked, known):
    beats = wrap(known + MILLION) - asked.beat
    micros = wrap(beats) * asked.tempo
    if wraps(known + MILLION):
        yield 'largest beat origin wraps'
    if wraps(beats):
        yield 'beat shift wraps'
    if wraps(toward_zero(micros, MILLION)):
        yield 'time shift over 64 bits'
    if micros < 0 and micros % MILLION:
        yield 'time shift cut toward zero'
    if wraps(asked.time + wrap(toward_zero(micros, MILLION))):
        yield 'time origin wraps'


def start_stop_kinds(box, asked):
    ours = wrap(box.state.start_stop.time + box.offset)
    known = max([ours, *(peer.start_stop.time for peer in in_session(box) if peer.start_stop)])
    if wrap(asked.time + box.offset) > known:
        yield 'start-stop time kept'
        return
    yield 'start-stop time moved' + (' above a neighbour' if known > ours else '')
    if wraps(known + 1):
        yield 'largest start-stop time wraps'
