"""What scripts of tempo lists reach: edges, counts, refusals alone and at once, rooms, files and what is wrong with them."""

from comparison import smf
from comparison.reach import Reach
from comparison.tempo_list_calls import TEMPO_LIST_CALLS, WRITE

# The deltas at which a quantity gets one byte more, on both sides, and the most.
EDGES = [0, 1, 127, 128, 16_383, 16_384, 2_097_151, 2_097_152, 268_435_455]
PLACES = ['first', 'later']

WIDTHS = [f'written: delta {delta:,}, {place}' for delta in EDGES for place in PLACES]
COUNTS = [f'written: {count} pairs' for count in (0, 1, 63, 64)] + ['8: 65 pairs', '8: over 65 pairs']
TEMPOS = [f'{name}, {place}' for place in PLACES for name in
          ('written: tempo 1', 'written: tempo 16,777,215', '8: tempo 0', '8: tempo 16,777,216', '8: tempo -1',
           '8: tempo right in its low 24 bits')]
ORIGINS = [f'9: beat origin {name}, {place}' for place in PLACES for name in
           ('negative', 'off a tick', 'too far', 'one tick too far')] + ['9: beat origin below its forerunner, later']
AT_ONCE = ['8 alone', '9 alone', '7 alone', '8 and 9', '8 and 9, the beat origin before the tempo', '8 and 7', '9 and 7',
           '8, 9 and 7', '8 for the count, and 9', '8 for the count, and 7', '8 for the count, 9 and 7']
ROOMS = [f'room {name}' for name in ("of the file's size", 'a byte too small', 'a byte to spare', 'of 0 bytes')]

READ = [f'read: {count} pairs' for count in (0, 1, 63, 64)] + ['read: delta over two bytes']
WRONG = [f'10: {wrong}' for wrong in (
    'empty', 'heads cut short', 'no MThd', 'another header length', 'another format', 'another number of tracks',
    'another division', 'no MTrk', 'length too small', 'length too large', 'a second track', 'no end of track',
    'a delta with a leading 80', 'a delta of five bytes', 'track breaks off in a delta', 'another event',
    'track breaks off in an event', 'tempo 0', 'a 65th pair', 'bytes behind the end of track',
    'an end of track with another delta')]
DAMAGE = [f'one byte {name}' for name in ('changed: accepted', 'changed: refused', 'dropped: refused', 'put in: refused')]


def spaced(ticks, tempos):
    """Pairs so many ticks apart."""
    beat, pairs = 0, []
    for delta, tempo in zip(ticks, tempos):
        beat += delta * smf.MICRO_BEATS_PER_TICK
        pairs.append(smf.Pair(tempo, beat))
    return pairs


# The file of eight pairs whose deltas are each side of each edge, and the largest file: damaged at every place, cut to every length.
EIGHT = smf.file_of(spaced([0, *EDGES[2:]], range(400_000, 480_000, 10_000)))
LARGEST_PAIRS = spaced([smf.MOST_TICKS] * smf.MOST_PAIRS, [16_777_215] * smf.MOST_PAIRS)
LARGEST = smf.file_of(LARGEST_PAIRS)

LARGEST_ROOMS, EMPTY_ROOMS = 'rooms for the largest file', 'rooms for the empty list'
PREFIXES = {EIGHT: 'prefixes of a file of eight pairs', LARGEST: 'prefixes of the largest file'}
DAMAGED = {EIGHT: 'bytes of a file of eight pairs changed, dropped or put in',
           LARGEST: 'bytes of the largest file changed, dropped or put in'}


def same_front(one, other):
    """How many bytes at the front are the same."""
    pairs = enumerate(zip(one, other))
    return next((place for place, (a, b) in pairs if a != b), min(len(one), len(other)))


def damaged_at(file, whole):
    """How one byte of the whole file was damaged, and where; of equal bytes side by side the last stands for all."""
    at = same_front(file, whole)
    if len(file) == len(whole) and file != whole and file[at + 1:] == whole[at + 1:]:
        return 'changed', at
    if len(file) == len(whole) - 1 and file[at:] == whole[at + 1:]:
        return 'dropped', at
    if len(file) == len(whole) + 1 and file[at + 1:] == whole[at:]:
        return 'put in', at
    return None


SWEEPS = {LARGEST_ROOMS: range(len(LARGEST) + 2), EMPTY_ROOMS: range(smf.SMALLEST_FILE + 2)}
for whole in (EIGHT, LARGEST):
    every = range(len(whole))
    SWEEPS[PREFIXES[whole]] = range(len(whole) + 1)
    SWEEPS[DAMAGED[whole]] = {('changed', place) for place in every} | {('put in', place) for place in range(len(whole) + 1)}
    SWEEPS[DAMAGED[whole]] |= {damaged_at(whole[:place] + whole[place + 1:], whole) for place in every}


class TempoListReach(Reach):
    def __init__(self):
        kinds = WIDTHS + COUNTS + TEMPOS + ORIGINS + AT_ONCE + ROOMS + READ + WRONG + DAMAGE
        super().__init__(TEMPO_LIST_CALLS, kinds, SWEEPS)

    def kinds_of(self, record):
        found = writing_kinds(record.fields) if record.first == WRITE else reading_kinds(record.fields)
        return [name for name in found if name in self.kinds]

    def cases_of(self, record):
        return writing_cases(record.fields) if record.first == WRITE else reading_cases(record.fields)


# ---- lists written

def writing_kinds(fields):
    count, pairs = fields['list']
    tempos, origins = smf.bad_tempos(pairs), list(smf.origin_faults(pairs))
    yield from at_once(count > smf.MOST_PAIRS, tempos, origins, fields)
    if fields['number'] == 8:
        yield '8: 65 pairs' if count == 65 else '8: over 65 pairs' if count > 65 else ''
        yield from map(tempo_kind, [(place, pairs[place].tempo) for place in tempos])
    elif fields['number'] == 9:
        yield from origin_kinds(pairs, origins)
    elif fields['number'] == 0:
        yield f'written: {count} pairs'
        yield from (f'written: delta {delta:,}, {place_name(place)}' for place, delta in enumerate(smf.deltas(pairs)))
        yield from (f'written: tempo {pair.tempo:,}, {place_name(place)}' for place, pair in enumerate(pairs))
    if fields['number'] in (0, 7):
        yield room_kind(fields['room'], len(fields['file']))


def place_name(place):
    return PLACES[place > 0]


def tempo_kind(found):
    place, tempo = found
    if tempo in (0, -1, 16_777_216):
        return f'8: tempo {tempo:,}, {place_name(place)}'
    return f'8: tempo right in its low 24 bits, {place_name(place)}' if tempo % 2**24 else ''


def origin_kinds(pairs, faults):
    """The first fault counts: behind it the forerunner is a wrong one."""
    place, fault = faults[0]
    yield f'9: beat origin {fault}, {place_name(place)}'
    if fault == 'too far' and smf.deltas(pairs)[place] == smf.MOST_TICKS + 1:
        yield f'9: beat origin one tick too far, {place_name(place)}'


def at_once(too_many, tempos, origins, fields):
    """All reasons to refuse that a call has. A room that is too small for every file is too small for a bad list."""
    size = len(fields['file']) or smf.SMALLEST_FILE
    eight = '8 for the count' if too_many and not tempos else '8' if too_many or tempos else ''
    reasons = [name for name in (eight, '9' if origins else '', '7' if fields['room'] < size else '') if name]
    if len(reasons) == 1:
        yield f'{reasons[0][0]} alone'
    elif reasons:
        front = ', '.join(reasons[:-1])
        joined = ', and ' if eight == '8 for the count' and len(reasons) == 2 else ' and '
        yield front + joined + reasons[-1]
    if reasons == ['8', '9'] and tempos and origins[0][0] < tempos[0]:
        yield '8 and 9, the beat origin before the tempo'


def room_kind(room, size):
    names = {0: "of the file's size", -1: 'a byte too small', 1: 'a byte to spare'}
    return f'room {names.get(room - size, "of 0 bytes" if not room else "of another size")}'


def writing_cases(fields):
    count, pairs = fields['list']
    if pairs == LARGEST_PAIRS and count == smf.MOST_PAIRS:
        yield LARGEST_ROOMS, fields['room']
    if not count:
        yield EMPTY_ROOMS, fields['room']


# ---- files read

def reading_kinds(fields):
    reading, file = fields['reading'], fields['file']
    if reading.wrong:
        yield f'10: {reading.wrong}'
    else:
        yield f'read: {len(reading.pairs)} pairs'
        if any(delta > 16_383 for delta in smf.deltas(reading.pairs)):
            yield 'read: delta over two bytes'
    for whole in (EIGHT, LARGEST):
        if damage := damaged_at(file, whole):
            yield f'one byte {damage[0]}: {"refused" if reading.wrong else "accepted"}'


def reading_cases(fields):
    file = fields['file']
    for whole in (EIGHT, LARGEST):
        if whole.startswith(file):
            yield PREFIXES[whole], len(file)
        if damage := damaged_at(file, whole):
            yield DAMAGED[whole], damage
