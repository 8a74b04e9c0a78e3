"""Random inputs of `tempolist`: lists and files, right, wrong and damaged, and inputs of the greatest lengths."""

from comparison import smf
from comparison.tempo_list_reach import EDGES
from tempolist_check.answers import text
from tempolist_check.cases import LONGEST_INPUT, padded


def good_list(source):
    """A list that is accepted, of any size, with steps of every width."""
    beat, pairs = 0, []
    for _ in range(source.choice([0, 1, 2, 3, 8, 63, 64])):
        any_step = source.randrange(2 ** source.randrange(1, 29))
        beat += 1_000 * source.choice([*EDGES, any_step])
        pairs.append(smf.Pair(source.choice([1, 16_777_215, source.randrange(1, 16_777_216)]), beat))
    return pairs


def spoilt_list(source):
    """The same with one number changed, or one pair too many."""
    pairs = good_list(source) or [smf.Pair(500_000, 0)]
    at = source.randrange(len(pairs))
    tempo, beat = pairs[at]
    wrong_tempo = source.choice([0, -1, 16_777_216, 2 ** 63 - 1, -2 ** 63])
    wrong_beat = source.choice([beat + 1, -1_000, -beat - 1_000, beat + 268_435_456_000, 2 ** 63 - 1, -2 ** 63])
    pairs[at] = smf.Pair(*source.choice([(wrong_tempo, beat), (tempo, wrong_beat), (wrong_tempo, wrong_beat)]))
    return pairs if source.randrange(6) else pairs + [pairs[-1]] * (65 - len(pairs))


def damaged(source, data, alphabet):
    """One byte changed, dropped or put in, or the end cut off."""
    at = source.randrange(len(data) + 1)
    byte = bytes([source.choice(alphabet)])
    front, rest = data[:at], data[at + 1:]
    return source.choice([front + byte + rest, front + rest, front + byte + data[at:], front])


def random_inputs(source):
    good = good_list(source)
    yield text(good)
    yield text(good)[:-1]
    yield smf.file_of(good)
    yield text(spoilt_list(source))
    yield damaged(source, text(good), b'0123456789 -+\t\r\n\0Mx')
    yield damaged(source, text(spoilt_list(source)), b'0123456789 -\n')
    yield damaged(source, smf.file_of(good), range(256))
    yield smf.file_of(good) + bytes([source.randrange(256)])


def lengths(source):
    """Lists that are just as long as an input may be, or longer."""
    good = text(good_list(source)) or b'1 0\n'
    for size in (LONGEST_INPUT - 1, LONGEST_INPUT, LONGEST_INPUT + 1, LONGEST_INPUT + source.randrange(2, 5_000)):
        yield padded(good, size)
        yield (good * (size // len(good) + 1))[:size]
