"""What can be compared, by topic."""

from collections import namedtuple

from comparison import whole_tempos
from comparison.packet_calls import PACKET_CALLS
from comparison.packet_reach import READER, PacketReach
from comparison.tempo_list_calls import TEMPO_LIST_CALLS
from comparison.tempo_list_reach import TempoListReach
from comparison.value_calls import VALUE_CALLS
from comparison.value_reach import ValueReach
from comparison.write_back import test_write_back

# A topic: its name, what its calls are called, the calls, what counts their reach, how many calls are
# generated from each seed, the fewest that there must be of some calls, a further test of our answers to a script,
# and records that are compared, or stand in the stored sample, beside the generated ones.
Topic = namedtuple('Topic', 'name title calls reach calls_of_seed fewest further chosen sampled', defaults=[None, list, list])

WRITERS = [first for first in PACKET_CALLS if first != READER]

VALUES = Topic(
    'values', 'value calls', VALUE_CALLS, ValueReach,
    # The first are enough for every exponent.
    calls_of_seed={1: 100_000, 2: 70_000, 3: 70_000},
    fewest={'calls': (VALUE_CALLS, 200_000)},
    chosen=whole_tempos.chosen, sampled=whole_tempos.sampled)

PACKETS = Topic(
    'packets', 'packet calls', PACKET_CALLS, PacketReach,
    # Of six calls five go to the reader. The first are enough for every sweep.
    calls_of_seed={1: 96_000, 2: 72_000, 3: 72_000},
    fewest={'packets read': ([READER], 200_000), 'packets written or refused': (WRITERS, 40_000)})

TEMPOS = Topic(
    'tempos', 'calls on tempo lists', TEMPO_LIST_CALLS, TempoListReach,
    calls_of_seed={1: 40_000, 2: 32_000, 3: 32_000},
    fewest={'calls': (TEMPO_LIST_CALLS, 100_000)},
    further=test_write_back)

TOPICS = {topic.name: topic for topic in (VALUES, PACKETS, TEMPOS)}
