"""The comparison of a topic's calls: generated scripts, what they reach, damaged scripts, the stored sample."""

import os
from concurrent.futures import ThreadPoolExecutor

from comparison import damage
from comparison.programs import ORACLE_REPLAY, ROOT, SAMPLE, generate, run, run_in_pieces
from comparison.records import CALLS, records, titled
from comparison.verdict import complaint, differing

RANDOM_STRINGS = 2_000
DAMAGE_SEED = 4
# Damage is done to short records with short answers, chosen from this many.
DAMAGED_FROM = 2_000
DAMAGED_SIZE = 130


def compare(topic, ours, report, extent):
    reach = topic.reach()
    for title, script in scripts(topic, extent):
        oracle = run(ORACLE_REPLAY, script)
        answered = run(ours, script)
        report.test(title, complaint(script, answered, oracle))
        report.test(f'{title}: what the oracle answers', oracle_complaint(script, oracle, reach))
        if topic.further:
            topic.further(script, answered.output, ours, report)
    show_reach(reach)
    demand_reach(topic, reach, report, extent)
    test_damage(topic, ours, report, extent)
    report.test("the stored sample has the oracle's answers, and each call and kind", sample_complaint(topic))


def scripts(topic, extent):
    """The scripts to compare, each with its title."""
    if chosen := topic.chosen():
        yield f'{len(chosen):,} chosen {topic.title}', b''.join(chosen)
    for seed, count in topic.calls_of_seed.items():
        count = extent.count(count)
        yield f'{count:,} {topic.title}, seed {seed}', generate(topic.name, seed, count)


def oracle_complaint(script, oracle, reach):
    """The oracle must answer each record up to the end, as the scope says where that is worked out here too."""
    end = answer_end = 0
    for number, record in enumerate(records(script)):
        reach.add(record)
        end, answer_end = record.end, record.answer_end
        answer = oracle.output[record.answer_start:answer_end]
        expected = CALLS[record.first].answer(record.fields)
        if expected not in (None, answer):
            return differing(number, record, {'the scope': expected, 'oracle': answer})
    if (end, answer_end) != (len(script), len(oracle.output)):
        return 'the oracle did not answer the whole script'
    return ''


def show_reach(reach):
    for first, count in reach.calls.items():
        print(f'  {count:9,} calls of {titled(first)}')
    for name, count in reach.kinds.items():
        print(f'  {count:9,} of {name}')
    for name, size in reach.sizes.items():
        print(f'  {size - len(reach.left[name]):9,} of {size:,} {name}')


def demand_reach(topic, reach, report, extent):
    for name, (calls, fewest) in topic.fewest.items():
        total = sum(reach.calls[first] for first in calls)
        extent.demand(report, f'at least {fewest:,} {name}', '' if total >= fewest else f'  only {total:,}')
    extent.demand(report, 'each call tried', missed(reach.calls_missed()))
    extent.demand(report, 'each kind reached', missed(reach.kinds_missed()))
    extent.demand(report, 'each case of each sweep reached', missed(reach.cases_missed()))


def missed(names):
    return '\n'.join(f'  never reached: {name}' for name in names)


def test_damage(topic, ours, report, extent):
    script = short_script(topic)
    damaged = {
        'scripts cut at every byte': damage.cuts(script),
        'unknown first bytes': damage.unknown_first_bytes(script),
        'random byte strings': damage.random_strings(DAMAGE_SEED, RANDOM_STRINGS, script, topic.calls),
        'lengths at their bounds and over': damage.bounds(script),
    }
    for name, scripts in damaged.items():
        if scripts:
            test_each(ours, name, extent.some(scripts), report)
    pieces = run_in_pieces(ours, script, 7)
    report.test('a script in small pieces', complaint(script, pieces, run(ORACLE_REPLAY, script)))


def short_script(topic):
    """Each call once: of the short records of a generated script, the longest that is answered by most bytes."""
    script = generate(topic.name, DAMAGE_SEED, DAMAGED_FROM)
    longest = {}
    for record in records(script):
        sizes = record.answer_end - record.answer_start, record.end - record.start
        if max(sizes) <= DAMAGED_SIZE and sizes > longest.get(record.first, ((0, 0), b''))[0]:
            longest[record.first] = sizes, script[record.start:record.end]
    return b''.join(longest[first][1] for first in topic.calls)


def test_each(ours, name, scripts, report):
    """One test over many short scripts; it ends at the first complaint."""
    def one(script):
        return complaint(script, run(ours, script), run(ORACLE_REPLAY, script))
    with ThreadPoolExecutor(os.cpu_count()) as pool:
        first = next((text for text in pool.map(one, scripts) if text), '')
        pool.shutdown(cancel_futures=True)
    report.test(f'{len(scripts):,} {name}', first)


def sample_complaint(topic):
    stored = SAMPLE / 'stdin', SAMPLE / 'stdout'
    if not all(file.exists() for file in stored):
        return f'no stored sample in {SAMPLE.relative_to(ROOT)}; make it with: tests/sample'
    script, answers = (file.read_bytes() for file in stored)
    if run(ORACLE_REPLAY, script).output != answers:
        return 'make it anew with: tests/sample'
    reach = topic.reach()
    for record in records(script):
        if record.first in topic.calls:
            reach.add(record)
    return missed(reach.calls_missed() + reach.kinds_missed())
