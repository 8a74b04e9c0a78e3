"""The files of worked examples and of differences: each case with what the Rust gives, stated of the definition."""

import re
import textwrap

from comparison.programs import ROOT
from definition_check.difference_cases import DIFFERENCES
from definition_check.example_cases import EXAMPLES
from definition_check.link_cases import LINK
from definition_check.value_cases import VALUE_CASES
from engine_runs.oracle import Oracle

# How long a line of a comment may be.
WIDTH = 160

# Modules with the names that a case may use; those that it does not use are left out.
MODULES = [
    ('Rattle.std.specs.Prelude', ['◌≡◌', 'refl', 'List', '[]', '◌∷◌', 'true', 'false', '◌++◌', 'map', 'pos', 'negsuc', 'Some', 'None']),
    ('Rattle.wire.specs.Layout', ['keys', 'measurement_kinds', 'measurement_head', 'byebye_bytes']),
    ('Rattle.model.specs.Engine', ['new']),
    ('Rattle.model.specs.Calls', ['Call']),
    ('Rattle.model.specs.Answer', ['kind', 'answer']),
    ('Rattle.model.specs.Preview', ['refused', 'given', 'preview']),
    ('Rattle.model.specs.Laws.Tools.Open', ['everything']),
    ('Rattle.model.specs.Laws.Tools.Scenes', [
        'at', 'node', 'line', 'start_stop', 'state', 'announces', 'in_session', 'with_line', 'with_start_stop', 'with_addr', 'zeros', 'pong',
        'pong_after', 'ticks', 'placed', 'on_at', 'off_at', 'commits_at', 'hears_at', 'node_led', 'last_outputs', 'states', 'timers',
        'messages', 'line_said', 'start_stop_said', 'destinations']),
]

# The same for cases of values.
VALUE_MODULES = [
    ('Rattle.std.specs.Prelude', ['◌≡◌', 'refl', 'true', 'false', 'pos', 'negsuc']),
    ('Rattle.std.specs.Float', ['nan', 'fin', 'binary64']),
    ('Rattle.std.specs.Float.Ieee', ['rem']),
    ('Rattle.timeline.specs.Session', [
        'default_state', 'beat_at_time', 'phase_at_time', 'time_at_beat', 'force_beat_at_time', 'request_beat_at_time', 'set_tempo']),
    ('Rattle.timeline.specs.Laws.Closed', ['at', 'decimal', 'both', 'everything']),
]


def used(modules, text):
    """The lines that bring in what a text uses of these modules, its comments aside."""
    words = set(re.findall(r'(?<![.\w])[^\s().,]+', re.sub(r'(?m)^--.*', '', text)))
    return ''.join(f'use {module}.{{{", ".join(named)}}}\n' for module, names in modules
                   if (named := [name for name in names if name.strip('◌') in words]))


def imports(text):
    return used(MODULES, text)


def comment(text):
    return ''.join(f'-- {line}\n' for line in textwrap.wrap(text, WIDTH - 3))


def answers(case):
    """The oracle's answers to what is asked of a case."""
    oracle = Oracle(case.node)
    last = [oracle.call(call.call) for call in case.calls][-1]
    return [question.answer(oracle.call(question.record) if question.record else last) for question in case.asked]


def claims(name, case):
    """What is asked of a case, with the oracle's answers, as statements."""
    box, outputs = f'node_led {case.node} {name}', f'last_outputs (new (node {case.node})) {name}'
    return [f'({question.text.format(box=box, outputs=outputs)} ≡ {answer})' for question, answer in zip(case.asked, answers(case))]


def listed(name, case):
    calls = '\n    ∷ '.join([call.text for call in case.calls] + ['[]'])
    return f'abbrev {name} : List Call\n{name} =\n    {calls}\n\n'


def stated(example):
    """An example: the lists of its calls, and one statement of all that is asked of them."""
    count = len(example.cases)
    names = [f'{example.name}_calls' + (f'_{place}' if count > 1 else '') for place in range(1, count + 1)]
    cases = list(zip(names, example.cases))
    made = [claim for name, case in cases for claim in claims(name, case)]
    lists = ''.join(listed(name, case) for name, case in cases)
    return '\n' + comment(example.comment) + lists + theorem(example.name, made, ['refl'] * len(made))


def theorem(name, made, proofs):
    proof = proofs[0] if len(proofs) == 1 else f'({", ".join(proofs)})'
    joined = '\n    × '.join(made)
    return f'pub {name} :\n    {joined}\nunfolding everything\n{name} = {proof}\n'


def stated_value(case):
    """A case of values: one statement of all that is asked."""
    asked = case.asked()
    made = [f'({said.text} ≡ {said.answer})' for said in asked]
    return '\n' + comment(case.comment) + theorem(case.name, made, [said.proof for said in asked])


def headed(first_line, brought_in, body):
    return comment(f'{first_line}: `tests/examples` writes this file.') + brought_in + body


def engine_text(first_line, examples):
    body = ''.join(map(stated, examples))
    return headed(first_line, imports(body), body)


def value_text(first_line, cases):
    body = ''.join(map(stated_value, cases))
    return headed(first_line, used(VALUE_MODULES, body), body)


CRATES = ROOT / 'crates'

# Each file with a function that makes its text.
FILES = {
    CRATES / 'model/specs/Laws/Examples.antt': lambda: engine_text(
        'Worked examples, run on the Rust and stated of the definitions', EXAMPLES),
    CRATES / 'model/specs/Laws/Differences.antt': lambda: engine_text(
        'Where the engine parts from the papers or from what the source says of itself, run on the Rust and stated of the '
        'definitions', DIFFERENCES),
    CRATES / 'model/specs/Laws/Link/Differences.antt': lambda: engine_text(
        "Where the engine parts from Link's documents or from what Link does, run on the Rust and stated of the definitions", LINK),
    CRATES / 'timeline/specs/Laws/Differences.antt': lambda: value_text(
        "Where the methods of a session's state part from Link's documents, run on the Rust and stated of the definitions", VALUE_CASES),
}
