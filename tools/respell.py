#!/usr/bin/env python3
"""Spells this repository's own definitions and lemmas as today's Rattle does: words joined by '_', modules in camel case.

usage: tools/respell.py           at the top of a checkout that port.py has turned: rewrites crates/ by respell.tsv beside this file
       tools/respell.py table DIR..   prints that table, worked out from such checkouts, and on standard error the names that fall together
       tools/respell.py pages FILE..  rewrites the names that stand in code spans of pages

A row of the table is an old name, a tab and the new one. What a library declares keeps its name in the files that take it from there, and so do the names
that the check makes for a function's proof, functions of src/, strings and the words of comments that are no code span."""

import os
import re
import subprocess
import sys

HERE = os.path.dirname(os.path.abspath(__file__))
WORD = re.compile(r'[^\s(){}.;,@"«»\[\]]+')
STRING = re.compile(r'"(?:[^"\\\n]|\\.)*"')
SPAN = re.compile(r'`[^`\n]+`')
PAGE_SPAN = re.compile(r'`(?:[^`\n]|\n(?!\n))+`')
BLOCK = re.compile(r'(^```.*?^```$)', re.MULTILINE | re.DOTALL)
DECLARED = re.compile(r'^\s*(?:pattern |unfoldable |abbrev |pub |axiom )*([^\s(){}.;,@"«»]+)(?: \{[^{}]*\})*(?: \([^()]*\))* :(?: |$)')
IMPORT = re.compile(r'^(?:pub |ghost )?use ([^\s{]+?)(?:\.\{([^}]*)\})?(?: as (\S+?))?;?$')
OWN_PATH = re.compile(r'Rattle\.(?!std\b|core\b)')
MODULES = re.compile(r'(?<![\w-])(Rattle\.\w+\.specs)((?:\.(?:laws|inner)\b)(?:\.[a-z]+\b(?=[.\s;]))*)')
BY_HAND = {'All-fit': 'AllFit', 'Read-so': 'ReadSo', 'Takes-none': 'TakesNone', 'Turned-down': 'TurnedDown', 'in-float': 'in_float_lem'}
# Words that a library declares and that our names use as plain ones.
PLAIN = {'code', 'fits', 'kept', 'low', 'none', 'not', 'size', 'some', 'zero'}


def texts(root, endings):
    for folder, folders, files in os.walk(os.path.join(root, 'crates')):
        folders[:] = sorted(f for f in folders if f != 'out')
        for name in sorted(files):
            if name.endswith(endings):
                yield os.path.join(folder, name)


def read(path):
    with open(path, encoding='utf-8', newline='') as file:
        return file.read()


def is_answer(path):
    return re.search(r'/proofs/.+/(Proof|Answers|Invariants)\.antt$', path) is not None


def parts(text, mark):
    """The text cut into code, strings and comments, each with its kind."""
    whole = re.compile(rf'({STRING.pattern})|((?<![^\s(){{}}.;,]){mark}[^\n]*)')
    at = 0
    for m in whole.finditer(text):
        yield 'code', text[at:m.start()]
        yield ('string' if m[1] else 'comment'), m[0]
        at = m.end()
    yield 'code', text[at:]


def from_libraries(text):
    """The names that a file takes from a library."""
    names = set()
    for line in text.split('\n'):
        m = IMPORT.match(line)
        if m and m[2] and not OWN_PATH.match(m[1]):
            names |= {n.strip().split(' as ')[-1] for n in m[2].split(',')}
    return names


def dashed(word):
    return '-' in word and re.search(r'[A-Za-z]', word) and not re.match(r'[-\d]', word) and '\\' not in word


def camel(word):
    return re.match(r'[a-z]+[A-Z]', word) or re.search(r'-[a-z]+[A-Z]', word)


def own_words(root):
    """The words of specs/ and of lemma files that are this repository's; those that a file of definitions declares, and those that a file of laws does."""
    words, definitions, lemmas, libraries = set(), set(), set(), set()
    for path in texts(root, '.antt'):
        text = read(path)
        lib = from_libraries(text)
        libraries |= lib
        is_law = '/specs/laws/' in path or '/proofs/' in path
        in_type = False
        for kind, part in parts(text, '--'):
            if kind != 'code':
                continue
            for line in part.split('\n'):
                if re.match(r'\S', line):
                    in_type = re.match(r'(?:pub )?(?:record|data) ', line) is not None
                m = IMPORT.match(line)
                if m:
                    if m[3] and dashed(m[3]):
                        words.add(m[3])
                    continue
                if is_answer(path):
                    continue
                m = DECLARED.match(line)
                if m and not is_law and not line.startswith(' '):
                    definitions.add(m[1])
                if m and is_law and not in_type:
                    lemmas.add(m[1])
                words |= {w for w in WORD.findall(line) if (dashed(w) or camel(w)) and w not in lib}
    return words, definitions, lemmas, libraries


def snake(word):
    word = re.sub(r'(?<=[a-z0-9])([A-Z])', lambda m: '_' + m[1].lower(), word)
    return word.replace('-', '_')


def spelled(word, known, libraries):
    """A dash stays behind a function of a library and before a name that is known; any other becomes an underscore."""
    if word in BY_HAND:
        return BY_HAND[word]
    steps = [snake(s) for s in word.split('-')]
    out, at, was_known = '', 0, False
    while at < len(steps):
        end = next((e for e in range(len(steps), at, -1) if '_'.join(steps[at:e]) in known), None)
        name = '_'.join(steps[at:end or at + 1])
        out += ('' if not out else '-' if was_known and end else '_') + name
        at, was_known = end or at + 1, end is not None and name in libraries - PLAIN
    return out


def table(roots):
    words, definitions, lemmas, libraries = set(), set(), set(), set()
    for root in roots:
        found = own_words(root)
        words, definitions, lemmas, libraries = words | found[0], definitions | found[1], lemmas | found[2], libraries | found[3]
    known = {snake(d) for d in definitions if len(d) > 2} | {l for l in libraries if re.fullmatch(r'[a-z_]{3,}', l)}
    rows = {w: spelled(w, known, libraries) if w in BY_HAND or w in lemmas - definitions else snake(w) for w in words}
    taken = {}
    for old in sorted(rows):
        taken.setdefault(rows[old], []).append(old)
    for new, olds in sorted(taken.items()):
        if len(olds) > 1:
            print(f'{new}: {olds}', file=sys.stderr)
    for root in roots:
        for path in texts(root, '.antt'):
            text = read(path)
            code = ' '.join(p for k, p in parts(text, '--') if k == 'code')
            here = set(WORD.findall(code))
            bare = set(re.findall(r'(?<![^\s(){};,@])' + WORD.pattern, code))
            for word in sorted(here & set(rows)):
                if rows[word] != word and rows[word] in bare and word in bare:
                    print(f'{path}: {word} and {rows[word]}', file=sys.stderr)
    for old in sorted(rows):
        print(f'{old}\t{rows[old]}')


def rows_of_table():
    with open(os.path.join(HERE, 'respell.tsv'), encoding='utf-8') as file:
        return dict(line.rstrip('\n').split('\t') for line in file)


def modules(text):
    def turn(m):
        return m[1] + re.sub(r'\.([a-z])', lambda n: '.' + n[1].upper(), m[2])
    return MODULES.sub(turn, text)


def words_turned(text, rows, lib):
    return WORD.sub(lambda m: rows.get(m[0], m[0]) if m[0] not in lib else m[0], text)


def turned(path, text, rows):
    mark = '--' if path.endswith('.antt') else '//'
    lib = from_libraries(text)
    out = []
    for kind, part in parts(text, mark):
        if kind == 'code':
            part = words_turned(modules(part), rows, lib)
        elif kind == 'comment':
            part = SPAN.sub(lambda m: words_turned(modules(m[0]), {f'`{k}`': f'`{v}`' for k, v in rows.items()} | rows, lib), part)
        out.append(part)
    text = ''.join(out)
    if '/specs/' in path and path.endswith('.antt'):
        beside = {os.path.splitext(f)[0] for f in os.listdir(folder_of(path)) if re.fullmatch(r'[a-z]+(\.antt)?', f)} if os.path.isdir(folder_of(path)) else set()
        text = re.sub(r'(?m)^((?:pub )?mod )([a-z]+)$', lambda m: m[1] + (m[2].capitalize() if m[2] in beside else m[2]), text)
    return text


def folder_of(path):
    """The folder in which the modules stand that a file declares."""
    return os.path.dirname(path) if path.endswith('/Lib.antt') else path[: -len('.antt')]


def move_modules(root):
    """Files and folders of specs/ in lower case get a capital, deepest first."""
    for folder, folders, files in os.walk(os.path.join(root, 'crates'), topdown=False):
        if '/specs' not in folder or '/out/' in folder + '/':
            continue
        for name in folders + files:
            if re.fullmatch(r'[a-z]+(\.antt)?', name):
                subprocess.run(['git', 'mv', os.path.join(folder, name), os.path.join(folder, name.capitalize())], check=True)


def pages(paths):
    rows = rows_of_table()
    for path in paths:
        text = read(path)
        # (a span may go on in the next line, and a block of code has none)
        new = ''.join(part if part.startswith('```') else PAGE_SPAN.sub(
            lambda m: '`' + re.sub(r"[\w'₀-₉≤<ℤ◌-]+", lambda w: rows.get(w[0], w[0]), m[0][1:-1]) + '`', part) for part in BLOCK.split(text))
        new = re.sub(r'specs/(laws|inner)((?:/[a-z]+\b)*)', lambda m: 'specs/' + m[1].capitalize() + re.sub(r'/([a-z])', lambda n: '/' + n[1].upper(), m[2]), new)
        if new != text:
            with open(path, 'w', encoding='utf-8', newline='') as file:
                file.write(new)


def main(arguments):
    if arguments[:1] == ['table']:
        return table(arguments[1:])
    if arguments[:1] == ['pages']:
        return pages(arguments[1:])
    if arguments:
        sys.exit(__doc__)
    rows = rows_of_table()
    for path in list(texts('.', ('.antt', '.rt'))):
        text = read(path)
        new = turned(path, text, rows)
        if new != text:
            with open(path, 'w', encoding='utf-8', newline='') as file:
                file.write(new)
    move_modules('.')


main(sys.argv[1:])
