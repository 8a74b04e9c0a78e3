"""The definitions of the crates' specs and of the theorems in proofs/Laws, and which others each of them cites."""

import re
from pathlib import Path

HEADER = re.compile(r'^( *)((?:pub|abbrev|unfoldable|record|data) +)*(«?[^\s(){}«»:]+»?)(?: .*)? :(?: |$)')
KIND = re.compile(r'^ *(?:pub +)?(record|data) +([^\s{}]+) ?.*\bwhere$')
IMPORT = re.compile(r'^(?:ghost )?use Rattle\.(\w+)\.(?:specs|(proofs))\.([\w.]+?)(?:\.\{([^}]*)\}| as (\w+));?$', re.MULTILINE)

# What the name of a module of proofs/Laws ends in, since one of specs/Laws may have the same.
PROVED = '@proofs'
SPLIT = re.compile(r'[\s(){}\[\];,λ]+')


def imports(text):
    """What a file brings in: names with their (crate, module, name), and other names of whole modules."""
    names, modules = {}, {}
    for crate, proved, module, listed, alias in IMPORT.findall(text):
        module += PROVED if proved else ''
        if alias:
            modules[alias] = (crate, module)
        for name, _, other in (word.strip().partition(' as ') for word in listed.split(',') if word.strip()):
            names[other or name] = (crate, module, name)
    return names, modules


def cited(text, names, modules, here):
    """The (crate, module, name) of each word of a text that is brought in, or defined in the file itself."""
    found = set()
    for word in SPLIT.split(text):
        first, _, rest = word.strip('«»').partition('.')
        if first in names:
            found.add(names[first])
        elif first in here:
            found.add(here[first])
        elif first in modules:
            found.add((*modules[first], rest))
    return found


def blocks(text):
    """Each definition's name with its text; the fields of a record and the constructors of a type belong to it."""
    found, name, inside = [], None, None
    for line in text.splitlines():
        if line.startswith('use ') or line.lstrip().startswith('--') or not line.strip():
            continue
        indent = len(line) - len(line.lstrip())
        if inside is not None and indent <= inside:
            inside = None
        kind, header = KIND.match(line), HEADER.match(line)
        if kind and inside is None:
            name, inside = kind.group(2), indent
            found.append((name, [line]))
        elif header and inside is None and re.search(r'\w', header.group(3)) and header.group(3) not in ('module', 'use', 'let', 'in', 'λ'):
            name = header.group(3).strip('«»')
            found.append((name, [line]))
        elif name is not None and not line.lstrip().startswith('module '):
            found[-1][1].append(line)
    return [(name, '\n'.join(lines)) for name, lines in found]


def statement(name, text):
    """The signature of a definition, or the whole of a record or type: what stands before its clauses."""
    if KIND.match(text):
        return text
    lines = text.splitlines()
    clause = re.compile(rf'^ *(?:unfolding |{re.escape(name)}(?: |$))')
    ends = [number for number, line in enumerate(lines[1:], 1) if clause.match(line)]
    return '\n'.join(lines[:ends[0] if ends else len(lines)])


def parts(name, text):
    """The names under which a definition is cited: its own, and those of its fields and constructors."""
    if not KIND.match(text):
        return [name]
    rest = [line.split(' : ')[0].replace('pub ', '').split() for line in text.splitlines()[1:] if ' : ' in line]
    return [name, *(word for words in rest for word in words)]


class Definitions:
    """All definitions, by (crate, module, name): what each cites, what the public ones state, and the files' texts."""

    def __init__(self, root):
        self.cites, self.states, self.owner, self.files, self.public = {}, {}, {}, {}, set()
        for path in sorted((root / 'crates').glob('*/specs/**/*.antt')):
            crate = path.relative_to(root / 'crates').parts[0]
            module = '.'.join(path.relative_to(root / 'crates' / crate / 'specs').with_suffix('').parts)
            self.read(crate, module, path)
        for path in sorted((root / 'crates').glob('*/proofs/Laws/**/*.antt')):
            crate = path.relative_to(root / 'crates').parts[0]
            module = '.'.join(path.relative_to(root / 'crates' / crate / 'proofs').with_suffix('').parts)
            self.read(crate, module + PROVED, path)

    def read(self, crate, module, path):
        text = Path(path).read_text()
        self.files[crate, module] = text
        names, modules = imports(text)
        here, found = {}, blocks(text)
        for name, body in found:
            for part in parts(name, body):
                here[part] = (crate, module, name)
                self.owner[crate, module, part] = (crate, module, name)
        for name, body in found:
            self.cites.setdefault((crate, module, name), set()).update(cited(body, names, modules, here))
            if ' pub ' in f' {body.splitlines()[0]}':
                self.public.add((crate, module, name))
                self.states.setdefault((crate, module, name), set()).update(cited(statement(name, body), names, modules, here))

    def reached(self, roots):
        """All that the roots stand on."""
        todo, seen = list(roots), set()
        while todo:
            place = self.owner.get(todo.pop())
            if place and place not in seen:
                seen.add(place)
                todo += self.cites[place]
        return seen
