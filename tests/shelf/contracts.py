"""What the contracts of functions cite."""

import re
from .definitions import cited, imports

FUNCTION = re.compile(r'^ *(pub |pub\(crate\) )?fn (\w+)')
CONTRACT = re.compile(r'^ *(?:ensures|requires)(?: \w+)? \{(.*)\};?$')
MEMBER = re.compile(r'^ *ghost (\w+) = \{(.*)\};$')
CLAUSE = re.compile(r' *(?:ensures|requires)\b')
IMPL = re.compile(r'^impl(?:<[^>]*>)? ([\w:]+)(?:<[^>]*>)?( for (\w+))?')


def joined(lines):
    """The lines, each clause on one."""
    clause = None
    for line in lines:
        line = line if clause is None else f'{clause} {line.strip()}'
        clause = line if CLAUSE.match(line) and not CONTRACT.match(line) else None
        if clause is None:
            yield line
    if clause is not None:
        yield clause


def contracts(path):
    """Each function of a file: whether it is public, its type if it hangs on one, its name, and the text of its contract. The methods of a
    trait's impl are as public as the trait, and so are the ghost members that it gives."""
    found, owner, is_trait = [], None, False
    for line in joined(path.read_text().splitlines()):
        impl, function, contract, member = (shape.match(line) for shape in (IMPL, FUNCTION, CONTRACT, MEMBER))
        if line.startswith('}'):
            owner, is_trait = None, False
        if impl:
            owner, is_trait = impl.group(3) or impl.group(1), bool(impl.group(2))
        elif function:
            found.append([function.group(1) == 'pub ' or is_trait, owner, function.group(2), ''])
        elif member and is_trait:
            found.append([True, owner, member.group(1), member.group(2)])
        elif contract and found:
            found[-1][3] += contract.group(1) + '\n'
        elif CLAUSE.match(line):
            raise ValueError(f'{path}: a clause that does not end: {line}')
    return found


def roots(root, crate, is_public):
    """What the contracts of a crate's public functions cite, where `is_public` says which of its functions are."""
    found = set()
    for path in sorted((root / 'crates' / crate / 'src').glob('*.rt')):
        names, modules = imports(path.read_text())
        for public, owner, name, text in contracts(path):
            if public and is_public(owner or name):
                found |= cited(text, names, modules, {})
    return found
