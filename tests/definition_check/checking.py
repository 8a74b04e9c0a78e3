"""The prover, on statements beside a copy of the definition."""

import re
import shutil
import subprocess
from pathlib import Path

from comparison.programs import ROOT

# The crate of the definition, its theorems, those that rest on them, and the modules that open the definition for computing, by their folders.
CRATE = 'model'
LAWS = f'crates/{CRATE}/specs/Laws'
PROOFS = f'crates/{CRATE}/proofs'
OPENING = {'Tools': 'Open', 'Calls': 'Stages'}
REFUSED = re.compile(r'^.*\.antt:\d+:\d+: error: (?:`([\w-]+)`)?')
PROVED = re.compile(r'^logic=proved ', re.MULTILINE)
COMPUTED = re.compile(r'^  computed as far as they go, (.*)$', re.MULTILINE)


class Scratch:
    """A copy of the crates. Of the definition's theorems it has none but the statements."""

    def __init__(self, folder):
        self.folder = Path(folder)
        shutil.copy(ROOT / 'crates.txt', self.folder)
        shutil.copytree(ROOT / 'crates', self.folder / 'crates', ignore=shutil.ignore_patterns('out', 'must-fail'))
        self.keep_the_opening()

    def keep_the_opening(self):
        laws = self.folder / LAWS
        kept = {part: (laws / part / f'{name}.antt').read_text() for part, name in OPENING.items()}
        shutil.rmtree(laws)
        shutil.rmtree(self.folder / PROOFS)
        for part, text in kept.items():
            (laws / part).mkdir(parents=True)
            (laws / part / f'{OPENING[part]}.antt').write_text(text)
            (laws / f'{part}.antt').write_text(f'-- What opens the definitions.\npub mod {OPENING[part]}\n')

    def check(self, texts):
        """The complaints about statements, given by file: each under the statement's name, or under ''."""
        laws = self.folder / LAWS
        for name, text in texts.items():
            (laws / f'{name}.antt').write_text(text)
        modules = ''.join(f'pub mod {name}\n' for name in (*OPENING, *texts))
        laws.with_suffix('.antt').write_text(f'-- Statements, and what they are made with.\n{modules}')
        ran = subprocess.run(['rt', 'check'], cwd=self.folder / 'crates' / CRATE, text=True,
                             stdout=subprocess.PIPE, stderr=subprocess.STDOUT)
        for name in texts:
            (laws / f'{name}.antt').unlink()
        return complaints(ran)


def complaints(ran):
    """The prover's errors by statement."""
    found, name = {}, None
    for row in ran.stdout.splitlines():
        begins = REFUSED.match(row)
        if begins:
            name = begins[1] or ''
        if begins or name is not None and row.startswith('  '):
            found[name] = found.get(name, '') + row + '\n'
        else:
            name = None
    if not found and (ran.returncode or not PROVED.search(ran.stdout)):
        found[''] = ran.stdout
    return found


def difference(complaint):
    """Where the definition parts from the Rust, as the prover says it."""
    computed = COMPUTED.search(complaint)
    return computed[1] if computed else complaint[:2_000]
