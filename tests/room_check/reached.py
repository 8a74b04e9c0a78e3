"""What the runs reach, read from the scenarios and from what is printed on them."""

import re
from collections import Counter

from room_check.cases import TOO_LONG
from room_check.comparing import reason

REASONS = (
    'unknown statement', 'a number is missing', 'a number is too large', 'not a number', 'a number is too small',
    'a box is missing', 'not a box', 'no such box', 'the box is there already', 'too many events', 'a second end',
    'unexpected word', 'the end is missing', TOO_LONG)

HAPPENINGS = (
    'boxes dropped', 'byes heard', 'elections of another session', 'commits', 'commits taken by another box',
    'previews', 'previews moved by more than 0', 'previews moved by 0', 'commits that report what was previewed right before',
    'boxes with two ports or more', 'packets lost', 'calls refused with 5', 'calls refused with 11',
    'calls refused with 11 where each box has one port', 'calls refused with 11 at a box with two ports or more',
    'pairs that stand at 0', 'pairs that stand apart', 'pairs in two sessions', 'pairs that do not hear each other')

# What the end of a printed line says by itself.
SIGNS = {
    'commits': re.compile(r' commits \d+ beats a minute$'),
    'previews': re.compile(r' previews \d+ beats a minute$'),
    'previews moved by more than 0': re.compile(r' would report .*, moved by [1-9]\d*$'),
    'previews moved by 0': re.compile(r' would report .*, moved by 0$'),
    'packets lost': re.compile(r' is lost$'),
    'calls refused with 5': re.compile(r' refused: 5$'),
    'calls refused with 11': re.compile(r' refused: 11$'),
    'pairs that stand at 0': re.compile(r' stand 0, 0, 0 millionths'),
    'pairs that stand apart': re.compile(r' stand (?!0, 0, 0 )\S+, \S+, \S+ millionths'),
    'pairs in two sessions': re.compile(r' are not in one session$'),
    'pairs that do not hear each other': re.compile(r' do not hear each other$'),
}

TIMED = re.compile(r' *(\d+)\.(\d{6}) s  (\w) (.*)')
DELAY = re.compile(rb'^ *delay +(\d+)', re.MULTILINE)
PORTS = re.compile(rb'^ *box +(\w) +shift +\d+ +ports +0*[2-4]\b', re.MULTILINE)
COUNT = re.compile(r'counts (\d+) others? in session (\w+)')
STATE = re.compile(r'reports session (\w+), ')
# A preview with the commit of the same time, box and tempo right behind it: the line that was previewed, and the one that is reported.
PREVIEWED = re.compile(
    r'^( *[\d.]+ s  \w) previews (\d+) beats a minute\n'
    r'\1 would report (.*), moved by -?\d+\n'
    r'\1 commits \2 beats a minute\n'
    r'\1 reports session \w, (.*)$', re.MULTILINE)

# A box that has been silent for this many microseconds can have been dropped.
NEARLY_SIX_SECONDS = 5_500_000


class Reach:
    def __init__(self):
        self.counts = Counter({name: 0 for name in (*HAPPENINGS, *REASONS)})
        self.broken = []

    def add(self, text, output):
        """Counts what one scenario reaches."""
        if bad := reason(output):
            self.counts[bad] += 1
            return
        told = output.decode()
        run = Run(int((DELAY.findall(text) or [0])[-1]))
        for line in told.splitlines():
            self.counts.update(name for name, sign in SIGNS.items() if sign.search(line))
            if found := TIMED.fullmatch(line):
                self.counts.update(run.happenings(int(found[1] + found[2]), found[3], found[4]))
        with_ports = PORTS.findall(text)
        self.counts['boxes with two ports or more'] += sum(f'{name.decode()} is switched on\n' in told for name in with_ports)
        self.counts['calls refused with 11 where each box has one port'] += 0 if with_ports else told.count(' refused: 11\n')
        self.counts['calls refused with 11 at a box with two ports or more'] += sum(
            told.count(f' {name.decode()} refused: 11\n') for name in with_ports)
        self.add_previews(told)

    def add_previews(self, told):
        """Counts the commits that report what was previewed right before, and keeps those that do not."""
        for at, _, previewed, reported in PREVIEWED.findall(told):
            if previewed == reported:
                self.counts['commits that report what was previewed right before'] += 1
            else:
                self.broken.append(f'{at} previewed {previewed}\n{at} reports   {reported}')

    def missed(self):
        return '\n'.join(f'  never reached: {name}' for name, count in self.counts.items() if not count)


class Run:
    """One run, line by line: when each box was last switched on or off, fell silent, or committed, and what it last told."""

    def __init__(self, delay):
        self.delay = delay
        self.times = {verb: {} for verb in ('is switched on', 'is switched off', 'is silent', 'commits')}
        self.counts = {}
        self.sessions = {}

    def happenings(self, time, name, told):
        """The names of what this line shows."""
        for verb, times in self.times.items():
            if told.startswith(verb):
                times[name] = time
        if told == 'is heard again':
            self.times['is silent'].pop(name, None)
        if found := COUNT.fullmatch(told):
            return self.counted(time, name, int(found[1]))
        if found := STATE.match(told):
            return self.reported(time, name, found[1])
        return []

    def counted(self, time, name, count):
        """A count that falls tells of a bye or of a box that is dropped."""
        fell = count < self.counts.get(name, 0)
        self.counts[name] = count
        if not fell or self.times['is switched off'].get(name) == time:
            return []
        if self.other_at('is switched off', time - self.delay, name):
            return ['byes heard']
        silent = self.times['is silent'].values()
        return ['boxes dropped'] if any(time - since > NEARLY_SIX_SECONDS for since in silent) else []

    def reported(self, time, name, session):
        moved = session != self.sessions.get(name, name) and self.times['is switched on'].get(name) != time
        self.sessions[name] = session
        taken = self.other_at('commits', time - self.delay, name)
        return ['elections of another session'] * moved + ['commits taken by another box'] * taken

    def other_at(self, verb, time, name):
        """Whether another box did this at that time."""
        return any(at == time for other, at in self.times[verb].items() if other != name)
