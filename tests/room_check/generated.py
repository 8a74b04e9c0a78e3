"""Small random scenarios, and damage done to them."""

NAMES = 'ABCDEFGHIJKLMNOP'
DELAYS = (0, 1, 350, 4_000, 30_000, 100_000)
SHIFTS = (10, 2_000_000, 100_000_000_000_000)
VERBS = ('on', 'off', 'silent', 'heard', 'tempo', 'tempo', 'preview', 'preview')
# What a changed byte becomes: mostly one that a scenario is made of.
BYTES = b' \n#0159APQabinot\t\r\x00\xff'


def scenario(source):
    """One to six boxes over some seconds. The `at` lines stand in any order, `delay` and `end` anywhere."""
    names = source.sample(NAMES, source.randint(1, 6))
    end = source.choice((source.randrange(2_000), source.randrange(8_000, 20_000)))
    events = [event(source, source.randrange(1_500), 'on', name) for name in names]
    for _ in range(source.randrange(10)):
        events.append(event(source, source.randrange(end + 100), source.choice(VERBS), source.choice(names)))
    source.shuffle(events)
    lines = [declaration(source, name) for name in names] + events
    for line in (f'end {end}', *source.choices([f'delay {delay}' for delay in DELAYS], k=source.randrange(3))):
        lines.insert(source.randrange(len(lines) + 1), line)
    return '\n'.join(lines).encode() + b'\n' * source.randrange(2)


def declaration(source, name):
    ports = f' ports {source.randint(1, 4)}' if source.randrange(3) == 0 else ''
    return f'box {name} shift {source.randrange(source.choice(SHIFTS) + 1)}{ports}'


def event(source, time, verb, name):
    """An `at` line, or more where it is a preview."""
    if verb == 'preview':
        return previewed(source, time, name)
    tempo = f' {source.randint(20, 999)}' if verb == 'tempo' else ''
    return f'at {time} {verb} {name}{tempo}'


def previewed(source, time, name):
    """A preview; some have another commit right before them, above whose line they are moved, and some have their own right behind."""
    before = [event(source, time, 'tempo', name)] * source.randrange(2)
    own = event(source, time, 'tempo', name)
    return '\n'.join([*before, own.replace('tempo', 'preview'), *[own] * source.randrange(2)])


def damaged(source, text):
    """The scenario after one or two mishaps."""
    for _ in range(source.randint(1, 2)):
        text = source.choice((byte_changed, line_dropped, line_repeated, word_dropped))(source, text)
    return text


def byte_changed(source, text):
    at = source.randrange(len(text) + 1)
    return text[:at] + bytes([source.choice(BYTES)]) + text[at + 1:]


def line_dropped(source, text):
    return dropped(source, text, b'\n')


def word_dropped(source, text):
    return dropped(source, text, b' ')


def line_repeated(source, text):
    lines = text.split(b'\n')
    lines.insert(source.randrange(len(lines)), source.choice(lines))
    return b'\n'.join(lines)


def dropped(source, text, between):
    parts = text.split(between)
    del parts[source.randrange(len(parts))]
    return between.join(parts)
