"""A chart of curves over the same places, as SVG text."""

from collections import namedtuple
from html import escape

Curve = namedtuple('Curve', 'name values')

WIDTH, HEIGHT = 640, 400
LEFT, RIGHT, TOP, BOTTOM = 60, 130, 60, 50
# How far apart names are at least.
NAME = 15
COLOURS = ['#1f77b4', '#7fb3d9', '#d62728']
STYLE = 'font-family="sans-serif" font-size="12" fill="#333"'


def drawn(title, note, places, curves):
    """The chart. Both axes begin at 0."""
    top = ceiling(max(max(curve.values) for curve in curves))
    parts = [text(LEFT, 24, title, 'font-weight="bold"'), text(LEFT, 42, note)]
    parts += grid(places, top)
    for colour, curve, height in zip(COLOURS, curves, heights(curves, top)):
        parts += line(colour, curve, places, top)
        parts.append(text(across(places[-1], places) + 8, height + 4, curve.name, f'style="fill:{colour}"'))
    head = f'<svg xmlns="http://www.w3.org/2000/svg" viewBox="0 0 {WIDTH} {HEIGHT}" width="{WIDTH}" height="{HEIGHT}">'
    return '\n'.join([head, '<rect width="100%" height="100%" fill="#fff"/>', *parts, '</svg>\n'])


def ceiling(value):
    """The next multiple of 100 above it."""
    return 100 * (int(value) // 100 + 1)


def across(place, places):
    return LEFT + (WIDTH - LEFT - RIGHT) * place / max(places)


def up(value, top):
    return HEIGHT - BOTTOM - (HEIGHT - TOP - BOTTOM) * value / top


def text(x, y, words, more=''):
    return f'<text x="{x:.1f}" y="{y:.1f}" {STYLE} {more}>{escape(str(words))}</text>'


def grid(places, top):
    """A line and a number for each hundred, and a number for each place."""
    for value in range(0, top + 1, 100):
        y = up(value, top)
        yield f'<path d="M{LEFT} {y:.1f}H{WIDTH - RIGHT}" stroke="#ddd"/>'
        yield text(LEFT - 8, y + 4, value, 'text-anchor="end"')
    for place in places:
        yield text(across(place, places), HEIGHT - BOTTOM + 18, place, 'text-anchor="middle"')


def heights(curves, top):
    """Where the name of each curve stands: at its end, or below another name that is there."""
    found = {}
    for curve in sorted(curves, key=lambda curve: -curve.values[-1]):
        found[curve.name] = max([up(curve.values[-1], top), *(height + NAME for height in found.values())])
    return [found[curve.name] for curve in curves]


def line(colour, curve, places, top):
    """A curve with its points."""
    points = [(across(place, places), up(value, top)) for place, value in zip(places, curve.values)]
    drawing = ' '.join(f'{x:.1f},{y:.1f}' for x, y in points)
    yield f'<polyline points="{drawing}" fill="none" stroke="{colour}" stroke-width="2"/>'
    yield from (f'<circle cx="{x:.1f}" cy="{y:.1f}" r="3" fill="{colour}"/>' for x, y in points)
