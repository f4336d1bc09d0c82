"""Draws figures as SVG, for tests/pictures and tests/gate-times. tests/module_tests tests it."""
import os
import time

from tree import ROOT

COLOURS = ("#0969da", "#bc4c00", "#1a7f37", "#8250df")
DARK, GREY, FAINT = "#1f2328", "#57606a", "#d0d7de"
WIDTH, HEIGHT = 640, 368
LEFT, RIGHT, TOP, BOTTOM = 64, 616, 72, 320


def machine():
    """How many processors there are, and the day."""
    return f"{os.cpu_count()} processors, {time.strftime('%d-%b-%Y').upper()}"


def text_at(x, y, text, anchor="start", colour=DARK):
    return f'<text x="{x:.0f}" y="{y:.0f}" text-anchor="{anchor}" fill="{colour}">{text}</text>\n'


def box(x, y, width, colour):
    return f'<rect x="{x:.1f}" y="{y:.0f}" width="{width:.1f}" height="10" fill="{colour}"/>\n'


def legend(names, colours, left, y):
    """The names of the colours, in a row."""
    parts, x = [], left
    for name, colour in zip(names, colours):
        parts += [box(x, y - 9, 10, colour), text_at(x + 15, y, name)]
        x += 36 + 6.5 * len(name)
    return parts


def write(name, parts, height=HEIGHT):
    """Writes a picture to docs/."""
    with open(os.path.join(ROOT, "docs", name), "w", encoding="utf-8") as file:
        file.write(f'<svg xmlns="http://www.w3.org/2000/svg" viewBox="0 0 {WIDTH} {height}" ')
        file.write('font-family="sans-serif" font-size="13">\n')
        file.write(f'<rect width="{WIDTH}" height="{height}" fill="#ffffff"/>\n{"".join(parts)}</svg>\n')


def ticks(most):
    """Some five round numbers from 0 to the first that is not below this one."""
    step = next(base * 10**power for power in range(-3, 9) for base in (1, 2, 5) if base * 10**power * 5 >= most)
    count = next(count for count in range(1, 7) if count * step >= most)
    return [round(step * number, 3) for number in range(count + 1)]


def frame(title, across, up, columns, rows):
    """The title, the axes with their words, and a faint line for each tick."""
    parts = [text_at(LEFT, 20, f"{title} ({machine()})"), text_at(LEFT, 60, up, colour=GREY)]
    parts.append(text_at((LEFT + RIGHT) / 2, HEIGHT - 10, across, "middle", GREY))
    for number in columns:
        parts.append(text_at(LEFT + (RIGHT - LEFT) * number / columns[-1], BOTTOM + 18, f"{number:,g}", "middle", GREY))
    for number in rows:
        y = BOTTOM - (BOTTOM - TOP) * number / rows[-1]
        parts.append(text_at(LEFT - 8, y + 4, f"{number:,g}", "end", GREY))
        parts.append(f'<line x1="{LEFT}" x2="{RIGHT}" y1="{y:.0f}" y2="{y:.0f}" stroke="{FAINT}"/>\n')
    return parts


def curve(points, colour, columns, rows):
    """The points of one row of figures, joined."""
    places = [
        (LEFT + (RIGHT - LEFT) * x / columns[-1], BOTTOM - (BOTTOM - TOP) * y / rows[-1]) for x, y in points
    ]
    joined = " ".join(f"{x:.1f},{y:.1f}" for x, y in places)
    line = f'<polyline points="{joined}" fill="none" stroke="{colour}" stroke-width="2"/>\n'
    return [line, *(f'<circle cx="{x:.1f}" cy="{y:.1f}" r="3.5" fill="{colour}"/>\n' for x, y in places)]


def write_curves(name, title, across, up, curves):
    """Writes a picture of curves: the name of each, and its points."""
    columns = ticks(max(x for points in curves.values() for x, _ in points))
    rows = ticks(max(y for points in curves.values() for _, y in points))
    parts = frame(title, across, up, columns, rows) + legend(curves, COLOURS, LEFT, 40)
    for colour, points in zip(COLOURS, curves.values()):
        parts += curve(points, colour, columns, rows)
    write(name, parts)
