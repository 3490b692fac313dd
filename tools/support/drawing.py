"""Sectors as strips of colours: the SVG of `picture`, and the colours of the page of `every_cut`."""
from html import escape
from itertools import groupby

from .sectors import KINDS

COLOURS = {
    "E": "#1f4e9c", "D": "#7fb2ee", "e": "#8a8a8a", "d": "#cfcfcf", "x": "#d62f2f", "~": "#f3a683",
    "H": "#5b3a8c", "C": "#b8860b", "G": "#2e8b57", "F": "#b9a7d6", ".": "#ffffff",
}
WIDTH, LEFT, BAR, LINE = 640, 84, 26, 17
FONT = "font-family='ui-monospace, Menlo, Consolas, monospace' font-size='12' fill='#222222'"


def runs(kinds):
    """The letters of a sector in runs of equal ones: where each begins, its length, its letter."""
    found, at = [], 0
    for kind, group in groupby(kinds):
        length = len(list(group))
        found.append([at, length, kind])
        at += length
    return found


def rect(x, y, width, height, kind, title=""):
    stroke = " stroke='#999999' stroke-width='0.5'" if kind in ".d" else ""
    inner = f"<title>{escape(title)}</title>" if title else ""
    return f"<rect x='{x:.2f}' y='{y}' width='{width:.2f}' height='{height}' fill='{COLOURS[kind]}'{stroke}>{inner}</rect>"


def text(x, y, words):
    return f"<text x='{x}' y='{y}'>{escape(words)}</text>"


def strip(sector, y):
    """One sector: its number, its bar, its state."""
    scale = WIDTH / len(sector.kinds)
    parts = [text(8, y + 17, f"sector {sector.number}")]
    parts += [rect(LEFT + at * scale, y, length * scale, BAR, kind, f"{KINDS[kind]}: bytes {at} to {at + length - 1}")
              for at, length, kind in runs(sector.kinds)]
    parts.append(f"<rect x='{LEFT}' y='{y}' width='{WIDTH}' height='{BAR}' fill='none' stroke='#444444'/>")
    return parts + [text(LEFT + WIDTH + 10, y + 17, sector.state)]


def legend(kinds, y):
    """The colours of the drawing with their words, three a row."""
    parts = []
    for place, kind in enumerate(kind for kind in KINDS if kind in kinds):
        x, top = LEFT + place % 3 * 225, y + place // 3 * 20
        parts += [rect(x, top, 14, 14, kind), text(x + 20, top + 11, KINDS[kind])]
    return parts


def svg(views, most=24):
    """The areas as one SVG. Each sector is a strip with a line for each slot or record under it, at most so many a sector."""
    parts, y = [], 12
    for view in views:
        parts.append(text(8, y + 12, view.area.title()))
        y += 24
        for sector in view.sectors:
            parts += strip(sector, y)
            y += BAR + 4
            lines = sector.lines if len(sector.lines) <= most else sector.lines[:most] + [(sector.lines[most][0], ".. and more")]
            for at, words in lines:
                y += LINE
                parts.append(text(LEFT, y - 2, f"{at:5}  {words}").replace("<text ", "<text xml:space='preserve' "))
            y += 8
    kinds = {kind for view in views for sector in view.sectors for kind in sector.kinds}
    parts += legend(kinds, y + 6)
    height, width = y + 12 + 20 * (1 + (len(kinds) - 1) // 3), LEFT + WIDTH + 200
    head = f"<svg xmlns='http://www.w3.org/2000/svg' width='{width}' height='{height}' viewBox='0 0 {width} {height}'>"
    return "\n".join([head, f"<rect width='{width}' height='{height}' fill='#ffffff'/>", f"<g {FONT}>", *parts, "</g>", "</svg>"]) + "\n"
