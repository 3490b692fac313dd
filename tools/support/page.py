"""The page of `every_cut`: one file with the script, the flash at each loss and after each mount, and a slider over the units.

The page keeps each look of a sector as the difference to the look before, so that a page of a thousand losses stays small.
"""
import concurrent.futures
import json
import os
from html import escape

from .drawing import COLOURS
from .images import read_image
from .sectors import KINDS, view_of

HERE = os.path.dirname(os.path.abspath(__file__))


def look(path):
    """The look of each sector of an image: a letter for each unit, the lines of words, the state."""
    image = read_image(path)
    return [
        ["".join(sector.kinds[::area.bank.unit]), dict(sector.lines), sector.state]
        for area in image.areas for sector in view_of(area, image).sectors
    ]


def looks_of(paths):
    """The looks of many images. Each file is read once."""
    files = list(dict.fromkeys(paths))
    with concurrent.futures.ProcessPoolExecutor() as pool:
        found = dict(zip(files, pool.map(look, files, chunksize=8)))
    return [found[path] for path in paths]


class Texts:
    """Texts that come often. Each is kept once, and a number stands for it."""

    def __init__(self):
        self.all, self.places = [], {}

    def place(self, text):
        if text not in self.places:
            self.places[text] = len(self.all)
            self.all.append(text)
        return self.places[text]


def paints(old, new):
    """The units that changed, in runs: where each begins, how many units, the new letter."""
    found, at = [], 0
    while at < len(new):
        if old[at] == new[at]:
            at += 1
            continue
        start, kind = at, new[at]
        while at < len(new) and new[at] == kind and old[at] != kind:
            at += 1
        found.append([start, at - start, kind])
    return found


class Frames:
    """The looks of one sector in their order, each as the difference to the one before."""

    def __init__(self, texts, units):
        self.texts, self.frames, self.last, self.places = texts, [], ("." * units, {}, ""), {}

    def place(self, look_of_one):
        units, lines, state = look_of_one
        key = (units, tuple(sorted(lines.items())), state)
        if key not in self.places:
            self.places[key] = len(self.frames)
            gone = [[at, -1] for at in self.last[1] if at not in lines]
            come = [[at, self.texts.place(words)] for at, words in lines.items() if self.last[1].get(at) != words]
            self.frames.append([paints(self.last[0], units), gone + come, self.texts.place(state)])
            self.last = (units, lines, state)
        return self.places[key]


def names_of(state):
    """A state as names with values, for a log too."""
    if isinstance(state, list):
        return {f"record {place:4}": body for place, body in enumerate(state, 1)}
    return {} if state is None else state["names"] | ({"(active area)": state["active"]} if state["active"] else {})


def changes(texts, old, new):
    """What to set or drop in the old names to get the new ones."""
    names = sorted({*old, *new})
    return [[texts.place(name), texts.place(new[name]) if name in new else -1] for name in names if old.get(name) != new.get(name)]


def areas_of(path):
    image, areas = read_image(path), []
    for area in image.areas:
        areas.append({"title": area.title(), "sectors": len(area.sectors), "size": area.bank.size, "unit": area.bank.unit})
    return areas


def line_data(texts, line, first, count):
    before, after = names_of(line.before), names_of(line.after)
    return {
        "n": line.number, "answer": line.answer, "units": line.units, "first": first, "count": count,
        "before": changes(texts, {}, before), "after": changes(texts, before, after),
    }


def page_data(data, lines, losses, folder, source):
    """All that the page shows."""
    texts, every = Texts(), [(line, loss) for line in lines for loss in losses[line.number]]
    for _, loss in every:
        if loss.mended and not os.path.exists(os.path.join(folder, loss.mended)):
            loss.mended = loss.torn  # the mount failed, so the program left no image
    paths = [os.path.join(folder, name) for _, loss in every for name in (loss.torn, loss.mended)]
    drawn, areas = looks_of(paths), areas_of(os.path.join(folder, "first.img"))
    frames = [Frames(texts, area["size"] // area["unit"]) for area in areas for _ in range(area["sectors"])]
    rows, shown, first = [], [], 0
    for line in lines:
        shown.append(line_data(texts, line, first, len(losses[line.number])))
        first += len(losses[line.number])
    for at, (line, loss) in enumerate(every):
        torn, mended = ([frame.place(one) for frame, one in zip(frames, look_of_all)] for look_of_all in drawn[2 * at:2 * at + 2])
        read = changes(texts, names_of(line.before), names_of(loss.state)) if loss.state is not None else []
        rows.append([line.number, loss.unit, texts.place(loss.mount), loss.mount_units, loss.result, read, torn, mended, texts.place(loss.why)])
    return {
        "script": data["script"], "source": source[:-1] if source[-1:] == [""] else source, "lines": shown, "losses": rows, "areas": areas, "texts": texts.all,
        "frames": [frame.frames for frame in frames], "summary": data["summary"], "kinds": KINDS, "colours": COLOURS,
    }


def page_of(data, lines, losses, folder, source):
    with open(os.path.join(HERE, "page.html"), encoding="utf-8") as file:
        form = file.read()
    raw = json.dumps(page_data(data, lines, losses, folder, source), separators=(",", ":")).replace("</", "<\\/")
    return form.replace("@TITLE@", escape(os.path.basename(data["script"]))).replace("@DATA@", raw)
