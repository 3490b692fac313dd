"""The session: it mounts, carries out the lines one by one, and gives one answer for each."""

from typing import Optional

from . import fcb
from .backends import Backend, BACKENDS, NoSpace, TooMany, chance, mount_backend
from .flash import AreaFlash, Bench
from .handlers import Registry
from .image import Area
from .line_session import LineSession
from .lines import Answer, Line, dash, names_text, ok, value
from .names import match
from .nvs import Damaged


class AreaDamaged(Exception):
    def __init__(self, index: int, damage: Damaged) -> None:
        super().__init__(f"area {index} {damage}")
        self.index, self.damage = index, damage


class Selector:
    """The ring that names the active area."""

    def __init__(self, flash: AreaFlash, areas: list[Area]) -> None:
        self.areas, self.ring = areas, fcb.Ring(flash, 0)
        self.ring.finish()

    def _last(self) -> Optional[fcb.Record]:
        named = [r for r in self.ring.records() if self._names_store(r.body)]
        return named[-1] if named else None

    def _names_store(self, body: bytes) -> bool:
        return (len(body) == 2 and body[1] == 0xFF - body[0]
                and body[0] < len(self.areas) and self.areas[body[0]].role != "sel")

    def active(self) -> Optional[int]:
        last = self._last()
        return last.body[0] if last is not None else None

    def choose(self, index: int) -> None:
        body = bytes([index, 0xFF - index])
        try:
            self.ring.append(body, False)
        except fcb.RingFull:
            self._collect()
            self.ring.append(body, False)

    def _collect(self) -> None:
        """Drop the oldest sector, but keep the last record that names a store area."""
        last = self._last()
        oldest = self.ring.used()[0]
        self.ring.begin_collect()
        if last is not None and last.sector == oldest:
            self.ring.copy(last)
        self.ring.end_collect()


def stores_of(areas: list[Area]) -> list[int]:
    return [i for i, area in enumerate(areas) if area.role != "sel"]


def next_store(areas: list[Area], active: int) -> Optional[int]:
    """The next store area in the image's order, round the end."""
    stores = stores_of(areas)
    if len(stores) < 2:
        return None
    return stores[(stores.index(active) + 1) % len(stores)]


class Session(LineSession):
    """Settings over the areas of an image."""

    def __init__(self, bench: Bench, areas: list[Area]) -> None:
        super().__init__(bench)
        self.areas = areas
        self.registry = Registry()
        self.selector: Optional[Selector] = None
        self.backend: Optional[Backend] = None
        self.active = stores_of(areas)[0]

    def _line(self, line: Line, before: int) -> Answer:
        return getattr(self, "_" + line.word)(line, before)

    def _by_chance(self, line: Line) -> bool:
        if line.word not in ("set", "del", "save"):
            return False
        return chance(self._flash(self.active), self.bench.last_loss)

    def _flash(self, index: int) -> AreaFlash:
        return AreaFlash(self.bench, self.areas[index])

    def _units(self, before: int) -> int:
        return self.bench.spent - before

    def _pairs(self, subtree: Optional[bytes]) -> dict[bytes, bytes]:
        return {name: raw for name, raw in self.backend.pairs().items()
                if subtree is None or match(name, subtree) is not None}

    # The lines

    def _mount(self) -> None:
        self.backend = None
        selector = next((i for i, area in enumerate(self.areas) if area.role == "sel"), None)
        if selector is not None:
            self.selector = self._mounted(selector, lambda f: Selector(f, self.areas))
            named = self.selector.active()
            self.active = stores_of(self.areas)[0] if named is None else named
        self.backend = self._mounted(self.active, mount_backend)

    def _mounted(self, index: int, mount):
        try:
            return mount(self._flash(index))
        except Damaged as damage:
            raise AreaDamaged(index, damage) from None

    def _set(self, line: Line, before: int) -> Answer:
        if not line.value:
            return self._del(line, before)
        try:
            self.backend.set(line.name, line.value)
        except NoSpace:
            return Answer(f"nospace {self._units(before)}", self._units(before))
        except TooMany:
            return Answer(f"toomany {self._units(before)}", self._units(before))
        return ok(self._units(before))

    def _del(self, line: Line, before: int) -> Answer:
        self.backend.delete(line.name)
        return ok(self._units(before))

    def _get(self, line: Line, before: int) -> Answer:
        return value(self.backend.get(line.name))

    def _register(self, line: Line, before: int) -> Answer:
        return Answer(self.registry.register(line.name, line.kind))

    def _load(self, line: Line, before: int) -> Answer:
        out, counts = [], {"taken": 0, "rejected": 0, "passed": 0}
        for name, raw in self._pairs(line.name).items():
            handler = self.registry.best(name)
            if handler is None:
                counts["passed"] += 1
                continue
            rest = match(name, handler.subtree)
            outcome = "taken" if handler.set(rest, raw) else "rejected"
            counts[outcome] += 1
            out.append(f"give {handler.subtree.decode()} {dash(rest)} {raw.hex()} {outcome}")
        self.registry.commit(line.name)
        out.append(f"loaded {counts['taken']} {counts['rejected']} {counts['passed']}")
        return Answer("\n".join(out))

    def _direct(self, line: Line, before: int) -> Answer:
        pairs = self._pairs(line.name)
        out = [f"have {name.decode()} {raw.hex()}" for name, raw in pairs.items()]
        return Answer("\n".join(out + [f"direct {len(pairs)}"]))

    def _save(self, line: Line, before: int) -> Answer:
        pairs, end = 0, ""
        for name, raw in self.registry.exported(line.name):
            stored = self.backend.get(name) == raw
            try:
                self.backend.set(name, raw)
            except NoSpace:
                end = " nospace"
                break
            except TooMany:
                end = " toomany"
                break
            pairs += not stored
        units = self._units(before)
        return Answer(f"saved {pairs}{end} {units}", units)

    def _commit(self, line: Line, before: int) -> Answer:
        self.registry.commit(None)
        return ok()

    def _rset(self, line: Line, before: int) -> Answer:
        handler = self.registry.best(line.name)
        if handler is None:
            return Answer("nohandler")
        taken = handler.set(match(line.name, handler.subtree), line.value)
        return ok() if taken else Answer("rejected")

    def _rget(self, line: Line, before: int) -> Answer:
        handler = self.registry.best(line.name)
        if handler is None:
            return Answer("nohandler")
        return value(handler.held.get(match(line.name, handler.subtree)))

    def _names(self, line: Line, before: int) -> Answer:
        return Answer(names_text(self.areas[self.active].label, self.backend.pairs()))

    def _migrate(self, line: Line, before: int) -> Answer:
        target = next_store(self.areas, self.active)
        if target is None:
            return Answer("notarget")
        flash, refusal = self._flash(target), None
        Backend.format(flash)
        backend = BACKENDS[flash.area.role](flash)
        try:
            for name, raw in self.backend.pairs().items():
                backend.set(name, raw)
        except NoSpace:
            refusal = "nospace"
        except TooMany:
            refusal = "toomany"
        if refusal is not None:
            return Answer(f"{refusal} {self._units(before)}", self._units(before))
        self.selector.choose(target)
        self.active, self.backend = target, backend
        return ok(self._units(before))
