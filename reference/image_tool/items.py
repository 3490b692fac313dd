"""Lines on numbered items, and on the older values that an NVS or a ZMS area still has."""

from . import nvs, zms
from .flash import AreaFlash, Bench
from .image import Area
from .line_session import LineSession
from .lines import Answer, Line, ok, value
from .nvs import StoreFull


def mount_store(bench: Bench, area: Area):
    flash = AreaFlash(bench, area)
    return zms.Zms(flash) if area.role == "zms" else nvs.Nvs(flash)


class ItemSession(LineSession):
    def __init__(self, bench: Bench, area: Area) -> None:
        super().__init__(bench)
        self.area, self.store = area, None

    def _mount(self) -> None:
        self.store = mount_store(self.bench, self.area)

    def _line(self, line: Line, before: int) -> Answer:
        if line.word == "get":
            return value(self.store.get(line.ident))
        if line.word == "older":
            return self._older(line)
        if line.word == "space":
            return self._space()
        try:
            if line.word == "set":
                self.store.write(line.ident, line.value)
            else:
                self.store.delete(line.ident)
        except StoreFull:
            units = self.bench.spent - before
            return Answer(f"nospace {units}", units)
        return ok(self.bench.spent - before)

    def _older(self, line: Line) -> Answer:
        """The n-th version of the id that the list still has, counted from the newest."""
        history = self.store.history(line.ident)
        if line.number >= len(history):
            return Answer("gone")
        raw = history[line.number]
        return Answer("deleted" if raw is None else f"value {raw.hex()}")

    def _space(self) -> Answer:
        store = self.store
        entry_cost = zms.cost if self.area.role == "zms" else store.shape.cost
        cap = store.cap if self.area.role == "zms" else store.shape.cap
        whole = sum(entry_cost(e.length) for e in store.entries())
        live = store.live_cost()
        return Answer(f"space {live} {whole - live} {(self.area.sectors - 1) * cap - live}")
