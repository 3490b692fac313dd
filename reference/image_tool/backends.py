"""The three backends of settings: a map from names to values kept in one area."""

from dataclasses import dataclass
from typing import Optional

from . import fcb, nvs, zms
from .flash import AreaFlash, Loss
from .names import is_name
from .nvs import Damaged, StoreFull

COUNT_ID, NAME_BASE, VALUE_BASE, NAME_LIMIT = 0x8000, 0x8000, 0xC000, 511
ZMS_NAME_BASE, ZMS_VALUE_STEP, GROUP_SIZE = 0x80000000, 0x40000000, 16


class NoSpace(Exception):
    """A refusal for room: what the command needs, and what the map costs."""

    def __init__(self, need: int, live: int) -> None:
        super().__init__(f"need {need} live {live}")
        self.need, self.live = need, live


class TooMany(Exception):
    """The backend has no further id for a new name."""


def fnv1a(raw: bytes) -> int:
    value = 2166136261
    for byte in raw:
        value = ((value ^ byte) * 16777619) % 2**32
    return value


def hash_group(name: bytes) -> int:
    return fnv1a(name) & 0x0000FFF0


# The numbers of room: they follow from lengths and geometry alone.

@dataclass(frozen=True)
class Room:
    """How one kind of store counts cost for an area of the given unit, sector size and sectors."""
    role: str
    unit: int
    sector: int
    sectors: int

    def pad(self, length: int) -> int:
        return -(-length // self.unit) * self.unit

    @property
    def reserve(self) -> int:
        return fcb.record_cost(self.unit, 65)

    @property
    def cap(self) -> int:
        if self.role == "nvs":
            return self.sector - 4 * self.pad(8)
        if self.role == "zms":
            return self.sector - 80
        return self.sector - self.pad(8) - self.reserve

    def item(self, length: int) -> int:
        return zms.cost(length) if self.role == "zms" else self.pad(8) + self.pad(length)

    def pair(self, name: bytes, value: bytes) -> int:
        if self.role == "fcb":
            return fcb.record_cost(self.unit, len(name) + 1 + len(value))
        return self.item(len(name)) + self.item(len(value))

    def cost(self, pairs: dict[bytes, bytes]) -> int:
        counted = self.item(2) if self.role == "nvs" else 0
        return counted + sum(self.pair(name, value) for name, value in pairs.items())

    def need(self, pairs: dict[bytes, bytes], name: bytes, value: bytes) -> int:
        if self.role != "fcb" and name in pairs:
            return self.item(len(value))
        return self.pair(name, value)

    def largest(self, pairs: dict[bytes, bytes], name: bytes, value: bytes) -> int:
        if self.role == "fcb":
            return self.pair(name, value)
        if name in pairs:
            return self.item(len(value))
        both = [self.item(len(name)), self.item(len(value))]
        return max(both + [self.item(2)] if self.role == "nvs" else both)

    def no_room(self, pairs: dict[bytes, bytes], name: bytes, value: bytes) -> bool:
        most = (self.sectors - 1) * (self.cap - self.largest(pairs, name, value))
        return most < self.cost(pairs) + self.need(pairs, name, value)

    def too_many(self, pairs: dict[bytes, bytes], name: bytes) -> bool:
        if name in pairs:
            return False
        if self.role == "nvs":
            return len(pairs) >= NAME_LIMIT
        if self.role == "zms":
            group = hash_group(name)
            return sum(hash_group(other) == group for other in pairs) >= GROUP_SIZE
        return False

    def bound(self) -> int:
        """The most units that one set or delete may take."""
        return 12 * self.sectors * (self.sector // self.unit + 3)


def room_of(flash: AreaFlash) -> Room:
    return Room(flash.area.role, flash.unit, flash.sector, flash.sectors)


class Backend:
    """What the three have in common. `pairs` is the map, read from flash."""

    def __init__(self, flash: AreaFlash) -> None:
        self.flash, self.room, self.limit = flash, room_of(flash), flash.area.value_limit

    def pairs(self) -> dict[bytes, bytes]:
        raise NotImplementedError

    def get(self, name: bytes) -> Optional[bytes]:
        return self.pairs().get(name)

    def refusal(self, pairs: dict[bytes, bytes], name: bytes, value: bytes) -> NoSpace:
        return NoSpace(self.room.need(pairs, name, value), self.room.cost(pairs))

    @staticmethod
    def format(flash: AreaFlash) -> None:
        for sector in range(flash.sectors):
            flash.erase_unless_blank(sector)


class NvsBackend(Backend):
    def __init__(self, flash: AreaFlash) -> None:
        super().__init__(flash)
        self.store = nvs.Nvs(flash)
        self._remove_strays()

    def _count(self, items: dict[int, bytes]) -> int:
        raw = items.get(COUNT_ID, b"")
        return min(int.from_bytes(raw, "little"), NAME_LIMIT) if len(raw) == 2 else 0

    def _places(self, items: dict[int, bytes]) -> dict[bytes, int]:
        """For each name of the map its number k."""
        places: dict[bytes, int] = {}
        for k in range(1, self._count(items) + 1):
            name, value = items.get(NAME_BASE + k, b""), items.get(VALUE_BASE + k, b"")
            if is_name(name) and 1 <= len(value) <= self.limit:
                places.setdefault(name, k)
        return places

    def _remove_strays(self) -> None:
        """Delete every item that is neither the count nor half of a pair of the map."""
        items = self.store.items()
        kept = {base + k for k in self._places(items).values() for base in (NAME_BASE, VALUE_BASE)}
        if len(items.get(COUNT_ID, b"")) == 2:
            kept.add(COUNT_ID)
        for ident in sorted(items):
            if ident not in kept:
                self.store.delete(ident)

    def pairs(self) -> dict[bytes, bytes]:
        items = self.store.items()
        places = self._places(items)
        return {name: items[VALUE_BASE + places[name]] for name in sorted(places)}

    def get(self, name: bytes) -> Optional[bytes]:
        items = self.store.items()
        k = self._places(items).get(name)
        return items[VALUE_BASE + k] if k is not None else None

    def set(self, name: bytes, value: bytes) -> None:
        items, pairs = self.store.items(), self.pairs()
        if pairs.get(name) == value:
            return
        if self.room.too_many(pairs, name):
            raise TooMany
        try:
            if name in pairs:
                self.store.write(VALUE_BASE + self._places(items)[name], value)
            else:
                self._set_new(items, name, value)
        except StoreFull:
            raise self.refusal(pairs, name, value) from None

    def _set_new(self, items: dict[int, bytes], name: bytes, value: bytes) -> None:
        count = self._count(items)
        k = next((k for k in range(1, count + 1)
                  if NAME_BASE + k not in items and VALUE_BASE + k not in items), count + 1)
        if k > count:
            self.store.write(COUNT_ID, k.to_bytes(2, "little"))
        self.store.write(VALUE_BASE + k, value)
        try:
            self.store.write(NAME_BASE + k, name)
        except StoreFull:
            self.store.delete(VALUE_BASE + k)
            raise

    def delete(self, name: bytes) -> None:
        k = self._places(self.store.items()).get(name)
        if k is not None:
            self.store.delete(NAME_BASE + k)
            self.store.delete(VALUE_BASE + k)


class ZmsBackend(Backend):
    def __init__(self, flash: AreaFlash) -> None:
        super().__init__(flash)
        self.store = zms.Zms(flash)
        self._remove_strays()

    def _places(self, items: dict[int, bytes]) -> dict[bytes, int]:
        """For each name of the map the id of its name; of equal names the lowest id."""
        places: dict[bytes, int] = {}
        for ident in sorted(items):
            if ZMS_NAME_BASE <= ident <= ZMS_NAME_BASE + 0xFFFF:
                name, value = items[ident], items.get(ident + ZMS_VALUE_STEP, b"")
                in_group = hash_group(name) == (ident - ZMS_NAME_BASE) & 0xFFF0
                if is_name(name) and in_group and 1 <= len(value) <= self.limit:
                    places.setdefault(name, ident)
        return places

    def _remove_strays(self) -> None:
        items = self.store.items()
        names = set(self._places(items).values())
        kept = names | {ident + ZMS_VALUE_STEP for ident in names}
        for ident in sorted(items):
            if ident not in kept:
                self.store.delete(ident)

    def pairs(self) -> dict[bytes, bytes]:
        items = self.store.items()
        places = self._places(items)
        return {name: items[places[name] + ZMS_VALUE_STEP] for name in sorted(places)}

    def set(self, name: bytes, value: bytes) -> None:
        items, pairs = self.store.items(), self.pairs()
        if pairs.get(name) == value:
            return
        if self.room.too_many(pairs, name):
            raise TooMany
        try:
            if name in pairs:
                self.store.write(self._places(items)[name] + ZMS_VALUE_STEP, value)
            else:
                self._set_new(items, name, value)
        except StoreFull:
            raise self.refusal(pairs, name, value) from None

    def _set_new(self, items: dict[int, bytes], name: bytes, value: bytes) -> None:
        first = ZMS_NAME_BASE + hash_group(name)
        ident = next(i for i in range(first, first + GROUP_SIZE)
                     if i not in items and i + ZMS_VALUE_STEP not in items)
        self.store.write(ident + ZMS_VALUE_STEP, value)
        try:
            self.store.write(ident, name)
        except StoreFull:
            self.store.delete(ident + ZMS_VALUE_STEP)
            raise

    def delete(self, name: bytes) -> None:
        ident = self._places(self.store.items()).get(name)
        if ident is not None:
            self.store.delete(ident)
            self.store.delete(ident + ZMS_VALUE_STEP)


def split_body(body: bytes, limit: int) -> Optional[tuple[bytes, bytes]]:
    """Name and value of a settings record, or None where the body is no lawful one."""
    name, equals, value = body.partition(b"=")
    if equals and is_name(name) and len(value) <= limit:
        return name, value
    return None


class FcbBackend(Backend):
    def __init__(self, flash: AreaFlash) -> None:
        super().__init__(flash)
        self.ring = fcb.Ring(flash, self.room.reserve)
        self._look_at_costs()
        self.ring.finish()

    def _look_at_costs(self) -> None:
        puts: dict[int, int] = {}
        for record in self.ring.records():
            pair = split_body(record.body, self.limit)
            if pair is not None and pair[1]:
                puts[record.sector] = puts.get(record.sector, 0) + record.cost
        for sector in sorted(puts):
            if puts[sector] > self.room.cap:
                raise Damaged(sector, "Overfull")

    def _last(self) -> dict[bytes, tuple[bytes, fcb.Record]]:
        """For each name its last lawful record."""
        last = {}
        for record in self.ring.records():
            pair = split_body(record.body, self.limit)
            if pair is not None:
                last[pair[0]] = (pair[1], record)
        return last

    def pairs(self) -> dict[bytes, bytes]:
        last = self._last()
        return {name: last[name][0] for name in sorted(last) if last[name][0]}

    def _collect(self) -> None:
        live = [record for value, record in self._last().values() if value]
        oldest = self.ring.used()[0]
        copies = sorted((r for r in live if r.sector == oldest), key=lambda r: r.offset)
        self.ring.begin_collect()
        for record in copies:
            self.ring.copy(record)
        self.ring.end_collect()

    def _append(self, body: bytes, into_reserve: bool, collections: int) -> None:
        for _ in range(collections):
            try:
                return self.ring.append(body, into_reserve)
            except fcb.RingFull:
                self._collect()
        self.ring.append(body, into_reserve)

    def set(self, name: bytes, value: bytes) -> None:
        pairs = self.pairs()
        if pairs.get(name) == value:
            return
        try:
            self._append(name + b"=" + value, False, self.flash.sectors - 1)
        except (fcb.RingFull, fcb.RecordTooLong):
            raise self.refusal(pairs, name, value) from None

    def delete(self, name: bytes) -> None:
        if name in self.pairs():
            self._append(name + b"=", True, 1)


BACKENDS = {"nvs": NvsBackend, "zms": ZmsBackend, "fcb": FcbBackend}


def mount_backend(flash: AreaFlash) -> Backend:
    return BACKENDS[flash.area.role](flash)


def chance(flash: AreaFlash, loss: Optional[Loss]) -> bool:
    """Whether a torn record of this loss checks by chance and so counts as what it spells."""
    if flash.area.role != "fcb" or loss is None or not flash.holds(loss):
        return False
    if loss.want == b"" or loss.offset % flash.sector == 0 or not 1 <= loss.done < len(loss.want) // flash.unit:
        return False
    if not any(fcb.scan_sector(flash.unit, i, flash.whole(i)).free for i in range(flash.sectors)):
        return False
    torn = torn_bytes(flash.unit, loss.want, loss.done)
    if torn == loss.want or torn[:2] == b"\xff\xff":
        return False
    record = fcb.parse_record(flash.unit, 0, 0, torn)
    return record.cost == len(torn) and record.checks


def torn_bytes(unit: int, want: bytes, done: int) -> bytes:
    return want[:done * unit] + b"\xff" * (len(want) - done * unit)
