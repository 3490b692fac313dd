"""Simulated flash: banks of sectors, units as the atomic step, and planned losses of power."""

from dataclasses import dataclass
from typing import Callable, Optional


# The most bytes that one call programs.
PROGRAM_LIMIT = 2160


class PowerLost(Exception):
    """Power went away before a unit or an erase was carried out."""


@dataclass(frozen=True)
class Bank:
    kind: str      # "erasing" or "rewritable"
    unit: int
    sector: int
    count: int


@dataclass(frozen=True)
class Loss:
    """Where a program or an erase was cut: the bytes it wanted (none for an erase), the units done."""
    bank: int
    offset: int
    want: bytes
    done: int


class Bench:
    """The banks with their bytes, the power, the plan of the next loss, and the counters.

    `watch`, where it is set, is called with the loss that would be recorded if power went away
    right now, before every unit and every erase: those are all the points where a cut can fall.
    """

    def __init__(self) -> None:
        self.banks: list[Bank] = []
        self.data: list[bytearray] = []
        self.on = True
        self.plan: Optional[int] = None
        self.losses = 0
        self.spent = 0
        self.loads = 0
        self.last_loss: Optional[Loss] = None
        self.stamp = 0              # rises with every change of a byte
        self.sector_stamps: dict[tuple[int, int], int] = {}
        self.watch: Optional[Callable[[Loss], None]] = None

    def load(self, banks: list[Bank], data: list[bytes]) -> None:
        for bank, raw in zip(banks, data):
            assert len(raw) == bank.sector * bank.count
        self.banks = list(banks)
        self.data = [bytearray(raw) for raw in data]
        self.on, self.plan, self.last_loss = True, None, None
        self.loads += 1
        self.sector_stamps = {}
        self.stamp += 1

    def snapshot(self) -> list[bytes]:
        return [bytes(raw) for raw in self.data]

    def arm(self, units: int) -> None:
        self.plan = units

    def disarm(self) -> None:
        self.plan = None

    def restore(self) -> None:
        self.on = True

    def view(self, bank: int, offset: int, length: int) -> bytes:
        assert 0 <= offset and offset + length <= len(self.data[bank])
        return bytes(self.data[bank][offset:offset + length])

    def program(self, bank: int, offset: int, raw: bytes) -> None:
        """Put whole units in rising order; each one counts, and each one may be the one that is lost."""
        shape = self.banks[bank]
        assert 0 < len(raw) <= PROGRAM_LIMIT and len(raw) % shape.unit == 0
        assert offset % shape.unit == 0
        assert offset // shape.sector == (offset + len(raw) - 1) // shape.sector
        if shape.kind == "erasing":
            assert self.view(bank, offset, len(raw)) == b"\xff" * len(raw), "unit is not erased"
        for done in range(len(raw) // shape.unit):
            self._step(Loss(bank, offset, raw, done))
            at = done * shape.unit
            self.data[bank][offset + at:offset + at + shape.unit] = raw[at:at + shape.unit]
            self._changed(bank, offset // shape.sector)

    def erase(self, bank: int, sector: int) -> None:
        shape = self.banks[bank]
        assert 0 <= sector < shape.count
        self._step(Loss(bank, sector * shape.sector, b"", 0))
        start = sector * shape.sector
        self.data[bank][start:start + shape.sector] = b"\xff" * shape.sector
        self._changed(bank, sector)

    def _step(self, loss: Loss) -> None:
        """One atomic step is about to happen; lose power here where the plan is used up."""
        if not self.on:
            raise PowerLost
        if self.watch is not None:
            self.watch(loss)
        if self.plan == 0:
            self.on, self.plan = False, None
            self.losses += 1
            self.last_loss = loss
            raise PowerLost
        if self.plan is not None:
            self.plan -= 1
        self.spent += 1

    def _changed(self, bank: int, sector: int) -> None:
        self.stamp += 1
        self.sector_stamps[(bank, sector)] = self.stamp


class AreaFlash:
    """The calls of the bench at the place of one area; nothing outside the area is touched."""

    def __init__(self, bench: Bench, area) -> None:
        bank = bench.banks[area.bank]
        self.bench, self.area = bench, area
        self.kind, self.unit, self.sector, self.sectors = bank.kind, bank.unit, bank.sector, area.sectors

    def next(self, sector: int) -> int:
        return (sector + 1) % self.sectors

    def pad(self, length: int) -> int:
        return -(-length // self.unit) * self.unit

    def whole(self, sector: int) -> bytes:
        return self.view(sector, 0, self.sector)

    def view(self, sector: int, offset: int, length: int) -> bytes:
        assert 0 <= sector < self.sectors and offset + length <= self.sector
        return self.bench.view(self.area.bank, (self.area.first + sector) * self.sector + offset, length)

    def program(self, sector: int, offset: int, raw: bytes) -> None:
        assert 0 <= sector < self.sectors and offset + len(raw) <= self.sector
        self.bench.program(self.area.bank, (self.area.first + sector) * self.sector + offset, raw)

    def program_long(self, sector: int, offset: int, raw: bytes, piece: int = 400) -> None:
        """Program bytes, padded with FF to whole units, in calls of at most `piece` bytes."""
        raw = raw + b"\xff" * (self.pad(len(raw)) - len(raw))
        for at in range(0, len(raw), piece):
            self.program(sector, offset + at, raw[at:at + piece])

    def erase(self, sector: int) -> None:
        assert 0 <= sector < self.sectors
        self.bench.erase(self.area.bank, self.area.first + sector)

    def erase_unless_blank(self, sector: int) -> None:
        if self.whole(sector) != b"\xff" * self.sector:
            self.erase(sector)

    def stamp(self, sector: int) -> tuple[int, int]:
        """A number that changes whenever a byte of the sector is programmed or erased."""
        return (self.bench.loads, self.bench.sector_stamps.get((self.area.bank, self.area.first + sector), 0))

    def holds(self, loss: Loss) -> bool:
        start = self.area.first * self.sector
        return loss.bank == self.area.bank and start <= loss.offset < start + self.sectors * self.sector
