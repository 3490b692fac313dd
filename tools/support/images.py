"""Image files as docs/formats.md has them: the header, the banks, the areas, the bytes of each sector."""
from dataclasses import dataclass

ROLES = ("", "nvs", "zms", "fcb", "sel")
KINDS = ("erasing", "rewritable")
LONGEST = 8 * 1024 * 1024


class BadImage(Exception):
    """Why a file is not an image file."""


@dataclass
class Bank:
    kind: str
    unit: int
    size: int
    count: int
    start: int


@dataclass
class Area:
    place: int
    role: str
    label: str
    bank_number: int
    bank: Bank
    first: int
    sectors: list

    def title(self):
        bank = self.bank
        place = f"in bank {self.bank_number} ({bank.kind}, unit {bank.unit}) from sector {self.first}"
        return f"area {self.place}, {self.label}: {self.role}, {len(self.sectors)} sectors of {bank.size} bytes, {place}"


@dataclass
class Image:
    version: int
    areas: list

    def longest_value(self):
        return 2048 if self.version == 2 else 256

    def store_places(self):
        return [area.place for area in self.areas if area.role != "sel"]


def number(raw):
    return int.from_bytes(raw, "little")


def check(holds, why):
    if not holds:
        raise BadImage(why)


def bank_at(raw, at, start, version):
    check(len(raw) >= at + 12, "the file ends inside its header")
    kind, unit, size, count = raw[at], raw[at + 1], number(raw[at + 4:at + 8]), number(raw[at + 8:at + 12])
    least = 4096 if version == 2 else 512
    lawful = kind < 2 and unit in (4, 8, 16) and least <= size <= 32768 and size % 64 == 0 and 2 <= count <= 64
    check(lawful, f"the bank at byte {at} is not lawful")
    return Bank(KINDS[kind], unit, size, count, start)


def area_at(raw, at, place, banks):
    check(len(raw) >= at + 16, "the file ends inside its header")
    role, number_of_bank, first, count, length = raw[at], raw[at + 1], number(raw[at + 2:at + 4]), number(raw[at + 4:at + 6]), raw[at + 6]
    label = raw[at + 8:at + 8 + length]
    lawful = 1 <= role <= 4 and number_of_bank < len(banks) and 1 <= length <= 8 and label.isalnum() and label.islower() | label.isdigit()
    check(lawful, f"the area at byte {at} is not lawful")
    bank = banks[number_of_bank]
    check(count >= 2 and first + count <= bank.count, f"the area at byte {at} does not lie in its bank")
    base = bank.start + first * bank.size
    sectors = [raw[base + i * bank.size:base + (i + 1) * bank.size] for i in range(count)]
    return Area(place, ROLES[role], label.decode(), number_of_bank, bank, first, sectors)


def image_of(raw):
    """The image in these bytes; BadImage if they are not an image."""
    check(raw[:4] == b"ZSIM", "it does not begin with 'ZSIM'")
    check(len(raw) >= 8 and raw[4] in (1, 2) and raw[7] == 0, "its version is not 1 or 2")
    check(1 <= raw[5] <= 2 and 1 <= raw[6] <= 8, "its numbers of banks and areas are not lawful")
    start, banks = 8 + 12 * raw[5] + 16 * raw[6], []
    for place in range(raw[5]):
        banks.append(bank_at(raw, 8 + 12 * place, start, raw[4]))
        start += banks[-1].size * banks[-1].count
    check(len(raw) >= start, f"it ends at byte {len(raw)}, and its banks end at {start}")
    check(len(raw) == start, f"it has bytes after its last bank, which ends at {start}")
    rows = 8 + 12 * raw[5]
    return Image(raw[4], [area_at(raw, rows + 16 * place, place, banks) for place in range(raw[6])])


def read_image(path):
    """The image in this file; BadImage says in one line why it has none."""
    try:
        with open(path, "rb") as file:
            raw = file.read(LONGEST + 1)
    except OSError as error:
        raise BadImage(f"'{path}': {error.strerror}") from error
    try:
        check(len(raw) <= LONGEST, "it is longer than 8 MiB")
        return image_of(raw)
    except BadImage as why:
        raise BadImage(f"{path} is not an image file: {why}") from None
