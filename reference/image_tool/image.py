"""Image files, and the word that describes a blank image."""

import re
from dataclasses import dataclass

from .flash import Bank

ROLES = {1: "nvs", 2: "zms", 3: "fcb", 4: "sel"}
ROLE_NUMBERS = {name: number for number, name in ROLES.items()}
KINDS = {0: "erasing", 1: "rewritable"}
KIND_NUMBERS = {name: number for number, name in KINDS.items()}
IMAGE_LIMIT = 8_388_608
SCRIPT_LIMIT = 1_048_576
VERSIONS = (1, 2)


@dataclass(frozen=True)
class Area:
    label: str
    role: str
    bank: int
    first: int
    sectors: int
    version: int = 1

    @property
    def value_limit(self) -> int:
        return 2048 if self.version == 2 else 256


@dataclass
class Image:
    version: int
    banks: list[Bank]
    areas: list[Area]
    data: list[bytes]

    @property
    def value_limit(self) -> int:
        return 2048 if self.version == 2 else 256

    @property
    def selector(self):
        return next((area for area in self.areas if area.role == "sel"), None)


class BadImage(Exception):
    def __init__(self, at: int, why: str) -> None:
        super().__init__(f"at {at}: {why}")
        self.at, self.why = at, why


class BadSpec(Exception):
    def __init__(self, item: int) -> None:
        super().__init__(f"item {item}")
        self.item = item


# What is lawful

def bank_is_lawful(bank: Bank, version: int) -> bool:
    least = 4096 if version == 2 else 512
    return (bank.unit in (4, 8, 16) and least <= bank.sector <= 32768 and bank.sector % 64 == 0
            and 2 <= bank.count <= 64)


def label_is_lawful(label: str) -> bool:
    return re.fullmatch(r"[a-z0-9]{1,8}", label) is not None


def area_is_lawful(area: Area, banks: list[Bank], earlier: list[Area]) -> bool:
    if not label_is_lawful(area.label) or any(area.label == other.label for other in earlier):
        return False
    if area.bank >= len(banks):
        return False
    bank = banks[area.bank]
    if area.role == "zms":
        if bank.unit != 16:
            return False
    elif bank.kind != "erasing":
        return False
    if area.sectors < 2 or area.first + area.sectors > bank.count:
        return False
    return not any(other.bank == area.bank
                   and area.first < other.first + other.sectors
                   and other.first < area.first + area.sectors for other in earlier)


def areas_are_complete(areas: list[Area]) -> bool:
    stores = sum(area.role != "sel" for area in areas)
    selectors = sum(area.role == "sel" for area in areas)
    return stores >= 1 and selectors <= 1 and (stores < 2 or selectors == 1)


# Files

def read_image(raw: bytes) -> Image:
    """The image of a file, or the first field that departs."""
    def take(at: int, size: int) -> bytes:
        if at + size > len(raw):
            raise BadImage(len(raw), "Short")
        return raw[at:at + size]

    if take(0, 4) != b"ZSIM":
        raise BadImage(0, "BadMagic")
    version = take(4, 1)[0]
    if version not in VERSIONS:
        raise BadImage(4, "BadVersion")
    bank_count = take(5, 1)[0]
    if not 1 <= bank_count <= 2:
        raise BadImage(5, "BadBank")
    area_count = take(6, 1)[0]
    if not 1 <= area_count <= 8:
        raise BadImage(6, "BadArea")
    if take(7, 1) != b"\x00":
        raise BadImage(7, "BadVersion")
    place = 8
    banks: list[Bank] = []
    for _ in range(bank_count):
        banks.append(_read_bank(place, take(place, 12), version))
        place += 12
    areas: list[Area] = []
    for _ in range(area_count):
        areas.append(_read_area(place, take(place, 16), version, banks, areas))
        place += 16
    if not areas_are_complete(areas):
        raise BadImage(6, "BadArea")
    data = []
    for bank in banks:
        data.append(take(place, bank.sector * bank.count))
        place += bank.sector * bank.count
    if place != len(raw):
        raise BadImage(place, "Long")
    return Image(version, banks, areas, data)


def _read_bank(place: int, field: bytes, version: int) -> Bank:
    kind, unit, zero = field[0], field[1], field[2:4]
    bank = Bank(KINDS.get(kind, ""), unit, int.from_bytes(field[4:8], "little"),
                int.from_bytes(field[8:12], "little"))
    if kind not in KINDS or zero != b"\0\0" or not bank_is_lawful(bank, version):
        raise BadImage(place, "BadBank")
    return bank


def _read_area(place: int, field: bytes, version: int, banks: list[Bank], earlier: list[Area]) -> Area:
    role, bank, length, zero, label = field[0], field[1], field[6], field[7], field[8:16]
    first, sectors = int.from_bytes(field[2:4], "little"), int.from_bytes(field[4:6], "little")
    lawful = (role in ROLES and zero == 0 and 1 <= length <= 8 and label[length:] == bytes(8 - length))
    if lawful:
        area = Area(label[:length].decode("latin-1"), ROLES[role], bank, first, sectors, version)
        if area_is_lawful(area, banks, earlier):
            return area
    raise BadImage(place, "BadArea")


def write_image(image: Image) -> bytes:
    out = b"ZSIM" + bytes([image.version, len(image.banks), len(image.areas), 0])
    for bank in image.banks:
        out += bytes([KIND_NUMBERS[bank.kind], bank.unit, 0, 0])
        out += bank.sector.to_bytes(4, "little") + bank.count.to_bytes(4, "little")
    for area in image.areas:
        label = area.label.encode()
        out += bytes([ROLE_NUMBERS[area.role], area.bank])
        out += area.first.to_bytes(2, "little") + area.sectors.to_bytes(2, "little")
        out += bytes([len(label), 0]) + label + bytes(8 - len(label))
    return out + b"".join(image.data)


# The word of `build`

def read_number(word: str):
    """A decimal number without sign or leading zeros, or None."""
    if re.fullmatch(r"0|[1-9][0-9]*", word, re.ASCII) is None or len(word) > 20:
        return None
    return int(word)


def read_spec(word: str) -> Image:
    """The blank image that the word describes, or the number of the first item that is not lawful."""
    items = word.split(",")
    version, banks, areas = 1, [], []
    for number, item in enumerate(items, 1):
        if number == 1 and item == "version=2":
            version = 2
            continue
        part = _read_item(item, version)
        if isinstance(part, Bank):
            lawful = not areas and len(banks) < 2 and bank_is_lawful(part, version)
            banks.append(part)
        elif isinstance(part, Area):
            second = part.role == "sel" and any(area.role == "sel" for area in areas)
            lawful = len(areas) < 8 and not second and area_is_lawful(part, banks, areas)
            areas.append(part)
        else:
            lawful = False
        if not lawful:
            raise BadSpec(number)
    if not banks or not areas_are_complete(areas):
        raise BadSpec(len(items) + 1)
    return Image(version, banks, areas, [b"\xff" * (bank.sector * bank.count) for bank in banks])


def _read_item(item: str, version: int):
    head, _, rest = item.partition("=")
    words = rest.split("/")
    if head == "bank" and len(words) == 4 and words[0] in KIND_NUMBERS:
        numbers = [read_number(w) for w in words[1:]]
        if None not in numbers:
            return Bank(words[0], *numbers)
    if head == "area" and len(words) == 5 and words[0] in ROLE_NUMBERS:
        numbers = [read_number(w) for w in words[2:]]
        if None not in numbers:
            return Area(words[1], words[0], *numbers, version)
    return None
