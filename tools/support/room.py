"""What settings cost in the three stores, and in how many sectors they fit, by the rules of docs/formats.md."""
from collections import Counter

from .sectors import group_of, is_name, up

STORES = ("nvs", "zms", "fcb")
SCRIPT_WORDS = ("set", "del", "get", "register", "load", "direct", "save", "commit", "rset", "rget", "names", "mount", "migrate", "cut", "uncut")
MOST_SECTORS = 64
LONGEST_NAME = 64


def why_unlawful(name, length):
    if not is_name(name.encode()):
        return f"{name} is not a name of a setting"
    return "" if 1 <= length <= 2048 else f"a value has 1 to 2048 bytes, not {length}"


def why_no_sector(sector, sectors, longest):
    least = 4096 if longest > 256 else 512
    if not (least <= sector <= 32768 and sector % 64 == 0):
        return f"a sector has {least} to 32768 bytes, a multiple of 64, for values of up to {longest} bytes"
    return f"an area has 2 to {MOST_SECTORS} sectors" if sectors is not None and not 2 <= sectors <= MOST_SECTORS else ""


class Store:
    """One store on one geometry."""

    def __init__(self, name, unit, sector):
        self.name, self.unit, self.sector = name, 16 if name == "zms" else unit, sector

    def spec(self, sectors, is_long):
        """The word of a blank image of one such area."""
        kind = "rewritable" if self.name == "zms" else "erasing"
        version = "version=2," if is_long else ""
        return f"{version}bank={kind}/{self.unit}/{self.sector}/{sectors},area={self.name}/main/0/0/{sectors}"

    def record(self, name_length, length):
        """What a record of FCB costs: its length field, its body, its CRC, each padded."""
        body = name_length + 1 + length
        return up(1 if body < 128 else 2, self.unit) + up(body, self.unit) + up(1, self.unit)

    def item(self, length):
        """What an item of NVS or ZMS costs: its entry and its data. ZMS has up to 8 bytes in the entry."""
        if self.name == "zms":
            return 16 if length <= 8 else 16 + up(length, 16)
        return up(8, self.unit) + up(length, self.unit)

    def room_of_sector(self):
        """The bytes that a sector has for settings."""
        if self.name == "zms":
            return self.sector - 80
        if self.name == "nvs":
            return self.sector - 4 * up(8, self.unit)
        return self.sector - up(8, self.unit) - self.record(LONGEST_NAME, 0)

    def writes(self, name, length):
        """The costs of the single writes of a new setting, that of its value first."""
        if self.name == "fcb":
            return [self.record(len(name), length)]
        return [self.item(length), self.item(len(name))]

    def cost(self, settings):
        """What all settings cost together."""
        count = self.item(2) if self.name == "nvs" and settings else 0
        return count + sum(sum(self.writes(name, length)) for name, length in settings.items())

    def demands(self, settings):
        """For each set with all other settings there: the greatest single write, and what must fit besides."""
        total, count = self.cost(settings), self.item(2) if self.name == "nvs" else 0
        for name, length in settings.items():
            value, *others = self.writes(name, length)
            yield value, total + value
            yield max([value, *others, count]), total

    def least_sectors(self, settings):
        """The least number of sectors in which no set is refused; or none, and why."""
        if self.name == "nvs" and len(settings) > 511:
            return None, "it has at most 511 names"
        if self.name == "zms":
            group, most = Counter(group_of(name.encode()) for name in settings).most_common(1)[0]
            if most > 16:
                return None, f"{most} names have the hash group {group:04X}, and it has room for 16"
        least = 2
        for largest, wanted in self.demands(settings):
            left = self.room_of_sector() - largest
            if left <= 0:
                return None, f"a single write of {largest} bytes leaves no room in a sector of {self.sector} bytes"
            least = max(least, 1 + -(-wanted // left))
        return (least, "") if least <= MOST_SECTORS else (None, f"it would take {least} sectors, and an area has at most {MOST_SECTORS}")
