"""What the bytes of sectors say, by the rules of docs/formats.md: entries, data, free space, and what a power loss left half done.

Each byte of a sector gets one letter; KINDS says what the letters mean. `image_tool dump` reports damage; nothing here looks for it.
"""
from dataclasses import dataclass, field

from .images import number

KINDS = {
    "E": "live entry",
    "D": "live data",
    "e": "obsolete entry",
    "d": "obsolete data",
    "x": "torn entry",
    "~": "data without an entry",
    "H": "sector header",
    "C": "close entry",
    "G": "gc-done entry",
    "F": "fill unit",
    ".": "free (erased)",
}


def up(length, unit):
    return -(-length // unit) * unit


def is_erased(raw):
    return raw.count(0xFF) == len(raw)


def crc_table():
    table = []
    for byte in range(256):
        for _ in range(8):
            byte = (byte << 1 ^ 0x07) & 0xFF if byte & 0x80 else byte << 1
        table.append(byte)
    return table


CRC = crc_table()


def crc8(raw):
    crc = 0xFF
    for byte in raw:
        crc = CRC[crc ^ byte]
    return crc


def shown(raw, is_text=False):
    """Bytes in hexadecimal digits, at most the first 16, or a name as text."""
    text = f"'{raw.decode('latin-1')}'" if is_text and is_name(raw) else raw[:16].hex().upper() + (".." if len(raw) > 16 else "")
    return text or "nothing"


def counted(count, noun):
    return f"{count} {noun}" + ("" if count == 1 else "s")


def shown_body(body):
    """The body of a record: a name with its value if it has a name."""
    name, sign, value = body.partition(b"=")
    return f"{name.decode()} = {shown(value)}" if sign and is_name(name) else shown(body)


class Entry:
    """An entry or a record that passes its CRC: its id or name (none if it is of no setting), and its value. No value is a delete."""

    def __init__(self, key, value, places, words):
        self.key, self.value, self.places, self.words = key, value, places, words


class Sector:
    def __init__(self, raw, unit):
        self.raw, self.state, self.has_done, self.entries, self.lines = raw, "blank", False, [], []
        units = [] if is_erased(raw) else [raw[at:at + unit] for at in range(0, len(raw), unit)]
        self.kinds = [kind for each in units for kind in ("." if is_erased(each) else "~") * unit] or list("." * len(raw))

    def mark(self, at, length, kind):
        self.kinds[at:at + length] = kind * len(self.kinds[at:at + length])

    def put(self, at, length, kind, words):
        self.mark(at, length, kind)
        self.lines.append((at, words))

    def bar(self, columns=64):
        bar, width = [], max(1, len(self.raw) // columns)
        for at in range(0, len(self.raw), width):
            kinds = [kind for kind in self.kinds[at:at + width] if kind != "."] or ["."]
            bar.append(max(kinds, key=kinds.count))
        return "".join(bar)


# ---- sectors by role

def nvs_sector(raw, unit):
    sector, slot = Sector(raw, unit), up(8, unit)
    if is_erased(raw):
        return sector
    close, *slots = range(len(raw) - slot, -1, -slot)
    sector.state = "in use" if is_erased(raw[close:]) else "closed"
    if sector.state == "closed":
        sector.put(close, slot, "C", "close entry")
    for at in slots:
        entry = raw[at:at + 8]
        if is_erased(raw[at:at + slot]):
            break
        ident, offset, length = (number(entry[i:i + 2]) for i in (0, 2, 4))
        checks = crc8(entry[:7]) == entry[7]
        if checks and ident == 0xFFFF and length == 0:
            sector.has_done = True
            sector.put(at, slot, "G", "gc-done entry")
        elif checks and ident != 0xFFFF and offset % unit == 0 and offset + length <= at:
            value, places = raw[offset:offset + length], [(at, slot, "E"), (offset, up(length, unit), "D")]
            sector.entries.append(Entry(ident, value, places, f"id {ident:04X}%s, {counted(length, 'byte')} at {offset}: "))
        else:
            sector.put(at, slot, "x", f"not an entry: {entry.hex(' ').upper()}")
    return sector


def zms_entry(raw, cycle=None):
    """Length, id and tail of a slot that passes its CRC, under this cycle or any; else none."""
    checks = crc8(raw[1:]) == raw[0] and cycle in (None, raw[1])
    return (number(raw[2:4]), number(raw[4:8]), raw[8:]) if checks else (None, None, raw[8:])


def zms_item(raw, at, ident, length, tail):
    offset = number(tail[:4])
    value = tail[:length] if length <= 8 else raw[offset:offset + length]
    places = [(at, 16, "E"), (offset, up(length, 16) if length > 8 else 0, "D")]
    where = f"at {offset}" if length > 8 else "in the entry"
    return Entry(ident, value, places, f"id {ident:08X}%s, {counted(length, 'byte')} {where}: ")


def zms_slots(sector, slots, cycle):
    """Reads the slots from the second on, down to the first that is not valid under the cycle."""
    raw = sector.raw
    for at in slots:
        length, ident, tail = zms_entry(raw[at:at + 16], cycle)
        if length is None:
            sector.lines.append((at, "guard slot: not valid under the cycle"))
            return
        sector.state = "in use"
        if ident != 0xFFFFFFFF:
            sector.entries.append(zms_item(raw, at, ident, length, tail))
            continue
        is_done = (length, number(tail[4:])) == (0, 2)
        sector.has_done |= is_done
        sector.put(at, 16, "G" if is_done else "x", "gc-done entry" if is_done else "a special entry")


def zms_sector(raw, unit):
    sector, own, (empty, close, *slots) = Sector(raw, unit), 0xFFFFFFFF, range(len(raw) - 16, -1, -16)
    for at in range(0, len(raw), 16):
        if raw[at:at + 16] == b"\x6F" + bytes(15):
            sector.mark(at, 16, "F")
    if zms_entry(raw[empty:]) != (0xFFFF, own, bytes(8)):
        return sector
    cycle, sector.state = raw[empty + 1], "empty"
    sector.put(empty, 16, "H", f"empty entry of cycle {cycle}")
    length, ident, tail = zms_entry(raw[close:empty], cycle)
    is_closed = (length, ident, number(tail[4:])) == (0, own, 1)
    if is_closed:
        sector.put(close, 16, "C", "close entry")
    zms_slots(sector, slots, cycle)
    sector.state = "closed" if is_closed else sector.state
    return sector


def fcb_record(sector, at, unit, says):
    """Reads the record at this place, and returns where the next one begins."""
    raw = sector.raw
    width = 1 if raw[at] < 0x80 else 2
    length = raw[at] if width == 1 else (raw[at] & 0x7F) + 128 * raw[at + 1]
    body, check = raw[at + unit:at + unit + length], at + unit + up(length, unit)
    words = f"record of {counted(length, 'byte')}: {shown_body(body)}"
    if check >= len(raw):
        sector.put(at, len(raw) - at, "x", "a record that goes past the end of the sector")
    elif crc8(raw[at:at + width] + body) != raw[check]:
        sector.put(at, check + unit - at, "x", words + ", fails its CRC")
    else:
        key, value = says(body)
        places = [(at, unit, "E"), (at + unit, check - at - unit, "D"), (check, unit, "E")]
        sector.entries.append(Entry(key, value, places, words))
    return check + unit


def fcb_sector(raw, unit, says):
    sector, at = Sector(raw, unit), up(8, unit)
    if is_erased(raw):
        return sector
    if raw[:4] == b"\xEE\xEE\xFF\xC0" and is_erased(raw[4:]):
        sector.state = "free"
        sector.put(0, 4, "x", "torn header")
        return sector
    sector.state = "in use"
    sector.put(0, at, "H", f"header with id {number(raw[6:8])}")
    while at < len(raw) and raw[at:at + 2] != b"\xFF\xFF":
        at = fcb_record(sector, at, unit, says)
    return sector


# ---- areas

def ring_of_slots(sectors):
    """The sectors of an NVS or a ZMS area that count, the oldest first, and the open one."""
    count, closed = len(sectors), [sector.state == "closed" for sector in sectors]
    used = [i for i in range(count) if sectors[i].state in ("in use", "closed")]
    opened = ([i for i in range(count) if not closed[i] and closed[i - 1]] + used + [0])[0]
    ring, following = [(opened + 1 + i) % count for i in range(count)], (opened + 1) % count
    if closed[following]:
        ring.remove(following if sectors[opened].has_done else opened)
    return ring, opened


def ring_of_records(sectors):
    """The used sectors of an FCB area that count, the oldest first, and the newest one."""
    count, idents = len(sectors), [number(sector.raw[6:8]) for sector in sectors]
    used = [i for i in range(count) if sectors[i].state == "in use"]
    firsts = [i for i in used if (i - 1) % count not in used or idents[i] != (idents[i - 1] + 1) % 65536]
    ring = [(i + firsts[0]) % count for i in range(len(used))] if firsts else []
    return (ring[:-1] if len(used) == count else ring), (ring[-1] if ring else None)


def is_name(raw):
    parts = raw.split(b"/")
    return len(raw) <= 64 and len(parts) <= 8 and b"" not in parts and all(0x21 <= b <= 0x7E and b != 0x3D for b in raw)


def group_of(name):
    code = 0x811C9DC5
    for byte in name:
        code = (code ^ byte) * 0x01000193 & 0xFFFFFFFF
    return code & 0xFFF0


def steps_of(role):
    """The first id of a name, and how much greater that of its value is."""
    return (0x8001, 0x4000) if role == "nvs" else (0x80000000, 0x40000000)


def pairs_in(items, role, limit):
    """The settings that items hold: names, and values one step above them. Of two equal names the one with the lower id wins."""
    count, found = items.get(0x8000, b""), {}
    first, step = steps_of(role)
    end = 0x80010000 if role == "zms" else first + (min(number(count), 511) if len(count) == 2 else 0)
    for ident in sorted(items, reverse=True):
        name, value = items[ident], items.get(ident + step, b"")
        there = first <= ident < end and (role == "nvs" or group_of(name) == ident & 0xFFF0)
        if there and is_name(name) and 0 < len(value) <= limit:
            found[name] = value
    return found


NAME = " (a name)"


def meaning_of(ident, items, role):
    """The meaning of an id among settings; nothing for a numbered item."""
    first, step = steps_of(role)
    if role == "nvs" and ident == 0x8000:
        return " (count of names)"
    if first <= ident < first + (511 if role == "nvs" else 0x10000):
        return NAME
    name = items.get(ident - step, b"")
    return f" (value of {name.decode()})" if ident >= first + step and name and is_name(name) else ""


def setting_in(body, limit):
    name, sign, value = body.partition(b"=")
    return (name, value) if sign and is_name(name) and len(value) <= limit else (None, b"")


def choice_in(body, stores):
    return ("area", body[:1]) if len(body) == 2 and body[0] + body[1] == 0xFF and body[0] in stores else (None, b"")


@dataclass
class SectorView:
    """One sector for a drawing: a letter for each byte, a line of words for each slot or record, and its state."""
    number: int
    kinds: list
    lines: list
    state: str
    bar: str


@dataclass
class AreaView:
    area: object
    sectors: list
    items: dict
    settings: dict
    active: int = field(default=0)


def finish(sector, last, items, role):
    """Marks the entries of a sector as live or obsolete, and adds their words."""
    for entry in sector.entries:
        is_live = last.get(entry.key) is entry and entry.value
        for at, length, kind in reversed(entry.places):
            sector.mark(at, length, kind if is_live else kind.lower())
        words = entry.words
        if role in ("nvs", "zms"):
            meaning = meaning_of(entry.key, items, role)
            words = words.replace("%s", meaning) + shown(entry.value, meaning == NAME)
        aside = "" if is_live else " (a delete)" if not entry.value else " (older)"
        sector.lines.append((entry.places[0][0], words + aside))


def state_of(place, sector, ring, newest):
    used = sector.state in ("in use", "closed")
    newer = ", the open one" if place == newest else ""
    return sector.state + newer + (", ignored" if used and place not in ring else "")


def view_of(area, image):
    """The sectors of an area for a drawing, and the settings that it reads as."""
    role, stores, limit = area.role, image.store_places(), image.longest_value()
    says = (lambda body: choice_in(body, stores)) if role == "sel" else (lambda body: setting_in(body, limit))
    read = {"nvs": nvs_sector, "zms": zms_sector}.get(role, lambda raw, unit: fcb_sector(raw, unit, says))
    sectors = [read(raw, area.bank.unit) for raw in area.sectors]
    ring, newest = (ring_of_slots if role in ("nvs", "zms") else ring_of_records)(sectors)
    last = {entry.key: entry for i in ring for entry in sectors[i].entries if entry.key is not None}
    items = {key: entry.value for key, entry in last.items() if entry.value}
    for sector in sectors:
        finish(sector, last, items, role)
    views = [SectorView(i, each.kinds, sorted(each.lines), state_of(i, each, ring, newest), each.bar()) for i, each in enumerate(sectors)]
    if role == "sel":
        return AreaView(area, views, {}, {}, items["area"][0] if items else stores[0])
    return AreaView(area, views, items, items if role == "fcb" else pairs_in(items, role, limit))
