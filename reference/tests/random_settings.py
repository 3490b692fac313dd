"""Random scripts with random cuts, every step checked against the plain map and the readings.

Run as `python3 -m tests.random_settings SEED COUNT`. Each case prints nothing unless it fails; a failure prints
the spec, the script and the fault, and ends the run with status 1. Some cases start from images that
no run of the program wrote: bytes of a written image are changed, and where the result still reads
as a map it is run.
"""

import random
import sys
import traceback

from image_tool import readings
from image_tool.fcb import encode_header, encode_record
from image_tool.flash import Bench
from image_tool.image import Image, read_spec
from image_tool.lines import Line
from image_tool.model import CheckedSession, torn_commands
from image_tool.nvs import Damaged, encode_entry
from image_tool.zms import FILL, ZEntry, close_entry, done_entry, empty_entry, encode

NAMES = [b"a", b"b", b"c/d", b"c/e", b"long/" + b"n" * 59, b"q" * 33, b"x/y/z", b"m" * 16, b"n8" * 4, b'"\\',
         b"p1", b"p2", b"p3", b"p4"]


def random_spec(rng: random.Random) -> str:
    """One to three store areas on one or two banks, with a selector where one is needed."""
    unit = rng.choice([4, 4, 8, 16])
    sizes = [512, 512, 512, 576, 640, 1024]
    roles = rng.choice([["nvs"], ["zms"], ["fcb"], ["zms"], ["fcb"], ["nvs", "fcb"], ["nvs", "zms"],
                        ["fcb", "zms"], ["nvs", "fcb", "zms"], ["nvs", "nvs"], ["zms", "zms"]])
    zms_on_erasing = rng.random() < 0.5
    if zms_on_erasing and "zms" in roles:
        unit = 16
    banks = [[f"bank=erasing/{unit}/{rng.choice(sizes)}", 0], [f"bank=rewritable/16/{rng.choice(sizes)}", 0]]
    areas = []
    roles = roles + (["sel"] if len(roles) > 1 or rng.random() < 0.2 else [])
    for i, role in enumerate(roles):
        bank = 1 if role == "zms" and not zms_on_erasing else 0
        count = rng.choice([2, 2, 2, 3, 3, 4]) if role != "sel" else rng.choice([2, 3])
        areas.append([role, f"{role}{i}", bank, banks[bank][1], count])
        banks[bank][1] += count
    kept = [i for i in (0, 1) if banks[i][1]]
    items = [f"{banks[i][0]}/{banks[i][1] + rng.choice([0, 0, 1])}".replace("/1", "/1") for i in kept]
    for area in areas:
        area[2] = kept.index(area[2])
        items.append("area=" + "/".join(map(str, area)))
    return ",".join(items)


def random_value(rng: random.Random, limit: int) -> bytes:
    length = rng.choice([1, 1, 2, 4, 7, 8, 9, 15, 16, 17, 31, 60, 100, 127, 128, 180, 200, 255, 256, limit])
    kind = rng.random()
    if kind < 0.25:
        return b"\xff" * length
    if kind < 0.4:
        return bytes(length)
    if kind < 0.5:
        return rng.randbytes(length)[:length // 2] + b"\xff" * (length - length // 2)
    if kind < 0.6:
        unit = encode(ZEntry(rng.choice([0, 1, 2, 3]), rng.choice([0, 1, 8]), rng.choice([1, 0x80002920]), bytes(8)))
        return (unit * (length // 16 + 1))[:length]
    return rng.randbytes(length)


def chancy_value(rng: random.Random, name: bytes) -> bytes:
    """A short value whose record may check although it is torn."""
    unit = rng.choice([4, 8, 16])
    for _ in range(300):
        value = rng.randbytes(rng.choice([3, 6, 11, 20, 33]))
        if torn_commands(unit, ("put", name, value), 256):
            break
    return value


def random_line(rng: random.Random, names: list[bytes], on: bool) -> Line:
    if not on and rng.random() < 0.8:
        return rng.choice([Line("mount"), Line("mount"), Line("cut", number=rng.choice([0, 1, 2, 3, 5, 9, 20, 40]))])
    choice = rng.random()
    name = rng.choice(names)
    if choice < 0.06:
        return Line("set", name=name, value=chancy_value(rng, name))
    if choice < 0.42:
        return Line("set", name=name, value=random_value(rng, 256))
    if choice < 0.55:
        return Line("del", name=name)
    if choice < 0.80:
        return Line("cut", number=rng.choice([0, 1, 2, 3, 4, 5, 6, 8, 10, 15, 20, 30, 40, 60, 80, 100, 150]))
    if choice < 0.85:
        return Line("migrate")
    if choice < 0.89:
        return Line("save", name=rng.choice([None, None, b"c"]))
    if choice < 0.92:
        return Line("register", name=rng.choice([b"c", b"x", b"a", b"c/d"]), kind=rng.choice(["table", "counter"]))
    if choice < 0.95:
        return Line("rset", name=name, value=random_value(rng, 256))
    return rng.choice([Line("mount"), Line("load"), Line("names"), Line("direct"), Line("uncut"), Line("commit"),
                       Line("get", name=name), Line("rget", name=name)])


def foreign_nvs_entry(rng: random.Random, unit: int) -> bytes:
    ident = rng.choice([0xFFFF, 0x8000, 0x8001, 0xC001, 0x8002, 0xC002, 0x8003, 5])
    offset = rng.choice([0, unit * rng.randrange(40), rng.randrange(512)])
    return encode_entry(ident, offset, rng.choice([0, 0, 1, 2, 3, rng.randrange(300)]))


def foreign_zms_entry(rng: random.Random) -> bytes:
    cycle, length = rng.choice([1, 1, 2, 3, 0, 255]), rng.choice([0, 1, 5, 9, 20, 200])
    ident = rng.choice([1, 0x80002920, 0xC0002920, 0x80002921, 0xC0002921, 0xFFFFFFFF])
    tail = (bytes(8) if length == 0 else b"a" + bytes(7) if length < 9 else
            (16 * rng.randrange(20)).to_bytes(4, "little") + bytes(4))
    return rng.choice([encode(ZEntry(cycle, length, ident, tail)), empty_entry(cycle),
                       close_entry(cycle, rng.randrange(512)), done_entry(cycle, rng.randrange(512)), FILL,
                       rng.randbytes(16)])


def foreign_record(rng: random.Random, unit: int) -> bytes:
    bodies = [b"a=", b"a=1", b"bad", b"\x00\xff", b"\x01\xfe", b"b=" + bytes(200)]
    return rng.choice([encode_header(unit, rng.choice([0, 1, 2, 0xFFFF, 5])), b"\xee\xee\xff\xc0",
                       encode_record(unit, rng.choice(bodies))])


def put_foreign(rng: random.Random, image: Image, data: list[bytearray]) -> None:
    """Change one sector of one area: a byte, the whole sector, or an entry in it."""
    area = rng.choice(image.areas)
    bank, raw = image.banks[area.bank], data[area.bank]
    start = (area.first + rng.randrange(area.sectors)) * bank.sector
    end, slot = start + bank.sector, max(8, bank.unit)
    place = end - (rng.choice([0, 1, 1, 2, 3, rng.randrange(bank.sector // slot)]) + 1) * slot
    low = start + rng.randrange(bank.sector // bank.unit) * bank.unit
    choice = rng.random()
    if choice < 0.15:
        raw[rng.choice([low, start + rng.randrange(bank.sector)])] = rng.choice([0, 0xFF, rng.randrange(256)])
        return
    if choice < 0.2:
        chunk, at = b"\xff" * bank.sector, start
    elif choice < 0.3:
        other = area.first + rng.randrange(area.sectors)
        chunk, at = bytes(raw[other * bank.sector:(other + 1) * bank.sector]), start
    elif area.role == "nvs":
        chunk, at = foreign_nvs_entry(rng, bank.unit), place
    elif area.role == "zms":
        chunk = foreign_zms_entry(rng)
        at = rng.choice([place, end - 16 if chunk[3:8] == b"\xff" * 5 else place])
    else:
        chunk = foreign_record(rng, bank.unit)
        at = start if chunk[0] == 0xEE else low
    chunk = chunk[:end - at]
    raw[at:at + len(chunk)] = chunk


def mutate(rng: random.Random, image: Image) -> list[bytes]:
    """Change bytes as a foreign writer might: stray bytes, whole entries, headers, records."""
    data = [bytearray(raw) for raw in image.data]
    for _ in range(rng.choice([1, 1, 2, 3, 5])):
        put_foreign(rng, image, data)
    return [bytes(raw) for raw in data]


def settled(image: Image) -> bool:
    """Whether the image reads as a map."""
    chosen = readings.active(image)
    return not isinstance(chosen, Damaged) and not isinstance(
        readings.area_reads(image, image.areas[chosen]), Damaged)


def one_case(seed: int) -> int:
    rng = random.Random(seed)
    spec = random_spec(rng)
    try:
        image = read_spec(spec)
    except Exception:
        return 0
    names = rng.sample(NAMES, rng.choice([1, 2, 3, 5, 8]))
    log: list = [spec]
    bench = Bench()
    bench.load(image.banks, image.data)
    try:
        session = CheckedSession(bench, image.areas, deep=rng.choice([1, 3, 10]))
        session.step(Line("mount"))
        for round_ in range(rng.choice([1, 1, 1, 3, 6])):
            for _ in range(rng.choice([10, 30, 60])):
                line = random_line(rng, names, bench.on)
                log.append(line)
                log.append(session.step(line).text)
            if rng.random() < 0.7:
                break
            data = mutate(rng, Image(1, image.banks, image.areas, bench.snapshot()))
            if settled(Image(1, image.banks, image.areas, data)):
                log.append(("foreign", [raw.hex() for raw in data]))
                bench.load(image.banks, data)
                session = CheckedSession(bench, image.areas, deep=3)
                session.step(Line("mount"))
        return session.points
    except Exception:
        print("seed", seed)
        for entry in log[-12:]:
            print(entry)
        traceback.print_exc()
        raise SystemExit(1)


def main() -> None:
    first, count = int(sys.argv[1]), int(sys.argv[2])
    points = sum(one_case(seed) for seed in range(first, first + count))
    print(f"{count} cases from seed {first}, {points} cut points in their last sessions")


if __name__ == "__main__":
    main()
