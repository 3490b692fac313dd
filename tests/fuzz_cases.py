"""Random cases for `tests/fuzz`: images, scripts and commands, each from a seed."""
import itertools
from collections import namedtuple

from image_tool import fcb, nvs, zms
from image_tool.backends import hash_group, torn_bytes
from image_tool.host import MemHost
from image_tool.image import Image, read_image, read_spec, write_image
from image_tool.tool import tool

# One call of the program: its words, and the files that are there.
Case = namedtuple("Case", "words files")

IMAGE, SCRIPT, OUT = "x.img", "s.txt", "y.img"
STORES = ["nvs", "zms", "fcb"]
CUTS = [0, 1, 2, 3, 4, 5, 6, 8, 10, 12, 15, 20, 27, 30, 40, 60, 80, 100, 150, 220]
NAMES = ["a", "b", "c/d", "c/e", "x/y/z", "wifi/ssid", "m" * 16, "q" * 33, "long/" + "n" * 59, "a/b/c/d/e/f/g/h",
         '"\\', "~", "!", "n" * 64]
LENGTHS = [1, 1, 2, 3, 4, 7, 8, 9, 15, 16, 17, 31, 32, 33, 60, 100, 124, 127, 128, 180, 200, 255, 256]
LONG_LENGTHS = [300, 1000, 1024, 2047, 2048]
ITEM_IDS = [0, 1, 2, 3, 64, 65, 300, 8000, 65534]
ZMS_IDS = [0x1FFFF, 0x80002920, 4294967294]
WRONG_LINES = ["fly", "", " ", "# a note", "set a", "set a 0g", "set a 1", "set a -", "set a=b 01", "set a//b 01", "set 01 11", "set x 0g",
               "set 1 -", "set a 01 ", " set a 01", "set a  01", "cut 01", "cut -1", "cut 4294967296", "get", "get 65535",
               "del 4294967295", "register a box", "load a b", "mount now", "rset a -", "names\r", "put -", "put 0g", "all 1",
               "space now", "older 1", "older 1 4294967296", "blank P", "blank abcdefghi", "blank", "SET 1 01",
               "set a " + "11" * 257, "set a " + "11" * 2049, "put " + "11" * 257, "get " + "n" * 65,
               "get 1/2/3/4/5/6/7/8/9", "migrate x", "direct a="]

# What follows each first word of a script of settings: a name, a value, a value or -, a kind of handler, a number, a name or nothing.
FIELDS = {"set": "n-", "get": "n", "del": "n", "register": "nk", "load": "?", "direct": "?", "save": "?", "commit": "", "rset": "nv",
          "rget": "n", "names": "", "mount": "", "cut": "u", "uncut": "", "migrate": ""}
ODD = {"n": ["", "/", "a//b", "a=b", "/a", "a/", "x" * 65, "1/2/3/4/5/6/7/8/9", "\x7f", "a", "c/d", "~"],
       "v": ["", "0", "0g", "-", "--", "zz", "a-", "00" * 257, "0" * 513, "AB", "00" * 256],
       "-": ["", "0", "0g", "-", "--", "zz", "a-", "00" * 257, "0" * 513, "AB", "00" * 256],
       "k": ["table", "counter", "level", "box", "Table", ""],
       "u": ["0", "00", "01", "+1", "-1", "", "4294967295", "4294967296", "99999999999999999999999", "7"]}


# Images

def bank(rng, kind, unit, sectors, long):
    sizes = [4096] if long else [512, 512, 512, 576, 640, 768, 1024]
    return f"bank={kind}/{unit}/{rng.choice(sizes)}/{max(sectors, 2)}"


def spec_of(rng, roles, long=False):
    """The SPEC of areas of these roles in this order, on one or two banks."""
    unit, first, areas = rng.choice([4, 4, 8, 16]), [0, 0], []
    for place, role in enumerate(roles):
        on = 1 if role == "zms" and (unit < 16 or rng.random() < 0.5) else 0
        start = first[on] + rng.choice([0, 0, 0, 1])
        count = rng.choice([2, 2, 2, 3, 3, 4, 6])
        areas.append([role, f"{role}{place}", on, start, count])
        first[on] = start + count
    kept = [on for on in (0, 1) if first[on] or rng.random() < 0.05]
    banks = [bank(rng, ("erasing", "rewritable")[on], (unit, 16)[on], first[on] + rng.choice([0, 0, 1]), long) for on in kept]
    rows = ["area=" + "/".join(map(str, [role, label, kept.index(on), start, count])) for role, label, on, start, count in areas]
    return ",".join(["version=2"] * long + banks + rows)


def settings_roles(rng):
    stores = rng.choices(STORES, k=rng.choice([1, 1, 1, 1, 2, 2, 2, 3, 3, 5]))
    roles = stores + (["sel"] if len(stores) > 1 or rng.random() < 0.2 else [])
    if rng.random() < 0.3:
        rng.shuffle(roles)
    return roles


def roles_for(rng, command):
    """Roles that the command works on; now and then those of another command, which it refuses."""
    if rng.random() < 0.03:
        command = rng.choice(["run", "items", "log", "mirror"])
    if command == "items":
        return [rng.choice(["nvs", "zms", "zms"])]
    if command == "log":
        return ["fcb"]
    if command == "mirror":
        roles = [rng.choice(["nvs", "zms"]), rng.choice(["nvs", "zms"]), "sel"]
        return roles if rng.random() < 0.7 else [roles[2], roles[0], roles[1]]
    return settings_roles(rng)


def after_script(image, command, text):
    """The image that the reference leaves after a script, or the same image if it refuses the script."""
    host = MemHost()
    host.files.update({IMAGE: image, SCRIPT: text})
    tool([command, IMAGE, SCRIPT, OUT], host)
    return host.files.get(OUT, image)


def start_image(rng, command):
    """A blank image, or one that a script left."""
    long = rng.random() < 0.12
    image = write_image(read_spec(spec_of(rng, roles_for(rng, command), long)))
    if rng.random() < 0.4:
        image = after_script(image, command, script(rng, command, read_image(image)))
    return image


# Scripts

class Writer:
    """Makes the lines of one script for one image."""

    def __init__(self, rng, command, image):
        self.rng, self.command = rng, command
        self.unit = rng.choice(image.banks).unit
        self.long = image.version == 2
        self.labels = [area.label for area in image.areas]
        self.has_fcb = any(area.role == "fcb" for area in image.areas)
        self.has_zms = any(area.role == "zms" for area in image.areas)
        self.names = self.some_names()
        ids = ITEM_IDS + ZMS_IDS * self.has_zms
        self.ids = rng.sample(ids, rng.choice([1, 2, 3, 5]))
        self.lengths = LENGTHS[rng.choice([0, 0, 0, 12]):] + LONG_LENGTHS * self.long
        # A guess of how many units are left before the planned loss; none if no loss is planned.
        self.units_left = None

    def some_names(self):
        """A few names; sometimes several with one hash, or one whose torn delete passes the CRC by chance."""
        rng = self.rng
        names = rng.sample(NAMES, rng.choice([1, 2, 3, 5, 8]))
        if self.has_zms and rng.random() < 0.25:
            group = hash_group(names[0].encode())
            same = (f"z{k}" for k in itertools.count() if hash_group(b"z%d" % k) == group)
            names += itertools.islice(same, rng.choice([1, 2]))
        if self.has_fcb and rng.random() < 0.3:
            tries = (f"{rng.randrange(1 << 80):020x}" for _ in range(100))
            names += [name for name in tries if self.chances(name.encode() + b"=")][:1]
        return names

    def chances(self, body):
        """After how many units a cut of the record with this body leaves bytes that pass the CRC by chance."""
        want = fcb.encode_record(self.unit, body)
        torn = [(done, torn_bytes(self.unit, want, done)) for done in range(1, len(want) // self.unit)]
        return [done for done, raw in torn if raw != want and fcb.parse_record(self.unit, 0, 0, raw).checks]

    def cut_by_chance(self, before, words):
        """The line that plans a loss, and a line whose record it cuts so that the CRC accepts it by chance."""
        rng = self.rng
        for _ in range(60):
            raw = rng.randbytes(rng.choice([3, 6, 8, 11, 20, 33]))
            done = self.chances(before + raw)
            if done:
                return f"cut {done[0]}\n{words} {raw.hex()}"
        return f"{words} {raw.hex()}"

    def value(self):
        """Bytes as digits: random, all FF or 00, with a tail of FF, or like an entry."""
        rng, choice = self.rng, self.rng.random()
        length = rng.choice(self.lengths)
        if choice < 0.15:
            raw = rng.choice([b"\xff", b"\0", b"\x6f" + bytes(15)]) * length
        elif choice < 0.25:
            raw = rng.randbytes(length // 2) + b"\xff" * length
        elif choice < 0.35:
            entry = zms.ZEntry(rng.choice([0, 1, 2, 3]), rng.choice([0, 1, 8]), rng.choice([1, 0x80002920]), bytes(8))
            raw = zms.encode(entry) * (length // 16 + 1)
        else:
            raw = rng.randbytes(length)
        digits = raw[:length].hex()
        return digits.upper() if rng.random() < 0.03 else digits

    def line(self):
        """One line, or two that belong together."""
        rng = self.rng
        seems_off = self.units_left is not None and self.units_left < 0
        if seems_off and rng.random() < 0.8:
            text = rng.choice(["mount"] * 4 + [f"cut {rng.choice(CUTS[:13])}", self.while_off()])
        elif self.units_left is None and rng.random() < 0.2:
            text = f"cut {rng.choice(CUTS)}"
        elif rng.random() < 0.06:
            text = rng.choice(["mount", "mount", "uncut", f"cut {rng.choice(CUTS)}"])
        else:
            text = getattr(self, "for_" + self.command)()
        for part in text.split("\n"):
            self.guess(part)
        return text

    def guess(self, line):
        """Guesses how many units are left before the planned loss."""
        word, _, rest = line.partition(" ")
        if word == "cut":
            self.units_left = int(rest)
        elif word == "uncut" or word == "mount" and self.units_left is not None and self.units_left < 0:
            self.units_left = None
        elif self.units_left is not None and word in ("set", "put", "del", "migrate", "save"):
            self.units_left -= 3 + len(rest) // 2 // self.unit + 10 * (word == "migrate")

    def while_off(self):
        if self.command == "mirror":
            return f"blank {self.rng.choice(self.labels + ['none'])}"
        return self.rng.choice(["uncut", getattr(self, "for_" + self.command)()])

    def for_run(self):
        rng, choice, name = self.rng, self.rng.random(), self.rng.choice(self.names)
        if self.has_fcb and choice < 0.04:
            return self.cut_by_chance(name.encode() + b"=", f"set {name}")
        if self.has_fcb and choice < 0.08:
            return "".join(f"cut {done}\n" for done in self.chances(name.encode() + b"=")[:1]) + f"del {name}"
        if choice < 0.5:
            return f"set {name} {self.value()}"
        if choice < 0.64:
            return rng.choice([f"del {name}", f"del {name}", f"set {name} -"])
        if choice < 0.72:
            return "migrate"
        if choice < 0.80:
            subtree = rng.choice(["c", "x", "a", "c/d", "wifi", name])
            return rng.choice([f"register {subtree} {rng.choice(['table', 'table', 'counter', 'level'])}", f"load {subtree}",
                               f"save {subtree}", f"direct {subtree}"])
        if choice < 0.88:
            value = rng.choice(["64", "65", "00000001", self.value()])
            return rng.choice([f"rset {name} {value}", f"rset {name} {value}", "save", f"rget {name}"])
        return rng.choice(["load", "names", "direct", "commit", f"get {name}", f"get {name}"])

    def for_items(self):
        rng, choice, ident = self.rng, self.rng.random(), self.rng.choice(self.ids)
        if choice < 0.55:
            return f"set {ident} {self.value()}"
        if choice < 0.7:
            return f"del {ident}"
        return rng.choice([f"get {ident}", "space", f"older {ident} {rng.choice([0, 0, 1, 1, 2, 3, 9, 4294967295])}"])

    def for_log(self):
        choice = self.rng.random()
        if choice < 0.06:
            return self.cut_by_chance(b"", "put")
        return f"put {self.value()}" if choice < 0.85 else "all"

    def for_mirror(self):
        rng, choice, name = self.rng, self.rng.random(), self.rng.choice(self.names)
        if choice < 0.55:
            return f"set {name} {self.value()}"
        if choice < 0.7:
            return f"del {name}"
        return rng.choice([f"get {name}", "names", f"blank {rng.choice(self.labels + ['none'])}"])


def script(rng, command, image):
    """The bytes of a script. One in twelve has a line that may be refused."""
    writer = Writer(rng, command, image)
    counts = [0, 3, 10, 20] if writer.long else [0, 3, 8, 15, 30, 60]
    lines = [writer.line() for _ in range(rng.choice(counts))]
    if command == "run" and rng.random() < 0.03:
        lines += many_lines(rng, writer)
    if rng.random() < 0.08:
        lines.insert(rng.randrange(len(lines) + 1), rng.choice(WRONG_LINES))
    return ("\n".join(lines) + rng.choice(["", "\n"])).encode()


def odd_line(rng):
    """A line of a script of settings with odd words, valid or not."""
    word = rng.choice(list(FIELDS))
    words = [word] + [rng.choice(ODD[field]) for field in FIELDS[word].replace("?", rng.choice(["", "n"]))]
    if rng.random() < 0.2:
        words.insert(rng.randrange(len(words) + 1), rng.choice(["", "x", word]))
    elif rng.random() < 0.1:
        words.pop()
    return " ".join(words)


def many_lines(rng, writer):
    """More names of one hash than a hash group of ZMS holds, many small names, or so many migrations that the selector collects garbage."""
    group = hash_group(b"z0")
    same = (f"z{k}" for k in itertools.count() if hash_group(b"z%d" % k) == group)
    return rng.choice([
        [f"set {name} 01" for name in itertools.islice(same, 18)],
        [f"set k/{k} {k % 256:02x}" for k in range(rng.choice([20, 60]))],
        ["migrate"] * 50,
        ["register c table", "register x table", "rset c/d 01", "rset x/y 02", "save", "mount", "load", "names"],
    ]) + ["names"]


# Foreign bytes

def foreign_entry(rng, role, unit):
    """An entry, a header or a record as another writer may leave it, and its slot, counted from the end of the sector; or no slot."""
    if role == "nvs":
        ident = rng.choice([0xFFFF, 0x8000, 0x8001, 0xC001, 0x8002, 0xC002, 0x8003, 5])
        offset = rng.choice([0, unit * rng.randrange(40), rng.randrange(512)])
        return nvs.encode_entry(ident, offset, rng.choice([0, 0, 1, 2, 3, rng.randrange(300)])), rng.choice([0, 1, 1, 2, 3])
    if role == "zms":
        cycle, length = rng.choice([1, 1, 2, 3, 0, 255]), rng.choice([0, 1, 5, 9, 20, 200])
        ident = rng.choice([1, 2, 0x80002920, 0xC0002920, 0x80002921, 0xC0002921, 0xFFFFFFFF])
        tail = (bytes(8) if length == 0 else b"a" + bytes(7) if length < 9 else
                (16 * rng.randrange(20)).to_bytes(4, "little") + bytes(4))
        return rng.choice([
            (zms.encode(zms.ZEntry(cycle, length, ident, tail)), rng.choice([1, 2, 2, 3, 4])), (zms.empty_entry(cycle), 0),
            (zms.close_entry(cycle, rng.randrange(512)), 1), (zms.done_entry(cycle, rng.randrange(512)), rng.choice([2, 3])),
            (zms.FILL, rng.choice([0, 1, 2, 3])), (rng.randbytes(16), rng.choice([0, 1, 2, 3]))])
    if rng.random() < 0.4:
        return rng.choice([fcb.encode_header(unit, rng.choice([0, 1, 2, 0xFFFF, 5])), fcb.MAGIC]), None
    bodies = [b"a=", b"a=1", b"bad", b"\x00\xff", b"\x01\xfe", b"\x02\xfd", b"b=" + bytes(200)]
    return fcb.encode_record(unit, rng.choice(bodies)), None


def put_foreign(rng, image, data):
    """Changes one sector of one area: a byte, the whole sector, or an entry in it."""
    area = rng.choice(image.areas)
    shape, raw = image.banks[area.bank], data[area.bank]
    start = (area.first + rng.randrange(area.sectors)) * shape.sector
    choice = rng.random()
    if choice < 0.2:
        raw[start + rng.randrange(shape.sector)] = rng.choice([0, 0xFF, rng.randrange(256)])
    elif choice < 0.25:
        raw[start:start + shape.sector] = b"\xff" * shape.sector
    elif choice < 0.35:
        other = (area.first + rng.randrange(area.sectors)) * shape.sector
        raw[start:start + shape.sector] = raw[other:other + shape.sector]
    else:
        chunk, slot = foreign_entry(rng, area.role, shape.unit)
        size = max(8, shape.unit)
        at = start + rng.choice([0, size, size, shape.unit * rng.randrange(shape.sector // shape.unit)])
        if slot is not None:
            at = start + shape.sector - (slot + 1) * size
        chunk = chunk[:start + shape.sector - at]
        raw[at:at + len(chunk)] = chunk


def foreign_image(rng, image):
    data = [bytearray(raw) for raw in image.data]
    for _ in range(rng.choice([1, 1, 2, 3, 5])):
        put_foreign(rng, image, data)
    return write_image(Image(image.version, image.banks, image.areas, [bytes(raw) for raw in data]))


def changed_bytes(rng, raw):
    """The bytes, with some of them replaced, removed, doubled or added."""
    raw = bytearray(raw)
    for _ in range(rng.choice([1, 1, 2, 4])):
        at, size = rng.randrange(len(raw) + 1), rng.choice([1, 1, 2, 4, 16, 60])
        some = bytes(rng.choice(b"0 1a/=-\n#,\xff\0ENZ") if rng.random() < 0.7 else rng.randrange(256) for _ in range(size))
        choice = rng.random()
        if choice < 0.5:
            raw[at:at + 1] = some[:1]
        elif choice < 0.65:
            del raw[at:at + size]
        elif choice < 0.8:
            raw[at:at] = raw[at:at + size]
        elif choice < 0.92:
            raw[at:at] = some
        else:
            del raw[at:]
    return bytes(raw)


def changed_head(rng, raw):
    """The image with changed bytes only in its header, its banks and its areas."""
    raw = bytearray(raw)
    for _ in range(rng.choice([1, 1, 2])):
        raw[rng.randrange(min(len(raw), 72))] = rng.choice([0, 1, 2, 3, 4, 8, 16, 0x61, 0xFF, rng.randrange(256)])
    return bytes(raw)


# The kinds of cases

def script_case(rng, command):
    image = start_image(rng, command)
    return Case([command, IMAGE, SCRIPT, OUT], {IMAGE: image, SCRIPT: script(rng, command, read_image(image))})


def run_case(rng):
    """Mostly `run`; also the commands that need no script."""
    choice = rng.random()
    if choice < 0.8:
        return script_case(rng, "run")
    if choice < 0.87:
        return Case(["dump", IMAGE], {IMAGE: start_image(rng, "run")})
    if choice < 0.94:
        return Case(["migrate", IMAGE, OUT], {IMAGE: start_image(rng, "run")})
    if choice < 0.97:
        return Case(["build", OUT, spec_of(rng, settings_roles(rng), rng.random() < 0.2)], {})
    return Case(["gen", OUT, rng.choice(STORES), str(rng.choice([1, 2, 3, 40, rng.randrange(1, 250)]))], {})


def bytes_case(rng):
    """A case of any command with a changed image, script or call."""
    command = rng.choice(["run", "run", "run", "items", "log", "mirror"])
    image, choice = start_image(rng, command), rng.random()
    text = script(rng, command, read_image(image))
    if choice < 0.6:
        image = foreign_image(rng, read_image(image))
    elif choice < 0.7:
        image = changed_bytes(rng, image)
    elif choice < 0.8:
        image = changed_head(rng, image)
    elif choice < 0.9:
        text = changed_bytes(rng, text)
    elif choice < 0.97:
        text = "\n".join(odd_line(rng) for _ in range(rng.choice([1, 1, 2, 4]))).encode()
    else:
        return words_case(rng, image, text)
    if rng.random() < 0.12:
        return Case(rng.choice([["dump", IMAGE], ["migrate", IMAGE, OUT]]), {IMAGE: image})
    return Case([command, IMAGE, SCRIPT, OUT], {IMAGE: image, SCRIPT: text})


def words_case(rng, image, text):
    """A call with other words than the command takes, or with a file that is not there."""
    spec = changed_bytes(rng, spec_of(rng, settings_roles(rng), rng.random() < 0.2).encode())
    spec = "".join(chr(byte) for byte in spec if 0x20 <= byte < 0x7F) or "x"
    number = rng.choice(["0", "01", "-1", "+3", "10001", "3x", "", "99999999999999999999", "7"])
    commands = ["run", "items", "log", "mirror", "dump", "migrate", "build", "gen", "fly", "help", "--help", ""]
    words = rng.choice([
        ["build", OUT, spec], ["build", OUT, spec], ["gen", OUT, rng.choice(STORES + ["sel", "NVS", ""]), number],
        [rng.choice(commands)] + rng.choices([IMAGE, SCRIPT, OUT, "none", "-x", "-"], k=rng.randrange(5))])
    return Case(words, {IMAGE: image, SCRIPT: text})


KINDS = {"run": run_case, "items": lambda rng: script_case(rng, "items"), "log": lambda rng: script_case(rng, "log"),
         "mirror": lambda rng: script_case(rng, "mirror"), "bytes": bytes_case}
