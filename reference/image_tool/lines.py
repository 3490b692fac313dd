"""Script lines, the texts of their answers, and the generated script."""

import json
from dataclasses import dataclass
from typing import Optional

from .image import SCRIPT_LIMIT, read_number
from .names import is_name

KINDS = ("table", "counter", "level")
NUMBER_LIMIT = 2**32 - 1


class BadScript(Exception):
    def __init__(self, line: int, why: str) -> None:
        super().__init__(f"line {line}: {why}")
        self.line, self.why = line, why


class BadWord(Exception):
    """A refused word of a line."""


@dataclass(frozen=True)
class Line:
    """A line of a script: its first word, and what its other words say."""
    word: str
    name: Optional[bytes] = None
    value: Optional[bytes] = None
    kind: Optional[str] = None
    number: Optional[int] = None
    ident: Optional[int] = None
    label: Optional[bytes] = None


# Which words follow the first one. A question mark: one name or nothing.
SETTINGS_FORMS = {
    b"set": "name hex-", b"get": "name", b"del": "name", b"register": "name kind",
    b"load": "name?", b"direct": "name?", b"save": "name?", b"commit": "", b"names": "", b"mount": "",
    b"uncut": "", b"migrate": "", b"rset": "name hex", b"rget": "name", b"cut": "number",
}
POWER_FORMS = {b"cut": "number", b"uncut": "", b"mount": ""}
LOG_FORMS = {b"put": "hex", b"all": "", **POWER_FORMS}
MIRROR_FORMS = {b"set": "name hex-", b"get": "name", b"del": "name", b"names": "", b"blank": "label",
                **POWER_FORMS}
ITEM_FORMS = {b"set": "id hex", b"del": "id", b"get": "id", b"older": "id number", b"space": "",
              **POWER_FORMS}


def read_lines(raw: bytes, forms: dict[bytes, str], limit: int = 256, id_limit: int = 65534) -> list[Line]:
    """All lines of a script, or its first refused line."""
    if len(raw) > SCRIPT_LIMIT:
        raise BadScript(0, "Long")
    lines = []
    for number, text in enumerate(raw.split(b"\n"), 1):
        if text and not text.startswith(b"#"):
            try:
                lines.append(read_line(text.split(b" "), forms, limit, id_limit))
            except BadWord as fault:
                raise BadScript(number, str(fault)) from None
    return lines


def read_line(words: list[bytes], forms: dict[bytes, str], limit: int, id_limit: int) -> Line:
    if words[0] not in forms:
        raise BadWord("Unknown")
    form = forms[words[0]].split()
    if form == ["name?"]:
        form = ["name"] if len(words) == 2 else []
    if len(words) != 1 + len(form):
        raise BadWord("Words")
    given = dict(zip(form, words[1:]))
    # The order of these looks is the order of the refusals.
    if "name" in given and not is_name(given["name"]):
        raise BadWord("Name")
    if "label" in given and not _is_label(given["label"]):
        raise BadWord("Name")
    if "kind" in given and given["kind"].decode("latin-1") not in KINDS:
        raise BadWord("Kind")
    value = None
    if "hex" in given:
        value = read_hex(given["hex"])
    elif "hex-" in given:
        value = b"" if given["hex-"] == b"-" else read_hex(given["hex-"])
    if value is not None and len(value) > limit:
        raise BadWord("Long")
    ident = _read_bounded(given["id"], id_limit) if "id" in given else None
    number = _read_bounded(given["number"], NUMBER_LIMIT) if "number" in given else None
    return Line(words[0].decode(), name=given.get("name"), value=value,
                kind=given["kind"].decode() if "kind" in given else None,
                number=number, ident=ident, label=given.get("label"))


def _is_label(raw: bytes) -> bool:
    return 1 <= len(raw) <= 8 and all(chr(b) in "abcdefghijklmnopqrstuvwxyz0123456789" for b in raw)


def read_hex(raw: bytes) -> bytes:
    if not raw or len(raw) % 2 or any(byte not in b"0123456789abcdefABCDEF" for byte in raw):
        raise BadWord("Hex")
    return bytes.fromhex(raw.decode())


def _read_bounded(raw: bytes, limit: int) -> int:
    number = read_number(raw.decode("latin-1"))
    if number is None or number > limit:
        raise BadWord("Number")
    return number


def read_script(raw: bytes, limit: int = 256) -> list[Line]:
    return read_lines(raw, SETTINGS_FORMS, limit)


# Texts of answers

@dataclass(frozen=True)
class Answer:
    """One answer: its text, the units it reports, and its kind (the first word)."""
    text: str
    units: int = 0

    @property
    def kind(self) -> str:
        return self.text.rsplit("\n", 1)[-1].split(" ")[0]


def ok(units: int = 0) -> Answer:
    return Answer(f"ok {units}", units)


def lost(units: int, chance: bool = False) -> Answer:
    return Answer(f"lost {units} chance" if chance else f"lost {units}", units)


def value(raw: Optional[bytes]) -> Answer:
    return Answer("none" if raw is None else f"value {raw.hex()}")


def dash(raw: bytes) -> str:
    return raw.decode("latin-1") if raw else "-"


def names_text(label: str, pairs: dict[bytes, bytes]) -> str:
    members = {name.decode(): pairs[name].hex() for name in sorted(pairs)}
    return json.dumps({"active": label, "names": members}, separators=(",", ":"))


# The generator

def gen_script(count: int) -> list[Line]:
    lines, s = [], count
    for i in range(1, count + 1):
        s = (s * 1664525 + 1013904223) % 2**32
        name = b"app/k%d" % ((s >> 8) % 40)
        choice = (s >> 24) % 8
        if choice == 0:
            lines.append(Line("del", name=name))
        elif choice == 1:
            lines.append(Line("get", name=name))
        else:
            length = 1 + (s >> 16) % 32
            lines.append(Line("set", name=name, value=bytes((i + j) % 256 for j in range(length))))
    return lines


def gen_spec(backend: str) -> str:
    bank = "bank=rewritable/16/4096/4" if backend == "zms" else "bank=erasing/4/4096/4"
    return f"{bank},area={backend}/main/0/0/4"
