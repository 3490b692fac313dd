"""The program: its words, its steps in their order, its refusals and its statuses."""

import json
from typing import Optional

from . import lines as script_lines
from . import readings
from .event_log import LogSession
from .flash import Bench
from .host import Failed, Missing, RealHost, TooLong, area_line
from .image import (IMAGE_LIMIT, SCRIPT_LIMIT, Area, BadImage, BadSpec, Image, read_image, read_number, read_spec,
                    write_image)
from .items import ItemSession
from .lines import BadScript, Line
from .mirror import MirrorSession, Unfit
from .model import CheckedSession
from .nvs import Damaged
from .session import AreaDamaged, Session

DONE, USAGE, BAD_SCRIPT, BAD_IMAGE, HOST_FAULT, NO_MEMORY, NO_FILE = 0, 2, 3, 4, 5, 6, 7
FORMS = ["build OUT SPEC", "run IMAGE SCRIPT OUT", "dump IMAGE", "migrate IMAGE OUT", "gen OUT BACKEND N",
         "log IMAGE SCRIPT OUT", "items IMAGE SCRIPT OUT", "mirror IMAGE SCRIPT OUT"]
USAGE_LINE = "usage: image_tool " + " | ".join(FORMS)


class Refused(Exception):
    """A refusal with its status and, where there is one, its line."""

    def __init__(self, status: int, line: Optional[str] = None) -> None:
        super().__init__(line)
        self.status, self.line = status, line


class Tool:
    """One call of the program. With `check` a session looks at the bytes before every unit; after each `deep` of
    these looks it mounts a copy of them as well."""

    def __init__(self, host, bench: Bench, check: bool = False, deep: int = 0) -> None:
        self.host, self.bench, self.check, self.deep = host, bench, check, deep
        self.session = None

    def main(self, words: list[str]) -> int:
        try:
            self._command(words)
            return DONE
        except Refused as refused:
            if refused.line is None:
                return refused.status
            try:
                self.host.print(refused.line.encode() + b"\n")
            except Failed:
                return HOST_FAULT
            return refused.status
        except Failed:
            return HOST_FAULT
        except MemoryError:
            return NO_MEMORY

    # Words

    def _command(self, words: list[str]) -> None:
        if not words or words[0] == "help" or any(not w or w.startswith("-") or not _is_text(w) for w in words):
            raise self._usage()
        name, rest = words[0], words[1:]
        form = next((form.split() for form in FORMS if form.split()[0] == name), None)
        if form is None or len(words) != len(form):
            raise self._usage()
        getattr(self, "_" + name)(*rest)

    def _usage(self) -> Refused:
        return Refused(USAGE, USAGE_LINE)

    # Files

    def _read_image(self, word: str) -> Image:
        try:
            return read_image(self.host.read_whole(word, IMAGE_LIMIT))
        except Missing:
            raise Refused(NO_FILE, f"no file: {word}") from None
        except TooLong:
            raise Refused(BAD_IMAGE, f"bad image: at {IMAGE_LIMIT}: Long") from None
        except BadImage as fault:
            raise Refused(BAD_IMAGE, f"bad image: at {fault.at}: {fault.why}") from None

    def _read_script(self, word: str, read) -> list[Line]:
        try:
            return read(self.host.read_whole(word, SCRIPT_LIMIT))
        except Missing:
            raise Refused(NO_FILE, f"no file: {word}") from None
        except TooLong:
            raise Refused(BAD_SCRIPT, "bad script: line 0: Long") from None
        except BadScript as fault:
            raise Refused(BAD_SCRIPT, f"bad script: line {fault.line}: {fault.why}") from None

    def _load(self, image: Image) -> None:
        self.bench.load(image.banks, image.data)

    def _write(self, word: str, image: Image) -> None:
        saved = Image(image.version, image.banks, image.areas, self.bench.snapshot())
        self.host.write_whole(word, write_image(saved))

    def _print_answers(self, answers) -> None:
        self.host.print("".join(answer.text + "\n" for answer in answers).encode())

    def _run_lines(self, session, lines: list[Line], areas: list[Area]):
        """The answers, or the refusal of a damaged area."""
        try:
            return session.run(lines)
        except AreaDamaged as fault:
            label = areas[fault.index].label
            line = area_line(label, fault.damage.sector, fault.damage.why)
        except Damaged as damage:
            line = area_line(areas[0].label, damage.sector, damage.why)
        except Unfit as fault:
            line = area_line(areas[fault.index].label, None, "Unfit")
        raise Refused(BAD_IMAGE, line)

    # Commands on names

    def _build(self, out: str, spec: str) -> None:
        try:
            image = read_spec(spec)
        except BadSpec:
            raise self._usage() from None
        self.host.write_whole(out, write_image(image))

    def _new_session(self, image: Image):
        if self.check:
            self.session = CheckedSession(self.bench, image.areas, self.deep)
        else:
            self.session = Session(self.bench, image.areas)
        return self.session

    def _run(self, image_word: str, script_word: str, out: str) -> None:
        image = self._read_image(image_word)
        lines = self._read_script(script_word, lambda raw: script_lines.read_script(raw, image.value_limit))
        self._run_and_write(image, lines, out)

    def _run_and_write(self, image: Image, lines: list[Line], out: str) -> None:
        self._load(image)
        answers = self._run_lines(self._new_session(image), lines, image.areas)
        self._print_answers(answers)
        self._write(out, image)

    def _dump(self, image_word: str) -> None:
        image = self._read_image(image_word)
        self._load(image)
        answers = self._run_lines(self._new_session(image), [Line("names")], image.areas)
        self._print_answers(answers[1:])

    def _migrate(self, image_word: str, out: str) -> None:
        image = self._read_image(image_word)
        self._run_and_write(image, [Line("mount"), Line("migrate")], out)

    def _gen(self, out: str, backend: str, count_word: str) -> None:
        count = read_number(count_word)
        if backend not in ("nvs", "zms", "fcb") or count is None or not 1 <= count <= 10_000:
            raise self._usage()
        image = read_spec(script_lines.gen_spec(backend))
        lines = script_lines.gen_script(count)
        self._load(image)
        answers = self._run_lines(self._new_session(image), lines, image.areas)
        kinds = [line.word for line in lines]
        pairs = self.session.backend.pairs()
        refused = sum(answer.kind not in ("ok", "value", "none") for answer in answers)
        self.host.print(
            f"gen {backend} {count}: set {kinds.count('set')} del {kinds.count('del')} get {kinds.count('get')} "
            f"names {len(pairs)} bytes {sum(map(len, pairs.values()))} refused {refused}\n".encode())
        self._write(out, image)

    # Commands on a log, on items with their history, and on a mirror

    def _log(self, image_word: str, script_word: str, out: str) -> None:
        image = self._read_image(image_word)
        if len(image.areas) != 1 or image.areas[0].role != "fcb":
            raise Refused(BAD_IMAGE, "bad image: no log")
        self._run_other(image, script_word, out, script_lines.LOG_FORMS,
                        lambda: LogSession(self.bench, image.areas[0]))

    def _items(self, image_word: str, script_word: str, out: str) -> None:
        image = self._read_image(image_word)
        if len(image.areas) != 1 or image.areas[0].role not in ("nvs", "zms"):
            raise Refused(BAD_IMAGE, "bad image: no items")
        self._run_other(image, script_word, out, script_lines.ITEM_FORMS,
                        lambda: ItemSession(self.bench, image.areas[0]))

    def _mirror(self, image_word: str, script_word: str, out: str) -> None:
        image = self._read_image(image_word)
        roles = sorted(area.role for area in image.areas)
        if len(roles) != 3 or roles.count("sel") != 1 or "fcb" in roles:
            raise Refused(BAD_IMAGE, "bad image: no mirror")
        self._run_other(image, script_word, out, script_lines.MIRROR_FORMS,
                        lambda: MirrorSession(self.bench, image.areas))

    def _run_other(self, image: Image, script_word: str, out: str, forms, make) -> None:
        id_limit = 2**32 - 2 if image.areas[0].role == "zms" else 65534
        lines = self._read_script(
            script_word, lambda raw: script_lines.read_lines(raw, forms, image.value_limit, id_limit))
        self._load(image)
        answers = self._run_lines(make(), lines, image.areas)
        self._print_answers(answers)
        self._write(out, image)


def _is_text(word: str) -> bool:
    return not any(0xD800 <= ord(letter) <= 0xDFFF for letter in word)


def tool(words: list[str], host, check: bool = False, deep: int = 0) -> int:
    """Runs one call of the program over the files of the host, and gives its exit status."""
    return Tool(host, Bench(), check, deep).main(words)


# The readings of an image, as JSON

def reading_lines(image: Image) -> list[str]:
    """One line for each area: its damage, or its map, or for a selector the active area."""
    told = []
    for area in image.areas:
        if area.role == "sel":
            result = readings.active(image)
        else:
            result = readings.area_reads(image, area)
        line = {"area": area.label, "role": area.role}
        if isinstance(result, Damaged):
            line["damage"] = {"sector": result.sector, "why": result.why}
        elif area.role == "sel":
            line["active"] = image.areas[result].label
        else:
            line["names"] = {name.decode(): raw.hex() for name, raw in result.items()}
        told.append(json.dumps(line, separators=(",", ":")))
    return told


def print_reading(word: str, host) -> int:
    try:
        image = read_image(host.read_whole(word, IMAGE_LIMIT))
    except Missing:
        host.print(f"no file: {word}\n".encode())
        return NO_FILE
    except TooLong:
        host.print(f"bad image: at {IMAGE_LIMIT}: Long\n".encode())
        return BAD_IMAGE
    except BadImage as fault:
        host.print(f"bad image: at {fault.at}: {fault.why}\n".encode())
        return BAD_IMAGE
    host.print("".join(line + "\n" for line in reading_lines(image)).encode())
    return DONE


def main(words: list[str], host=None) -> int:
    """The program with one option, `--check` before the command, and one more command, `reading IMAGE`."""
    host = host or RealHost()
    check = words[:1] == ["--check"]
    words = words[1:] if check else words
    if len(words) == 2 and words[0] == "reading":
        try:
            return print_reading(words[1], host)
        except Failed:
            return HOST_FAULT
    return tool(words, host, check=check, deep=1 if check else 0)
