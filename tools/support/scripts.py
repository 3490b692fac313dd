"""Scripts: their lines with their numbers, what an answer reports, and one whole run with the image before each line."""
import json
import re
from dataclasses import dataclass, field

from .programs import Run

# Lines that change memory alone. A later line may depend on that, so such a script runs from its beginning each time.
IN_MEMORY = ("register", "load", "rset", "commit", "save")


# The image after the opening mount. No script can plan a loss in that mount, so the lines begin here.
MOUNTED = "mounted.img"


class BadScript(Exception):
    """Why a script cannot be used."""


@dataclass
class Line:
    number: int
    text: str
    answer: str = ""
    units: int = 0
    before: object = None
    after: object = None
    earlier: list = field(default_factory=list)
    image: str = ""

    def word(self):
        return self.text.split(" ")[0]


def lines_in(text):
    """The lines without comments and empty ones, with their numbers."""
    return [Line(number, line) for number, line in enumerate(text.split("\n"), 1) if line and not line.startswith("#")]


def without_losses(lines, tool):
    for line in lines:
        if line.word() in ("cut", "uncut"):
            raise BadScript(f"line {line.number}: `{line.word()}` plans a power loss, and {tool} plans them itself")


def units_of(answer):
    """The units and erases that an answer reports."""
    words = answer.split(" ")
    place = {"ok": 1, "lost": 1, "nospace": 1, "toomany": 1, "saved": 3 if words[-2] in ("nospace", "toomany") else 2} if len(words) > 1 else {}
    return int(words[place[words[0]]]) if words[0] in place else 0


def is_id(text):
    """Whether a script may ask for this id. The script's own line refuses any other id."""
    return text.isdigit() and text.isascii() and str(int(text)) == text and int(text) < 0xFFFF_FFFF


# ---- looks: the lines that read everything, and what their answers say

def looks_of(command, lines, known_ids=()):
    if command == "log":
        return ["all"]
    if command == "items":
        ids = [line.text.split(" ")[1] for line in lines if line.word() in ("set", "del", "get", "older") and " " in line.text]
        return [f"get {ident}" for ident in dict.fromkeys([*map(str, known_ids), *ids]) if is_id(ident)]
    return ["names"]


def state_in(command, looks, answers):
    """What the answers to the looks say: settings by name with the active area, items by id, or the records of a log."""
    if command == "log":
        return [word.split(" ")[1] for word in answers[0].split("; ")[:-1]]
    if command == "items":
        found = {look.split(" ")[1]: answer[6:] for look, answer in zip(looks, answers) if answer.startswith("value ")}
        return {"active": "", "names": found}
    return json.loads(answers[0])


# ---- one whole run

def refused(program_said, lines_name):
    """The reason of a refusal. The number of a refused line is that of the script's own file."""
    found = re.match(r"bad script: (line \d+: \w+)", program_said)
    return f"{lines_name}: {found.group(1)}" if found else program_said.strip().splitlines()[-1]


def run_whole(program, image, text, name, command, looks=()):
    """Runs the script as it is, so that a refusal has the numbers of its own file, and the looks alone on the same image."""
    runs = [Run(image, text.split("\n"), "whole.img", command), Run(image, [*looks], MOUNTED, command)]
    for ended in program.runs(runs):
        if ended.status != 0:
            raise BadScript(refused(ended.text or f"status {ended.status}", name))
        yield ended.answers()


def chained(program, lines, image, command, looks):
    """Runs the lines one by one, each on the image that the one before left. No opening mount may have anything to do."""
    runs, here = [], image
    for at, line in enumerate(lines):
        runs.append(Run(here, [line.text, *looks], f"after{at}.img", command))
        line.earlier, line.image, here = [], here, f"after{at}.img"
    return [ended.answers() for ended in program.chain(runs)]


def from_beginning(program, lines, image, command, looks):
    """Runs all lines at once, with looks between them."""
    for at, line in enumerate(lines):
        line.earlier, line.image = [each.text for each in lines[:at]], image
    script = [word for line in lines for word in (line.text, *looks)]
    answers = program.runs([Run(image, script, None, command)])[0].answers()
    step = 1 + len(looks)
    return [[answers[0], *answers[1 + at * step:1 + (at + 1) * step]] for at in range(len(lines))]


def run_lines(program, image, text, name, command, known_ids=()):
    """Runs a script. Each line gets its answer, its units, what is read before and after it, and where a run of it alone begins."""
    lines = lines_in(text)
    looks = looks_of(command, lines, known_ids)
    answers, opening = run_whole(program, image, text, name, command, looks)
    before = state_in(command, looks, opening[1:])
    found = None
    if not any(line.word() in IN_MEMORY for line in lines):
        found = chained(program, lines, MOUNTED, command, looks)
        if any(each[0] != "ok 0" for each in found) or [each[1] for each in found] != answers[1:]:
            found = None
    found = found or from_beginning(program, lines, MOUNTED, command, looks)
    for line, each in zip(lines, found):
        line.answer, line.units, line.before = each[1], units_of(each[1]), before
        line.after = before = state_in(command, looks, each[2:])
    if [line.answer for line in lines] != answers[1:]:
        raise BadScript(f"{name}: the lines answer otherwise if the settings are read between them")
    return lines, looks, answers[0]
