"""The cases of tests/rows: reads them from tests/cases/ and turns each one into runs.

Each file has a list "cases". A case is an object with these fields, of which all but "shows" may be left out:

    shows      what the case shows
    image      the SPEC of the blank image x.img, or a name for it in words.json (default NVS)
    length     how many bytes the file of the blank image has
    before     lines that are carried out on x.img before anything else
    put        bytes that are put into x.img, as hex digits by their place in the file
    size       how many bytes of x.img stay; with two numbers, each size from the first to the last
    script     the lines of s.txt, or its whole text, one character for each byte (default: none)
    made       a function of row_scripts.py and its words, which makes the lines of s.txt
    commands   what is called (default: `run x.img s.txt y.img`); words end at single spaces
    status     the exit status of each command (default 0)
    printed    all lines that the commands print
    spends     the sum of the units of all answers `ok N`; "printed" has the other lines alone
    held       true: what is read at the end is what was acknowledged, and "printed" is left out
    same       whether y.img equals x.img
    left       bytes of y.img, as in "put"
    losses     a table of the file's "losses", or its rows: the first and the last number of units before a loss, MOUNT and VALUE.
               CUT in the script stands for these units and those of "before_cut"; LOST in "printed" stands for the units alone
    fails      calls of the host, in their order; each of them is made to fail: image, script, print, out

In lines, `11*100` is a byte that is repeated, and a list is lines that are repeated: [255, "cut 2", "mount"]; `#` in them stands for the
number of the turn, from 0. A word of words.json stands for its text. SIZE in "printed" stands for the size of x.img.
"""
import json
import os
import re
from dataclasses import dataclass, field, replace
from typing import Optional

import row_scripts

FOLDER = os.path.join(os.path.dirname(os.path.abspath(__file__)), "cases")
FIELDS = {"shows", "image", "length", "before", "put", "size", "script", "made", "commands", "status", "printed", "spends", "held", "same",
          "left", "losses", "before_cut", "fails"}
# where the words of a command name what it writes
OUT_AT = {"build": 1, "gen": 1, "run": 3, "migrate": 2, "log": 3, "items": 3, "mirror": 3}
# what cannot be read, and what cannot be written
UNREADABLE = ("folder", "/proc/self/mem")
UNWRITABLE = ("none/y.img", "folder", "/dev/full")


@dataclass(frozen=True)
class Run:
    """The files of a run, its calls, and what they print and leave."""
    shows: str
    spec: str
    commands: list
    script: bytes = b""
    printed: Optional[bytes] = b""
    status: int = 0
    length: Optional[int] = None
    before: Optional[bytes] = None
    put: dict = field(default_factory=dict)
    size: Optional[int] = None
    spends: Optional[int] = None
    same: Optional[bool] = None
    left: dict = field(default_factory=dict)
    is_full: bool = False  # standard output is /dev/full


def load(name):
    with open(os.path.join(FOLDER, name), encoding="utf-8") as file:
        return json.load(file)


WORDS = load("words.json")


def spelled(text):
    """The text with repeated bytes and the words of words.json written out."""
    text = re.sub(r"(?<![0-9A-Za-z])([0-9A-Fa-f]{2})\*(\d+)", lambda found: found.group(1) * int(found.group(2)), text)
    for word, meaning in WORDS["texts"].items():
        text = text.replace(word, meaning)
    return text


def turns(count, *lines):
    return [line.replace("#", str(turn)) for turn in range(count) for line in lines]


def text_of(lines):
    """The text of some lines, with those that are repeated."""
    if isinstance(lines, str):
        return spelled(lines)
    each = [line for item in lines for line in (turns(*item) if isinstance(item, list) else [item])]
    return spelled("".join(line + "\n" for line in each))


def bytes_of(places):
    return {int(at): bytes.fromhex(spelled(digits)) for at, digits in places.items()}


def run_of(case):
    """The one run of a case that has no table."""
    spec = case.get("image", "NVS")
    lines = case.get("script", [])
    if "made" in case:
        name, *words = case["made"]
        lines = getattr(row_scripts, name)(*words)
    size = case.get("size")
    return Run(
        shows=case["shows"],
        spec=WORDS["images"].get(spec, spec),
        length=case.get("length"),
        before=text_of(case["before"]).encode("latin-1") if "before" in case else None,
        put=bytes_of(case.get("put", {})),
        size=size if isinstance(size, int) else None,
        script=text_of(lines).encode("latin-1"),
        commands=[command.split(" ") for command in case.get("commands", ["run x.img s.txt y.img"])],
        status=case.get("status", 0),
        printed=None if case.get("held") else text_of(case.get("printed", [])).encode(),
        spends=case.get("spends"),
        same=case.get("same"),
        left=bytes_of(case.get("left", {})),
    )


def with_words(text, words):
    for word, meaning in words.items():
        text = text.replace(word.encode(), spelled(str(meaning)).encode())
    return text


def runs_of_losses(run, case, table):
    """Power is lost after each number of units that the table names."""
    for first, last, mount, value in table:
        for units in range(first, last + 1):
            printed = with_words(run.printed, {"LOST": units, "MOUNT": mount, "VALUE": value})
            script = with_words(run.script, {"CUT": case.get("before_cut", 0) + units})
            yield replace(run, shows=f"{run.shows}, after {units} units", script=script, printed=printed)


def runs_of_sizes(run, first, last):
    for size in range(first, last + 1):
        yield replace(run, shows=f"{run.shows}: {size}", size=size, printed=with_words(run.printed, {"SIZE": size}))


def failing_calls(run, call):
    """The words of the command, which is made to fail at this call of the host by each means."""
    words = run.commands[0]
    at, means = {"image": (1, UNREADABLE), "script": (2, UNREADABLE), "out": (OUT_AT.get(words[0]), UNWRITABLE)}[call]
    for name in means:
        yield name, [*words[:at], name, *words[at + 1:]]


def runs_of_faults(run, calls):
    """Nothing is called after a call of the host that fails; what was printed before stays."""
    yield run
    for place, call in enumerate(calls):
        if call == "print":
            yield replace(run, shows=f"{run.shows}: standard output is /dev/full", status=5, printed=b"", is_full=True)
            continue
        printed = run.printed if "print" in calls[:place] else b""
        for name, words in failing_calls(run, call):
            shows = f"{run.shows}: the {call} is {name}"
            yield replace(run, shows=shows, commands=[words], status=5, printed=printed, same=None)


def runs_of(case, tables):
    unknown = set(case) - FIELDS
    if unknown or "shows" not in case:
        raise ValueError(f"{case.get('shows')}: no field of a case: {', '.join(sorted(unknown)) or 'shows is missing'}")
    run = run_of(case)
    if "losses" in case:
        losses = case["losses"]
        return list(runs_of_losses(run, case, tables[losses] if isinstance(losses, str) else losses))
    if isinstance(case.get("size"), list):
        return list(runs_of_sizes(run, *case["size"]))
    if "fails" in case:
        return list(runs_of_faults(run, case["fails"]))
    return [run]


def all_runs():
    """The runs of all cases, by the files and their order."""
    found = []
    for name in sorted(os.listdir(FOLDER)):
        data = load(name)
        for case in data.get("cases", []):
            found += runs_of(case, data.get("losses", {}))
    return found
