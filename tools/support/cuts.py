"""Power losses before each unit of each line: runs them, and judges what each mount answers and what is read after it."""
from dataclasses import dataclass, field
from typing import Optional

from .programs import Run
from .scripts import state_in, units_of

OLD, NEW, PART, CHANCE, BROKEN = "old", "new", "part", "chance", "broken"


@dataclass
class Again:
    """A broken promise of a second loss, in the mount."""
    unit: int
    why: str


@dataclass
class Loss:
    """A loss before one unit of a line: the answers of the line and of the mount, what is read then, and the verdict."""
    unit: int
    answer: str = ""
    mount: str = ""
    mount_units: int = 0
    state: object = None
    result: str = BROKEN
    why: str = ""
    again: int = 0
    again_broken: list = field(default_factory=list)
    torn: Optional[str] = None
    mended: Optional[str] = None


def script_with_loss(line, loss, looks, again=None):
    """The earlier lines, then this one with a loss, and the mount after it."""
    second = [f"cut {again}", "mount"] if again is not None else []
    return [*line.earlier, f"cut {loss.unit - 1}", line.text, *second, "mount", *looks]


# ---- verdicts

def is_torn(body, wanted):
    """Whether a record is the first bytes of the wanted one, but not all of them, and FF after them."""
    written = len(body) - len(body) % 2
    while written and body[written - 2:written] == "ff":
        written -= 2
    return len(body) == len(wanted) and body != wanted and body[:written] == wanted[:written]


def judge_log(line, loss):
    before, after, now = line.before, line.after, loss.state
    dropped = len(before) + 1 - len(after)
    if now in (before, after):
        return OLD if now == before else NEW
    if loss.answer.endswith("chance"):
        kept = now[:-1] in (before, before[dropped:])
        return CHANCE if now and kept and is_torn(now[-1], after[-1]) else BROKEN
    return PART if dropped and now == before[dropped:] else BROKEN


def judge_names(line, loss):
    before, after, now = line.before, line.after, loss.state
    if now in (before, after):
        return OLD if now == before else NEW
    if now["active"] not in (before["active"], after["active"]):
        return BROKEN
    values = lambda state, name: state["names"].get(name)
    names = {*before["names"], *after["names"], *now["names"]}
    other = [name for name in names if values(now, name) not in (values(before, name), values(after, name))]
    if loss.answer.endswith("chance"):
        return CHANCE if len(other) <= 1 else BROKEN
    return PART if line.word() == "save" and not other else BROKEN


def changed_names(line, loss):
    """The settings that a save has changed by then."""
    old = line.before["names"]
    return {name for name in {*old, *loss.state["names"]} if old.get(name) != loss.state["names"].get(name)}


def judge(command, line, loss):
    wanted = f"lost {loss.unit - 1}"
    if loss.answer not in (wanted, wanted + " chance"):
        return BROKEN, f"the line answered `{loss.answer}` and not `{wanted}`"
    if not loss.mount.startswith("ok "):
        return BROKEN, f"the mount answered `{loss.mount}`"
    result = (judge_log if command == "log" else judge_names)(line, loss)
    return result, "what is read then is neither old nor new" if result == BROKEN else ""


def judge_order(line, losses):
    """A setting of a save that is new after a loss is new after each later one."""
    seen = set()
    for loss in losses:
        if loss.result in (OLD, NEW, PART):
            changed = changed_names(line, loss)
            if not seen <= changed:
                loss.result, loss.why = BROKEN, "a setting is old again that was new at an earlier unit"
            seen |= changed


# ---- runs

def read_loss(command, line, loss, looks, ended):
    """Reads the result of the run with one loss."""
    if ended.status != 0:
        loss.answer, loss.mount = f"lost {loss.unit - 1}", ended.text.strip().replace("\n", "; ") or f"status {ended.status}"
        loss.why = f"the mount failed: {loss.mount}"
        return
    answers = ended.answers()[1 + len(line.earlier):]
    loss.answer, loss.mount = answers[1:3]
    loss.mount_units = units_of(loss.mount)
    if loss.mount.startswith("ok "):
        loss.state = state_in(command, looks, answers[3:])
    loss.result, loss.why = judge(command, line, loss)


def lose_everywhere(program, lines, looks, command, images, progress):
    """A loss before each unit of each of these lines. With `images`, files keep the flash at the loss and after the mount."""
    losses = {line.number: [Loss(unit) for unit in range(1, line.units + 1)] for line in lines}
    all_of_them = [(line, loss) for line in lines for loss in losses[line.number]]
    runs = []
    for line, loss in all_of_them:
        name = f"{line.number}-{loss.unit}"
        if images:
            loss.torn, loss.mended = f"torn{name}.img", f"mended{name}.img"
        runs.append(Run(line.image, script_with_loss(line, loss, looks), loss.mended, command))
    if images:
        runs += [Run(line.image, script_with_loss(line, loss, [])[:-1], loss.torn, command) for line, loss in all_of_them]
    for (line, loss), ended in zip(all_of_them, program.runs(runs, progress)):
        read_loss(command, line, loss, looks, ended)
    for line in lines:
        if command == "run" and line.word() == "save":
            judge_order(line, losses[line.number])
    return losses


def read_again(line, loss, unit, looks, command, ended):
    """Whether a second loss, before this unit of the mount, makes no difference; else why not."""
    if ended.status != 0:
        return f"the second mount failed: {ended.text.strip() or ended.status}"
    answers = ended.answers()[1 + len(line.earlier):]
    if answers[3] != f"lost {unit - 1}":
        return f"the first mount answered `{answers[3]}`"
    if not answers[4].startswith("ok "):
        return f"the second mount answered `{answers[4]}`"
    return "" if state_in(command, looks, answers[5:]) == loss.state else "other settings are read than without it"


def lose_again(program, lines, losses, looks, command, progress):
    """A second loss before each unit of each mount; the next mount must end as the first one did."""
    tasks = [
        (line, loss, unit) for line in lines for loss in losses[line.number]
        if loss.mount.startswith("ok ") for unit in range(1, loss.mount_units + 1)
    ]
    runs = [Run(line.image, script_with_loss(line, loss, looks, unit - 1), None, command) for line, loss, unit in tasks]
    for (line, loss, unit), ended in zip(tasks, program.runs(runs, progress)):
        loss.again += 1
        why = read_again(line, loss, unit, looks, command, ended)
        if why:
            loss.again_broken.append(Again(unit, why))


@dataclass
class Summary:
    losses: int = 0
    mounts: int = 0
    again: int = 0
    worst: int = 0
    worst_line: int = 0
    worst_unit: int = 0
    broken: int = 0
    results: dict = field(default_factory=lambda: dict.fromkeys((OLD, NEW, PART, CHANCE, BROKEN), 0))


def summary_of(lines, losses):
    total = Summary()
    for line in lines:
        for loss in losses[line.number]:
            total.losses += 1
            total.mounts += 1
            total.again += loss.again
            total.results[loss.result] += 1
            total.broken += (loss.result == BROKEN) + len(loss.again_broken)
            if loss.mount_units > total.worst:
                total.worst, total.worst_line, total.worst_unit = loss.mount_units, line.number, loss.unit
    total.mounts += 2 * total.again
    return total
