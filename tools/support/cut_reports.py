"""What `every_cut` reports: text, JUnit, JSON."""
import itertools
import json
import shlex
from xml.sax.saxutils import escape, quoteattr

from .cuts import BROKEN, CHANCE, NEW, OLD, PART

MARKS = {OLD: "o", NEW: "n", PART: "p", CHANCE: "c", BROKEN: "?"}


def shortened(text, most):
    return text if len(text) <= most else text[:most - 2] + ".."


def commands(call, line, loss, again=None):
    """Shell commands that show one loss again."""
    mounts = [f"cut {again - 1}", "mount", "mount"] if again else ["mount"]
    last = [f"cut {loss.unit - 1}", line.text, *mounts, *call["looks"]]
    begin = f"cp {shlex.quote(call['image'])} x.img" if call["image"] else f"{shlex.quote(call['program'])} build x.img {call['spec']}"
    script = f"head -n {line.number - 1} {shlex.quote(call['script'])}; printf '%s\\n' {' '.join(map(shlex.quote, last))}"
    return [begin, f"{{ {script}; }} > loss.txt", f"{shlex.quote(call['program'])} {call['command']} x.img loss.txt y.img"]


def broken_in(call, line, losses):
    """Each broken promise of a line, with the commands that show it."""
    for loss in losses:
        if loss.result == BROKEN:
            yield f"line {line.number}, power lost before unit {loss.unit}: {loss.why}", commands(call, line, loss)
        for again in loss.again_broken:
            words = f"line {line.number}, power lost before unit {loss.unit}, and again before unit {again.unit} of the mount: {again.why}"
            yield words, commands(call, line, loss, again.unit)


# ---- text

def mount_mark(loss):
    units = loss.mount_units
    return "?" if not loss.mount.startswith("ok ") else str(units) if units < 10 else "+"


def words_of(line, loss):
    """The mount's answer, and what is read of the settings that the line changes."""
    words = f"mount `{loss.mount}`"
    if isinstance(loss.state, list):
        return words + f", {len(loss.state)} record" + ("s" if len(loss.state) != 1 else "")
    if loss.state is None:
        return words
    before, after, now = line.before["names"], line.after["names"], loss.state["names"]
    names = sorted(name for name in {*before, *after, *now} if not before.get(name) == after.get(name) == now.get(name))
    texts = [f"{name} {shortened(now.get(name, 'none'), 24)}" for name in names]
    if line.before["active"] != line.after["active"]:
        texts.append(f"active {loss.state['active']}")
    return ", ".join([words, *texts])


def bar(name, marks):
    return [f"    {name if at == 0 else '':9} {marks[at:at + 100]}" for at in range(0, len(marks), 100)]


def text_of_line(line, losses):
    texts = ["", f"line {line.number}: {shortened(line.text, 60)}   {shortened(line.answer, 60)}"]
    texts += bar("settings", "".join(MARKS[loss.result] for loss in losses))
    texts += bar("mount", "".join(map(mount_mark, losses)))
    at = 0
    for words, same in itertools.groupby(losses, key=lambda loss: words_of(line, loss)):
        count = len(list(same))
        place = f"before unit {at + 1}" + (f" to {at + count}" if count > 1 else "")
        texts.append(f"    {place}: {words}")
        at += count
    return texts


def text_of_summary(total, call):
    counts, noun = total.results, "records" if call["command"] == "log" else "settings"
    more = f", {total.again} more in the mounts" if call["again"] else ""
    extra = [f", {counts[PART]} with a part of a line done" if counts[PART] else "", f", {counts[CHANCE]} accepted by chance" if counts[CHANCE] else ""]
    texts = [f"power losses: {total.losses}{more}; mounts: {total.mounts}"]
    texts.append(f"{noun}: {counts[OLD]} old, {counts[NEW]} new{''.join(extra)}; {counts[BROKEN]} torn or lost")
    where = f", after a loss before unit {total.worst_unit} of line {total.worst_line}" if total.worst else ""
    texts.append(f"the worst mount: {total.worst} unit{'' if total.worst == 1 else 's'}{where}")
    verdict = "each mount succeeded, and each setting is old or new"
    if call["command"] == "log":
        verdict = "each mount succeeded, and each acknowledged record stands"
    texts.append(f"BROKEN: {total.broken}" if total.broken else verdict + (", except for the torn records accepted by chance" if counts[CHANCE] else ""))
    return texts


def text_of_broken(lines, losses, call):
    """The broken promises, each with the commands that show it."""
    texts = []
    for line in lines:
        for words, shown in broken_in(call, line, losses[line.number]):
            texts += [f"BROKEN: {words}", *(f"    {command}" for command in shown), ""]
    return texts


def text_of(lines, losses, total, call):
    units = sum(line.units for line in lines)
    texts = [f"{len(lines)} lines, {units} units and erases; power is lost before each of them"]
    for line in lines:
        if line.units:
            texts += text_of_line(line, losses[line.number])
    return texts + [""] + text_of_broken(lines, losses, call) + text_of_summary(total, call)


# ---- JUnit

def junit_case(line, losses, call):
    """A test case of one line."""
    name = quoteattr(f"line {line.number}: {shortened(line.text, 80)}")
    head = f"  <testcase classname={quoteattr(call['script'])} name={name}"
    failures = list(broken_in(call, line, losses))
    if not failures:
        return head + "/>"
    detail = "\n".join("\n".join([words, *shown]) for words, shown in failures[:20])
    return f"{head}>\n    <failure message={quoteattr(failures[0][0])}>{escape(detail)}</failure>\n  </testcase>"


def plain(text):
    """Text that XML can hold."""
    return "".join(each if each >= " " or each in "\t\n" else "?" for each in text)


def junit(lines, losses, call, skipped, seconds):
    failures = sum(1 for line in lines if any(True for _ in broken_in(call, line, losses[line.number])))
    cases = [(line.number, junit_case(line, losses[line.number], call)) for line in lines]
    for line in skipped:
        name = quoteattr(f"line {line.number}: {shortened(line.text, 80)}")
        cases.append((line.number, f"  <testcase classname={quoteattr(call['script'])} name={name}><skipped/></testcase>"))
    counts = f'tests="{len(cases)}" failures="{failures}" errors="0" skipped="{len(skipped)}" time="{seconds:.2f}"'
    head = ['<?xml version="1.0" encoding="UTF-8"?>', f'<testsuite name="every_cut" {counts}>']
    head.append(f'  <properties><property name="by" value={quoteattr(call["by"])}/></properties>')
    return plain("\n".join([*head, *(text for _, text in sorted(cases)), "</testsuite>"]) + "\n")


# ---- JSON

def data_of_loss(loss):
    data = {"unit": loss.unit, "answer": loss.answer, "result": loss.result, "mount": loss.mount, "mount_units": loss.mount_units}
    data["read"] = loss.state
    if loss.why:
        data["why"] = loss.why
    if loss.again:
        data["again"] = {"losses": loss.again, "broken": [{"unit": each.unit, "why": each.why} for each in loss.again_broken]}
    return data


def data_of(lines, losses, total, call):
    """Everything that was found, as data."""
    rows = [
        {
            "line": line.number, "text": line.text, "answer": line.answer, "units": line.units, "before": line.before, "after": line.after,
            "losses": [data_of_loss(loss) for loss in losses[line.number]],
        } for line in lines
    ]
    worst = {"units": total.worst, "line": total.worst_line, "unit": total.worst_unit} if total.worst else None
    summary = {"losses": total.losses, "again": total.again, "mounts": total.mounts, **total.results, "broken_in_all": total.broken, "worst_mount": worst}
    said = {key: call[key] for key in ("program", "by", "command", "spec", "image", "script", "opening")}
    return {**said, "lines": rows, "summary": summary}


def json_of(data):
    return json.dumps(data, indent=1) + "\n"
