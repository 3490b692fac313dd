"""Long scripts of tests/rows, which a rule makes, and what their answers say."""
import json
import random

SUBTREES = ("bt", "wifi", "app")


def long_script():
    """500 sets of 40 names under three subtrees. Power is lost in one of each hundred; then come a mount and a look at the name."""
    script, seed = [], 500
    for k in range(500):
        seed = (seed * 1_664_525 + 1_013_904_223) % 2**32
        is_cut = k % 100 == 50
        size = 32 if is_cut else 1 + (seed >> 16) % 32
        name = (seed >> 8) % 40
        name = f"{SUBTREES[name % 3]}/k{name}"
        line = f"set {name} {f'{k // 10 % 10}{k % 10}' * size}"
        script += [f"cut {k // 100 % 3}", line, "mount", f"get {name}"] if is_cut else [line]
    return script


def random_script(seed):
    """500 sets over 40 names; in each hundred power is lost once. The names are listed at the end."""
    lots = random.Random(seed)
    names = [f"{lots.choice(SUBTREES)}/k{i}" for i in range(40)]
    script = []
    for hundred in range(5):
        cut_at = lots.randrange(100)
        for i in range(100):
            if i == cut_at:
                script.append(f"cut {lots.randrange(12)}")
            name, size = lots.choice(names), 1 + lots.randrange(32)
            script.append(f"set {name} {bytes((hundred + i + j) % 256 for j in range(size)).hex()}")
        script += ["uncut", "mount"]
    return script + ["names"]


def may_hold(script, answers):
    """The values that each name may have: the last acknowledged one, or that of a later set that was lost. Nothing if a set is refused."""
    held = {}
    for line, answer in zip(script, answers):
        words = line.split(" ")
        if words[0] != "set" or answer == "off" or answer.endswith(" chance"):
            continue
        if answer.startswith("ok "):
            held[words[1]] = {words[2]}
        elif answer.startswith("lost "):
            held[words[1]] = held.get(words[1], {None}) | {words[2]}
        else:
            return None
    return held


def is_held(script, printed):
    """Whether the last answer, to `names`, is one that the answers before it allow."""
    lines, answers = script.decode().splitlines(), printed.decode(errors="replace").splitlines()
    if len(answers) != 1 + len(lines) or not answers[-1].startswith("{"):
        return False
    held = may_hold(lines, answers[1:])
    try:
        seen = json.loads(answers[-1])["names"]
    except (ValueError, KeyError):
        return False
    return held is not None and all(seen.get(name) in held.get(name, {None}) for name in set(held) | set(seen))
