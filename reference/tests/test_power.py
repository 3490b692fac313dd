"""Power lost at every point of a script, and the file cut at every length."""

import random
import unittest

from tests import random_others, random_settings
from tests.helpers import FCB, NVS, ZMS, run, times

H = times


class EveryCut(unittest.TestCase):
    def cut_everywhere(self, spec, values, total):
        sets = [f"set a {H(100, b)}" for b in values]
        plain = run(spec, *sets, deep=50)
        self.assertEqual(sum(int(a.split()[1]) for a in plain.answers), total)
        for k in range(total):
            r = run(spec, f"cut {k}", *sets, "mount", "get a", deep=0)
            answers = r.answers[2:2 + len(sets)]
            done = sum(a.startswith("ok ") for a in answers)
            self.assertTrue(answers[done].startswith("lost "))
            allowed = ["none" if done == 0 else f"value {H(100, values[done - 1])}", f"value {H(100, values[done])}"]
            if answers[done].endswith("chance"):
                allowed = [allowed[0]] + [f"value {H(n, values[done])}{H(100 - n, 'ff')}" for n in range(100)]
            self.assertIn(r.answers[-1], allowed)

    def test_nvs(self):
        self.cut_everywhere(NVS, ("11", "22", "33", "44", "55"), 179)

    def test_zms(self):
        self.cut_everywhere(ZMS, ("11", "22", "33", "44"), 52)

    def test_fcb(self):
        self.cut_everywhere(FCB, ("11", "22", "33", "44"), 145)


class LongRuns(unittest.TestCase):
    def test_five_hundred_sets_with_cuts(self):
        names = [f"{top}/k{i}" for top in ("bt", "wifi", "app") for i in range(14)][:40]
        for spec in ("bank=erasing/4/4096/4,area=nvs/main/0/0/4", "bank=rewritable/16/4096/4,area=zms/main/0/0/4",
                     "bank=erasing/4/4096/4,area=fcb/main/0/0/4"):
            rng, lines, sets = random.Random(spec), [], []
            for i in range(500):
                if i % 100 == 37:
                    lines.append(f"cut {rng.randrange(120)}")
                sets.append((rng.choice(names), bytes((i + j) % 256 for j in range(1 + rng.randrange(32))).hex()))
                lines.append("set %s %s" % sets[-1])
                if i % 100 == 99:
                    lines += ["uncut", "mount"]
            r = run(spec, *lines, check=False)
            told = [a for line, a in zip(lines, r.answers[1:]) if line.startswith("set ")]
            self.assertEqual(sum(a.startswith("lost ") for a in told), 5)
            last = {name.decode(): raw.hex() for name, raw in r.tool.session.backend.pairs().items()}
            allowed = {}
            for (name, value), answer in zip(sets, told):
                if answer.startswith("ok "):
                    allowed[name] = [value]
                elif answer.startswith("lost "):
                    torn = [value[:2 * n] + "ff" * (len(value) // 2 - n) for n in range(33)]
                    allowed.setdefault(name, [None]).extend(torn if answer.endswith("chance") else [value])
            for name in names:
                self.assertIn(last.get(name), allowed.get(name, [None]))


class RandomScripts(unittest.TestCase):
    def test_settings(self):
        for seed in range(40):
            random_settings.one_case(seed)

    def test_the_other_commands(self):
        for seed in range(15):
            random_others.one_case(seed)


if __name__ == "__main__":
    unittest.main()
