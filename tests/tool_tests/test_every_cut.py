"""Losses before each unit of scripts, compared with the second implementation."""
import json
import subprocess
import xml.etree.ElementTree

from .common import COLLECTS, FCB, LOG, MIRROR, MOVE, NVS, SAVES, SHORT, SMALL, ZMS, ToolTest, answers_of, reference


class EveryCut(ToolTest):
    def compare(self, command, spec, lines, looks, *words):
        """Each loss, each mount and all that is read then are those of the second implementation."""
        self.write("s.txt", lines)
        found = self.json_of(spec, "s.txt", "--command", command, *words)
        own = [line for line in lines if line and line[0] != "#"]
        whole = answers_of(reference(command, spec, own)[1])[1:]
        count = 0
        for line in found["lines"]:
            at = [number for number, text in enumerate(lines, 1) if text and text[0] != "#"].index(line["line"])
            self.assertEqual(line["answer"], "; ".join(whole[at]))
            self.assertEqual(len(line["losses"]), line["units"])
            for loss in line["losses"]:
                cut = own[:at] + [f"cut {loss['unit'] - 1}", own[at], "mount", *looks]
                answers = answers_of(reference(command, spec, cut)[1])[at + 2:]
                self.assertEqual([[loss["answer"]], [loss["mount"]]], answers[:2], cut)
                self.assertEqual(loss["read"], self.state(command, answers[2:]), cut)
                count += 1
        self.assertEqual(found["summary"]["losses"], count)
        self.assertEqual(found["summary"]["broken_in_all"], 0)
        return found

    @staticmethod
    def state(command, answers):
        if command == "log":
            return [line.split()[1] for line in answers[0][:-1]]
        if command == "items":
            return {"active": "", "names": {str(1 + at): each[0][6:] for at, each in enumerate(answers) if each[0].startswith("value")}}
        return json.loads(answers[0][0])

    def test_settings(self):
        for spec in (NVS, ZMS, FCB):
            found = self.compare("run", spec, SHORT, ["names"])
            self.assertEqual([line["line"] for line in found["lines"]], [3, 4, 5, 6, 7])
            self.assertGreater(found["summary"]["old"], 0)
            # Over FCB one record does all that a line does. Over the other two the first entry of a delete does it.
            self.assertEqual(found["summary"]["new"] > 0, spec != FCB)

    def test_a_collection(self):
        """The last set of NVS closes, copies and erases. A mount does that again."""
        found = self.compare("run", NVS, SMALL, ["names"], "--from", "6")
        self.assertGreater(found["summary"]["worst_mount"]["units"], 9)

    def test_a_save(self):
        found = self.compare("run", NVS, SAVES, ["names"])
        self.assertGreater(found["summary"]["part"], 0)

    def test_a_migration(self):
        found = self.compare("run", MOVE, ["set a 01", "migrate", "set a 02"], ["names"])
        self.assertEqual([line["after"]["active"] for line in found["lines"]], ["n", "f", "f"])

    def test_chance(self):
        found = self.compare("run", FCB, ["set a 00a401020304"], ["names"])
        self.assertEqual(found["summary"]["chance"], 1)

    def test_a_log(self):
        self.compare("log", LOG, [f"put {byte * 200}" for byte in ("01", "02", "03", "04", "05")], ["all"])

    def test_items_and_a_mirror(self):
        self.compare("items", NVS, ["set 1 01", "set 2 0203", "del 1", "older 1 1"], ["get 1", "get 2"])
        self.compare("mirror", MIRROR, ["set a 01", "set a 02", "del a"], ["names"])

    def test_losses_in_mounts(self):
        self.write("s.txt", SHORT)
        found = self.json_of(NVS, "s.txt", "--again")
        units = sum(loss["mount_units"] for line in found["lines"] for loss in line["losses"])
        self.assertEqual(found["summary"]["again"], units)
        self.assertGreater(units, 0)

    def test_an_aged_image(self):
        self.write("s.txt", COLLECTS)
        subprocess.run([self.program, "build", "x.img", NVS], cwd=self.folder, check=True)
        self.write("aged.txt", COLLECTS[:4])
        subprocess.run([self.program, "run", "x.img", "aged.txt", "x.img"], cwd=self.folder, check=True, stdout=subprocess.DEVNULL)
        before = self.read("x.img")
        self.write("last.txt", COLLECTS[4:])
        aged = self.json_of("--image", "x.img", "last.txt")
        fresh = self.json_of(NVS, "s.txt", "--from", "5")
        self.assertEqual(aged["lines"][0]["losses"], fresh["lines"][0]["losses"])
        self.assertEqual(self.read("x.img"), before)

    def test_junit(self):
        self.write("s.txt", SHORT)
        self.call("every_cut", self.program, NVS, "s.txt", "--junit", "j.xml", "--to", "5")
        suite = xml.etree.ElementTree.parse(self.path("j.xml")).getroot()
        names = [case.get("name") for case in suite.iter("testcase")]
        self.assertEqual(names, [f"line {number}: {SHORT[number - 1]}" for number in (3, 4, 5, 6, 7)])
        self.assertEqual((suite.get("tests"), suite.get("failures"), suite.get("skipped")), ("5", "0", "2"))

    def test_refused_scripts(self):
        for lines, number in ((["set a 01", "", "# x", "fly"], "line 4: Unknown"), (["set a"], "line 1: Words"), (["set a 01", "cut 2"], "line 2: `cut`")):
            self.write("s.txt", lines)
            self.assertIn(number, self.call("every_cut", self.program, NVS, "s.txt", status=2))
