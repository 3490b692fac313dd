"""How the scripts are called: wrong words, files that are not image_tool, --help."""
import os
import stat

from .common import NVS, SHORT, ToolTest


class Calls(ToolTest):
    def test_wrong_calls(self):
        self.write("s.txt", SHORT)
        self.write("text.img", ["no image"])
        wrong = [
            ["every_cut"], ["every_cut", self.program], ["every_cut", self.program, NVS], ["every_cut", "none", NVS, "s.txt"], ["every_cut", self.program, "bank=1", "s.txt"],
            ["every_cut", self.program, NVS, "none.txt"], ["every_cut", self.program, "--image", "none.img", "s.txt"], ["every_cut", self.program, "--image", "text.img", "s.txt"],
            ["every_cut", self.program, NVS, "s.txt", "--from", "0"], ["every_cut", self.program, NVS, "s.txt", "--from", "4", "--to", "3"],
            ["every_cut", self.program, NVS, "s.txt", "--from", "90"], ["every_cut", self.program, NVS, "s.txt", "--command", "fly"],
            ["every_cut", self.program, NVS, "s.txt", "--json", "s.txt"], ["every_cut", self.program, NVS, "s.txt", "--html", "none/x.html"],
            ["every_cut", self.program, NVS, "s.txt", "--command", "log"], ["every_cut", self.program, NVS, "text.img"],
            ["picture"], ["picture", "none.img"], ["picture", "text.img"], ["picture", "."], ["picture", "text.img", "--svg", "text.img"],
            ["size"], ["size", "none.txt"], ["size", "text.img"], ["size", "s.txt", "--unit", "5"], ["size", "s.txt", "--sector", "100"],
            ["size", "s.txt", "--sectors", "65"], ["size", "none", "s.txt", "--prove"], ["size", self.program, "s.txt"], ["size", "s.txt", "--proved"],
            ["wear", self.program], ["wear", self.program, NVS, "none.txt"], ["wear", self.program, "bank=1", "s.txt"], ["wear", self.program, NVS, "s.txt", "--rounds", "x"],
            ["wear", self.program, "--image", "text.img", "s.txt"],
        ]
        for name, *words in wrong:
            with self.subTest(name=name, words=words[1:]):
                self.call(name, *words, status=2)
        self.assertEqual(self.read("s.txt").decode().splitlines(), SHORT)

    def test_files_that_are_not_image_tool(self):
        """Each script looks at self.program before it does anything else."""
        self.write("s.txt", SHORT)
        self.write("list.txt", ["a 4"])
        for name, lines in (("text", ["text"]), ("no_shell", ["#!/bin/none"]), ("silent", ["#!/bin/sh", "exit 0"]), ("fails", ["#!/bin/sh", "exit 2"])):
            self.write(name, lines)
            os.chmod(self.path(name), stat.S_IRWXU)
        for program in ("none", "s.txt", ".", "", "text", "no_shell", "silent", "fails"):
            for name, *words in (
                ["every_cut", program, NVS, "s.txt"], ["wear", program, NVS, "s.txt"], ["size", program, "list.txt", "--prove"],
                ["tests/exits", program], ["tests/fuzz", program], ["tests/page", program], ["tests/tools", program], ["examples/check", program],
                ["bench/growth", program], ["bench/searches", program], ["bench/speed", program],
                ["bench/stack", program], ["bench/stores", program], ["bench/boots", program],
            ):
                with self.subTest(name=name, program=program):
                    self.call(name, *words, status=2)

    def test_wrong_calls_of_other_scripts(self):
        wrong = [
            ["check_all", "x"], ["check_all", "0"], ["check_all", "1", "none"], ["edits_apply", "x"], ["gate_time", "none"], ["gate_time", ".."],
            ["gate_time", ""], ["slowest"], ["slowest", "none"], ["slowest", ".."], ["slowest", ""], ["slowest", "nvs_format", "-1"],
            ["try_edits", "none"], ["try_edits", ".."], ["try_edits", ""], ["try_edits", "nvs_format/none"], ["try_edits", "nvs_format/"],
            ["zms_examples", "x"], ["zms_rows"], ["zms_rows", "x"], ["zms_rows", "random", "erasing"], ["zms_rows", "random", "erasing", "-1"],
            ["zms_rows", "calls", "erasing", "1"], ["picture", "x.img", "--svg", ""], ["bench/growth", "--names", "501"],
            ["bench/searches", "--lines", "0"], ["bench/speed", "x"], ["bench/stack", "x"], ["bench/boots", "x"], ["bench/stores", "--store", "9"],
            ["tests/exits"], ["tests/fuzz", self.program, "--jobs", "0"], ["tests/fuzz", self.program, "--count", "-1"], ["tests/page"], ["tests/tools"],
            ["examples/check"], ["examples/unproved", "x"], ["examples/unproved"], ["./demo", "x"], [".ci/layers", "x"], [".ci/pages", "x"],
            [".ci/quotes", "x"], [".ci/run", "x"],
        ]
        for name, *words in wrong:
            with self.subTest(name=name, words=words):
                self.call(name, *words, status=2)

    def test_help(self):
        names = ["check_all", "edits_apply", "every_cut", "gate_time", "picture", "size", "slowest", "try_edits", "wear", "zms_examples", "zms_rows"]
        others = [
            "bench/growth", "bench/searches", "bench/speed", "bench/stack", "bench/stores", "tests/exits", "tests/fuzz", "tests/page",
            "tests/tools", "examples/check", "examples/unproved", "./demo",
        ]
        for name in [*(f"tools/{name}" for name in names), *others]:
            text = self.call(name, "--help")
            self.assertIn(f"\n    {name}", text.replace("| examples", "\n    examples"))
            self.assertIn("\nExit status: 0", text.replace("that of the gate", "0"))
