"""How the scripts end where they cannot go on: a full disk, a closed pipe, a signal, a fault of their own."""
import os
import signal
import subprocess
import sys
import time

from .common import NVS, SHORT, TOP, ToolTest

# The most seconds that a script may take until it begins to work, and from a signal to its end.
SECONDS = 120


class Endings(ToolTest):
    def setUp(self):
        super().setUp()
        self.write("s.txt", SHORT)
        self.write("list.txt", ["a 4"])
        subprocess.run([self.program, "build", "x.img", NVS], cwd=self.folder, check=True)
        os.mkdir(self.path("tmp"))
        self.files = sorted(os.listdir(self.folder))

    def printing(self):
        """Calls that print something, each of another script or of another place in one."""
        cut = ["tools/every_cut", self.program, NVS, "s.txt"]
        helps = ["check_all", "edits_apply", "every_cut", "gate_time", "picture", "size", "slowest", "try_edits", "wear", "zms_examples", "zms_rows"]
        benches = [f"bench/{name}" for name in ("boots", "growth", "searches", "speed", "stack", "stores")]
        tests = [f"tests/{name}" for name in ("exits", "fuzz", "page", "rows", "tools")]
        return [
            cut, [*cut, "--quiet"], ["tools/wear", self.program, NVS, "s.txt", "--rounds", "2"], ["tools/size", "list.txt"],
            ["tools/size", self.program, "list.txt", "--prove", "--rounds", "2"], ["tools/picture", "x.img"], ["tools/picture", "x.img", "--json"],
            ["tools/edits_apply"], ["tools/zms_rows", "calls"], ["tools/zms_examples"],
            *([name, "--help"] for name in [*(f"tools/{name}" for name in helps), *benches, *tests]),
        ]

    def start(self, words, **more):
        """Starts a script, with a folder of its own for temporary files. It gets signals, also where the test itself ignores them."""
        environment = {**os.environ, "TMPDIR": self.path("tmp")}
        take = lambda: signal.signal(signal.SIGINT, signal.default_int_handler)
        return subprocess.Popen([os.path.join(TOP, words[0]), *words[1:]], cwd=self.folder, env=environment, stdin=subprocess.DEVNULL,
                                stderr=subprocess.PIPE, text=True, start_new_session=True, preexec_fn=take, **more)

    def ends(self, started, said):
        """The status is 2, the script says this or nothing, and it leaves no file."""
        error = started.communicate(timeout=SECONDS)[1]
        self.assertEqual((started.returncode, error), (2, said))
        self.assertEqual(sorted(os.listdir(self.folder)), self.files)
        self.assertEqual(os.listdir(self.path("tmp")), [])

    def test_a_full_disk(self):
        for words in self.printing():
            with self.subTest(words=words), open("/dev/full", "w", encoding="utf-8") as full:
                self.ends(self.start(words, stdout=full), f"{os.path.basename(words[0])}: No space left on device\n")

    def test_a_closed_pipe(self):
        for words in self.printing():
            with self.subTest(words=words):
                here, there = os.pipe()
                started = self.start(words, stdout=there)
                os.close(there)
                os.close(here)
                self.ends(started, "")

    def test_no_output_at_all(self):
        for words in self.printing()[:3]:
            with self.subTest(words=words):
                closed = self.start(["/bin/sh", "-c", 'exec "$@" >&-', "sh", os.path.join(TOP, words[0]), *words[1:]])
                self.ends(closed, f"{os.path.basename(words[0])}: standard output is closed\n")

    def test_a_full_disk_under_a_report(self):
        for words in self.reports():
            with self.subTest(words=words):
                self.ends(self.start([*words, "/dev/full"], stdout=subprocess.DEVNULL), f"{os.path.basename(words[0])}: /dev/full: No space left on device\n")

    def reports(self):
        cut = ["tools/every_cut", self.program, NVS, "s.txt"]
        return [[*cut, "--json"], [*cut, "--junit"], [*cut, "--html"], ["tools/picture", "x.img", "--svg"]]

    def test_signals(self):
        """^C goes to all processes of a script, a kill to the first one alone."""
        long = ["tools/every_cut", self.program, NVS, "long.txt", "--again", "--json", "all.json"]
        self.write("long.txt", [f"set a {at % 256:02x}" for at in range(400)])
        self.files = sorted([*self.files, "long.txt"])
        for words in (long, ["tools/wear", self.program, NVS, "s.txt", "--rounds", "100000"],
                      ["tools/size", self.program, "list.txt", "--prove", "--rounds", "1000000"]):
            for kill in (lambda it: os.killpg(it.pid, signal.SIGINT), lambda it: it.send_signal(signal.SIGTERM)):
                with self.subTest(words=words):
                    started = self.start(words, stdout=subprocess.DEVNULL)
                    self.wait_for_work()
                    kill(started)
                    self.ends(started, f"{os.path.basename(words[0])}: interrupted\n")

    def wait_for_work(self):
        """Waits until a script has made a file of its own."""
        for _ in range(SECONDS * 20):
            if any(files for _, _, files in os.walk(self.path("tmp"))):
                return
            time.sleep(0.05)
        self.fail("the script does not begin")

    def test_a_fault_of_a_script(self):
        """Whatever a script raises is one line, with the place."""
        text = f"#!{sys.executable}\nimport sys\nsys.path.insert(0, {os.path.join(TOP, 'tools')!r})\nfrom support.calls import run_tool\n"
        for fault, said in (("KeyError('x')", "a fault of this script, KeyError in script, line 6: 'x'"), ("MemoryError", "there is not enough memory"),
                            ("OSError(2, 'No such file', 'y')", "'y': No such file")):
            with open(self.path("script"), "w", encoding="utf-8") as file:
                file.write(f"{text}def main():\n    raise {fault}\nrun_tool(main)\n")
            ended = subprocess.run([sys.executable, "script"], cwd=self.folder, capture_output=True, text=True, check=False)
            self.assertEqual((ended.returncode, ended.stdout, ended.stderr), (2, "", f"script: {said}\n"))

    def test_an_output_keeps_its_mode(self):
        """A report goes to the file that is there: its mode stays, and so does a link to it."""
        self.write("old.json", ["old"])
        os.chmod(self.path("old.json"), 0o640)
        os.symlink("old.json", self.path("link.json"))
        self.call("every_cut", self.program, NVS, "s.txt", "--json", "link.json")
        self.assertTrue(os.path.islink(self.path("link.json")))
        self.assertEqual(os.stat(self.path("old.json")).st_mode & 0o777, 0o640)
        self.assertIn(b'"summary"', self.read("old.json"))
