"""What the tests of the tools have in common: layouts and scripts, the second implementation in this process, calls of the scripts."""
import json
import os
import stat
import subprocess
import sys
import tempfile
import unittest

TOP = os.path.dirname(os.path.dirname(os.path.dirname(os.path.abspath(__file__))))
sys.path[:0] = [os.path.join(TOP, "reference"), os.path.join(TOP, "tools")]

from image_tool.host import MemHost  # noqa: E402
from image_tool.tool import tool  # noqa: E402

NVS = "bank=erasing/4/512/2,area=nvs/main/0/0/2"
ZMS = "bank=rewritable/16/512/2,area=zms/main/0/0/2"
FCB = "bank=erasing/4/512/2,area=fcb/main/0/0/2"
LOG = "bank=erasing/4/512/3,area=fcb/main/0/0/3"
MIRROR = "bank=erasing/4/512/6,area=nvs/a/0/0/2,area=nvs/b/0/2/2,area=sel/s/0/4/2"
MOVE = "bank=erasing/4/512/6,area=nvs/n/0/0/2,area=fcb/f/0/2/2,area=sel/s/0/4/2"
SHORT = ["# a comment", "", "set a 01", "get a", "set a 02", "set b 0102030405060708090a", "del a"]
# The last set collects, and the collection copies little.
SMALL = ["set b 01", "set a " + "11" * 256, "set a " + "22" * 120, "del a", "set b 02", "set b 03"]
COLLECTS = [f"set a {byte * 100}" for byte in ("11", "22", "33", "44", "55")]
SAVES = ["register app table", "set app/x 01", "set app/y 02", "load", "rset app/x 03", "rset app/y 04", "save"]


def reference(command, spec, lines):
    """The status and the text of a run by the second implementation."""
    host = MemHost()
    tool(["build", "x", spec], host)
    host.files["s"] = "".join(line + "\n" for line in lines).encode()
    status = tool([command, "x", "s", "y"], host)
    return status, host.printed.decode(), host.files


def answers_of(text):
    """The answer to each line, as a list of its texts; that of `all` has many."""
    found, answer = [], []
    for line in text.splitlines():
        answer.append(line)
        if line.split()[0] not in ("give", "have", "record"):
            found.append(answer)
            answer = []
    return found


class ToolTest(unittest.TestCase):
    """A test with a folder of its own. `program` is the PROGRAM of the call of tests/tools."""
    program = ""

    def setUp(self):
        folder = tempfile.TemporaryDirectory()
        self.addCleanup(folder.cleanup)
        self.folder = folder.name

    def path(self, name):
        return os.path.join(self.folder, name)

    def write(self, name, lines):
        with open(self.path(name), "w", encoding="utf-8") as file:
            file.write("".join(line + "\n" for line in lines))
        return name

    def read(self, name):
        with open(self.path(name), "rb") as file:
            return file.read()

    def call(self, name, *words, status=0):
        """Calls a script. A wrong call must print one line, to stderr alone."""
        path = os.path.join(TOP, name if "/" in name else f"tools/{name}")
        ended = subprocess.run([path, *words], cwd=self.folder, stdin=subprocess.DEVNULL, capture_output=True, text=True, check=False)
        self.assertEqual(ended.returncode, status, ended.stdout + ended.stderr)
        if status == 2:
            self.assertEqual((ended.stdout, ended.stderr.count("\n")), ("", 1), ended)
            self.assertTrue(ended.stderr.startswith(os.path.basename(name) + ": "), ended.stderr)
        else:
            self.assertEqual(ended.stderr, "")
        return ended.stdout if status != 2 else ended.stderr

    def json_of(self, *words, program=None, status=0):
        self.call("every_cut", program or self.program, *words, "--json", "all.json", status=status)
        return json.loads(self.read("all.json"))

    def broken_program(self, patch):
        """A program made from the second implementation, with one fault."""
        text = "\n".join([
            f"#!{sys.executable} -SE", "import sys", "sys.dont_write_bytecode = True", f"sys.path.insert(0, {os.path.join(TOP, 'reference')!r})",
            "from image_tool import nvs, tool", patch, "sys.exit(tool.main(sys.argv[1:]))",
        ])
        self.write("broken", [text])
        os.chmod(self.path("broken"), stat.S_IRWXU)
        return self.path("broken")
