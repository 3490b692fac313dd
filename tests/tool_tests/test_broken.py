"""Programs with a fault, which every_cut must find."""
import subprocess
import xml.etree.ElementTree

from .common import NVS, SMALL, ToolTest


class Broken(ToolTest):
    """Programs with a fault: the tools must find each, and the commands that they print must show it."""

    def shows(self, patch, lines, *words):
        program = self.broken_program(patch)
        self.write("s.txt", lines)
        printed = self.call("every_cut", program, NVS, "s.txt", "--quiet", "--junit", "j.xml", *words, status=1)
        suite = xml.etree.ElementTree.parse(self.path("j.xml")).getroot()
        self.assertGreater(int(suite.get("failures")), 0)
        self.assertEqual(len(suite.findall("testcase/failure")), int(suite.get("failures")))
        self.assertIn("BROKEN: ", printed)
        found = printed[printed.index("BROKEN: "):].splitlines()
        commands = [line.strip() for line in found[1:4]]
        ended = subprocess.run(["bash", "-c", "\n".join(commands)], cwd=self.folder, capture_output=True, text=True, check=False)
        return found[0], ended.stdout

    def test_entry_before_data(self):
        patch = """
def append(self, ident, raw):
    state = self.state(self.open)
    offset = state.data_end
    self._put_slot(self.open, state.low - self.shape.slot, nvs.encode_entry(ident, offset, len(raw)))
    if raw:
        self.flash.program_long(self.open, offset, raw)
nvs.Nvs._append = append"""
        printed, shown = self.shows(patch, ["set a 01", "set a 0203"])
        self.assertIn("line 2, power lost before unit 3: what is read then is neither old nor new", printed)
        self.assertEqual(shown.splitlines()[-1], '{"active":"main","names":{"a":"ffff"}}')

    def test_a_mount_that_fails(self):
        patch = """
plain = nvs.Nvs._damage
def damage(self, states):
    torn = [at for at, state in enumerate(states) if state.low < 512 - 8 * (1 + len(state.entries)) and not state.closed]
    return nvs.Damaged(torn[0], "Overfull") if torn and not states[torn[0]].blank else plain(self, states)
nvs.Nvs._damage = damage"""
        printed, shown = self.shows(patch, ["set a 01", "set a 02"])
        self.assertIn("the mount failed: bad image: area main sector 0: Overfull", printed)
        self.assertEqual(shown.splitlines()[-1], "bad image: area main sector 0: Overfull")

    def test_a_mount_that_may_not_be_cut(self):
        patch = """
def mount(self):
    states = [self.state(at) for at in range(self.shape.sectors)]
    self.open = self._open_sector(states)
    if self._counts_for_nothing(states) == self.open:
        live = {found.ident: self.value_at(found) for found in self.latest(without=self.open).values() if found.length}
        for sector in range(self.shape.sectors):
            self.flash.erase_unless_blank(sector)
        self.open = 0
        for ident, raw in live.items():
            self._append(ident, raw)
    elif states[self.flash.next(self.open)].closed:
        self.flash.erase(self.flash.next(self.open))
nvs.Nvs._mount = mount"""
        printed, shown = self.shows(patch, SMALL, "--from", "6", "--again")
        self.assertIn("and again before unit", printed)
        self.assertIn("other settings are read than without it", printed)
        self.assertIn('"names":{}', shown)
