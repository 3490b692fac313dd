"""The counts of tools/wear, compared with those of the simulated flash."""

from .common import COLLECTS, NVS, ToolTest

from image_tool.flash import Bench
from image_tool.host import MemHost
from image_tool.tool import tool


class Wear(ToolTest):
    def test_counts_are_those_of_the_flash(self):
        """Units and erases by sector, counted in the simulated flash of the second implementation."""
        lines, rounds = COLLECTS + ["set b 01", "set b 02"], 4
        counts = {"erase": {}, "program": {}}
        plain_erase, plain_program = Bench.erase, Bench.program

        def erase(bench, bank, sector):
            counts["erase"][sector] = counts["erase"].get(sector, 0) + 1
            plain_erase(bench, bank, sector)

        def program(bench, bank, offset, raw):
            sector = offset // 512
            counts["program"][sector] = counts["program"].get(sector, 0) + len(raw) // 4
            plain_program(bench, bank, offset, raw)

        Bench.erase, Bench.program = erase, program
        self.addCleanup(lambda: (setattr(Bench, "erase", plain_erase), setattr(Bench, "program", plain_program)))
        host = MemHost()
        tool(["build", "x", NVS], host)
        host.files["s"] = "".join(line + "\n" for line in lines).encode()
        for _ in range(rounds):
            tool(["run", "x", "s", "x"], host)
        self.write("s.txt", lines)
        printed = self.call("wear", self.program, NVS, "s.txt", "--rounds", str(rounds))
        rows = {int(row.split()[0]): row.split() for row in printed.splitlines() if row[:8].strip().isdigit() and len(row.split()) == 4}
        self.assertEqual({at: int(row[1]) for at, row in rows.items()}, {at: counts["erase"].get(at, 0) for at in rows})
        self.assertIn(f"programmed: {sum(counts['program'].values()):,} units", printed)
        self.assertIn(f"erased: {sum(counts['erase'].values())} sectors", printed)
        seen = sum(int(row[3].replace(",", "")) for row in rows.values())
        unseen = [int(line.split()[-2]) for line in printed.splitlines() if line.startswith("not seen")]
        self.assertEqual(seen + sum(unseen), sum(counts["program"].values()))

    def test_refused_lines(self):
        self.write("s.txt", ["set a " + "11" * 250, "set b " + "22" * 250])
        self.assertIn("REFUSED: 2 lines", self.call("wear", self.program, NVS, "s.txt", "--rounds", "2", status=1))
