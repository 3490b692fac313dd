"""The page of every_cut stays small."""
from .common import ToolTest, answers_of, reference

from image_tool.flash import Bench
from support import page
from support.cuts import Loss
from support.scripts import Line


class PageSize(ToolTest):
    def images(self, lines):
        """The bytes of the flash before each unit of these lines, in one run of the second implementation."""
        seen, plain = [], Bench._step

        def step(bench, loss):
            seen.append(bench.snapshot()[0])
            plain(bench, loss)

        Bench._step = step
        self.addCleanup(lambda: setattr(Bench, "_step", plain))
        status, printed, files = reference("run", "bank=erasing/4/4096/8,area=nvs/main/0/0/8", lines)
        self.assertEqual(status, 0)
        return files["x"], seen, [int(answer[0].split()[1]) for answer in answers_of(printed)[1:]]

    def test_a_thousand_losses(self):
        """The page of a thousand losses in 8 sectors stays below 2 MB, and has no link to another file."""
        texts = [f"set app/k{at % 20} {bytes((at + place) % 256 for place in range(40)).hex()}" for at in range(76)]
        blank, seen, units = self.images(texts)
        header, known, lines, losses = blank[:-8 * 4096], {}, [], {}
        with open(self.path("first.img"), "wb") as file:
            file.write(blank)
        for number, (text, count) in enumerate(zip(texts, units), 1):
            after = known | {text.split()[1]: text.split()[2]}
            old, new = ({"active": "main", "names": names} for names in (known, after))
            lines.append(Line(number, text, f"ok {count}", count, old, new))
            losses[number] = [Loss(unit, "", "ok 0", 0, old, "old", torn=f"{number}-{unit}", mended=f"{number}-{unit}") for unit in range(1, count + 1)]
            known = after
        for name, raw in zip([loss.torn for each in losses.values() for loss in each], seen):
            with open(self.path(name), "wb") as file:
                file.write(header + raw)
        self.assertGreaterEqual(len(seen), 1000)
        made = page.page_of({"script": "s.txt", "summary": {}}, lines, losses, self.folder, texts)
        self.assertLess(len(made.encode()), 2_000_000)
        self.assertNotIn("src=", made)
        self.assertNotIn("href=", made)
