"""What all sessions have in common: they carry out lines, and power may go away in each."""

from .flash import Bench, PowerLost
from .lines import Answer, Line, lost, ok

POWER_WORDS = ("mount", "cut", "uncut")


class LineSession:
    """`_line` carries out a line; `before` are the units that were spent before it."""

    def __init__(self, bench: Bench) -> None:
        self.bench = bench

    def run(self, lines: list[Line]) -> list[Answer]:
        return [self.step(line) for line in [Line("mount")] + lines]

    def step(self, line: Line) -> Answer:
        """One line; `lost` where power went away in it, `off` where it was away already."""
        if not self.bench.on and line.word not in POWER_WORDS:
            return Answer("off")
        before = self.bench.spent
        try:
            if line.word in POWER_WORDS:
                return self._power(line, before)
            return self._line(line, before)
        except PowerLost:
            return lost(self.bench.spent - before, self._by_chance(line))

    def _power(self, line: Line, before: int) -> Answer:
        if line.word == "cut":
            self.bench.arm(line.number)
        elif line.word == "uncut":
            self.bench.disarm()
        else:
            self.bench.restore()
            self._mount()
        return ok(self.bench.spent - before)

    def _mount(self) -> None:
        raise NotImplementedError

    def _line(self, line: Line, before: int) -> Answer:
        raise NotImplementedError

    def _by_chance(self, line: Line) -> bool:
        """Whether what the cut line left counts by chance."""
        return False
