"""Random scripts for the log, for numbered items and for the mirror, each with a small model of its own.

Run as `python3 -m tests.random_others SEED COUNT`.
"""

import random
import sys
import traceback

from image_tool import readings
from image_tool.event_log import LogSession
from image_tool.fcb import record_cost
from image_tool.flash import Bench
from image_tool.image import Image, read_spec
from image_tool.items import ItemSession
from image_tool.lines import Line
from image_tool.mirror import MirrorSession
from image_tool.nvs import Damaged
from tests.random_settings import random_value


def random_cut(rng: random.Random, most: int) -> Line:
    return Line("cut", number=rng.choice([0, 1, 2, 3, 4, 5, 7, 9, 12, rng.randrange(most)]))


def bank_of(rng: random.Random, sectors: int) -> str:
    return f"bank=erasing/{rng.choice([4, 8, 16])}/{rng.choice([512, 576, 1024])}/{sectors}"


class Run:
    """A session on a blank image, and its lines and answers so far. `at_cut` looks at the bytes before every unit."""

    def __init__(self, rng: random.Random, spec: str) -> None:
        self.rng, self.image, self.bench, self.log = rng, read_spec(spec), Bench(), [spec]
        self.bench.load(self.image.banks, self.image.data)
        self.session = self.new_session(self.bench)
        self.session.step(Line("mount"))

    def now(self) -> Image:
        return Image(1, self.image.banks, self.image.areas, self.bench.data)

    def sectors(self) -> list[bytes]:
        """Those of the first area."""
        return readings.sectors_of(self.now(), self.image.areas[0])

    def step(self, line: Line):
        self.log.append(line)
        self.bench.watch = self.at_cut
        answer = self.session.step(line)
        self.bench.watch = None
        self.log.append(answer.text)
        return answer

    def play(self, lines: int) -> None:
        try:
            for _ in range(lines):
                self.one_line()
        except Exception:
            for entry in self.log[-14:]:
                print(entry)
            raise


class MirrorRun(Run):
    """Two areas: `maps` are those that they may hold, `allowed` those that a cut of the line may leave."""

    def __init__(self, rng: random.Random) -> None:
        self.points, self.maps = 0, [{}]
        self.allowed = self.maps
        self.names = [b"a", b"b", b"c/d", b"n" * 64, b"q" * 20][:rng.choice([1, 2, 5])]
        super().__init__(rng, self.random_spec(rng))
        self.stores = [i for i, area in enumerate(self.image.areas) if area.role != "sel"]

    @staticmethod
    def random_spec(rng: random.Random) -> str:
        roles, first, areas = [rng.choice(["nvs", "zms"]) for _ in range(2)], [0, 0], []
        rewritable = rng.random() < 0.6
        for role, label in zip(roles + ["sel"], "pqs"):
            bank, count = 1 if role == "zms" and rewritable else 0, rng.choice([2, 2, 3, 4])
            areas.append(f"area={role}/{label}/{bank}/{first[bank]}/{count}")
            first[bank] += count
        if rng.random() < 0.3:
            areas = [areas[2], areas[0], areas[1]]
        unit = 16 if "zms" in roles and not rewritable else rng.choice([4, 8, 16])
        banks = [f"bank=erasing/{unit}/{rng.choice([512, 576, 1024])}/{first[0]}"]
        if first[1]:
            banks.append(f"bank=rewritable/16/{rng.choice([512, 640, 1024])}/{first[1]}")
        return ",".join(banks + areas)

    def new_session(self, bench: Bench) -> MirrorSession:
        return MirrorSession(bench, self.image.areas)

    def reads(self):
        """The map that the two areas read as."""
        image, chosen = self.now(), readings.active(self.now())
        other = next(i for i in self.stores if i != chosen)
        blank = [all(map(readings.erased, readings.sectors_of(image, image.areas[i]))) for i in (chosen, other)]
        return readings.area_reads(image, image.areas[other if blank == [True, False] else chosen])

    def at_cut(self, loss) -> None:
        self.points += 1
        assert self.reads() in self.allowed
        if self.points % 5 == 0:
            clone = Bench()
            clone.load(self.image.banks, self.bench.snapshot())
            again = self.new_session(clone)
            assert again.step(Line("mount")).kind == "ok"
            assert again.mirror.first.pairs() in self.allowed and again.mirror.second.pairs() in self.allowed

    def random_line(self) -> Line:
        rng, name, roll = self.rng, self.rng.choice(self.names), self.rng.random()
        if not self.bench.on:
            return rng.choice([Line("mount"), Line("mount"), random_cut(rng, 60), Line("blank", label=b"p"),
                               Line("blank", label=b"q"), Line("names")])
        if roll < 0.5:
            return Line("set", name=name, value=random_value(rng, 256))
        if roll < 0.65:
            return Line("del", name=name)
        return rng.choice([random_cut(rng, 60), random_cut(rng, 200), Line("mount"), Line("names"), Line("uncut")])

    def one_line(self) -> None:
        line, new = self.random_line(), None
        if line.word in ("set", "del") and self.bench.on:
            new = {k: v for k, v in self.maps[0].items() if k != line.name}
            if line.word == "set":
                new[line.name] = line.value
        self.allowed = self.maps + [new] if new is not None else self.maps
        answer = self.step(line)
        if new is not None:
            assert answer.kind in ("ok", "lost") or answer.text == "nospace 0"
            self.maps = {"ok": [new], "lost": [self.maps[0], new]}.get(answer.kind, self.maps)
        elif line.word == "mount" and answer.kind == "ok":
            self.maps = [m for m in self.maps if m == self.session.mirror.first.pairs()][:1]
            assert self.maps
        if self.bench.on:
            assert len(self.maps) == 1 or answer.kind != "ok"
            for i in self.stores:
                assert readings.area_reads(self.now(), self.image.areas[i]) == self.maps[0]
        assert self.reads() in self.maps


class LogRun(Run):
    """`appended` are all bodies that went into the log."""

    def __init__(self, rng: random.Random) -> None:
        self.count, self.appended, self.costs = rng.choice([2, 2, 3, 4]), [], 0
        super().__init__(rng, f"{bank_of(rng, self.count)},area=fcb/main/0/0/{self.count}")
        self.unit = self.image.banks[0].unit

    def new_session(self, bench: Bench) -> LogSession:
        return LogSession(bench, self.image.areas[0])

    def bodies(self) -> list[bytes]:
        found = readings.fcb_list(self.sectors(), self.image.banks[0].unit)
        assert not isinstance(found, Damaged)
        return found

    def at_cut(self, loss) -> None:
        self.bodies()

    def random_line(self) -> Line:
        rng = self.rng
        if not self.bench.on:
            return rng.choice([Line("mount"), Line("mount"), random_cut(rng, 20)])
        return rng.choice([Line("put", value=random_value(rng, 256))] * 6
                          + [random_cut(rng, 90), Line("all"), Line("mount")])

    def one_line(self) -> None:
        line, was_on, before = self.random_line(), self.bench.on, self.bodies()
        answer = self.step(line)
        after = self.bodies()
        if line.word == "put" and was_on:
            self.costs += record_cost(self.unit, len(line.value))
            self.after_put(line.value, answer.text.split(), before, after)
        else:
            assert after == before
        assert after == self.appended[len(self.appended) - len(after):]

    def after_put(self, body: bytes, words: list[str], before: list[bytes], after: list[bytes]) -> None:
        fronts = [before[n:] for n in range(len(before) + 1)]
        dropped = len(before) - len(after)
        if words[0] == "ok":
            dropped = int(words[2])
            assert after == before[dropped:] + [body]
            self.appended.append(body)
        elif words[2:] == ["chance"]:
            assert after[:-1] in fronts and len(after[-1]) == len(body)
            self.appended.append(after[-1])
        elif after and after[-1] == body and after[:-1] in fronts and after not in fronts:
            self.appended.append(body)
        else:
            assert after in fronts
        if dropped > 0:
            full = self.image.banks[0].sector - max(8, self.unit)
            assert self.costs > (self.count - 1) * (full - record_cost(self.unit, 256))


class ItemRun(Run):
    """`history` are the values of each id, the newest first; a delete is None. `options` are the histories that a cut may leave."""

    def __init__(self, rng: random.Random) -> None:
        self.role, self.spent = rng.choice(["nvs", "zms", "zms"]), 0
        self.ids = [1, 2, 65, 0xFFFE, 0][:rng.choice([1, 2, 5])]
        self.history: dict = {i: [] for i in self.ids}
        count = rng.choice([2, 2, 3, 4])
        bank = f"bank={rng.choice(['rewritable', 'erasing'])}/16/{rng.choice([512, 640, 1024])}/{count}"
        if self.role == "nvs":
            bank = bank_of(rng, count)
        self.may_be()
        super().__init__(rng, f"{bank},area={self.role}/main/0/0/{count}")

    def new_session(self, bench: Bench) -> ItemSession:
        return ItemSession(bench, self.image.areas[0])

    def may_be(self) -> None:
        self.options = {i: [self.history[i]] for i in self.ids}

    def pairs(self):
        bank = self.image.banks[0]
        read = (readings.nvs_list(self.sectors(), bank.unit) if self.role == "nvs" else
                readings.zms_list(self.sectors(), bank.kind == "erasing"))
        assert not isinstance(read, Damaged), read
        return read

    def at_cut(self, loss) -> None:
        pairs = self.pairs()
        items = readings.items(pairs)
        for i in self.ids:
            kept = [raw or None for ident, raw in reversed(pairs) if ident == i]
            assert kept in [h[:len(kept)] for h in self.options[i]], (i, kept, self.options[i])
            assert items.get(i) in [(h[0] if h else None) for h in self.options[i]]

    def random_line(self) -> Line:
        rng, ident = self.rng, self.rng.choice(self.ids)
        if not self.bench.on:
            return rng.choice([Line("mount"), Line("mount"), random_cut(rng, 30)])
        return rng.choice([Line("set", ident=ident, value=random_value(rng, 256)), Line("del", ident=ident),
                           Line("set", ident=ident, value=random_value(rng, 256)), random_cut(rng, 80),
                           Line("older", ident=ident, number=rng.randrange(4)), Line("space"), Line("mount")])

    def one_line(self) -> None:
        line, was_on = self.random_line(), self.bench.on
        self.may_be()
        if was_on and line.word in ("set", "del"):
            self.options[line.ident] = [self.history[line.ident], [line.value] + self.history[line.ident]]
        answer = self.step(line)
        if was_on and line.word in ("set", "del"):
            self.after_change(line, answer)
        if was_on and line.word == "older":
            self.after_question(line, answer.text)
        self.may_be()
        self.at_cut(None)

    def cost(self, length: int) -> int:
        unit = self.image.banks[0].unit
        if self.role == "nvs":
            return max(8, unit) + -(-length // unit) * unit
        return 16 if length <= 8 else 16 + -(-length // 16) * 16

    def after_change(self, line: Line, answer) -> None:
        self.spent += self.cost(len(line.value or b""))
        past = self.history[line.ident]
        now = readings.items(self.pairs()).get(line.ident)
        if answer.kind == "ok" and answer.units or answer.kind == "lost" and now != (past[0] if past else None):
            self.history[line.ident] = [line.value] + past

    def after_question(self, line: Line, text: str) -> None:
        past = self.history[line.ident]
        if text != "gone":
            raw = past[line.number]
            assert text == ("deleted" if raw is None else f"value {raw.hex()}")
            return
        if line.number == 0:
            assert not past or past[0] is None
        if len(past) > line.number:
            store = self.session.store
            assert self.spent > (store.cap if self.role == "zms" else store.shape.cap)


def one_case(seed: int) -> None:
    rng = random.Random(seed)
    rng.choice([MirrorRun, LogRun, ItemRun])(rng).play(90)


def main() -> None:
    first, count = int(sys.argv[1]), int(sys.argv[2])
    for seed in range(first, first + count):
        try:
            one_case(seed)
        except Exception:
            print("seed", seed)
            traceback.print_exc()
            raise SystemExit(1) from None
    print(f"{count} cases from seed {first}")


if __name__ == "__main__":
    main()
