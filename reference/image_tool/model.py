"""The plain map model and the self-check: answers against the model, bytes against the readings.

The model knows no flash. It is a map, a power, a list of handlers and an active area; each answer of
the session is either the one that the map gives, or one of the few that the map leaves open.
"""

from dataclasses import dataclass, field
from typing import Optional

from . import readings
from .backends import Room, chance, split_body, torn_bytes
from .fcb import encode_record, parse_record
from .flash import Bench, Loss
from .handlers import POOL
from .image import Area, Image
from .lines import Answer, Line, dash, names_text
from .nvs import Damaged
from .session import AreaDamaged, Session, next_store

Map = dict[bytes, bytes]
Command = tuple[str, bytes, bytes]     # put or del, the name, the value


def apply(m: Map, command: Optional[Command]) -> Map:
    if command is None:
        return m
    word, name, value = command
    left = {k: v for k, v in m.items() if k != name}
    return {**left, name: value} if word == "put" else left


def folds(m: Map, commands: list[Command]) -> list[Map]:
    """The maps after the first 0, 1, 2, .. commands."""
    maps = [m]
    for command in commands:
        maps.append(apply(maps[-1], command))
    return maps


def parts_match(name: bytes, key: bytes) -> Optional[bytes]:
    left, right = name.split(b"/"), key.split(b"/")
    return b"/".join(left[len(right):]) if left[:len(right)] == right else None


def accepted(kind: str, value: bytes) -> bool:
    return {"table": True, "counter": len(value) == 4,
            "level": len(value) == 1 and value <= b"\x64"}[kind]


@dataclass
class Held:
    subtree: bytes
    kind: str
    pairs: Map = field(default_factory=dict)
    commits: int = 0


class Model:
    """The state of the plain session, moved by a line together with its answer."""

    def __init__(self, m: Map, active: int, areas: list[Area], rooms: list[Optional[Room]]) -> None:
        self.map, self.active, self.areas, self.rooms = m, active, areas, rooms
        self.on, self.handlers, self.pool = True, [], list(POOL)
        self.plan: Optional[int] = None

    def commands(self, line: Line) -> list[Command]:
        """The puts and deletes that a line stands for."""
        m, name = self.map, line.name
        if line.word == "set" and line.value:
            return [] if m.get(name) == line.value else [("put", name, line.value)]
        if line.word in ("set", "del"):
            return [("del", name, b"")] if name in m else []
        found: list[Command] = []
        if line.word == "save":
            for handler in self.handlers:
                if name is None or parts_match(handler.subtree, name) is not None:
                    for rest in sorted(handler.pairs):
                        key = handler.subtree + (b"/" + rest if rest else b"")
                        if m.get(key) != handler.pairs[rest]:
                            found.append(("put", key, handler.pairs[rest]))
                            m = apply(m, found[-1])
        return found

    def best(self, name: bytes) -> Optional[Held]:
        found = [h for h in self.handlers if parts_match(name, h.subtree) is not None]
        return max(found, key=lambda h: len(h.subtree.split(b"/")), default=None)

    def move(self, line: Line, answer: Answer, image_map: Map, image_active: int) -> None:
        """Assert that the answer is one that the state allows, and go to the state after it.

        A loss leaves a choice open; the image then says which one was taken.
        """
        words = answer.text.split(" ")
        self._keep_plan(line, words, answer)
        if not self.on and line.word not in ("mount", "cut", "uncut"):
            assert answer.text == "off"
        elif words[0] == "lost":
            self._move_lost(line, words, image_map, image_active)
        else:
            assert answer.text != "off"
            getattr(self, "_" + line.word)(line, words, answer.text)
        assert image_map == self.map, (image_map, self.map)
        assert image_active == self.active

    def _keep_plan(self, line: Line, words: list[str], answer: Answer) -> None:
        if line.word == "cut":
            self.plan = line.number
        elif line.word == "uncut":
            self.plan = None
        elif words[0] == "lost":
            assert self.plan == answer.units == int(words[1])
            self.plan = None
        elif self.plan is not None:
            assert answer.units <= self.plan
            self.plan -= answer.units

    def _move_lost(self, line: Line, words: list[str], image_map: Map, image_active: int) -> None:
        self.on = False
        commands, room = self.commands(line), self.rooms[self.active]
        maps = folds(self.map, commands)
        if line.word in ("set", "del", "save"):
            assert commands
            barred = [j for j, c in enumerate(commands) if c[0] == "put" and room.too_many(maps[j], c[1])]
            last = barred[0] if barred else len(commands)
            assert last > 0
            if line.word != "save":
                assert int(words[1]) <= room.bound()
            if words[2:] == ["chance"]:
                assert room.role == "fcb"
                torn = [apply(maps[j], t) for j, c in enumerate(commands[:last])
                        for t in torn_commands(room.unit, c, self.areas[self.active].value_limit)]
                assert image_map in torn
            else:
                assert image_map in maps[:last + 1]
            self.map = image_map
        elif line.word == "migrate":
            assert len(words) == 2
            target = next_store(self.areas, self.active)
            assert target is not None and image_active in (self.active, target)
            if image_active == target:
                assert not self._target_bars(target, self.rooms[target].too_many)
            self.active = image_active
        else:
            assert line.word == "mount" and len(words) == 2

    def _set(self, line: Line, words: list[str], text: str) -> None:
        commands, room = self.commands(line), self.rooms[self.active]
        put = bool(commands) and commands[0][0] == "put"
        barred = put and room.too_many(self.map, commands[0][1])
        assert int(words[1]) <= room.bound()
        if barred:
            assert text == "toomany 0"
        elif words[0] == "nospace":
            assert put and room.no_room(self.map, commands[0][1], commands[0][2])
        else:
            assert words[0] == "ok" and (int(words[1]) == 0) == (not commands)
            self.map = folds(self.map, commands)[-1]

    _del = _set

    def _save(self, line: Line, words: list[str], text: str) -> None:
        commands, room, done = self.commands(line), self.rooms[self.active], int(words[1])
        maps = folds(self.map, commands)
        barred = [j for j, c in enumerate(commands) if room.too_many(maps[j], c[1])]
        assert words[0] == "saved"
        if words[2] == "toomany":
            assert barred[:1] == [done]
        elif words[2] == "nospace":
            assert room.no_room(maps[done], commands[done][1], commands[done][2])
            assert not barred or barred[0] > done
        else:
            assert not barred and done == len(commands) and (int(words[2]) == 0) == (not commands)
        self.map = maps[done]

    def _get(self, line: Line, words: list[str], text: str) -> None:
        assert text == (f"value {self.map[line.name].hex()}" if line.name in self.map else "none")

    def _register(self, line: Line, words: list[str], text: str) -> None:
        if any(h.subtree == line.name for h in self.handlers):
            assert text == "exists"
        elif line.kind not in self.pool:
            assert text == "nokind"
        else:
            assert text == "ok 0"
            self.pool.remove(line.kind)
            self.handlers.append(Held(line.name, line.kind))

    def _load(self, line: Line, words: list[str], text: str) -> None:
        told, taken, rejected, passed = [], 0, 0, 0
        for name in sorted(self.map):
            if line.name is not None and parts_match(name, line.name) is None:
                continue
            handler, raw = self.best(name), self.map[name]
            if handler is None:
                passed += 1
                continue
            rest = parts_match(name, handler.subtree)
            if accepted(handler.kind, raw):
                handler.pairs[rest] = raw
            taken += accepted(handler.kind, raw)
            rejected += not accepted(handler.kind, raw)
            told.append("give %s %s %s %s\n" % (handler.subtree.decode(), dash(rest), raw.hex(),
                                                "taken" if accepted(handler.kind, raw) else "rejected"))
        assert text == "".join(told) + f"loaded {taken} {rejected} {passed}"
        for handler in self.handlers:
            handler.commits += line.name is None or parts_match(handler.subtree, line.name) is not None

    def _direct(self, line: Line, words: list[str], text: str) -> None:
        names = [n for n in sorted(self.map) if line.name is None or parts_match(n, line.name) is not None]
        told = "".join(f"have {n.decode()} {self.map[n].hex()}\n" for n in names)
        assert text == told + f"direct {len(names)}"

    def _commit(self, line: Line, words: list[str], text: str) -> None:
        assert text == "ok 0"
        for handler in self.handlers:
            handler.commits += 1

    def _rset(self, line: Line, words: list[str], text: str) -> None:
        handler = self.best(line.name)
        if handler is None:
            assert text == "nohandler"
        elif not accepted(handler.kind, line.value):
            assert text == "rejected"
        else:
            assert text == "ok 0"
            handler.pairs[parts_match(line.name, handler.subtree)] = line.value

    def _rget(self, line: Line, words: list[str], text: str) -> None:
        handler = self.best(line.name)
        if handler is None:
            assert text == "nohandler"
        else:
            raw = handler.pairs.get(parts_match(line.name, handler.subtree))
            assert text == ("none" if raw is None else f"value {raw.hex()}")

    def _names(self, line: Line, words: list[str], text: str) -> None:
        assert text == names_text(self.areas[self.active].label, self.map)

    def _cut(self, line: Line, words: list[str], text: str) -> None:
        assert text == "ok 0"

    _uncut = _cut

    def _mount(self, line: Line, words: list[str], text: str) -> None:
        assert words[0] == "ok"
        self.on = True

    def _target_bars(self, target: int, refuses) -> bool:
        """Whether some pair is refused when the pairs are put one by one into an empty map."""
        m: Map = {}
        for name in sorted(self.map):
            if refuses(m, name):
                return True
            m[name] = self.map[name]
        return False

    def _migrate(self, line: Line, words: list[str], text: str) -> None:
        target = next_store(self.areas, self.active)
        if target is None:
            assert text == "notarget"
            return
        room = self.rooms[target]
        if words[0] == "nospace":
            assert self._target_bars(target, lambda m, name: room.no_room(m, name, self.map[name]))
        elif self._target_bars(target, room.too_many):
            assert words[0] == "toomany"
        else:
            assert words[0] == "ok"
            self.active = target


def torn_commands(unit: int, command: Command, limit: int) -> list[Optional[Command]]:
    """What the record of the command may spell when it is cut and still checks."""
    body = command[1] + b"=" + command[2]
    whole = encode_record(unit, body)
    found = []
    for done in range(1, len(whole) // unit):
        torn = torn_bytes(unit, whole, done)
        command = spelled(unit, torn, limit)
        if torn != whole and command != "unsound":
            found.append(command)
    return found


def spelled(unit: int, record: bytes, limit: int):
    """The command of one record's bytes; None where its body is no lawful one; "unsound" by a wrong CRC."""
    parsed = parse_record(unit, 0, 0, record)
    if not parsed.checks:
        return "unsound"
    pair = split_body(parsed.body, limit)
    if pair is None:
        return None
    return ("put", *pair) if pair[1] else ("del", pair[0], b"")


class CheckedSession(Session):
    """A session that looks at the bytes before every unit and erase, and at every answer."""

    def __init__(self, bench: Bench, areas: list[Area], deep: int = 0) -> None:
        super().__init__(bench, areas)
        self.deep, self.points = deep, 0
        image = self._image()
        chosen = readings.active(image)
        first = None if isinstance(chosen, Damaged) else readings.area_reads(image, areas[chosen])
        self.opening_damage = chosen if isinstance(chosen, Damaged) else (
            first if isinstance(first, Damaged) else None)
        rooms = [None if a.role == "sel" else
                 Room(a.role, bench.banks[a.bank].unit, bench.banks[a.bank].sector, a.sectors) for a in areas]
        self.model = None if self.opening_damage else Model(first, chosen, areas, rooms)

    def _image(self) -> Image:
        return Image(self.areas[0].version, self.bench.banks, self.areas, self.bench.data)

    def read_now(self) -> tuple[Map, int]:
        image = self._image()
        chosen = readings.active(image)
        assert not isinstance(chosen, Damaged), chosen
        reading = readings.area_reads(image, self.areas[chosen])
        assert not isinstance(reading, Damaged), reading
        return reading, chosen

    def step(self, line: Line) -> Answer:
        if self.model is None:
            return self._step_damaged(line)
        commands = self.model.commands(line)
        maps = folds(self.model.map, commands)
        losses, spent = self.bench.losses, self.bench.spent
        self.bench.watch = lambda loss: self._at_cut(line, commands, maps, loss)
        try:
            answer = super().step(line)
        finally:
            self.bench.watch = None
        lost = answer.text.startswith("lost ")
        assert self.bench.losses - losses == lost and self.bench.spent - spent == answer.units
        self.model.move(line, answer, *self.read_now())
        assert self.model.on == self.bench.on
        if self.bench.on:
            assert self.backend.pairs() == self.model.map
        self._compare_registry()
        return answer

    def _step_damaged(self, line: Line) -> Answer:
        try:
            answer = super().step(line)
        except AreaDamaged as fault:
            assert fault.damage == self.opening_damage
            raise
        raise AssertionError(f"{self.opening_damage} was not found: {answer}")

    def _at_cut(self, line: Line, commands: list[Command], maps: list[Map], loss: Loss) -> None:
        """Power could go away here: the bytes read as a map that the line allows."""
        reading, chosen = self.read_now()
        if line.word == "migrate":
            assert chosen in (self.model.active, next_store(self.areas, self.model.active))
            assert reading == self.model.map
        else:
            assert chosen == self.model.active
            if line.word in ("set", "del", "save") and chance(self._flash(chosen), loss):
                unit = self.bench.banks[self.areas[chosen].bank].unit
                torn = [apply(maps[j], t) for j, c in enumerate(commands)
                        for t in torn_commands(unit, c, self.areas[chosen].value_limit)]
                assert reading in torn, (reading, torn)
            else:
                assert reading in maps, (reading, maps)
        self.points += 1
        if self.deep and self.points % self.deep == 0:
            self._recover(reading, chosen)

    def _recover(self, reading: Map, chosen: int) -> None:
        """A mount of these bytes is whole and finds the map that they read as."""
        clone = Bench()
        clone.load(self.bench.banks, self.bench.snapshot())
        session = Session(clone, self.areas)
        assert session.step(Line("mount")).kind == "ok"
        assert session.active == chosen and session.backend.pairs() == reading

    def _compare_registry(self) -> None:
        mine = [(h.subtree, h.kind, h.held, h.commits) for h in self.registry.handlers]
        assert mine == [(h.subtree, h.kind, h.pairs, h.commits) for h in self.model.handlers]
        assert sorted(self.registry.pool) == sorted(self.model.pool)
