"""The capacity formula of tools/size, and what it finds in a run."""

from .common import ToolTest

from image_tool.backends import Room
from support.room import Store


class Size(ToolTest):
    def test_the_formula_is_that_of_the_reference(self):
        """In the least number of sectors no set of the reference's formula lacks room, and in one less some set does."""
        for name in ("nvs", "zms", "fcb"):
            for count, length in ((3, 200), (20, 17), (40, 30), (120, 5)):
                settings = {f"app/set{at}": 1 + (length + at) % 200 for at in range(count)}
                store = Store(name, 4, 512)
                least = store.least_sectors(settings)[0]
                pairs = {key.encode(): bytes(value) for key, value in settings.items()}
                self.assertFalse(self.some_lacks(name, store.unit, least, pairs), (name, count))
                if least > 2:
                    self.assertTrue(self.some_lacks(name, store.unit, least - 1, pairs), (name, count))

    @staticmethod
    def some_lacks(name, unit, sectors, pairs):
        room = Room(name, unit, 512, sectors)
        new = [room.no_room({each: raw for each, raw in pairs.items() if each != key}, key, value) for key, value in pairs.items()]
        return any(new) or any(room.no_room(pairs, key, value) for key, value in pairs.items())

    def test_a_list_and_a_script_and_a_run(self):
        self.write("list.txt", ["# a list", "a 30", "b 2", "bt/key 16"])
        self.write("s.txt", ["set a " + "11" * 30, "get a", "set b 0102", "set a 01", "set bt/key " + "00" * 16, "names"])
        listed = self.call("size", self.program, "list.txt", "--sector", "512", "--prove", "--rounds", "4")
        self.assertEqual(self.call("size", self.program, "s.txt", "--sector", "512", "--prove", "--rounds", "4"), listed)
        self.assertEqual(listed.count("15 sets, 0 refused"), 3)

    def test_what_does_not_fit(self):
        self.write("list.txt", [f"app/{at} 100" for at in range(40)])
        self.assertIn("do not fit", self.call("size", "list.txt", "--sector", "512", "--sectors", "4", "--store", "nvs", status=1))
        self.write("list.txt", [f"a{at} 1" for at in range(512)])
        self.assertIn("511 names", self.call("size", "list.txt", "--store", "nvs", status=1))

    def test_a_refused_set_is_found(self):
        """A program that refuses a set without a reason."""
        program = self.broken_program("""
from image_tool import backends
plain = backends.NvsBackend.set
def put(self, name, value):
    if value[:1] == b"\\x67":
        raise backends.NoSpace(0, 0)
    return plain(self, name, value)
backends.NvsBackend.set = put""")
        self.write("list.txt", ["a 4"])
        printed = self.call("size", program, "list.txt", "--store", "nvs", "--sector", "512", "--prove", "--rounds", "9", status=1)
        self.assertIn("10 sets, 1 refused, the first `nospace", printed)
