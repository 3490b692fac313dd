"""The application log, the item history and the mirror."""

import unittest

from image_tool.backends import NoSpace
from image_tool.crc import crc8
from image_tool.flash import Bench
from image_tool.image import read_spec
from image_tool.mirror import Mirror as BothAreas
from tests.helpers import ALL, FCB, NVS, ZMS, run, times

H = times
LOG = "bank=erasing/4/512/3,area=fcb/main/0/0/3"
MIRROR = "bank=erasing/4/512/6,area=nvs/p/0/0/2,area=nvs/q/0/2/2,area=sel/s/0/4/2"
NINE = ["11", "22", "33", "44", "55", "66", "77", "88", "99"]


class Log(unittest.TestCase):
    def test_the_oldest_sector_is_dropped(self):
        r = run(LOG, *(f"put {H(100, b)}" for b in NINE), "all", word="log")
        self.assertEqual(r.answers[:10], ["ok 0", "ok 29 0", "ok 27 0", "ok 27 0", "ok 27 0", "ok 29 0", "ok 27 0",
                                          "ok 27 0", "ok 27 0", "ok 30 4"])
        self.assertEqual(r.answers[10:], [f"record {H(100, b)}" for b in NINE[4:]] + ["log 5"])

    def test_cuts_around_the_drop(self):
        puts = [f"put {H(100, b)}" for b in NINE]
        for k, mount, kept in ((2, "ok 1", NINE[:8]), (3, "ok 0", NINE[4:8])):
            r = run(LOG, *puts[:8], f"cut {k}", puts[8], "mount", "all", word="log")
            self.assertEqual(r.answers[10:], [f"lost {k}", mount] + [f"record {H(100, b)}" for b in kept]
                             + [f"log {len(kept)}"])

    def test_every_cut_of_a_put(self):
        puts = [f"put {H(100, b)}" for b in NINE]
        for k in range(30):
            r = run(LOG, *puts[:8], f"cut {k}", puts[8], "mount", "all", word="log")
            records = [a.split()[1][:2] for a in r.answers if a.startswith("record ")]
            self.assertIn(records, (NINE[:8], NINE[4:8]))

    def test_refusals(self):
        self.assertEqual(run(NVS, "all", word="log").text, "bad image: no log\n")
        self.assertEqual(run(ALL, "fly", word="log").text, "bad image: no log\n")
        for line, why in (("put -", "Hex"), ("set a 01", "Unknown"), (f"put {H(257, '00')}", "Long"), ("all 1", "Words")):
            self.assertEqual(run(LOG, line, word="log").text, f"bad script: line 1: {why}\n")

    def test_a_record_torn_by_chance(self):
        for body in range(65536):
            raw = body.to_bytes(2, "big") + b"\x01\x02\x03\x04\x05\x06"
            if crc8(b"\x08" + raw[:4] + b"\xff" * 4) == 0xFF:
                break
        r = run(LOG, "cut 4", f"put {raw.hex()}", "mount", "all", word="log")
        self.assertEqual(r.answers, ["ok 0", "ok 0", "lost 4 chance", "ok 0", f"record {raw[:4].hex()}ffffffff", "log 1"])


class History(unittest.TestCase):
    def test_older_values(self):
        r = run(NVS, "set 1 01", "set 1 02", "del 1", "older 1 0", "older 1 1", "older 1 2", "older 1 3", "space",
                word="items")
        self.assertEqual(r.answers, ["ok 0", "ok 3", "ok 3", "ok 2", "deleted", "value 02", "value 01", "gone",
                                     "space 0 32 480"])

    def test_after_a_collection(self):
        sets = [f"set 1 {H(100, b)}" for b in ("11", "22", "33", "44", "55")]
        r = run(NVS, *sets, "older 1 1", "older 1 2", "space", word="items")
        self.assertEqual(r.answers[6:], [f"value {H(100, '44')}", "gone", "space 108 108 372"])
        self.assertEqual(run(ZMS, "set 1 01", "space", word="items").answers, ["ok 0", "ok 2", "space 16 0 416"])

    def test_refusals(self):
        for image in (FCB, ALL):
            self.assertEqual(run(image, "space", word="items").text, "bad image: no items\n")
        for image, line, why in ((NVS, "get 65535", "Number"), (ZMS, "get 4294967295", "Number"),
                                 (NVS, "older 1", "Words"), (NVS, "older 1 4294967296", "Number"),
                                 (NVS, "set 1 -", "Hex"), (NVS, "set 99999 0g", "Hex"), (NVS, "names", "Unknown")):
            self.assertEqual(run(image, line, word="items").text, f"bad script: line 1: {why}\n")
        self.assertEqual(run(ZMS, "get 4294967294", word="items").answers, ["ok 0", "none"])


class Mirror(unittest.TestCase):
    def test_room_for_both(self):
        r = run(MIRROR, "set a 01", f"set b {H(180, '22')}", f"set b {H(160, '22')}", word="mirror")
        self.assertEqual(r.answers, ["ok 0", "ok 18", "nospace 0", "ok 96"])

    def test_the_numbers_of_a_refusal_by_a_mirror(self):
        image, bench = read_spec(MIRROR), Bench()
        bench.load(image.banks, image.data)
        mirror = BothAreas(bench, image.areas)
        mirror.set(b"a", b"\x01")
        with self.assertRaises(NoSpace) as caught:
            mirror.set(b"b", b"\x22" * 180)
        self.assertEqual((caught.exception.need, caught.exception.live), (200, 36))
        mirror.set(b"b", b"\x22" * 160)
        self.assertEqual(mirror.second.pairs(), {b"a": b"\x01", b"b": b"\x22" * 160})

    def test_a_cut_set_is_repaired(self):
        lines = ["cut 12", "set a 01", "mount", "get a"]
        self.assertEqual(run(MIRROR, *lines, word="mirror").answers,
                         ["ok 0", "ok 0", "lost 12", "ok 10", "value 01"])
        r = run(MIRROR, "cut 12", "set a 01", "blank p", "mount", "get a", "names", word="mirror")
        self.assertEqual(r.answers, ["ok 0", "ok 0", "lost 12", "ok 0", "ok 5", "none", '{"active":"q","names":{}}'])

    def test_an_area_is_replaced(self):
        r = run(MIRROR, "set a 01", "cut 0", "set a 02", "blank p", "cut 8", "mount", "blank q", "mount", "get a",
                word="mirror")
        self.assertEqual(r.answers, ["ok 0", "ok 18", "ok 0", "lost 0", "ok 0", "ok 0", "lost 8", "notyet", "ok 10",
                                     "value 01"])
        r = run(MIRROR, "set a 01", "cut 0", "set a 02", "blank p", "mount", "get a", word="mirror")
        self.assertEqual(r.answers[-2:], ["ok 14", "value 01"])

    def test_answers_of_blank(self):
        r = run(MIRROR, "blank p", "cut 0", "set a 01", "blank s", "blank x", "blank p", "blank p", "mount",
                word="mirror")
        self.assertEqual(r.answers, ["ok 0", "on", "ok 0", "lost 0", "noarea", "noarea", "ok 0", "notyet", "ok 0"])

    def test_refusals(self):
        for image in (NVS, ALL):
            self.assertEqual(run(image, "names", word="mirror").text, "bad image: no mirror\n")
        for line, why in (("blank P", "Name"), ("blank", "Words"), ("direct", "Unknown"), ("blank abcdefghi", "Name")):
            self.assertEqual(run(MIRROR, line, word="mirror").text, f"bad script: line 1: {why}\n")

    def test_a_map_that_does_not_fit(self):
        first = run(MIRROR, f"set a {H(240, '11')}")
        r = run(first.out, "names", word="mirror")
        self.assertEqual((r.status, r.text), (4, "bad image: area p: Unfit\n"))


if __name__ == "__main__":
    unittest.main()
