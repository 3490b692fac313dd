"""Numbered items over NVS, answer by answer and byte by byte."""

import unittest

from image_tool.flash import AreaFlash, Bench
from image_tool.image import read_spec
from image_tool.nvs import Nvs, StoreFull
from tests.helpers import NVS, image_of, run, times

H = times


def items(*lines):
    return run(NVS, *lines, word="items")


class Items(unittest.TestCase):
    def test_a_set_writes_data_and_entry(self):
        r = items("set 1 01", "get 1", "set 1 01", "get 2", "del 1", "get 1")
        self.assertEqual(r.answers, ["ok 0", "ok 3", "value 01", "ok 0", "none", "ok 2", "none"])
        sector = items("set 1 01").bank()[:512]
        self.assertEqual((sector[:4].hex(), sector[496:504].hex()), ("01ffffff", "010000000100ff03"))
        self.assertEqual((sector[4:496], sector[504:]), (b"\xff" * 492, b"\xff" * 8))

    def test_a_cut_entry_uses_up_its_slot(self):
        r = items("cut 2", "set 1 01", "get 1", "mount", "get 1", "set 1 02", "get 1")
        self.assertEqual(r.answers, ["ok 0", "ok 0", "lost 2", "off", "ok 0", "none", "ok 3", "value 02"])
        sector = r.bank()[:512]
        self.assertEqual(sector[496:504].hex(), "01000000ffffffff")
        self.assertEqual((sector[4:8].hex(), sector[488:492].hex()), ("02ffffff", "01000400"))

    def test_each_cut_of_a_set(self):
        for k in range(3):
            r = items("set 1 01", f"cut {k}", "set 1 02", "mount", "get 1")
            self.assertEqual(r.answers[3:], [f"lost {k}", "ok 0", "value 01"])
        r = items("set 1 01", "cut 3", "set 1 02", "mount", "get 1", "set 1 03")
        self.assertEqual(r.answers[3:], ["ok 3", "ok 0", "value 02", "lost 0"])

    def test_the_fifth_large_set_collects(self):
        r = items(*(f"set 1 {H(100, b)}" for b in ("11", "22", "33", "44", "55")), "get 1")
        self.assertEqual(r.answers, ["ok 0"] + ["ok 27"] * 4 + ["ok 59", f"value {H(100, '55')}"])

    def test_a_refusal_and_its_numbers(self):
        r = items(f"set 1 {H(256, '11')}", f"set 2 {H(256, '22')}", "del 1", f"set 2 {H(256, '22')}")
        self.assertEqual(r.answers, ["ok 0", "ok 66", "nospace 71", "ok 2", "ok 71"])
        image, bench = read_spec(NVS), Bench()
        bench.load(image.banks, image.data)
        store = Nvs(AreaFlash(bench, image.areas[0]))
        store.write(1, b"\x11" * 256)
        with self.assertRaises(StoreFull) as caught:
            store.write(2, b"\x22" * 256)
        self.assertEqual((caught.exception.need, caught.exception.live), (264, 264))

    def test_a_sector_whose_entry_passes_the_fence(self):
        raw = image_of(NVS, [(0, 496, "01000000EC01FF49")])
        for word in ("run", "items"):
            r = run(raw, word=word)
            self.assertEqual((r.status, r.text), (4, "bad image: area main sector 0: Overfull\n"))


if __name__ == "__main__":
    unittest.main()
