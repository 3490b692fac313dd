"""Images that no run wrote: each damage and its sector, and foreign images that still read."""

import unittest

from image_tool import readings
from image_tool.crc import crc8
from image_tool.fcb import encode_record
from image_tool.image import Image, read_image, write_image
from image_tool.nvs import encode_entry
from image_tool.zms import ZEntry, close_entry, encode
from tests.helpers import (ALL, EMPTY_CYCLE_1, FCB, HEADER_0, NAME_A_CYCLE_1, NVS, NVS4, ZMS, image_of, run)

Z3 = "bank=rewritable/16/512/3,area=zms/main/0/0/3"


class Damages(unittest.TestCase):
    def refuse(self, spec, patches, line, label="main"):
        r = run(image_of(spec, patches))
        self.assertEqual((r.status, r.text), (4, f"bad image: area {label} sector {line}\n"))
        self.assertNotIn("out", r.host.files)

    def test_nvs(self):
        self.refuse(NVS, [(0, 511, "00"), (0, 1023, "00")], "0: AllClosed")
        self.refuse(NVS4, [(0, 511 + 512 * i, "00") for i in range(4)], "0: AllClosed")
        self.refuse(NVS4, [(0, 511, "00"), (0, 511 + 1024, "00")], "3: TwoOpen")
        self.refuse(NVS, [(0, 0, "00"), (0, 512, "00")], "1: Dirty")
        self.refuse(NVS, [(0, 0, "00" * 512)], "0: NoFence")
        self.refuse(NVS, [(0, 496, "01000000EC01FF49")], "0: Overfull")

    def test_zms(self):
        both = [(0, 496, EMPTY_CYCLE_1), (0, 464, NAME_A_CYCLE_1), (0, 1008, EMPTY_CYCLE_1), (0, 976, NAME_A_CYCLE_1)]
        self.refuse(ZMS, both, "1: TwoOpen")
        close = close_entry(1, 480).hex()
        self.refuse(ZMS, [(0, 496, EMPTY_CYCLE_1), (0, 480, close), (0, 1008, EMPTY_CYCLE_1), (0, 992, close)],
                    "0: AllClosed")
        past = encode(ZEntry(1, 100, 1, (384).to_bytes(4, "little") + bytes(4))).hex()
        self.refuse(ZMS, [(0, 496, EMPTY_CYCLE_1), (0, 464, past)], "0: Overfull")
        odd = encode(ZEntry(1, 9, 1, (8).to_bytes(4, "little") + bytes(4))).hex()
        self.refuse(ZMS, [(0, 496, EMPTY_CYCLE_1), (0, 464, odd)], "0: Overfull")
        self.refuse(ZMS, [(0, 496, EMPTY_CYCLE_1), (0, 0, NAME_A_CYCLE_1.replace(" ", "") * 30)], "0: Overfull")

    def test_fcb(self):
        self.refuse(FCB, [(0, 0, "00")], "0: BadHeader")
        self.refuse(FCB, [(0, 0, HEADER_0), (0, 512, "EEEEFFC001FF0500")], "0: BadSequence")
        self.refuse(FCB, [(0, 0, HEADER_0), (0, 8, "FF7F")], "0: Overfull")
        self.refuse(FCB, [(0, 0, HEADER_0), (0, 100, "00")], "0: Dirty")

    def test_fcb_values_that_leave_no_reserve(self):
        body = encode_record(4, b"a=" + bytes(98)).hex()
        # Four records of 108 bytes and one of 12 make 444, more than the 428 that settings may fill.
        raw = HEADER_0 + body * 4 + encode_record(4, b"b=\x01").hex()
        self.refuse(FCB, [(0, 0, raw)], "0: Overfull")
        image = read_image(image_of(FCB, [(0, 0, raw)]))
        self.assertEqual(len(readings.fcb_list(readings.sectors_of(image, image.areas[0]), 4)), 5)
        self.assertEqual(run(image_of(FCB, [(0, 0, HEADER_0 + body * 3)])).status, 0)

    def test_a_damaged_selector(self):
        self.refuse(ALL, [(0, 4 * 512, "00")], "0: BadHeader", "s")

    def test_a_bad_script_comes_before_a_damaged_area(self):
        self.assertEqual(run(image_of(NVS, [(0, 511, "00"), (0, 1023, "00")]), "fly").status, 3)

    def test_a_selector_may_name_an_area_that_is_none(self):
        record = "02FFFFFF07F8FFFF" + bytes([crc8(b"\x02\x07\xf8")]).hex()
        r = run(image_of(ALL, [(0, 4 * 512, HEADER_0 + record)]), "names")
        self.assertEqual(r.answers, ["ok 0", '{"active":"n","names":{}}'])


class ForeignImages(unittest.TestCase):
    def test_a_valid_slot_under_one_that_is_not_valid(self):
        raw = image_of(ZMS, [(0, 496, EMPTY_CYCLE_1), (0, 448, NAME_A_CYCLE_1),
                             (0, 1008, EMPTY_CYCLE_1), (0, 976, NAME_A_CYCLE_1)])
        r = run(raw, "names", word="run")
        # The name stands without a value in sector 1, which is the open one, and is removed.
        self.assertEqual(r.answers, ["ok 1", '{"active":"main","names":{}}'])
        items = run(raw, f"get {0x80002920}", word="items")
        self.assertEqual(items.answers, ["ok 0", "value 61"])

    def test_torn_headers_are_erased_at_mount(self):
        self.assertEqual(run(image_of(FCB, [(0, 512, "EEEEFFC0")])).answers, ["ok 1"])
        self.assertEqual(run(image_of(FCB, [(0, 0, "EEEEFFC0"), (0, 512, "EEEEFFC0")])).answers, ["ok 2"])

    def test_ids_go_round(self):
        spec = "bank=erasing/4/512/3,area=fcb/main/0/0/3"
        raw = image_of(spec, [(0, 0, "EEEEFFC001FFFFFF" + encode_record(4, b"a=\x01").hex()),
                              (0, 512, "EEEEFFC001FF0000" + encode_record(4, b"a=\x02").hex())])
        r = run(raw, "get a")
        self.assertEqual(r.answers, ["ok 0", "value 02"])

    def test_of_two_equal_names_the_lower_counts(self):
        entries = [(0x8000, 0, "0200FFFF"), (0x8001, 4, "61FFFFFF"), (0xC001, 8, "11FFFFFF"),
                   (0x8002, 12, "61FFFFFF"), (0xC002, 16, "22FFFFFF")]
        patches = []
        for k, (ident, at, data) in enumerate(entries, 1):
            patches.append((0, at, data))
            length = 2 if ident == 0x8000 else 1
            patches.append((0, 512 - 8 * (k + 1), encode_entry(ident, at, length).hex()))
        r = run(image_of(NVS, patches), "get a")
        self.assertEqual(r.answers, ["ok 4", "value 11"])

    def test_a_sector_of_erasing_zms_that_is_not_fresh_is_emptied_when_it_is_opened(self):
        """Stray bytes in a sector without entries must not cost room that the map does not count."""
        spec = "bank=erasing/16/512/3,area=zms/main/0/0/3"
        stray = [(0, 1008, EMPTY_CYCLE_1), (0, 960, "00" * 16), (0, 1520, EMPTY_CYCLE_1), (0, 1472, "00" * 16)]
        first = run(spec, f"set a {'11' * 100}", f"set b {'22' * 100}", f"set a {'33' * 100}")
        data = bytearray(first.bank())
        for _, at, text in stray:
            raw = bytes.fromhex(text)
            data[at:at + len(raw)] = raw
        image = first.image
        raw = write_image(Image(1, image.banks, image.areas, [bytes(data)]))
        r = run(raw, f"set c {'44' * 100}", f"get c")
        self.assertEqual((r.answers[0], r.answers[2]), ("ok 0", f"value {'44' * 100}"))


if __name__ == "__main__":
    unittest.main()
