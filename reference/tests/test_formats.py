"""Bytes: the CRC, entries, headers, records, names, image files, and the word of `build`."""

import unittest

from image_tool import nvs, zms
from image_tool.backends import fnv1a, hash_group
from image_tool.crc import crc8
from image_tool.fcb import encode_header, encode_record, length_field, read_length
from image_tool.image import BadImage, BadSpec, read_image, read_spec, write_image
from image_tool.names import join, match, name_fault
from image_tool.zms import ZEntry
from tests.helpers import ALL, FCB, NVS, NVS4, ZMS, command, image_of, run

hexed = bytes.fromhex


class Vectors(unittest.TestCase):
    def test_crc(self):
        self.assertEqual([crc8(b""), crc8(b"\xff"), crc8(b"\0")], [0xFF, 0x00, 0xF3])
        self.assertEqual([crc8(bytes(15)), crc8(b"\xff" * 15)], [0x90, 0x93])

    def test_nvs_entries(self):
        self.assertEqual(nvs.encode_entry(0x8000, 0, 2), hexed("008000000200FF8D"))
        self.assertEqual(nvs.encode_entry(0xFFFF, 480, 0), hexed("FFFFE0010000FF71"))
        self.assertEqual(nvs.encode_entry(1, 0, 1), hexed("010000000100FF03"))
        self.assertEqual(nvs.decode_entry(hexed("010000000100FF03")), (1, 0, 1))
        self.assertIsNone(nvs.decode_entry(hexed("01000000FFFFFFFF")))

    def test_zms_entries(self):
        self.assertEqual(zms.empty_entry(1), hexed("6101FFFFFFFFFFFF0000000000000000"))
        self.assertEqual(fnv1a(b"a"), 0xE40C292C)
        self.assertEqual(0x80000000 + hash_group(b"a"), 0x80002920)
        self.assertEqual(zms.encode(ZEntry(1, 1, 0xC0002920, b"\x01" + bytes(7))),
                         hexed("62010100202900C00100000000000000"))
        self.assertEqual(zms.encode(ZEntry(1, 1, 0x80002920, b"a" + bytes(7))),
                         hexed("CA010100202900806100000000000000"))
        self.assertEqual(zms.FILL, hexed("6F" + "00" * 15))
        self.assertIsNone(zms.decode(zms.FILL))
        self.assertIsNone(zms.decode(b"\xff" * 16))

    def test_fcb_headers_and_records(self):
        self.assertEqual(encode_header(4, 0), hexed("EEEEFFC001FF0000"))
        self.assertEqual(encode_header(16, 0xFFFF), hexed("EEEEFFC001FFFFFF" + "FF" * 8))
        self.assertEqual(encode_record(4, b"a=\x01"), hexed("03FFFFFF613D01FF52FFFFFF"))
        self.assertEqual(encode_record(4, b"a="), hexed("02FFFFFF613DFFFFAEFFFFFF"))
        self.assertEqual(encode_record(4, b"a=" + hexed("00A401020304")),
                         hexed("08FFFFFF613D00A401020304C2FFFFFF"))
        self.assertEqual([length_field(200), length_field(321), length_field(2055)],
                         [hexed("C801"), hexed("C102"), hexed("8710")])
        self.assertEqual(encode_record(4, b"\x01\xfe"), hexed("02FFFFFF01FEFFFF1CFFFFFF"))

    def test_lengths_as_they_are_read(self):
        self.assertEqual(read_length(hexed("7F00")), (127, 1))
        self.assertEqual(read_length(hexed("8500")), (5, 2))
        self.assertEqual(read_length(hexed("FF7F")), (16383, 2))


class Names(unittest.TestCase):
    def test_faults(self):
        deep = b"1/2/3/4/5/6/7/8/9"
        for raw, fault in ((b"", "Empty"), (b"n" * 65, "TooLong"), (b"a b", "BadByte"), (b"a=", "BadByte"),
                           (b"\x7f", "BadByte"), (b"/a", "EmptyPart"), (b"a/", "EmptyPart"), (b"a//b", "EmptyPart"),
                           (deep, "TooDeep"), (b"/" * 64, "EmptyPart"), (b"a/b!~", None)):
            self.assertEqual(name_fault(raw), fault, raw)

    def test_match_and_join(self):
        self.assertEqual(match(b"bt/mesh/iv", b"bt"), b"mesh/iv")
        self.assertEqual(match(b"bt", b"bt"), b"")
        self.assertIsNone(match(b"btx/y", b"bt"))
        self.assertIsNone(match(b"bt", b"bt/mesh"))
        self.assertEqual((join(b"bt", b""), join(b"bt", b"x/y")), (b"bt", b"bt/x/y"))


class Files(unittest.TestCase):
    def test_the_header_of_an_image(self):
        raw = image_of(NVS)
        self.assertEqual(raw[:8], hexed("5A53494D01010100"))
        self.assertEqual(raw[8:20], hexed("000400000002000002000000"))
        self.assertEqual(raw[20:36], hexed("01000000020004006D61696E00000000"))
        self.assertEqual(raw[36:], b"\xff" * 1024)

    def test_sizes_and_a_file_cut_to_2000(self):
        raw = command(["build", "out", NVS4]).out
        self.assertEqual(len(raw), 2084)
        r = run(raw[:2000])
        self.assertEqual((r.status, r.text), (4, "bad image: at 2000: Short\n"))

    def test_each_length_of_a_file_that_ends_too_soon(self):
        raw = image_of(NVS4)
        for length in range(len(raw)):
            with self.assertRaises(BadImage) as caught:
                read_image(raw[:length])
            self.assertEqual((caught.exception.at, caught.exception.why), (length, "Short"))

    def test_both_ways(self):
        for spec in (NVS, ZMS, FCB, ALL, NVS4, "version=2,bank=erasing/8/4096/3,area=fcb/x1/0/1/2"):
            raw = image_of(spec)
            self.assertEqual(write_image(read_image(raw)), raw)

    def test_faults_and_their_places(self):
        two = image_of("bank=erasing/4/512/4,area=nvs/main/0/0/2")
        for at, byte, place, why in ((0, 0, 0, "BadMagic"), (3, 0, 0, "BadMagic"), (4, 0, 4, "BadVersion"),
                                     (7, 1, 7, "BadVersion"), (5, 0, 5, "BadBank"), (5, 3, 5, "BadBank"),
                                     (6, 0, 6, "BadArea"), (6, 9, 6, "BadArea"), (8, 2, 8, "BadBank"),
                                     (9, 5, 8, "BadBank"), (10, 1, 8, "BadBank"), (12, 32, 8, "BadBank"),
                                     (16, 1, 8, "BadBank"), (16, 65, 8, "BadBank"), (20, 0, 20, "BadArea"),
                                     (20, 2, 20, "BadArea"), (20, 4, 6, "BadArea"), (21, 1, 20, "BadArea"),
                                     (22, 3, 20, "BadArea"), (24, 1, 20, "BadArea"), (26, 0, 20, "BadArea"),
                                     (26, 9, 20, "BadArea"), (26, 3, 20, "BadArea"), (27, 1, 20, "BadArea"),
                                     (28, 65, 20, "BadArea"), (32, 97, 20, "BadArea")):
            raw = bytearray(two)
            raw[at] = byte
            with self.assertRaises(BadImage) as caught:
                read_image(bytes(raw))
            self.assertEqual((caught.exception.at, caught.exception.why), (place, why), at)
        self.assertEqual(run(two + b"\0").text, f"bad image: at {len(two)}: Long\n")
        r = run(b"ZSIM" + bytes(8_388_605))
        self.assertEqual((r.status, r.text), (4, "bad image: at 8388608: Long\n"))

    def test_words_of_build(self):
        for word, item in (("", 1), ("bank=erasing/4/512/1", 1), ("bank=erasing/4/512/2", 2),
                           ("bank=erasing/04/512/2,area=nvs/a/0/0/2", 1), ("area=nvs/a/0/0/2", 1),
                           ("bank=erasing/4/512/2,area=nvs/A/0/0/2", 2), ("bank=erasing/4/512/2,area=zms/a/0/0/2", 2),
                           ("bank=rewritable/16/512/2,area=nvs/a/0/0/2", 2),
                           ("bank=erasing/4/512/2,area=sel/a/0/0/2", 3),
                           ("bank=erasing/4/512/4,area=nvs/a/0/0/2,area=fcb/b/0/2/2", 4),
                           ("bank=erasing/4/512/4,area=nvs/a/0/0/2,area=sel/a/0/2/2", 3),
                           ("bank=erasing/4/512/4,area=nvs/a/0/0/3,area=sel/b/0/2/2", 3),
                           ("bank=erasing/4/512/6,area=sel/a/0/0/2,area=sel/b/0/2/2,area=nvs/c/0/4/2", 3),
                           ("bank=erasing/4/512/2,area=nvs/a/0/0/2,bank=erasing/4/512/2", 3),
                           ("bank=erasing/4/512/2,area=nvs/a/0/0/2,", 3), ("version=1,bank=erasing/4/512/2", 1),
                           ("bank=erasing/4/32832/2,area=nvs/a/0/0/2", 1), ("bank=erasing/4/500/2", 1)):
            with self.assertRaises(BadSpec) as caught:
                read_spec(word)
            self.assertEqual(caught.exception.item, item, word)
        self.assertEqual(len(read_spec("bank=erasing/4/512/2,area=nvs/a/0/0/2").data[0]), 1024)


if __name__ == "__main__":
    unittest.main()
