"""Drawings of image files, compared with what the second implementation reads."""
import json
import os
import xml.etree.ElementTree

from .common import FCB, MOVE, NVS, SHORT, TOP, ZMS, ToolTest, reference

from image_tool.image import read_image
from image_tool.tool import reading_lines
from support import drawing
from support.images import BadImage, image_of
from support.sectors import crc8, view_of


class Picture(ToolTest):
    def image(self, spec, lines, name="x.img"):
        files = reference("run", spec, lines)[2]
        with open(self.path(name), "wb") as file:
            file.write(files["y"])
        return files["y"]

    def test_reads_as_the_reference_does(self):
        for spec in (NVS, ZMS, FCB, MOVE, "version=2,bank=erasing/16/4096/2,area=zms/main/0/0/2"):
            raw = self.image(spec, [*SHORT, "cut 2", "set c 0a0b0c", "mount", "set d 01"])
            wanted = [json.loads(line) for line in reading_lines(read_image(raw))]
            printed = self.call("picture", "x.img", "--bars")
            settings = [json.loads(line[11:]) for line in printed.splitlines() if line.startswith("  settings ")]
            self.assertEqual(settings, [each["names"] for each in wanted if "names" in each])

    def test_brown_out(self):
        """The bytes that docs/formats.md shows."""
        with open(os.path.join(TOP, "examples", "brown_out.txt"), encoding="utf-8") as file:
            self.image(NVS, file.read().splitlines())
        lines = json.loads(self.call("picture", "x.img", "--json"))[0]["sectors"][0]["lines"]
        self.assertEqual([at for at, _ in lines], [464, 472, 480, 488, 496])
        self.assertEqual(lines[0][1], "id C001 (value of bt/key), 1 byte at 20: 02")
        self.assertEqual(lines[1][1], "not an entry: 01 C0 10 00 FF FF FF FF")
        self.assertTrue(lines[3][1].endswith("(older)"))
        self.call("picture", "x.img", "--svg", "x.svg")
        with open(os.path.join(TOP, "docs", "brown_out.svg"), "rb") as file:
            self.assertEqual(file.read(), self.read("x.svg"), "make docs/brown_out.svg again")

    def test_the_svg_is_well_formed(self):
        self.image(MOVE, SHORT)
        self.call("picture", "x.img", "--svg", "x.svg")
        root = xml.etree.ElementTree.parse(self.path("x.svg")).getroot()
        self.assertGreater(len(list(root.iter("{http://www.w3.org/2000/svg}rect"))), 6)

    def test_a_file_of_every_length(self):
        raw = self.image(NVS, SHORT)
        for length in range(len(raw)):
            self.assertRaises(BadImage, image_of, raw[:length])
        self.assertRaises(BadImage, image_of, raw + b"\xFF")
        with open(self.path("short.img"), "wb") as file:
            file.write(raw[:40])
        self.assertIn("short.img is not an image file: it ends at byte 40, and its banks end at 1060", self.call("picture", "short.img", status=2))

    def test_any_byte_in_the_header(self):
        """A changed header is refused, or the image is drawn."""
        raw = self.image(MOVE, SHORT)
        for at in range(8 + 12 + 3 * 16):
            for byte in (0, 1, 2, 3, 5, 0x7F, 0xFF):
                try:
                    image = image_of(raw[:at] + bytes([byte]) + raw[at + 1:])
                except BadImage:
                    continue
                for area in image.areas:
                    view_of(area, image)

    def test_any_bytes_in_the_sectors(self):
        """A sector may hold any bytes. The drawing shows what it can, and never fails."""
        for spec in (NVS, ZMS, FCB, MOVE):
            raw = bytearray(self.image(spec, SHORT))
            state = 1
            for at in range(80, len(raw)):
                state = (state * 1664525 + 1013904223) % 2**32
                raw[at] = state >> 24 if state >> 16 & 3 else raw[at]
            image = image_of(bytes(raw))
            for view in [view_of(area, image) for area in image.areas]:
                self.assertEqual([len(sector.kinds) for sector in view.sectors], [512] * len(view.sectors))
                drawing.svg([view])

    def test_crc(self):
        self.assertEqual([crc8(bytes.fromhex(raw)) for raw in ("", "FF", "00", "0080000002 00FF")], [0xFF, 0x00, 0xF3, 0x8D])
