"""The stores, the ring and the backends by their own calls, with units counted."""

import unittest

from image_tool.backends import NoSpace, chance, mount_backend
from image_tool.fcb import Ring, RingFull
from image_tool.flash import AreaFlash, Bench, PowerLost
from image_tool.image import read_image, read_spec
from image_tool.nvs import Damaged, Nvs
from image_tool.zms import Zms
from tests.helpers import EMPTY_CYCLE_1, FCB, NAME_A_CYCLE_1, NVS, ZMS, image_of


def area_flash(image) -> AreaFlash:
    image = read_image(image) if isinstance(image, bytes) else read_spec(image)
    bench = Bench()
    bench.load(image.banks, image.data)
    return AreaFlash(bench, image.areas[0])


def units(flash: AreaFlash, call, *words) -> int:
    before = flash.bench.spent
    call(*words)
    return flash.bench.spent - before


class Stores(unittest.TestCase):
    def test_zms_units(self):
        flash = area_flash(ZMS)
        store = Zms(flash)
        self.assertEqual([units(flash, store.write, 1, b"\x01"), units(flash, store.write, 1, b"\x01"),
                          units(flash, store.delete, 1)], [2, 0, 1])
        flash = area_flash(ZMS)
        self.assertEqual(units(flash, Zms(flash).write, 1, bytes(9)), 3)

    def test_the_guard_costs_one_unit(self):
        flash = area_flash(image_of(ZMS, [(0, 496, EMPTY_CYCLE_1), (0, 448, NAME_A_CYCLE_1)]))
        store = Zms(flash)
        self.assertEqual(units(flash, store.write, 1, b"\x01"), 2)
        self.assertIsNone(store.get(0x80002920))

    def test_the_open_sector_is_one_with_a_valid_slot(self):
        flash = area_flash(image_of(ZMS, [(0, 496, EMPTY_CYCLE_1), (0, 448, NAME_A_CYCLE_1),
                                          (0, 1008, EMPTY_CYCLE_1), (0, 976, NAME_A_CYCLE_1)]))
        store = Zms(flash)
        self.assertEqual((flash.bench.spent, store.get(0x80002920)), (0, b"a"))
        flash = area_flash(image_of(ZMS, [(0, 496, EMPTY_CYCLE_1), (0, 464, NAME_A_CYCLE_1),
                                          (0, 1008, EMPTY_CYCLE_1), (0, 976, NAME_A_CYCLE_1)]))
        with self.assertRaises(Damaged) as caught:
            Zms(flash)
        self.assertEqual(caught.exception, Damaged(1, "TwoOpen"))

    def test_ids_that_share_a_cache_slot_keep_their_values(self):
        store = Nvs(area_flash(NVS))
        store.write(1, b"\x01")
        self.assertIsNone(store.get(2))
        store.write(65, b"\x02")
        self.assertEqual((store.get(1), store.get(65)), (b"\x01", b"\x02"))

    def test_a_collection_by_itself(self):
        flash = area_flash(NVS)
        store = Nvs(flash)
        for byte in (0x11, 0x22, 0x33, 0x44, 0x55):
            store.write(1, bytes([byte]) * 100)
        self.assertEqual(store.get(1), b"\x55" * 100)
        store.delete(1)
        store.close_and_collect()
        self.assertIsNone(store.get(1))
        self.assertEqual(store.items(), {})


class Rings(unittest.TestCase):
    def test_ids_that_go_round(self):
        spec = "bank=erasing/4/512/3,area=fcb/main/0/0/3"
        ring = Ring(area_flash(image_of(spec, [(0, 0, "EEEEFFC001FFFFFF"), (0, 512, "EEEEFFC001FF0000")])), 0)
        self.assertEqual(ring.used()[0], 0)

    def test_rotation_needs_a_second_free_sector(self):
        flash = area_flash(FCB)
        ring = Ring(flash, 0)
        ring.finish()
        ring.append(b"a", False)
        with self.assertRaises(RingFull):
            ring.rotate()

    def test_units_of_records(self):
        flash = area_flash(FCB)
        backend = mount_backend(flash)
        self.assertEqual([units(flash, backend.set, b"a", bytes([b]) * 100) for b in (0x11, 0x22, 0x33, 0x44)],
                         [30, 28, 28, 59])
        self.assertEqual(backend.get(b"a"), b"\x44" * 100)
        flash = area_flash(FCB)
        self.assertEqual(units(flash, mount_backend(flash).set, b"a", b"\x11" * 253), 68)
        self.assertEqual(flash.view(0, 8, 4).hex(), "ff01ffff")


class Backends(unittest.TestCase):
    def test_units_of_sets_and_deletes(self):
        flash = area_flash(NVS)
        nvs = mount_backend(flash)
        self.assertEqual([units(flash, nvs.set, b"a", b"\x01"), units(flash, nvs.set, b"b", b"\x11" * 100),
                          units(flash, nvs.delete, b"a")], [9, 33, 4])
        flash = area_flash(ZMS)
        zms = mount_backend(flash)
        self.assertEqual([units(flash, zms.set, b"a", bytes([b]) * 100) for b in (0x11, 0x22, 0x33, 0x44)],
                         [10, 8, 8, 26])

    def test_refusals_leave_the_map(self):
        flash = area_flash(NVS)
        nvs = mount_backend(flash)
        nvs.set(b"a", b"\x11" * 256)
        before = flash.bench.spent
        with self.assertRaises(NoSpace):
            nvs.set(b"b", b"\x22" * 180)
        self.assertEqual((flash.bench.spent - before, nvs.pairs()), (253, {b"a": b"\x11" * 256}))

    def test_a_half_pair_does_not_take_room(self):
        flash = area_flash(NVS)
        nvs = mount_backend(flash)
        flash.bench.arm(3 + 66)
        with self.assertRaises(PowerLost):
            nvs.set(b"a", b"\x11" * 256)
        flash.bench.restore()
        nvs = mount_backend(flash)
        nvs.set(b"b", b"\x22" * 200)
        self.assertEqual(nvs.pairs(), {b"b": b"\x22" * 200})

    def test_chance_of_the_last_loss(self):
        for k, expected in ((3, False), (4, True), (5, False)):
            flash = area_flash(FCB)
            backend = mount_backend(flash)
            flash.bench.arm(k)
            with self.assertRaises(PowerLost):
                backend.set(b"a", bytes.fromhex("00a401020304"))
            self.assertEqual(chance(flash, flash.bench.last_loss), expected)


if __name__ == "__main__":
    unittest.main()
