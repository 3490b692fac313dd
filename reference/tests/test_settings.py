"""Scripts on settings over the three stores, answer by answer and unit by unit."""

import unittest

from image_tool.backends import NoSpace, hash_group, mount_backend
from image_tool.flash import AreaFlash, Bench
from image_tool.host import MemHost
from image_tool.image import read_spec
from image_tool.lines import gen_script
from image_tool.tool import USAGE_LINE, tool
from tests.helpers import (ALL, EMPTY_CYCLE_1, FCB, NAME_A_CYCLE_1, NVS, NVS4, ZMS, command, dump, image_of,
                           run, times)

H = times


class Nvs(unittest.TestCase):
    def test_a_set_writes_count_value_and_name(self):
        r = run(NVS, "set a 01", "get a")
        self.assertEqual((r.status, r.answers), (0, ["ok 0", "ok 9", "value 01"]))
        sector = r.bank()[:512]
        for at, text in ((0, "0100FFFF"), (4, "01FFFFFF"), (8, "61FFFFFF"), (496, "008000000200FF8D"),
                         (488, "01C004000100FF16"), (480, "018008000100FFF6")):
            self.assertEqual(sector[at:at + len(text) // 2].hex().upper(), text)
        self.assertEqual(dump(r.out), '{"active":"main","names":{"a":"01"}}\n')

    def test_an_empty_script_changes_nothing(self):
        for spec in (NVS, ZMS, FCB):
            r = run(spec)
            self.assertEqual(r.answers, ["ok 0"])
            self.assertEqual(r.out, image_of(spec))
            self.assertEqual(dump(r.out), '{"active":"main","names":{}}\n')

    def test_what_is_stored_already_or_absent_programs_nothing(self):
        r = run(NVS, "set a 01", "set a 01", "del b", "get b")
        self.assertEqual(r.answers, ["ok 0", "ok 9", "ok 0", "ok 0", "none"])

    def test_the_fifth_large_set_closes_and_collects(self):
        r = run(NVS, *(f"set a {H(100, b)}" for b in ("11", "22", "33", "44", "55")))
        self.assertEqual(r.answers, ["ok 0", "ok 33", "ok 27", "ok 27", "ok 27", "ok 65"])

    def test_a_collection_cut_anywhere_keeps_the_old_value(self):
        sets = [f"set a {H(100, b)}" for b in ("11", "22", "33", "44")]
        for k in range(65):
            r = run(NVS, *sets, f"cut {k}", f"set a {H(100, '55')}", "mount", "get a", deep=7)
            mount = ("ok 0" if k == 0 else "ok 36" if k <= 2 else "ok 37" if k <= 36
                     else "ok 1" if k == 37 else "ok 0")
            self.assertEqual(r.answers[6:], [f"lost {k}", mount, f"value {H(100, '44')}"])

    def test_a_mount_that_is_cut_too(self):
        sets = [f"set a {H(100, b)}" for b in ("11", "22", "33", "44")]
        r = run(NVS, *sets, "cut 37", f"set a {H(100, '55')}", "cut 0", "mount", "mount", "get a")
        self.assertEqual(r.answers[-5:], ["lost 37", "ok 0", "lost 0", "ok 1", f"value {H(100, '44')}"])

    def test_what_was_deleted_is_not_copied(self):
        lines = ["set a 01", f"set b {H(100, '11')}", "del a"] + [f"set b {H(100, b)}" for b in ("22", "33", "44")]
        r = run(NVS, *lines, "get a")
        self.assertEqual(r.answers, ["ok 0", "ok 9", "ok 33", "ok 4", "ok 27", "ok 27", "ok 65", "none"])

    def test_a_refusal_for_room_and_room_again_after_a_delete(self):
        r = run(NVS, f"set a {H(256, '11')}", f"set b {H(256, '22')}", "del a", f"set b {H(256, '22')}")
        self.assertEqual(r.answers, ["ok 0", "ok 72", "nospace 80", "ok 4", "ok 77"])

    def test_the_numbers_of_a_refusal(self):
        image, bench = read_spec(NVS), Bench()
        bench.load(image.banks, image.data)
        backend = mount_backend(AreaFlash(bench, image.areas[0]))
        backend.set(b"a", b"\x11" * 256)
        with self.assertRaises(NoSpace) as caught:
            backend.set(b"b", b"\x22" * 256)
        self.assertEqual((caught.exception.need, caught.exception.live), (276, 288))

    def test_a_value_without_room_for_its_name_is_deleted_again(self):
        lines = [f"set a {H(256, '11')}", f"set b {H(180, '22')}", "get b"]
        self.assertEqual(run(NVS, *lines).answers, ["ok 0", "ok 72", "nospace 253", "none"])
        self.assertEqual(dump(run(NVS, *lines).out),
                         '{"active":"main","names":{"a":"%s"}}\n' % H(256, "11"))
        r = run(NVS, lines[0], "cut 252", lines[1], "mount", "names")
        self.assertEqual(r.answers[:5], ["ok 0", "ok 72", "ok 0", "lost 252", "ok 126"])

    def test_a_cut_set_and_what_a_mount_finds_of_it(self):
        lines = ["set a 01", "get a", "set a 02", "mount", "get a"]
        self.assertEqual(run(NVS, "cut 4", *lines).answers,
                         ["ok 0", "ok 0", "lost 4", "off", "off", "ok 0", "none"])
        self.assertEqual(run(NVS, "cut 6", *lines).answers,
                         ["ok 0", "ok 0", "lost 6", "off", "off", "ok 2", "none"])

    def test_five_hundred_and_eleven_names(self):
        spec = "bank=erasing/4/4096/8,area=nvs/main/0/0/8"
        r = run(spec, *(f"set n{i} 01" for i in range(512)), check=False)
        self.assertTrue(all(a.startswith("ok ") for a in r.answers[:-1]))
        self.assertEqual((len(r.answers), r.answers[-1]), (513, "toomany 0"))


class Zms(unittest.TestCase):
    def test_small_values_stand_in_their_entry(self):
        self.assertEqual(run(ZMS, "set a 0102030405060708").answers, ["ok 0", "ok 3"])
        self.assertEqual(run(ZMS, "set a 010203040506070809").answers, ["ok 0", "ok 4"])

    def test_a_cut_small_set_leaves_nothing(self):
        for k in (0, 1, 2):
            r = run(ZMS, f"cut {k}", "set a 0102030405060708", "mount", "get a", "names")
            self.assertEqual(r.answers[2], f"lost {k}")
            self.assertEqual(r.answers[4:], ["none", '{"active":"main","names":{}}'])

    def test_cycles_come_round_under_cut_mounts(self):
        sets = [f"set a {H(100, b)}" for b in ("11", "22", "33")]
        last = f"set a {H(100, '44')}"
        self.assertEqual(run(ZMS, *sets, last).answers, ["ok 0", "ok 10", "ok 8", "ok 8", "ok 26"])
        again = ["cut 2", "mount"] * 255
        r = run(ZMS, *sets, "cut 8", last, "cut 10", "mount", *again, "mount", "get a", deep=5)
        self.assertEqual(r.answers[4:8], ["ok 0", "lost 8", "ok 0", "lost 10"])
        self.assertEqual(r.answers[8:-2], ["ok 0", "lost 2"] * 255)
        self.assertEqual(r.answers[-2:], ["ok 13", f"value {H(100, '33')}"])

    def test_an_old_entry_under_the_list_is_overwritten_first(self):
        raw = image_of(ZMS, [(0, 496, EMPTY_CYCLE_1), (0, 448, NAME_A_CYCLE_1)])
        self.assertEqual(run(raw, "set a 01", "get a").answers, ["ok 0", "ok 3", "value 01"])

    def test_sixteen_names_of_one_hash_group(self):
        spec = "bank=rewritable/16/4096/2,area=zms/main/0/0/2"
        group, names, i = hash_group(b"n0"), [], 0
        while len(names) < 17:
            if hash_group(b"n%d" % i) == group:
                names.append(f"n{i}")
            i += 1
        r = run(spec, *(f"set {name} 01" for name in names))
        self.assertTrue(all(a.startswith("ok ") for a in r.answers[:-1]))
        self.assertEqual((len(r.answers), r.answers[-1]), (18, "toomany 0"))


class ZmsOnAnErasingBank(unittest.TestCase):
    SPEC = "bank=erasing/16/512/2,area=zms/main/0/0/2"

    def test_a_collection_erases(self):
        r = run(self.SPEC, *(f"set a {H(100, b)}" for b in ("11", "22", "33", "44")))
        self.assertEqual(r.answers, ["ok 0", "ok 10", "ok 8", "ok 8", "ok 22"])

    def test_a_collection_cut_anywhere(self):
        sets = [f"set a {H(100, b)}" for b in ("11", "22", "33")]
        for k in range(22):
            r = run(self.SPEC, *sets, f"cut {k}", f"set a {H(100, '44')}", "mount", "get a")
            mount = ("ok 0" if k == 0 else "ok 13" if k == 1 else "ok 12" if k == 2 else
                     "ok 14" if k <= 11 else "ok 2" if k == 12 else "ok 0")
            self.assertEqual(r.answers[5:], [f"lost {k}", mount, f"value {H(100, '33')}"])

    def test_data_of_a_cut_set_stays_where_it_is(self):
        """The open sector has no entry yet and is not fresh; the next data goes behind the leftover."""
        value = H(100, "11")
        r = run(self.SPEC, "cut 3", f"set a {value}", "mount", f"set a {value}", "get a")
        self.assertEqual(r.answers[2:], ["lost 3", "ok 0", "ok 9", f"value {value}"])
        self.assertEqual(r.bank()[:32 + 100], b"\x11" * 132)

    def test_a_marked_slot_of_a_sector_that_is_not_closed(self):
        raw = image_of(self.SPEC, [(0, 496, EMPTY_CYCLE_1), (0, 480, "00")])
        self.assertEqual(run(raw).text, "bad image: area main sector 0: Dirty\n")


class Fcb(unittest.TestCase):
    def test_a_torn_record_that_checks_by_chance(self):
        lines = ["set a 00a401020304", "mount", "get a"]
        self.assertEqual(run(FCB, "cut 4", *lines).answers,
                         ["ok 0", "ok 0", "lost 4 chance", "ok 0", "value 00a4ffffffff"])
        for k in (3, 5):
            r = run(FCB, f"cut {k}", *lines)
            self.assertEqual((r.answers[2], r.answers[-1]), (f"lost {k}", "none"))
        self.assertEqual(run(FCB, *lines).answers[1], "ok 6")

    def test_a_torn_delete_that_checks_by_chance_deletes_nothing(self):
        for k, answer in ((1, "lost 1"), (2, "lost 2 chance"), (3, "lost 3")):
            r = run(FCB, "set bkegkp 01", f"cut {k}", "del bkegkp", "mount", "get bkegkp")
            self.assertEqual(r.answers[3:], [answer, "ok 0", "value 01"])

    def test_a_collection_and_its_cuts(self):
        sets = [f"set a {H(100, b)}" for b in ("11", "22", "33")]
        last = f"set a {H(100, '44')}"
        self.assertEqual(run(FCB, *sets, last).answers, ["ok 0", "ok 30", "ok 28", "ok 28", "ok 59"])
        for k in range(32):
            r = run(FCB, *sets, f"cut {k}", last, "mount", "get a")
            mount = "ok 0" if k in (0, 31) else "ok 1"
            self.assertEqual(r.answers[5:], [f"lost {k}", mount, f"value {H(100, '33')}"])

    def test_a_body_of_two_length_bytes(self):
        r = run(FCB, f"set a {H(253, '11')}", "mount", "get a")
        self.assertEqual(r.answers, ["ok 0", "ok 68", "ok 0", f"value {H(253, '11')}"])
        self.assertEqual(r.bank()[8:12].hex(), "ff01ffff")


class Handlers(unittest.TestCase):
    def test_a_load_gives_each_name_to_its_best_handler(self):
        r = run(NVS4, "register bt table", "register bt/mesh table", "register lv level", "register bt counter",
                "set bt/mesh/iv 01", "set bt/x 02", "set btx/y 03", "set bt 04", "set lv 65", "set lv/a 64", "load")
        self.assertEqual(r.answers, [
            "ok 0", "ok 0", "ok 0", "ok 0", "exists", "ok 11", "ok 9", "ok 10", "ok 9", "ok 9", "ok 9",
            "give bt - 04 taken", "give bt/mesh iv 01 taken", "give bt x 02 taken", "give lv - 65 rejected",
            "give lv a 64 taken", "loaded 4 1 1"])

    def test_values_held_while_running_are_saved(self):
        r = run(NVS, "register tb table", "rset tb/x 01", "save", "save", "rget tb/x", "rget tb/y", "rset zz 01",
                "direct tb")
        self.assertEqual(r.answers, ["ok 0", "ok 0", "ok 0", "saved 1 9", "saved 0 0", "value 01", "none",
                                     "nohandler", "have tb/x 01", "direct 1"])

    def test_the_pool_of_handlers_ends(self):
        r = run(NVS, "register l level", "register m level", "register n level", "rset l 65")
        self.assertEqual(r.answers, ["ok 0", "ok 0", "ok 0", "nokind", "rejected"])

    def test_commits_and_subtrees(self):
        r = run(NVS, "register a table", "register a/b counter", "rset a/x 01", "rset a/b/c 01020304", "save a/b",
                "load a/b", "commit", "load")
        self.assertEqual(r.answers[5], "saved 1 10")
        self.assertEqual([h.commits for h in r.tool.session.registry.handlers], [2, 3])


class Scripts(unittest.TestCase):
    def test_greatest_names_and_values_are_taken(self):
        name = "/".join(["abcdefgh"] * 7) + "/1"
        name += "x" * (64 - len(name))
        self.assertEqual((len(name), name.count("/")), (64, 7))
        r = run(NVS, "# a comment", f"set {name} {H(256, 'aB')}", f"get {name}")
        self.assertEqual((r.status, r.answers[-1]), (0, f"value {H(256, 'ab')}"))

    def test_refused_lines(self):
        for line, why in ((f"set {'n' * 65} 01", "Name"), ("set 1/2/3/4/5/6/7/8/9 01", "Name"),
                          ("set a//b 01", "Name"), ("set a=b 01", "Name"), (f"set a {H(257, '11')}", "Long"),
                          ("set a 0g", "Hex"), ("fly", "Unknown"), ("set a", "Words"), ("set a 01 ", "Words"),
                          (" set a 01", "Unknown"), ("set a  01", "Words"), ("rset a -", "Hex"),
                          ("set a 1", "Hex"), ("cut 01", "Number"), ("cut 4294967296", "Number"),
                          ("cut -1", "Number"), ("register a/ b", "Name"), ("register a tables", "Kind"),
                          ("load a b", "Words"), ("load a=", "Name"), ("mount now", "Words"), ("set a \x7f", "Hex"),
                          ("set \x7f 01", "Name"), (f"set a {'0' * 515}", "Hex"), ("names\r", "Unknown")):
            r = run(NVS, "get a", line)
            self.assertEqual((r.status, r.text), (3, f"bad script: line 2: {why}\n"), line)
            self.assertNotIn("out", r.host.files)

    def test_skipped_lines_are_counted(self):
        self.assertEqual(run(NVS, "", "# fly", "", "fly").text, "bad script: line 4: Unknown\n")

    def test_a_script_that_is_too_long(self):
        r = run(NVS, "#" + "x" * 1_048_576)
        self.assertEqual((r.status, r.text), (3, "bad script: line 0: Long\n"))

    def test_power_lines_and_off(self):
        r = run(NVS, "cut 0", "cut 3", "set a 01", "get a", "uncut", "cut 1", "names", "register a table", "mount",
                "set a 01", "uncut", "mount", "set a 01")
        self.assertEqual(r.answers, ["ok 0", "ok 0", "ok 0", "lost 3", "off", "ok 0", "ok 0", "off", "off",
                                     "ok 0", "lost 1", "ok 0", "ok 0", "ok 6"])


class Migration(unittest.TestCase):
    def test_round_the_store_areas(self):
        r = run(ALL, "set a 01", "migrate", "names", "migrate", "migrate", "names")
        self.assertEqual(r.answers, ["ok 0", "ok 9", "ok 10", '{"active":"f","names":{"a":"01"}}', "ok 6", "ok 13",
                                     '{"active":"n","names":{"a":"01"}}'])

    def test_a_cut_migration_keeps_the_map(self):
        for k in range(10):
            r = run(ALL, "set a 01", f"cut {k}", "migrate", "mount", "names")
            self.assertEqual(r.answers[3], f"lost {k}")
            self.assertEqual(r.answers[-1], '{"active":"n","names":{"a":"01"}}')
        self.assertEqual(run(ALL, "set a 01", "cut 9", "migrate", "mount").answers[-1], "ok 0")

    def test_without_a_second_area(self):
        self.assertEqual(run(NVS, "migrate").answers, ["ok 0", "notarget"])

    def test_the_command(self):
        raw = run(ALL, "set a 01").out
        r = command(["migrate", "in", "out"], {"in": raw})
        self.assertEqual((r.status, r.answers), (0, ["ok 0", "ok 0", "ok 10"]))
        self.assertEqual(dump(r.out), '{"active":"f","names":{"a":"01"}}\n')

    def test_the_selector_ring_is_collected(self):
        r = run(ALL, "set a 01", *["migrate"] * 300, "names", deep=50)
        self.assertEqual(r.answers[-1], '{"active":"n","names":{"a":"01"}}')
        self.assertTrue(all(a.startswith("ok ") for a in r.answers[:-1]))


class Generator(unittest.TestCase):
    def test_three_lines(self):
        r = command(["gen", "x.img", "nvs", "3"])
        self.assertEqual(r.text, "gen nvs 3: set 3 del 0 get 0 names 3 bytes 63 refused 0\n")

    def test_the_three_backends_agree(self):
        told, dumps = [], []
        for backend in ("nvs", "zms", "fcb"):
            r = command(["gen", "x.img", backend, "500"], deep=0, check=False)
            told.append(r.text.replace(backend, "B"))
            dumps.append(dump(r.host.files["x.img"]))
        self.assertEqual((len(set(told)), len(set(dumps))), (1, 1))
        self.assertTrue(told[0].endswith("refused 0\n"))

    def test_the_first_lines(self):
        lines = gen_script(3)
        self.assertEqual([(l.word, l.name, len(l.value), l.value[0]) for l in lines],
                         [("set", b"app/k29", 28, 1), ("set", b"app/k7", 26, 2), ("set", b"app/k38", 9, 3)])


class HostAndWords(unittest.TestCase):
    def test_a_failing_host(self):
        host = MemHost()
        host.fail_call(1)
        self.assertEqual(tool(["run", "a", "b", "c"], host), 5)
        self.assertEqual(host.printed, b"")

    def test_each_failing_call_of_a_run(self):
        whole, n = run(NVS, "set a 01", "get a").text, 1
        while True:
            host = MemHost()
            host.files = {"in": image_of(NVS), "s": b"set a 01\nget a\n"}
            host.fail_call(n)
            status = tool(["run", "in", "s", "out"], host)
            self.assertTrue(whole.encode().startswith(host.printed))
            if status == 0:
                break
            self.assertEqual(status, 5)
            n += 1
        self.assertEqual(n, 5)

    def test_a_script_that_is_not_there(self):
        r = command(["run", "x.img", "s.txt", "y.img"], {"x.img": image_of(NVS)})
        self.assertEqual((r.status, r.text, r.host.faults), (7, "no file: s.txt\n", 0))
        r = command(["run", "x.img", "s.txt", "y.img"])
        self.assertEqual((r.status, r.text), (7, "no file: x.img\n"))

    def test_words_that_are_no_form(self):
        for words in (["run", "a", "b"], [], ["help"], ["--help"], ["dump", "-"], ["dump", ""], ["fly"],
                      ["gen", "o", "nvm", "3"], ["gen", "o", "nvs", "0"], ["gen", "o", "nvs", "10001"],
                      ["gen", "o", "nvs", "03"], ["build", "o", "bank=erasing/4/512/1"], ["build", "o", "version=2"]):
            r = command(words)
            self.assertEqual((r.status, r.text[:18]), (2, "usage: image_tool "), words)

    def test_the_usage_line(self):
        self.assertEqual(command([]).text, USAGE_LINE + "\n")
        self.assertEqual(USAGE_LINE, "usage: image_tool build OUT SPEC | run IMAGE SCRIPT OUT | dump IMAGE | "
                         "migrate IMAGE OUT | gen OUT BACKEND N | log IMAGE SCRIPT OUT | items IMAGE SCRIPT OUT | "
                         "mirror IMAGE SCRIPT OUT")


class Version2(unittest.TestCase):
    def test_long_values_in_nvs(self):
        spec = "version=2,bank=erasing/4/4096/2,area=nvs/main/0/0/2"
        built = command(["build", "out", spec]).out
        self.assertEqual(len(built), 8228)
        self.assertEqual(run(built, f"set a {H(2048, '11')}", "get a", deep=100).answers,
                         ["ok 0", "ok 520", f"value {H(2048, '11')}"])
        self.assertEqual(run(built, f"set a {H(2049, '11')}").text, "bad script: line 1: Long\n")

    def test_long_values_in_fcb(self):
        spec = "version=2,bank=erasing/4/4096/2,area=fcb/main/0/0/2"
        r = run(spec, f"set a {H(2048, '11')}", deep=100)
        self.assertEqual(r.answers, ["ok 0", "ok 517"])
        self.assertEqual(r.bank()[8:12].hex(), "8210ffff")

    def test_what_stays_refused(self):
        self.assertEqual(command(["build", "o", "version=2,bank=erasing/4/512/2,area=nvs/m/0/0/2"]).status, 2)
        raw = bytearray(image_of(NVS4))
        raw[4] = 3
        self.assertEqual(run(bytes(raw)).text, "bad image: at 4: BadVersion\n")
        raw[4] = 2
        self.assertEqual(run(bytes(raw)).text, "bad image: at 8: BadBank\n")
        self.assertEqual(run(NVS, f"set a {H(257, '11')}").text, "bad script: line 1: Long\n")


if __name__ == "__main__":
    unittest.main()
