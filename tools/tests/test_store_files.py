"""The reader of the formats beside the tables of docs/FORMAT.md: each value here stands there, or follows from a rule there."""
import os
import sys
import unittest

sys.path.insert(0, os.path.dirname(os.path.dirname(os.path.abspath(__file__))))
from store_files import cells, logs, names, printed, recovery, stores

CELL = "0000000F 00000001 0001 72 01 66 71 0000000000000001 04 76"
PUT = f"01 00000030 00000001 0000000000000001 00000000000003E8 00000001 {CELL}"
TAGGED = f"03 00000036 00000001 0000000000000001 00000000000003E8 01 74 00000001 {CELL} 0002 61 62"
END = "02 00000008 0000000000000001"
LOG = f"48574C31 00000002 0000000000000001 A5 {PUT}"
STORE = f"A5 48575332 00000001 00 00 {1:016X} {2:016X} {2:016X} {2:016X} {CELL[:-2]} 62 0000 {1:016X} {CELL[:-2]} 61 0000"


def changed(text, **changes):
    """The bytes of `text` with others at these offsets: `at8="02"`."""
    data = bytearray(bytes.fromhex(text))
    for at, given in changes.items():
        given = bytes.fromhex(given)
        data[int(at[2:]) : int(at[2:]) + len(given)] = given
    return bytes(data)


def outcome(read, *words):
    """What was read, or the offset of the damage."""
    try:
        return read(*words)
    except cells.Damaged as damage:
        return damage.at


class Cells(unittest.TestCase):
    def test_the_plain_spelling(self):
        data = bytes.fromhex(CELL)
        cell = cells.Cell(b"r", b"f", b"q", 1, cells.PUT, b"v")
        self.assertEqual(cells.read_cell(data, 0, 24, False), (cell, 24))
        self.assertEqual(cells.plain_bytes(cell), data)
        self.assertEqual(len(cells.plain_bytes(cells.Cell(b"r" * 32767, b"f" * 127, b"", 1, 4, b""))), 32914)

    def test_where_no_cell_stands(self):
        table = {"at3": ("0D", 0), "at7": ("02", 24), "at9": ("00", 8), "at11": ("00", 11), "at14": ("80", 14), "at22": ("FF", 22)}
        for at, (given, refused) in table.items():
            data = changed(CELL, **{at: given})
            self.assertEqual(outcome(cells.read_cell, data, 0, 24, False), refused, at)
        self.assertEqual(outcome(cells.read_cell, changed(CELL, at9="03"), 0, 24, False), 8)
        self.assertEqual(outcome(cells.read_cell, changed(CELL, at3="0D", at4="01"), 0, 24, False), 0)
        self.assertEqual(outcome(cells.read_cell, changed(CELL, at4="01"), 0, 24, False), 4)
        for size in range(8):
            self.assertEqual(outcome(cells.read_cell, bytes(size), 0, size, False), size)

    def test_tags(self):
        tagged = bytes.fromhex(CELL + "0002 61 62")
        self.assertEqual(cells.read_cell(tagged, 0, 28, True), (cells.Cell(b"r", b"f", b"q", 1, 4, b"v", b"ab"), 28))
        self.assertEqual(outcome(cells.read_cell, tagged, 0, 25, True), 25)
        self.assertEqual(outcome(cells.read_cell, tagged, 0, 27, True), 27)
        self.assertEqual(outcome(cells.read_cell, changed(tagged.hex(), at24="1001"), 0, 28, True), 24)

    def test_an_offset_counts_from_the_cell(self):
        data = bytes(5) + changed(CELL, at11="00")
        self.assertEqual(outcome(cells.read_cell, data, 5, 29, False), 11)


class Logs(unittest.TestCase):
    def read(self, data, number=1, region=0):
        text = outcome(logs.read_log, data, number, region)
        return text if isinstance(text, int) else (len(text.entries), text.ended)

    def test_the_file_of_85_bytes(self):
        whole = f"{LOG} A5 {END} 00"
        data = bytes.fromhex(whole)
        self.assertEqual(len(data), 85)
        self.assertEqual(self.read(data), (1, 1))
        self.assertEqual(self.read(bytes.fromhex(LOG + "00")), (1, None))
        self.assertEqual(self.read(data[:60]), 16)
        self.assertEqual(self.read(data[:17]), (0, None))
        table = {"at84": ("A5", 70), "at83": ("02", 70), "at16": ("00", (0, None)), "at7": ("01", (1, 1))}
        for at, (given, wanted) in table.items():
            self.assertEqual(self.read(changed(whole, **{at: given})), wanted, at)
        self.assertEqual(self.read(changed(whole, at7="03")), 0)
        self.assertEqual(self.read(b"HWL2" + data[4:18]), 0)
        self.assertEqual(self.read(b"HWL2" + data[4:17]), (0, None))

    def test_what_a_crash_leaves(self):
        for size in range(18):
            self.assertEqual(self.read(b"\xa5" * size), (0, None))
        self.assertEqual(self.read(bytes.fromhex(LOG + "17 A5 A5 A5")), (1, None))
        self.assertEqual(self.read(bytes.fromhex(LOG + "A5")), (1, None))
        self.assertEqual(self.read(bytes.fromhex(LOG + "A5 00")), 70)

    def test_table_and_tags(self):
        data = f"48574C31 00000002 0000000000000001 A5 {TAGGED} 00"
        entry = logs.read_log(bytes.fromhex(data), 1).entries[0]
        self.assertEqual(len(bytes.fromhex(data)), 77)
        self.assertEqual((entry.table, entry.cells[0].tags, entry.time), (b"t", b"ab", 1000))
        self.assertEqual(self.read(changed(data, at7="01")), 16)
        self.assertEqual(logs.log_bytes([entry], 1), bytes.fromhex(data))

    def test_kind_3_with_neither(self):
        bare = f"03 00000033 00000001 0000000000000001 00000000000003E8 00 00000001 {CELL} 0000"
        self.assertEqual(self.read(bytes.fromhex(f"48574C31 00000002 0000000000000001 A5 {bare} 00")), 16)

    def test_fields_out_of_range(self):
        whole = LOG + "00"
        for at, given in (("at22", "00000041"), ("at22", "00000000"), ("at26", f"{0:016X}"), ("at26", f"{2**48:016X}"), ("at34", "80"), ("at42", "00000000")):
            self.assertEqual(self.read(changed(whole, **{at: given})), 16, at)
        self.assertEqual(self.read(bytes.fromhex(whole), region=2), 16)
        self.assertEqual(self.read(bytes.fromhex(whole), number=2), 0)

    def test_what_is_made_is_read(self):
        made = [logs.Entry(1 + it % 3, 1 + it, it, b"t" * (it % 2), (cells.Cell(b"%d" % it, b"f", b"", it, 8, b"", b"g" * (it % 5)),)) for it in range(9)]
        text = logs.read_log(logs.log_bytes(made, 7, is_ended=True), 7)
        self.assertEqual((text.entries, text.ended), (made, 9))
        self.assertEqual(sum(map(text.bytes_of, range(9))), text.last_gate - 16 - 14)


class Stores(unittest.TestCase):
    def read(self, data, region=1):
        text = outcome(stores.read_store, data, region)
        return text if text is None or isinstance(text, int) else (len(text.cells), text.flushed_from, text.flushed_to, text.scope)

    def test_the_store_of_two_versions(self):
        data = bytes.fromhex(STORE)
        self.assertEqual(len(data), 103)
        self.assertEqual(self.read(data), (2, 1, 2, 0))
        self.assertEqual([self.read(changed(STORE, at0="00")), self.read(data[:1]), self.read(b"")], [None] * 3)
        self.assertEqual(self.read(b"\xa5HWS3" + data[5:]), 1)
        table = {"at8": ("02", 5), "at9": ("02", 9), "at10": ("80", 10), "at18": ("03", 11), "at76": ("02", 69)}
        for at, (given, wanted) in table.items():
            self.assertEqual(self.read(changed(STORE, **{at: given})), wanted, at)
        self.assertEqual(self.read(changed(STORE, at9="01")), (2, 1, 2, 1))
        self.assertEqual(self.read(changed(STORE, at9="0101")), 10)
        self.assertEqual(self.read(data[:102]), 69)
        self.assertEqual(self.read(changed(STORE, at76="03")), 69)
        self.assertEqual(self.read(data + b"\0"), 103)

    def test_a_field_that_is_not_whole(self):
        data = bytes.fromhex(STORE)
        starts = [1, 5, 9, 10, 11, 19, 27, 35, 69]
        for size in range(2, 103):
            self.assertEqual(self.read(data[:size]), max(it for it in starts if it <= size), size)

    def test_the_first_format(self):
        text = stores.read_store(bytes.fromhex(STORE), 1)._replace(word=stores.FIRST)
        data = stores.store_bytes(text)
        self.assertEqual(len(data), 97)
        self.assertEqual(stores.read_store(data, 1), text)


class Names(unittest.TestCase):
    def test_which_are_seen(self):
        for text in ("log-1", "old-20", "store-3-4", "edits-64-5", "log-0", f"log-{2**64 - 1}"):
            self.assertEqual(str(names.parse(text)), text)
        for text in ("log-01", "log-1.bak", "store-1", "edits-1-2-3", "notes", "log--1", f"log-{2**64}", f"store-{2**32}-1", "log-1\n"):
            self.assertIsNone(names.parse(text), text)

    def test_their_order(self):
        rising = ["log-2", "log-10", "old-1", "store-1-9", "store-2-1", "edits-1-1"]
        self.assertEqual([str(it) for it in sorted(map(names.parse, reversed(rising)))], rising)


class Printed(unittest.TestCase):
    def test_tokens(self):
        data = bytes.fromhex("612520217E7F0AFFAB")
        self.assertEqual(printed.token(data), "a%25%20!~%7F%0A%FF%AB")
        self.assertEqual(printed.untoken("a%25%20!~%7f%0A%FF%aB"), data)
        self.assertEqual([printed.token(it) for it in (b"", b"-", b"--")], ["-", "%2D", "--"])
        self.assertEqual([printed.untoken(it) for it in ("-", "%2D", "--", "a%41-")], [b"", b"-", b"--", b"aA-"])
        for text in ("a%4", "", "%", "a b", "%4g"):
            self.assertRaises(ValueError, printed.untoken, text)


class Recovery(unittest.TestCase):
    def entry(self, number, family=b"f", region=1, value=b"v"):
        return logs.Entry(region, number, 0, b"", (cells.Cell(b"r%d" % number, family, b"", 1, 4, value),))

    def store(self, first, last, family=b"", scope=0, *numbers):
        kept = [(number, self.entry(number, family or b"f").cells[0]) for number in numbers]
        return stores.StoreText(stores.SECOND, 1, scope, family, first, last, kept)

    def found(self, files):
        by_name = {names.parse(name): data for name, data in files.items()}
        return recovery.read_all(by_name, by_name.get)

    def test_what_is_flushed_of_a_family(self):
        entries = [self.entry(1, b"f"), self.entry(2, b"g"), self.entry(3, b"f")]
        files = {"log-1": logs.log_bytes(entries, 1), "store-1-1": stores.store_bytes(self.store(1, 2, b"f", 0, 1))}
        region = recovery.regions_of(self.found(files))[1]
        self.assertEqual(region.flushed(), {b"": 0, b"f": 2})
        self.assertEqual(region.last(), 3)
        self.assertEqual([number for number, _ in region.cells()], [1, 2, 3])
        self.assertEqual([it for it in (1, 2, 3) if recovery.is_left(it, b"f", region.flushed())], [3])

    def test_a_store_in_the_place_of_others(self):
        files = {"store-1-1": self.store(1, 9, b"", 0, 4), "store-1-2": self.store(1, 5, b"", 1, 2), "store-1-3": self.store(6, 6, b"", 0, 6)}
        region = recovery.regions_of(self.found({name: stores.store_bytes(it) for name, it in files.items()}))[1]
        self.assertEqual((region.last(), [number for number, _ in region.cells()]), (6, [2, 6]))

    def test_the_first_damage(self):
        one, other = logs.log_bytes([self.entry(1)], 1), logs.log_bytes([self.entry(1, value=b"w")], 2)
        self.assertEqual(recovery.refusal(self.found({"log-1": one, "log-2": other})), "disagree log-1 log-2 1 1")
        self.assertEqual(recovery.refusal(self.found({"log-1": one, "log-2": other, "store-1-1": b"\xa5x"})), "damaged store-1-1 1")
        self.assertEqual(recovery.refusal(self.found({"log-1": one, "old-1": b""})), "damaged log-1 0")
        self.assertEqual(recovery.refusal(self.found({"old-1": b"\xa5" * 30, "edits-65-1": b""})), "damaged edits-65-1 0")
        self.assertIsNone(recovery.refusal(self.found({"log-1": one, "old-2": b"\xa5" * 30})))


if __name__ == "__main__":
    unittest.main()
