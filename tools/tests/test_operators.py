"""hwal-stat and hwal-backup, run on folders whose answers follow from docs/FORMAT.md."""
import fcntl
import json
import os
import sys
import unittest

sys.path.insert(0, os.path.dirname(os.path.abspath(__file__)))
from tool_case import Tool, entry, store
from store_files import logs, stores


class Stat(Tool):
    def stat(self, *words):
        status, said, _ = self.run_tool("hwal-stat", "--json", *words)
        return status, json.loads(said)

    def test_what_is_flushed_and_who_holds_a_log(self):
        self.lay(log_1=logs.log_bytes([entry(1, 1), entry(2, 1, b"g"), entry(1, 2)], 1, is_ended=True), log_2=logs.log_bytes([entry(1, 3)], 2))
        self.lay(store_1_1=store(1, 1, 2, [1, 2]), store_2_1=store(2, 1, 1, [], b"f"), old_1=b"")
        os.remove(os.path.join(self.store, "old-1"))
        status, seen = self.stat()
        self.assertEqual((status, seen["opening_refuses"]), (0, None))
        self.assertEqual(seen["held_logs"], [{"name": "log-1", "by": [{"region": 2, "entries": 1}]}, {"name": "log-2", "by": [{"region": 1, "entries": 1}]}])
        one, two = seen["regions"]
        self.assertEqual((one["last"], one["cells"], one["flushed_to"], one["entries_in_logs_alone"]), (3, 3, 2, 1))
        self.assertEqual((two["flushed_to"], two["families_flushed_further"]), (0, [{"family": "f", "to": 1}]))
        # an entry of one cell with a table: gate 1, kind and length 5, body 20 + 2 + 4, cell 25 and tags' length 2
        self.assertEqual((one["bytes_in_logs_alone"], two["bytes_in_logs_alone"]), (59, 59))

    def test_every_damage_with_its_byte(self):
        good = logs.log_bytes([entry(1, 1), entry(1, 2)], 1)
        out_of_order = stores.store_bytes(stores.StoreText(stores.SECOND, 1, 0, b"", 1, 2, [(1, entry(1, 2).cells[0]), (2, entry(1, 1).cells[0])]))
        self.lay(log_1=good[:-2], old_4=b"HWL1" + bytes(20), store_1_1=out_of_order, store_1_2=b"\xa5HWS3", edits_1_1=good)
        status, seen = self.stat()
        damaged = {file["name"]: file["damaged_at"] for file in seen["files"] if "damaged_at" in file}
        # the second pair of the store stands after 35 bytes of fields, and 8 + 25 + 2 of the first pair
        self.assertEqual((status, damaged), (7, {"log-1": 16 + 59, "old-4": 0, "store-1-1": 70, "store-1-2": 1}))
        self.assertEqual(seen["opening_refuses"], "damaged log-1 75")

    def test_the_lock(self):
        lock = os.open(self.store, os.O_RDONLY)
        fcntl.flock(lock, fcntl.LOCK_EX)
        self.assertEqual(self.run_tool("hwal-stat")[0], 5)
        fcntl.flock(lock, fcntl.LOCK_SH)
        self.assertEqual(self.run_tool("hwal-stat")[0], 0)
        os.close(lock)

    def test_no_folder_and_wrong_words(self):
        self.assertEqual(self.run_tool("hwal-stat", "nowhere")[0], 5)
        self.assertEqual(self.run_tool("hwal-stat", "--jsn")[0], 2)

    def test_a_follower(self):
        self.lay(old_1=logs.log_bytes([entry(1, 1)], 1, is_ended=True), log_2=logs.log_bytes([entry(1, 2), entry(1, 3)], 2))
        for position, wanted in (("2 1 77", (1, 59, None)), ("1 0", (3, 177, None)), ("1 2", (0, 0, "position 1 1")), ("4 0", (0, 0, None)), ("0 0", (0, 0, "position 0 0"))):
            with open(os.path.join(self.room.name, "followed.position"), "w", encoding="ascii") as file:
                file.write(position)
            seen = self.stat("--follower", "followed.position")[1]["follower"]
            self.assertEqual((seen["entries_behind"], seen["bytes_behind"], seen["refused"]), wanted, position)

    def test_nothing_is_written(self):
        self.lay(log_1=logs.log_bytes([entry(1, 1)], 1))
        before = sorted((it.name, it.stat().st_mtime_ns) for it in os.scandir(self.store))
        self.run_tool("hwal-stat")
        self.assertEqual(sorted((it.name, it.stat().st_mtime_ns) for it in os.scandir(self.store)), before)


class Backup(Tool):
    def test_a_copy_and_its_sums(self):
        self.lay(log_1=logs.log_bytes([entry(1, 1)], 1), notes=b"not of the store")
        self.assertEqual(self.run_tool("hwal-backup", "copy")[0], 0)
        copy = os.path.join(self.room.name, "copy")
        self.assertEqual(sorted(os.listdir(copy)), ["SHA256SUMS", "log-1"])
        self.assertEqual(self.run_tool("hwal-backup", "--check", "copy")[0], 0)
        with open(os.path.join(copy, "log-1"), "r+b") as file:
            file.seek(69)
            file.write(b"w")
        self.assertEqual(self.run_tool("hwal-stat", "copy")[0], 0)
        status, said, _ = self.run_tool("hwal-backup", "--check", "copy")
        self.assertEqual(status, 7)
        self.assertIn("log-1 is another file than was copied", said)
        self.assertEqual(self.run_tool("hwal-backup", "copy")[0], 2)

    def test_a_store_that_is_written(self):
        lock = os.open(self.store, os.O_RDONLY)
        fcntl.flock(lock, fcntl.LOCK_EX)
        self.assertEqual(self.run_tool("hwal-backup", "copy")[0], 5)
        self.assertEqual(os.listdir(self.room.name), ["hwal-store"])
        os.close(lock)

    def test_a_damaged_store_is_copied_and_named(self):
        self.lay(log_1=logs.log_bytes([entry(1, 1)], 2))
        status, said, _ = self.run_tool("hwal-backup", "copy")
        self.assertEqual(status, 7)
        self.assertIn("log-1 is damaged at byte 0", said)


if __name__ == "__main__":
    unittest.main()
