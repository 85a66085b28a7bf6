"""The record of a gate: of a log as `.ci/run` prints it, and which logs are refused."""
import os
import subprocess
import sys
import tempfile
import unittest

TOOL = os.path.join(os.path.dirname(os.path.dirname(os.path.abspath(__file__))), "record-gate")
PROOFS = """== log_file
fn log_file::file::LogFile::commit: proved
logic=proved functions=36 sum=0123456789abcdef native=nat,char,string logic-built=trusted
rt: log_file proved
logic=proved functions=40 sum=0123456789abcdef native=nat,char,string logic-built=trusted
rt: log_file: its tests are proved
rt: cell_model is kept: an earlier run on this machine proved the same files over the same libraries
rt: must-fail log_file/gate_left_open.edit: refused, as it must be: src/file.rt:12:3: error: a | b
rt: log_file: its tests passed
"""
VERDICT = """rt: ok; handles allowed: none; must-fail edits: 1 refused; done in this run: 2 of the 3 proofs
4 passed, 0 failed
"""
TABLE = """crate             lines  proof  tests       edits    all a 1000  ended
log_file            900    1.0    0.5     0.5 (1)    2.0    2.2  1.0 2.0
all                 900    1.0    0.5         0.5    2.0
3.0 minutes in all, 3.33 a 1,000 lines
   0.5 log_file/gate_left_open
a fixed loop took 0.100 s of processor time, 0.099 to 0.101
"""
CHECKS = "syncs: each write, name and folder is synced in its turn\ncontracts: ok\nnames: ok\n"


class Record(unittest.TestCase):
    def record(self, log):
        with tempfile.NamedTemporaryFile("w", prefix="hwal-gate-", suffix=".log") as file:
            file.write(log)
            file.flush()
            ran = subprocess.run([sys.executable, "-B", TOOL, file.name, "--commit", "abc", "--print"], capture_output=True, text=True, timeout=60, check=False)
        return ran.returncode, ran.stdout, ran.stderr

    def test_a_gate_that_passed(self):
        status, page, _ = self.record(PROOFS + VERDICT + TABLE + CHECKS)
        self.assertEqual(status, 0)
        for wanted in ("| commit | abc |", "| kit | logic 0123456789abcdef |", "| proved | 2 crates, 1 of them with tests; 76 functions in this run |",
                       "| log_file | gate_left_open | src/file.rt:12:3: error: a \\| b |", VERDICT + CHECKS + "```", "```text\n" + TABLE + "```"):
            self.assertIn(wanted, page)

    def test_without_a_table(self):
        status, page, _ = self.record(PROOFS + VERDICT + CHECKS)
        self.assertEqual((status, "Minutes" in page), (0, False))

    def test_what_is_refused(self):
        failed = "rt: FAILED: log_file\n3 passed, 1 failed\n"
        for log, why in ((PROOFS, "not the output"), (PROOFS + failed, "3 passed, 1 failed"), (PROOFS + VERDICT + TABLE + "names: a.md:1: x leads nowhere\n", "names: a.md"),
                         (PROOFS + PROOFS.replace("0123", "0124") + VERDICT, "several logics"), ("", "not the output")):
            status, page, cause = self.record(log)
            self.assertEqual((status, page), (1, ""), log)
            self.assertIn(why, cause)


if __name__ == "__main__":
    unittest.main()
