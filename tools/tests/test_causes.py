"""tools/cause_rows.py beside docs/COMMANDS.md: a row for each status and for each cause of a script's line; and what tools/causes makes of answers."""
import importlib.machinery
import importlib.util
import os
import re
import subprocess
import sys
import unittest

TOOLS = os.path.dirname(os.path.dirname(os.path.abspath(__file__)))
sys.path.insert(0, TOOLS)
from cause_rows import ROWS


def commands():
    with open(f"{os.path.dirname(TOOLS)}/docs/COMMANDS.md", encoding="utf-8") as file:
        return file.read()


def first_cells(text, head):
    """The first cell of each row of the table with this head."""
    rows = text[text.index(head) :].splitlines()[2:]
    return [row.split("|")[1].strip().strip("`") for row in rows[: next((at for at, row in enumerate(rows) if not row.startswith("|")), len(rows))]]


def tool():
    loader = importlib.machinery.SourceFileLoader("causes", f"{TOOLS}/causes")
    module = importlib.util.module_from_spec(importlib.util.spec_from_loader(loader.name, loader))
    loader.exec_module(module)
    return module


class Rows(unittest.TestCase):
    def test_each_status_has_a_row(self):
        text = commands()
        statuses = {int(cell) for cell in first_cells(text[text.index("## Statuses") :], "| Status | Comes | Output |")}
        self.assertEqual(statuses, set(range(12)))
        self.assertEqual({row.status for row in ROWS}, statuses)

    def test_each_cause_of_a_line_has_a_row(self):
        causes = set(first_cells(commands(), "| Cause | The line | Why |"))
        self.assertIn("cell-7", causes)
        self.assertEqual({row.cause for row in ROWS if row.status == 3}, causes)

    def test_each_command_has_its_usage(self):
        words = {re.match(r"[a-z]+", cell).group() for cell in first_cells(commands(), "| Words | What it does |")}
        self.assertEqual({row.words.split()[0] for row in ROWS if row.status == 2 and row.words} - {"recovr", "5"}, words)

    def test_a_status_that_is_not_0_has_a_line(self):
        self.assertEqual([row for row in ROWS if row.status and not row.lines], [])


class Looked(unittest.TestCase):
    def test_what_is_wrong(self):
        row = next(row for row in ROWS if row.words == "dump x")
        faults = tool().faults
        said = [line.replace("WHERE", "/a") for line in row.lines]
        self.assertEqual(faults(row, (2, "refused usage\n", said), "/a"), [])
        self.assertEqual(len(faults(row, (0, "end 0\n", []), "/a")), 3)
        self.assertEqual(len(faults(row, (2, "refused usage\n", []), "/a")), 1)
        self.assertEqual(len(faults(row, (2, "hwal: x\nrefused usage\n", said), "/a")), 1)

    def test_no_program(self):
        words = [sys.executable, "-B", f"{TOOLS}/causes", "/nowhere/hwal", "--groups", "/nowhere/groups"]
        ran = subprocess.run(words, capture_output=True, text=True, timeout=60, check=False)
        self.assertEqual((ran.returncode, ran.stdout.count("not run")), (0, 2))


if __name__ == "__main__":
    unittest.main()
