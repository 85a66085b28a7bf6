"""The page for `man` and the words that bash completes, beside docs/COMMANDS.md."""
import os
import re
import shutil
import subprocess
import sys
import tempfile
import unittest

TOOLS = os.path.dirname(os.path.dirname(os.path.abspath(__file__)))
ROOT = os.path.dirname(TOOLS)
COMMANDS = """# Commands

`./hwal WORDS` runs.

| Words | What it does |
|---|---|
| `go N` | goes `N` times |

## `go N`

.dots first, and a \\| sign.

```
./hwal go 1 -x
```

- one of *two*
"""
PAGE = r""".SH DESCRIPTION
\fBhwal WORDS\fR runs.
.TP
\fBgo N\fR
goes \fBN\fR times
.SH "hwal go N"
\&.dots first, and a | sign.
.PP
.RS 4
.nf
\&hwal go 1 \-x
.fi
.RE
.IP \(bu 3
one of \fItwo\fR
.SH FILES
"""


class ManPage(unittest.TestCase):
    def setUp(self):
        self.room = tempfile.TemporaryDirectory(prefix="hwal-man-")
        os.mkdir(f"{self.room.name}/docs")
        os.mkdir(f"{self.room.name}/tools")
        for name in ("man-page", "tool_words.py"):
            shutil.copy(f"{TOOLS}/{name}", f"{self.room.name}/tools")
        self.put("docs/COMMANDS.md", COMMANDS)
        self.put("CHANGELOG.md", "# Changelog\n\n## 0.7.0 (3 March 2026)\n")

    def tearDown(self):
        self.room.cleanup()

    def put(self, path, text):
        with open(f"{self.room.name}/{path}", "w", encoding="utf-8") as file:
            file.write(text)

    def run_tool(self, *words):
        ran = subprocess.run([sys.executable, "-B", f"{self.room.name}/tools/man-page", *words], capture_output=True, text=True, timeout=60)
        return ran.returncode, ran.stdout

    def test_each_form(self):
        said = self.run_tool()[1]
        self.assertIn(PAGE, said)
        self.assertIn('.TH HWAL 1 "2026-03-03" "hwal 0.7.0" "Commands"', said)
        self.assertFalse(os.path.exists(f"{self.room.name}/docs/hwal.1"))

    def test_a_page_out_of_step(self):
        self.assertEqual(self.run_tool("--check")[0], 1)
        self.assertEqual(self.run_tool("--write"), (0, ""))
        self.assertEqual(self.run_tool("--check"), (0, "man-page: ok\n"))
        self.put("docs/COMMANDS.md", COMMANDS + "\nOne line more.\n")
        self.assertEqual(self.run_tool("--check")[0], 1)


class Completion(unittest.TestCase):
    def completed(self, room, *words):
        """What bash offers for the last of these words."""
        line = " ".join(f"'{it}'" for it in words)
        script = f"source '{ROOT}/completions/hwal.bash'; COMP_WORDS=({line}); COMP_CWORD={len(words) - 1}; _hwal; printf '%s\\n' \"${{COMPREPLY[@]}}\""
        return subprocess.run(["bash", "-c", script], cwd=room, capture_output=True, text=True, timeout=60).stdout.split()

    def test_every_command(self):
        with open(f"{ROOT}/docs/COMMANDS.md", encoding="utf-8") as file:
            table = file.read().split("\n## ")[0]
        commands = re.findall(r"^\| `(\w+)", table, re.M)
        offered = [it for it in self.completed("/", "hwal", "") if not it.startswith("-")]
        self.assertEqual(sorted(offered), sorted(set(commands)))

    def test_numbers_of_the_store(self):
        with tempfile.TemporaryDirectory(prefix="hwal-words-") as room:
            os.mkdir(f"{room}/hwal-store")
            for name in ("log-12", "old-3", "store-7-1", "store-7-2", "edits-9-1"):
                with open(f"{room}/hwal-store/{name}", "w", encoding="ascii"):
                    pass
            self.assertEqual(self.completed(room, "hwal", "dump", ""), ["3", "12"])
            self.assertEqual(self.completed(room, "hwal", "compact", "minor", ""), ["7"])
            self.assertEqual(self.completed(room, "hwal", "compact", "ma"), ["major"])
            self.assertEqual(self.completed(room, "hwal", "load", "--c"), ["--count"])


if __name__ == "__main__":
    unittest.main()
