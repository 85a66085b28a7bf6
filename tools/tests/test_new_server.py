"""tools/new-server, and the program on LIBRARY's first screen, which is what it lays."""
import os
import shutil
import subprocess
import sys
import tempfile
import unittest

TOOLS = os.path.dirname(os.path.dirname(os.path.abspath(__file__)))
ROOT = os.path.dirname(TOOLS)
COUNTER = f"{ROOT}/crates/counter"


def text_of(path):
    with open(path, encoding="utf-8") as file:
        return file.read()


class NewServer(unittest.TestCase):
    def setUp(self):
        room = tempfile.TemporaryDirectory(prefix="hwal-server-")
        self.addCleanup(room.cleanup)
        self.own = f"{room.name}/own"

    def lay(self, *words):
        ran = subprocess.run([sys.executable, "-B", f"{TOOLS}/new-server", *words], capture_output=True, text=True, timeout=60, check=False)
        return ran.returncode, ran.stdout, ran.stderr

    def test_in_a_repository_of_ones_own(self):
        status, said, _ = self.lay("my_server", self.own)
        self.assertEqual(status, 0)
        self.assertIn("with 4", said)
        laid = [line.split(":")[0] for line in text_of(f"{self.own}/crates.txt").splitlines()]
        self.assertEqual((laid[0], laid[-1]), ("cell_model", "my_server"))
        self.assertEqual(sorted(laid), sorted(os.listdir(f"{self.own}/crates")))
        for name in laid:
            self.assertTrue(os.path.isdir(f"{self.own}/crates/{name}/src"), name)
            self.assertFalse(os.path.exists(f"{self.own}/crates/{name}/out"), name)
        self.assertEqual(text_of(f"{self.own}/HANDLES"), text_of(f"{ROOT}/HANDLES"))
        self.assertEqual(text_of(f"{self.own}/crates/my_server/src/main.rt"), text_of(f"{COUNTER}/src/main.rt"))
        proof = "proofs/CounterHandler/work/Invariants.antt"
        self.assertIn("use Rattle.my_server.proofs.", text_of(f"{self.own}/crates/my_server/{proof}"))
        # a second one stands on the same libraries
        self.assertEqual(self.lay("other", self.own)[0], 0)
        self.assertEqual(text_of(f"{self.own}/crates.txt").count("\n"), len(laid) + 1)
        self.assertEqual(self.lay("other", self.own), (2, "", "new-server: there is a crate other already\n"))

    def test_in_this_repository(self):
        os.makedirs(f"{self.own}/crates")
        shutil.copytree(TOOLS, f"{self.own}/tools", ignore=shutil.ignore_patterns("tests", "__pycache__"))
        shutil.copytree(COUNTER, f"{self.own}/crates/counter", ignore=shutil.ignore_patterns("out"))
        shutil.copy(f"{ROOT}/crates.txt", f"{self.own}/crates.txt")
        ran = subprocess.run([sys.executable, "-B", f"{self.own}/tools/new-server", "my_server"], capture_output=True, timeout=60, check=False)
        self.assertEqual((ran.returncode, sorted(os.listdir(f"{self.own}/crates"))), (0, ["counter", "my_server"]))
        lines = text_of(f"{ROOT}/crates.txt").splitlines()
        added = [line.replace("counter:", "my_server:") for line in lines if line.startswith("counter:")]
        self.assertEqual(text_of(f"{self.own}/crates.txt").splitlines(), lines + added)

    def test_names_that_are_refused(self):
        for name in ("My", "2nd", "a-b", "kv_cell", "anyhow", "counter"):
            self.assertEqual(self.lay(name, self.own)[0], 2, name)
            self.assertFalse(os.path.exists(self.own))


class Library(unittest.TestCase):
    def test_the_first_screen_is_the_whole_program(self):
        page = text_of(f"{ROOT}/docs/LIBRARY.md")
        shown, rest = page.split("```rust\n", 1)[1].split("```\n", 1)
        self.assertEqual(shown, text_of(f"{COUNTER}/src/main.rt"))
        self.assertEqual(rest.split("```\n", 2)[1], text_of(f"{COUNTER}/stdout"))
        self.assertIn(text_of(f"{COUNTER}/proofs/CounterHandler/work/Invariants.antt"), page)


if __name__ == "__main__":
    unittest.main()
