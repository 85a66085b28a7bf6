"""What the tests of the tools share: a folder with a store, its files made in a line, and a tool run in it."""
import os
import subprocess
import sys
import tempfile
import unittest

TOOLS = os.path.dirname(os.path.dirname(os.path.abspath(__file__)))
sys.path.insert(0, TOOLS)
from store_files import cells, logs, stores

SHIPPED = """ship 1 1 2 1 1000 1
table t
cell 1 r f q 5 put v ab
ship 1 2 1 1 1000 2
cell 1 r f q 5 put -
cell 1 %2D f q 5 delete -
position 1 2
end 0
"""


def entry(region, number, family=b"f", table=b"t"):
    return logs.Entry(region, number, 1000, table, (cells.Cell(b"r%d" % number, family, b"q", 5, cells.PUT, b"v"),))


def store(region, first, last, numbers, family=b""):
    kept = [(number, entry(region, number, family or b"f").cells[0]) for number in numbers]
    return stores.store_bytes(stores.StoreText(stores.SECOND, region, 0, family, first, last, kept))


class Tool(unittest.TestCase):
    def setUp(self):
        self.room = tempfile.TemporaryDirectory(prefix="hwal-tools-")
        self.store = os.path.join(self.room.name, "hwal-store")
        os.mkdir(self.store)

    def tearDown(self):
        self.room.cleanup()

    def lay(self, **files):
        for name, data in files.items():
            with open(os.path.join(self.store, name.replace("_", "-")), "wb") as file:
                file.write(data)

    def run_tool(self, name, *words, given=""):
        """Status, output, standard error."""
        tool = os.path.join(TOOLS, name)
        ran = subprocess.run([sys.executable, "-B", tool, *words], cwd=self.room.name, input=given, capture_output=True, text=True, timeout=60)
        return ran.returncode, ran.stdout, ran.stderr
