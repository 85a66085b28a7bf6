"""What tools/names finds in a line of a document."""
import importlib.machinery
import importlib.util
import os
import unittest

PATH = os.path.join(os.path.dirname(os.path.dirname(os.path.abspath(__file__))), "names")
loader = importlib.machinery.SourceFileLoader("names", PATH)
names = importlib.util.module_from_spec(importlib.util.spec_from_loader("names", loader))
loader.exec_module(names)


class Kept(unittest.TestCase):
    @classmethod
    def setUpClass(cls):
        cls.kept = names.Kept()

    def test_files(self):
        lost = lambda line: list(self.kept.lost_files(line))
        self.assertEqual(lost("In accounting.rt of seq_accounting, log_file's `text.rt` and [server.rt](x/server.rt) of `examples`."), [])
        self.assertEqual(lost("See nowhere.rt, `gone.py`, bad-NAME.row and *.edit."), ["nowhere.rt", "gone.py"])
        self.assertEqual(lost("See accounting.rt of log_file and seq_accounting's text.rt."), ["accounting.rt of log_file", "text.rt of seq_accounting"])
        self.assertEqual(lost("each crate's error.rt"), ["error.rt of each crate"])

    def test_edits(self):
        edit = "gate_opened_with_the_content"
        self.assertEqual(list(self.kept.lost_edits(f"(disk_images `{edit}`)")), [])
        self.assertEqual(list(self.kept.lost_edits(f"(log_tail `{edit}`)")), [f"log_tail {edit}"])

    def test_options(self):
        lost = lambda line: list(self.kept.lost_options(line))
        self.assertEqual(lost("`tools/contracts --check`, `bench/rounds.py PROGRAM --parts puts [--rounds 3]` and others"), [])
        self.assertEqual(lost("`rounds.py PROGRAM --groupings X`"), ["rounds.py --groupings"])

    def test_words_without_backticks(self):
        lost = lambda line: list(self.kept.lost_words(line))
        self.assertEqual(lost("Of log_file and `no_such_word`, at [x](no_such_page.md), crates/no_such/src."), [])
        self.assertEqual(lost("Of no_such_crate and others."), ["no_such_crate"])


if __name__ == "__main__":
    unittest.main()
