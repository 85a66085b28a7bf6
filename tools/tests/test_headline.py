"""How definitions are read from the sources, and what one is found to name."""
import os
import sys
import tempfile
import unittest

sys.path.insert(0, os.path.dirname(os.path.dirname(os.path.abspath(__file__))))
from headline_page import reach, sources

TEXT = """-- A file.
use Rattle.log_model.specs.Files.{Files, content as held}
use Rattle.log_model.specs.declared.name.NameKind.TheVariants as kinds
use Rattle.std.specs.Prelude.{ℕ, List}

-- a first line,
-- and a second one
pub record IsOne (files : Files) : Type 0 where
  -- of the field
  pub last : ℕ
  pub of : IsTwo last (λ x. Made x) kinds.Log

-- ---- a heading
abbrev pub IsTwo : ℕ → (ℕ → Other) → Type 0
IsTwo last f = last.content
IsTwo IsOne _ = held

pub data Other : Type 0 where
  Made : (IsThree : ℕ) → Other

abbrev pub IsThree : Type 0
IsThree = ℕ
"""


class Reading(unittest.TestCase):
    def setUp(self):
        self.room = tempfile.TemporaryDirectory(prefix="hwal-headline-")
        path = os.path.join(self.room.name, "One.antt")
        with open(path, "w", encoding="utf-8") as file:
            file.write(TEXT)
        self.file = sources.file_of(path)

    def tearDown(self):
        self.room.cleanup()

    def test_a_definition_with_its_comment(self):
        self.assertEqual(list(self.file.definitions), ["IsOne", "IsTwo", "Other", "IsThree"])
        one = self.file.definitions["IsOne"]
        self.assertEqual((one.line, one.comment), (8, ["-- a first line,", "-- and a second one"]))
        self.assertEqual(one.text, TEXT.split("\n")[7:11])
        self.assertEqual(self.file.definitions["IsTwo"].comment, [])
        self.assertEqual(self.file.definitions["Other"].makers, ["Made"])

    def test_what_a_definition_names(self):
        names = lambda name: [it.name for it in reach.named(self.file.definitions[name])]
        # not the field `last`, and by a constructor its data, by a variant its enum
        self.assertEqual(names("IsOne"), ["Files", "IsTwo", "Other", "NameKind"])
        # not what stands behind a point, and not the argument of a constructor
        self.assertEqual(names("IsTwo"), ["Other", "IsOne", "content"])
        self.assertEqual(names("Other"), [])

    def test_where_it_stops(self):
        files = sources.find("Rattle.log_model.specs.Files", "Files")
        self.assertEqual(reach.reached([files], {(files.path, "Files")}), [files])
        self.assertIn("rank_of", [it.name for it in reach.reached([files], set())])


if __name__ == "__main__":
    unittest.main()
