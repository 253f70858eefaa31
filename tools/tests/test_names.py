"""Tests of tools/names: what counts as a definition, and what is told of names that two files define."""
import contextlib
import io
import pathlib
import tempfile
import unittest

from common import module_of, run

LOW = """\
-- Lanes. Own.
use Rattle.std.specs.Prelude.{List}

abbrev pub AreRising : List Lane → Type 0
AreRising lanes = Unit {0}

pub record Lane : Type 0 where
  pub number : ℕ

pub number_total : IsTotalOrder number_cmp
number_total = total
"""
HIGH = """\
-- Ports. Own.
pub record Port (lanes : List Lane) : Type 0 where
  pub number : ℕ
  pub rising : AreRising lanes

pub data Lane : Type 0 where
  number : Lane

module _ {V : Type 0} where
  -- the lanes of this port
  abbrev pub AreRising : List V → Type 0
  AreRising lanes = Unit {0}

abbrev pub renumbered : Sim → Sim
renumbered s =
    record s {
      chip = record s.chip { number = 0 };
    }
"""
TEXTS = {
    "low/specs/Lanes.antt": LOW,
    "low/specs/Lib.antt": "pub mod Lanes\n",
    "high/specs/Ports/All.antt": HIGH,
    "high/specs/Lib.antt": "pub mod Ports\n",
}
SAID = "AreRising high/specs/Ports/All.antt:11 low/specs/Lanes.antt:4\nLane high/specs/Ports/All.antt:6 low/specs/Lanes.antt:7\n"


class Names(unittest.TestCase):
    def test_what_a_file_defines(self):
        names = module_of("names")
        self.assertEqual(names.defined(LOW), {"AreRising": 4, "Lane": 7, "number_total": 10})
        self.assertEqual(names.defined(HIGH), {"Port": 2, "Lane": 6, "AreRising": 11, "renumbered": 14})
        self.assertEqual(names.defined("module _ where\n  pub record A : Type 0 where\n    pub b : ℕ\n\n  pub b : ℕ\n"), {"A": 2, "b": 5})
        self.assertEqual(names.defined("record A : Type 0 where\ndata B : Type 0 where\npub mod C\npub use D\n"), {"A": 1, "B": 2})

    def test_two_files_and_not_one(self):
        names = module_of("names")
        twice = "abbrev pub a : ℕ\na = 0\n\nabbrev pub a : ℕ\na = 1\n"
        self.assertEqual(names.doubles({"one": twice, "other": "abbrev pub b : ℕ\n"}), {})
        self.assertEqual(names.doubles({"one": twice, "other": "pub a : ℕ\n"}), {"a": ["one:1", "other:1"]})

    def test_what_is_told_of_a_folder(self):
        names = module_of("names")
        with tempfile.TemporaryDirectory() as folder:
            names.TOP = pathlib.Path(folder)
            for file, text in TEXTS.items():
                path = names.TOP / "crates" / file
                path.parent.mkdir(parents=True, exist_ok=True)
                path.write_text(text, encoding="utf-8")
            self.assertEqual(self.said(names), (0, SAID))
            self.assertEqual(self.said(names, "--check"), (1, SAID))
            (names.TOP / "crates/high/specs/Ports/All.antt").unlink()
            self.assertEqual(self.said(names, "--check"), (0, ""))

    def test_no_name_is_defined_twice_here(self):
        self.assertEqual(run("names", "--check"), (0, b"", ""))

    def said(self, names, *words):
        with contextlib.redirect_stdout(io.StringIO()) as out:
            status = names.main([*words])
        return status, out.getvalue()

    def test_wrong_words_are_refused(self):
        for words in (["--all"], ["--check", "--check"], ["swss_types"]):
            self.assertEqual(run("names", *words), (2, b"", "usage: tools/names [--check]\n"))


if __name__ == "__main__":
    unittest.main()
