"""The gate's scripts, tested: that they see a fault."""

import contextlib
import io
import sys
import tempfile
import unittest
from pathlib import Path

import gate
import listed
import theorems


class Listed(unittest.TestCase):
    def ask(self, text, folders):
        with tempfile.TemporaryDirectory() as name:
            root = Path(name)
            (root / "crates.txt").write_text(text)
            (root / "crates").mkdir()
            for folder in folders:
                (root / "crates" / folder).mkdir()
            return listed.disagreements(root)

    def test_agreement(self):
        self.assertEqual(self.ask("# lowest first\na:\n\nb: a # over a\n", ["a", "b"]), ([], 2))

    def test_kind_behind_a_name(self):
        self.assertEqual(self.ask("a:\na_c staticlib: a\n", ["a", "a_c"]), ([], 2))

    def test_folder_that_is_not_listed(self):
        self.assertEqual(self.ask("a:\n", ["a", "b"]), (["crates/b is not listed in crates.txt"], 1))

    def test_folder_that_only_a_comment_names(self):
        self.assertEqual(self.ask("a:\n# b:\n", ["a", "b"]), (["crates/b is not listed in crates.txt"], 1))

    def test_crate_with_no_folder(self):
        self.assertEqual(self.ask("a:\nb: a\n", ["a"]), (["crates.txt lists b, and there is no crates/b"], 1))


class Theorems(unittest.TestCase):
    def ask(self, table, modules):
        with tempfile.TemporaryDirectory() as name:
            root = Path(name)
            (root / "docs").mkdir()
            (root / "docs/THEOREMS.md").write_text(table)
            for module, text in modules.items():
                path = root / "crates" / (module + ".antt")
                path.parent.mkdir(parents=True, exist_ok=True)
                path.write_text(text)
            return theorems.missing(root)

    def test_names_that_are_there(self):
        table = "| In words | Proof (`a/proofs/`) |\n|---|---|\n| x | `One`: `first` |\n| y | `second`, `b/proofs/Two`: `all-…` |\n"
        modules = {"a/proofs/One": "pub first : A\n  pub second : B\n", "b/proofs/Two": "pub all-of : C\n"}
        self.assertEqual(self.ask(table, modules), ([], 3))

    def test_a_name_of_several_modules(self):
        table = "| In words | Proof |\n|---|---|\n| x | `a/proofs/One`, `b/proofs/Two`: `first` |\n"
        modules = {"a/proofs/One": "pub first : A\n", "b/proofs/Two": "first : A\n"}
        self.assertEqual(self.ask(table, modules), (["docs/THEOREMS.md names first of b/proofs/Two, which has no such theorem"], 1))

    def test_a_module_that_is_not_there(self):
        table = "| In words | Proof |\n|---|---|\n| x | `a/proofs/One`: `first` |\n"
        self.assertEqual(self.ask(table, {}), (["docs/THEOREMS.md names first of a/proofs/One, which has no such theorem"], 0))


class Counted(unittest.TestCase):
    def test_lines(self):
        for line, count in [
            ("12 passed, 0 failed\n", (12, 0)),
            ("3 passed, 2 failed\n", (3, 2)),
            ("test result: ok. 5 passed; 0 failed; 0 ignored; 0 measured; 0 filtered out; finished in 0.01s\n", (5, 0)),
            ("test result: FAILED. 4 passed; 1 failed; 0 ignored; 0 measured; 0 filtered out; finished in 0.01s\n", (4, 1)),
            ("differential: 70000 passed, 0 failed\n", (1, 0)),
            ("differential: 70000 passed, 10 failed\n", (0, 1)),
            ("differential: skipped: the originals are not at hand\n", (0, 0)),
            ("record: 4000 answers in crates/replay/data are what the originals say\n", (1, 0)),
            ("rt: ok, 5 crates proved, 7 must-fail edits refused\n", (0, 0)),
            ("rt: ok; handles allowed: none; must-fail edits: 7 refused; every proof and must-fail edit was done in this run\n", (0, 0)),
            ("rt: ok; handles allowed: none; must-fail edits: 5 refused, 1 of them only by a limit, 2 bad; done in this run\n", (0, 2)),
        ]:
            with self.subTest(line):
                self.assertEqual(gate.counted(line), count)


class Gate(unittest.TestCase):
    """The gate over parts of a Makefile of this test's own."""

    def gate(self, makefile, *parts):
        wrote = io.StringIO()
        with tempfile.TemporaryDirectory() as name, contextlib.redirect_stdout(wrote):
            Path(name, "Makefile").write_text(makefile)
            status = gate.main(parts, name)
        return status, wrote.getvalue().splitlines()[-1]

    def test_parts_add_up(self):
        makefile = "one:\n\t@echo 3 passed, 0 failed\ntwo:\n\t@echo quiet\n"
        self.assertEqual(self.gate(makefile, "one", "two"), (0, "4 passed, 0 failed"))

    def test_part_that_counts_a_failure(self):
        makefile = "one:\n\t@echo 3 passed, 1 failed; false\ntwo:\n\t@true\n"
        self.assertEqual(self.gate(makefile, "one", "two"), (1, "4 passed, 1 failed"))

    def test_part_that_fails_without_a_count(self):
        makefile = "one:\n\t@echo 3 passed, 0 failed; false\n"
        self.assertEqual(self.gate(makefile, "one"), (1, "3 passed, 1 failed"))

    def test_no_parts(self):
        self.assertEqual(self.gate(""), (1, "0 passed, 0 failed"))


if __name__ == "__main__":
    result = unittest.main(exit=False, verbosity=0).result
    bad = len(result.failures) + len(result.errors)
    print(f"{result.testsRun - bad} passed, {bad} failed")
    sys.exit(1 if bad else 0)
