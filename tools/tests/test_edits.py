"""Tests of tools/edits: what fits a crate, and one edit tried on the crate of small/."""
import os
import subprocess
import tempfile
import unittest

from small_crate import HERE, lay, write

TOOL = os.path.join(HERE, "..", "edits")
CODE = "fn one() -> u8 {\n    1\n}\n\nfn two() -> u8 {\n    2\n}\n"


class Project(unittest.TestCase):
    """A test with a project in a temporary folder."""

    def setUp(self):
        folder = tempfile.TemporaryDirectory()
        self.addCleanup(folder.cleanup)
        self.root = folder.name

    def call(self, *words):
        return subprocess.run([TOOL, *words], cwd=self.root, capture_output=True, text=True,
                              check=False)


class Fits(Project):
    """Whether an edit fits its crate: no toolchain is needed."""

    def check(self, edit):
        """What the tool says of one edit of a crate with CODE."""
        write(self.root + "/crates.txt", "a:\n")
        write(self.root + "/crates/a/src/lib.rt", CODE)
        write(self.root + "/crates/a/must-fail/other.edit", edit)
        return self.call()

    def assert_refused(self, edit, why):
        said = self.check(edit)
        self.assertEqual(said.returncode, 1, said.stdout)
        self.assertIn("crates/a/must-fail/other.edit: " + why, said.stdout)
        self.assertIn("0 edits fit their crates, 1 do not", said.stdout)

    def test_an_edit_fits_if_each_old_text_stands_once(self):
        said = self.check("Why.\nfile: src/lib.rt\nold: fn one\nnew: fn two_more\n"
                          "old:     2\nnew:     3\n")
        self.assertEqual(said.stdout, "1 edits fit their crates, 0 do not\n")
        self.assertEqual(said.returncode, 0)

    def test_an_old_text_that_is_gone(self):
        self.assert_refused("file: src/lib.rt\nold: fn three\nnew: fn four\n",
                            "its `old:` stands 0 times in crates/a/src/lib.rt")

    def test_an_old_text_that_stands_twice(self):
        self.assert_refused("file: src/lib.rt\nold: -> u8\nnew: -> u16\n",
                            "its `old:` stands 2 times")

    def test_a_second_pair_sees_what_the_first_left(self):
        self.assert_refused("file: src/lib.rt\nold:     1\nnew:     2\nold:     2\nnew:     3\n",
                            "its `old:` stands 2 times")

    def test_a_file_that_is_not_there(self):
        self.assert_refused("file: src/none.rt\nold: 1\nnew: 2\n", "there is no src/none.rt")

    def test_a_proof_is_no_file_of_an_edit(self):
        write(self.root + "/crates/a/proofs/one/Answers.antt", "x\n")
        self.assert_refused("file: proofs/one/Answers.antt\nold: x\nnew: y\n",
                            "there is no proofs/")

    def test_an_edit_that_changes_nothing(self):
        self.assert_refused("file: src/lib.rt\nold:     1\nnew:     1\n", "it changes nothing")

    def test_an_edit_without_a_pair(self):
        self.assert_refused("Only words.\n", "it has no pair of `old:` and `new:`")

    def test_wrong_words(self):
        write(self.root + "/crates.txt", "a:\n")
        os.makedirs(self.root + "/crates/a")
        self.assertEqual(self.call("try", "a").returncode, 2)
        said = self.call("try", "a", "none")
        self.assertEqual(said.returncode, 2)
        self.assertIn("there is no crates/a/must-fail/none.edit", said.stderr)


class Tried(Project):
    """One edit, with the toolchain."""

    def try_edit(self, old, new):
        lay(self.root)
        write(self.root + "/crates/small/must-fail/bad.edit", "file: none\nold: a\nnew: b\n")
        write(self.root + "/crates/small/must-fail/one.edit",
              "Why.\nfile: src/lib.rt\nold: %s\nnew: %s\n" % (old, new))
        return self.call("try", "small", "one")

    def test_an_edit_that_is_refused_shows_its_first_error(self):
        said = self.try_edit("{ x + 1 } else", "{ x + 2 } else")
        self.assertEqual(said.returncode, 0, said.stdout + said.stderr)
        self.assertIn("must-fail small/one.edit: refused, as it must be: ", said.stdout)
        self.assertIn("the first error of crates/small/out/must-fail/one.log:\n    ./proofs/next/"
                      "Answers.antt:8:", said.stdout)
        self.assertNotIn("small/bad", said.stdout)

    def test_an_edit_that_is_not_refused(self):
        said = self.try_edit("let y = next(x);", "let y = next(x) ;")
        self.assertEqual(said.returncode, 1)
        self.assertIn("NOT REFUSED", said.stdout)


if __name__ == "__main__":
    unittest.main()
