"""Tests of tools/layout, on the crate of small/, with the toolchain."""
import os
import subprocess
import tempfile
import unittest

from small_crate import HERE, lay

TOOL = os.path.join(HERE, "..", "layout")


class Layout(unittest.TestCase):
    """Each test has a copy of the crate of its own."""

    def setUp(self):
        folder = tempfile.TemporaryDirectory()
        self.addCleanup(folder.cleanup)
        self.root = folder.name
        lay(self.root)

    def edited(self, name, old, new):
        """What the tool says after an edit of a file of the crate; it leaves the file as it is."""
        path = os.path.join(self.root, "crates/small", name)
        with open(path, encoding="utf-8") as file:
            text = file.read().replace(old, new)
        with open(path, "w", encoding="utf-8") as file:
            file.write(text)
        said = subprocess.run([TOOL, "--root", self.root], capture_output=True, text=True,
                              check=False)
        with open(path, encoding="utf-8") as file:
            self.assertEqual(file.read(), text)
        return said

    def test_files_that_are_laid_out(self):
        said = self.edited("src/lib.rt", "", "")
        self.assertEqual((said.stdout, said.returncode), ("files not laid out: 0\n", 0))

    def test_a_file_of_each_folder_that_is_not(self):
        for name, old in (("src/lib.rt", "let y = "), ("specs/Next.antt", "(x + 1)"),
                          ("proofs/next/Answers.antt", "{next_of}")):
            with self.subTest(name):
                said = self.edited(name, old, old + "  ")
                row = "crates/small/%s: not laid out: run rt fmt in crates/small\n" % name
                self.assertIn(row, said.stdout)
                self.assertEqual(said.returncode, 1)

    def test_a_file_that_cannot_be_read(self):
        said = self.edited("src/lib.rt", "let y = ", "let = ")
        self.assertEqual(said.returncode, 1)
        self.assertIn("crates/small/src/lib.rt", said.stdout)


if __name__ == "__main__":
    unittest.main()
