"""Tests of tools/names, each on a tiny project in a temporary folder. No toolchain is needed."""
import subprocess
import sys
import tempfile
import unittest
from pathlib import Path

TOOL = Path(__file__).resolve().parent.parent / "names"

LAWS = "-- Laws that the checker has shown: some.\n"
DEFINITIONS = "-- Definitions that must be believed: some.\n"


def laws(*names):
    """A file of laws with these names, the first on line 2 and the others three lines on."""
    return LAWS + "\n".join(f"pub {name} : ℕ\n{name} = 1\n" for name in names)


class Case(unittest.TestCase):
    """A test with a project in a temporary folder."""

    def setUp(self):
        folder = tempfile.TemporaryDirectory()
        self.addCleanup(folder.cleanup)
        self.root = Path(folder.name)
        (self.root / "crates").mkdir()

    def run_tool(self):
        command = [sys.executable, "-B", str(TOOL), "--root", str(self.root)]
        return subprocess.run(command, capture_output=True, encoding="utf-8")

    def rows(self, files):
        """The rows about a project of these files, without the line of counts."""
        for path, text in files.items():
            file = self.root / "crates" / path
            file.parent.mkdir(parents=True, exist_ok=True)
            file.write_text(text, encoding="utf-8")
        done = self.run_tool()
        self.assertEqual(done.stderr, "")
        rows = done.stdout.splitlines()[:-1]
        self.assertEqual(done.returncode, 1 if rows else 0)
        return rows


class Names(Case):
    """One name has one meaning."""

    def test_names_apart(self):
        self.assertEqual(self.rows({"a/specs/One.antt": laws("x"), "b/specs/Two.antt": laws("y")}),
                         [])

    def test_a_law_in_two_crates(self):
        rows = self.rows({"a/specs/One.antt": laws("x"), "b/specs/Two.antt": laws("y", "x")})
        self.assertEqual(rows, ["crates/b/specs/Two.antt:5: x is declared in "
                                "crates/a/specs/One.antt:2 too"])

    def test_a_law_of_proofs_counts(self):
        rows = self.rows({"a/specs/One.antt": laws("x"), "a/proofs/Two.antt": laws("x")})
        self.assertEqual(len(rows), 1)

    def test_a_proof_of_a_function_does_not(self):
        files = {f"a/proofs/{fn}/{part}.antt": laws("x")
                 for fn in "fg" for part in ("Answers", "Invariants", "Proof")}
        self.assertEqual(self.rows({"a/specs/One.antt": laws("x"), **files}), [])

    def test_a_law_beside_a_proof_counts(self):
        rows = self.rows({"a/specs/One.antt": laws("x"), "a/proofs/f/Steps.antt": laws("x")})
        self.assertEqual(len(rows), 1)

    def test_a_constructor_counts(self):
        data = DEFINITIONS + "pub data D : Type 0 where\n  x : D\n"
        self.assertEqual(len(self.rows({"a/specs/One.antt": laws("x"), "a/specs/D.antt": data})), 1)

    def test_a_field_and_a_where_block_do_not(self):
        record = DEFINITIONS + "pub record R : Type 0 where\n  pub x : ℕ\n"
        helper = LAWS + "pub y : ℕ\ny = x\n  where\n    x : ℕ\n    x = 1\n"
        files = {"a/specs/One.antt": laws("x"), "a/specs/R.antt": record, "a/specs/Y.antt": helper}
        self.assertEqual(self.rows(files), [])

    def test_two_structs(self):
        rows = self.rows({"a/src/lib.rt": "pub struct S {\n}\n", "b/src/lib.rt": "\nenum S {\n}\n"})
        self.assertEqual(rows, ["crates/b/src/lib.rt:2: S is declared in crates/a/src/lib.rt:1 too"])

    def test_a_struct_and_a_record(self):
        record = DEFINITIONS + "pub record S : Type 0 where\n  pub x : ℕ\n"
        rows = self.rows({"a/src/lib.rt": "pub struct S {\n}\n", "a/specs/One.antt": record})
        self.assertEqual(len(rows), 1)

    def test_functions_do_not_count(self):
        files = {"a/src/lib.rt": "pub fn run() {\n}\n", "b/src/lib.rt": "pub fn run() {\n}\n"}
        self.assertEqual(self.rows(files), [])


class Functions(Case):
    """A function that has a definition's name is held to it."""

    def rows_of(self, contract, definition="run_quantum"):
        code = f"// fn gone() {{}}\nfn run_quantum() -> u8\n    {contract}\n{{\n    0\n}}\n"
        return self.rows({"a/src/lib.rt": code, "a/specs/Lib.antt": laws(definition, "gone")})

    def test_another_definition_is_cited(self):
        rows = self.rows_of("ensures { result ≡ after_quantum }")
        self.assertEqual(rows, ["crates/a/src/lib.rt:2: fn run_quantum is not held to run_quantum "
                                "of crates/a/specs/Lib.antt:2"])

    def test_the_definition_with_of(self):
        self.assertEqual(len(self.rows_of("", "run_quantum_of")), 1)

    def test_the_definition_is_cited(self):
        for name in ("run_quantum", "run_quantum_of"):
            self.assertEqual(self.rows_of(f"ensures {{ result ≡ {name} }}", name), [])

    def test_the_name_of_a_clause_and_a_field_do_not_count(self):
        contract = "requires run_quantum { a }\n    ensures run_quantum { result.run_quantum ≡ 1 }"
        self.assertEqual(len(self.rows_of(contract)), 1)

    def test_the_contract_of_the_next_function_does_not_count(self):
        next_one = "{\n    0\n}\nfn other() -> u8\n    ensures { result ≡ run_quantum }"
        self.assertEqual(len(self.rows_of(next_one)), 1)

    def test_a_definition_of_another_crate(self):
        files = {"a/src/lib.rt": "fn run_quantum() {\n}\n",
                 "b/specs/Two.antt": laws("run_quantum")}
        self.assertEqual(self.rows(files), [])


class Files(Case):
    """Files of one name, and files of src/ without definitions of their name."""

    def test_two_files_of_one_name(self):
        rows = self.rows({"a/src/status.rt": "", "b/src/status.rt": ""})
        self.assertEqual(rows, ["crates/b/src/status.rt: crates/a/src/status.rt has the same name"])

    def test_two_files_of_definitions(self):
        rows = self.rows({"a/specs/Calls.antt": laws("x"), "b/proofs/Calls.antt": laws("y")})
        self.assertEqual(len(rows), 1)

    def test_files_of_proofs_that_many_functions_have(self):
        files = {f"{crate}/proofs/f/{part}.antt": "" for crate in "ab"
                 for part in ("Answers", "Invariants", "Proof")}
        self.assertEqual(self.rows(files), [])

    def test_files_that_many_crates_have(self):
        files = {"a/src/lib.rt": "", "b/src/lib.rt": "", "a/specs/Lib.antt": "",
                 "b/specs/Lib.antt": "", "a/specs/Cases.antt": laws("x"),
                 "b/specs/Cases.antt": laws("y")}
        self.assertEqual(self.rows(files), [])

    def test_code_without_definitions_of_its_name(self):
        code = "ghost use Rattle.a.specs.Other.{x};\nfn f() {\n}\n"
        rows = self.rows({"a/src/packed_cpu.rt": code, "a/specs/Other.antt": laws("x")})
        self.assertEqual(rows, ["crates/a/src/packed_cpu.rt: cites definitions of specs/, where no "
                                "PackedCpu.antt stands"])

    def test_code_with_definitions_of_its_name(self):
        code = "ghost use Rattle.a.specs.Other.{x};\nfn f() {\n}\n"
        files = {"a/src/packed_cpu.rt": code, "a/specs/Other.antt": laws("x"),
                 "a/specs/PackedCpu.antt": laws("y")}
        self.assertEqual(self.rows(files), [])

    def test_code_that_cites_other_crates_and_its_own_structs(self):
        code = ("ghost use Rattle.b.specs.Other.{x};\n"
                "ghost use Rattle.a.specs.declared.table.Table.{Table};\nfn f() {\n}\n")
        self.assertEqual(self.rows({"a/src/table.rt": code, "b/specs/Other.antt": laws("x")}), [])


class Pages(Case):
    """A page names what there is."""

    def rows_of(self, text, path="docs/REVIEW.md"):
        page = self.root / path
        page.parent.mkdir(exist_ok=True)
        page.write_text(text, encoding="utf-8")
        return self.rows({"a/src/alu.rt": "fn add() {\n}\n",
                          "a/specs/Alu.antt": laws("sum_of", "returns-then-x")})

    def test_names_that_there_are(self):
        text = "`add`, `sum_of` and `returns-then-x` are in `a/src/` and `a/specs/Alu`."
        self.assertEqual(self.rows_of(text), [])

    def test_a_name_that_is_gone(self):
        for name in ("sum_gone", "returns-then-y"):
            rows = self.rows_of(f"One line.\nThe law `{name} add` is a law.\n")
            self.assertEqual(rows, [f"docs/REVIEW.md:2: {name} stands in no file of the project"])

    def test_a_name_that_only_the_list_of_old_names_has(self):
        for path, rows in (("tools/respell", 1), ("tools/other", 0)):
            (self.root / "tools").mkdir(exist_ok=True)
            (self.root / path).write_text("sum_gone", encoding="utf-8")
            self.assertEqual(len(self.rows_of("`sum_gone`")), rows)

    def test_a_name_that_stands_only_in_what_rt_makes(self):
        (self.root / "crates/a/out").mkdir(parents=True)
        (self.root / "crates/a/out/log.txt").write_text("sum_gone", encoding="utf-8")
        self.assertEqual(len(self.rows_of("`sum_gone`")), 1)

    def test_a_name_that_only_another_page_has(self):
        (self.root / "README.md").write_text("the gone one", encoding="utf-8")
        self.assertEqual(len(self.rows_of("`gone`")), 1)

    def test_words_without_backquotes_and_other_pages(self):
        self.assertEqual(self.rows_of("gone"), [])
        self.assertEqual(self.rows_of("`gone`", "docs/CONTRIBUTING.md"), [])

    def test_a_name_that_stands_for_many(self):
        self.assertEqual(self.rows_of("`..Gone`, `gone..` and `gone_..`"), [])

    def test_a_name_in_another_file(self):
        rows = self.rows_of("The law\n`add`, `sum_of` in\n`a/src/alu.rt` is told.")
        self.assertEqual(rows, ["docs/REVIEW.md:3: sum_of does not stand in crates/a/src/alu.rt"])

    def test_names_in_a_file_without_its_ending(self):
        self.assertEqual(self.rows_of("`sum_of` in `a/specs/Alu`"), [])
        self.assertEqual(len(self.rows_of("`add` and `sum_of` in `a/specs/Alu`")), 1)

    def test_a_path_that_is_gone(self):
        there = "In `a/src/alu.rt`, `specs/Alu`, `a/src/`, `crates/a/out/liba.a` and `out/a`."
        self.assertEqual(self.rows_of(there), [])
        rows = self.rows_of("One line.\nIt is in `a/src/sum.rt`.")
        self.assertIn("docs/REVIEW.md:2: a/src/sum.rt is no file of the project", rows)


class Project(Case):
    """What the tool looks at, and how it ends."""

    def test_programs_are_left_out(self):
        files = {"a/src/main.rt": "struct Tally {\n}\n", "b/src/main.rt": "struct Tally {\n}\n",
                 "a/src/entry.rt": "", "b/src/entry.rt": ""}
        self.assertEqual(self.rows(files), [])

    def test_the_line_of_counts(self):
        self.rows({"a/specs/One.antt": laws("x"), "b/specs/One.antt": laws("x")})
        self.assertEqual(self.run_tool().stdout.splitlines()[-1],
                         "names declared again: 1, files of one name: 1, "
                         "files without definitions of their name: 0, "
                         "functions not held to the definition of their name: 0, "
                         "names on pages that are gone: 0")

    def test_no_project(self):
        (self.root / "crates").rmdir()
        done = self.run_tool()
        self.assertEqual(done.returncode, 2)
        self.assertIn("there is no folder crates/", done.stderr)


if __name__ == "__main__":
    unittest.main()
