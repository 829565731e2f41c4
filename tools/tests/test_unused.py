"""Tests of tools/unused, each on a tiny project in a temporary folder. No toolchain is needed."""
import subprocess
import sys
import tempfile
import unittest
from pathlib import Path

TOOL = Path(__file__).resolve().parent.parent / "unused"

DEFINITIONS = "-- Definitions that must be believed: some.\n"
LAWS = "-- Laws that the checker has shown: some.\n"
PRIVATE = "-- What private code is held to: some.\n"


def code(contract, uses=""):
    """A Rattle file with one function."""
    return f"{uses}fn f(n: u8) -> u8\n    ensures {{ {contract} }}\n{{\n    n\n}}\n"


def laws(*names):
    """A file of laws with these names, the first on line 2 and the others three lines on."""
    return LAWS + "\n".join(f"pub {name} : ℕ\n{name} = 1\n" for name in names)


class Case(unittest.TestCase):
    """A test with a project in a temporary folder."""

    def setUp(self):
        folder = tempfile.TemporaryDirectory()
        self.addCleanup(folder.cleanup)
        self.root = Path(folder.name)
        (self.root / "crates").mkdir()

    def write(self, files):
        for path, text in files.items():
            file = self.root / path
            file.parent.mkdir(parents=True, exist_ok=True)
            file.write_text(text, encoding="utf-8")

    def run_tool(self, *words):
        command = [sys.executable, "-B", str(TOOL), "--root", str(self.root), *words]
        return subprocess.run(command, capture_output=True, encoding="utf-8")

    def rows(self, files, *words):
        """The rows about a project of these files, without the line of counts."""
        self.write(files)
        done = self.run_tool(*words)
        self.assertEqual(done.stderr, "")
        return done.stdout.splitlines()[:-1]

    def names(self, files):
        """The names that the rows about a project of these files end with."""
        return [row.split()[-1] for row in self.rows(files)]


class Rows(Case):
    """What a row says, and how the tool ends."""

    def test_nothing_unused(self):
        self.write({
            "crates/a/src/lib.rt": code("p result", "ghost use Rattle.a.specs.D.{p};\n"),
            "crates/a/specs/D.antt": DEFINITIONS + "pub p : ℕ\np = 1\n",
        })
        done = self.run_tool()
        self.assertEqual(done.returncode, 0)
        counts = "unused definitions: 0, unused laws: 0, unused imports: 0\n"
        self.assertEqual(done.stdout, counts)

    def test_each_kind_with_its_place(self):
        self.write({
            "crates/a/src/lib.rt": "use crate::m::g;\n\nfn f() {}\n",
            "crates/a/specs/D.antt": DEFINITIONS + "use lib.N.{n}\n\npub p : ℕ\np = 1\n",
            "crates/a/specs/K.antt": PRIVATE + "pub k : ℕ\nk = 1\n",
            "crates/a/specs/L.antt": LAWS + "\nlaw : ℕ\nlaw = 1\n",
            "crates/a/proofs/P.antt": "-- What the loops keep.\npub kept : ℕ\nkept = 1\n",
        })
        done = self.run_tool()
        self.assertEqual(done.returncode, 1)
        self.assertEqual(done.stdout.splitlines(), [
            "crates/a/proofs/P.antt:2: unused law kept",
            "crates/a/specs/D.antt:2: unused import n",
            "crates/a/specs/D.antt:4: unused definition p",
            "crates/a/specs/K.antt:2: unused definition k",
            "crates/a/specs/L.antt:3: unused law law",
            "crates/a/src/lib.rt:1: unused import g",
            "unused definitions: 2, unused laws: 2, unused imports: 2",
        ])

    def test_help_is_the_docstring(self):
        self.assertIn("A row is one of", self.run_tool("--help").stdout)

    def test_a_project_that_cannot_be_read(self):
        self.write({"crates/a/specs/D.antt": DEFINITIONS + "use E.*\n"})
        done = self.run_tool()
        self.assertEqual(done.returncode, 2)
        self.assertIn("crates/a/specs/D.antt:2: ", done.stderr)


class Reached(Case):
    """Which definitions and laws the roots lead to."""

    def test_what_only_unused_things_use_is_unused(self):
        text = LAWS + "a : ℕ\na = 1\n\nb : ℕ\nb = a\n\nc : ℕ\nc = 1\n"
        for part, name in (("Answers", "returns"), ("Invariants", "invariant-loop-i"),
                           ("Proof", "f_spec")):
            proof = f"use Rattle.a.specs.L.{{c}}\n\npub {name} : ℕ\n{name} = c\n"
            files = {"crates/a/specs/L.antt": text, f"crates/a/proofs/f/{part}.antt": proof}
            with self.subTest(part):
                self.assertEqual(self.names(files), ["a", "b"])
                (self.root / f"crates/a/proofs/f/{part}.antt").unlink()

    def test_an_unused_import_is_no_use(self):
        self.assertEqual(self.names({
            "crates/a/specs/D.antt": DEFINITIONS + "pub p : ℕ\np = 1\n",
            "crates/a/proofs/f/Answers.antt": "use Rattle.a.specs.D.{p}\n\nf : ℕ\nf = 1\n",
        }), ["p", "p"])

    def test_one_name_in_two_crates(self):
        files = {"crates/b/proofs/f/Answers.antt": "use Rattle.a.specs.D.{p}\n\nf : ℕ\nf = p\n"}
        for crate in "ab":
            files[f"crates/{crate}/specs/D.antt"] = DEFINITIONS + "pub p : ℕ\np = 1\n"
        self.assertEqual(self.rows(files), ["crates/b/specs/D.antt:2: unused definition p"])

    def test_contracts_are_roots_and_bodies_are_not(self):
        uses = "ghost use Rattle.a.specs.D.{p, q, n};\nghost use lib.M as m;\n"
        text = code("record { x = p } ≡ m.y", uses)
        definitions = "pub p : ℕ\np = 1\n\npub q : ℕ\nq = 1\n\npub n : ℕ\nn = 1\n"
        ghost = "fn g()\n    ghost top: { q }\n    requires named { true }\n{}\n"
        files = {"crates/a/src/lib.rt": text, "crates/a/specs/D.antt": DEFINITIONS + definitions}
        self.assertEqual(self.names(files), ["q", "n", "n", "q"])
        files["crates/a/src/lib.rt"] += ghost
        self.assertEqual(self.names(files), ["n", "n"])

    def test_a_field_and_the_name_of_a_clause_are_no_use(self):
        uses = "ghost use Rattle.a.specs.D.{p};\n"
        contract = "result.p ≡ (g n).p }\n    ensures p { result ≡ n"
        files = {"crates/a/src/lib.rt": code(contract, uses),
                 "crates/a/specs/D.antt": DEFINITIONS + "pub p : ℕ\np = 1\n"}
        self.assertEqual(self.names(files), ["p", "p"])

    def test_what_an_attribute_gives_to_a_tactic(self):
        attribute = "#[tactic(auto, using({}), unfolding(b::specs::D::q))]\n"
        files = {"crates/a/proofs/L.antt": laws("one", "two", "three"),
                 "crates/b/specs/D.antt": DEFINITIONS + "pub p : ℕ\np = 1\n\npub q : ℕ\nq = 1\n"}
        laws_given = "crate::proofs::L::one, a::proofs::L::two"
        files["crates/a/src/lib.rt"] = attribute.format(laws_given) + code("result ≡ n")
        self.assertEqual(self.names(files), ["three", "p"])

    def test_helpers_of_a_where_block_belong_to_their_declaration(self):
        text = LAWS + (
            "a : ℕ\na = 1\n\nb : ℕ\nb = go 1\n  where\n    go : ℕ → ℕ\n    go n = a\n"
        )
        self.assertEqual(self.names({"crates/a/specs/L.antt": text}), ["a", "b"])
        self.assertEqual(self.names({"docs/REVIEW.md": "`b`"}), [])

    def test_a_clause_may_end_with_a_bracket_at_the_margin(self):
        text = LAWS + "a : ℕ\na = 1\n\nb : ℕ\nunfolding a\nb = (\n  2,\n)\n"
        self.assertEqual(self.names({"crates/a/specs/L.antt": text, "docs/REVIEW.md": "`b`"}), [])

    def test_blocks_with_parameters(self):
        text = LAWS + (
            "T : Type 0\nT = ℕ\n\nU : Type 0\nU = ℕ\n\n"
            "module _ (x : T)\n    (y : ℕ) where\n"
            "  pub a : ℕ\n  a = 1\n\n"
            "  module _ (z : U) where\n    b : ℕ\n    b = 1\n\n"
            "  c : ℕ\n  c = 1\n"
        )
        files = {"crates/a/specs/L.antt": text, "docs/REVIEW.md": "`a`"}
        self.assertEqual(self.names(files), ["U", "b", "c"])

    def test_a_type_is_used_by_its_constructors_and_not_by_field_names(self):
        text = DEFINITIONS + (
            "pub data Event : Type 0 where\n  call : ℕ → Event\n  on off : Event\n\n"
            "pub record R : Type 0 where\n  pub size : ℕ\n"
        )
        proof = "use Rattle.a.specs.D.{call, R}\n\nf : R\nf = (call 1).size r.size\n"
        files = {
            "crates/a/specs/D.antt": text,
            "crates/a/specs/E.antt": DEFINITIONS + "pub size : ℕ\nsize = 1\n",
            "crates/a/proofs/f/Answers.antt": "use Rattle.a.specs.E.{size}\n" + proof,
        }
        self.assertEqual(self.names(files), ["size", "size"])
        proof = "use Rattle.a.specs.D.Event.{off}\n\nf : ℕ\nf = off\n"
        self.assertEqual(self.names({"crates/a/proofs/f/Answers.antt": proof}), ["R", "size"])

    def test_paths_through_an_imported_module(self):
        files = {
            "crates/a/specs/D.antt": DEFINITIONS + "pub p : ℕ\np = 1\n\npub q : ℕ\nq = 1\n",
            "crates/a/proofs/f/Answers.antt": "use Rattle.a.specs.D as d\n\nf : ℕ\nf = d.p\n",
        }
        self.assertEqual(self.names(files), ["q"])
        whole = "f : ℕ\nf = Rattle.a.specs.D.p\n"
        self.assertEqual(self.names({"crates/a/proofs/f/Answers.antt": whole}), ["q"])
        twice = "use Rattle.a.specs.D as d\nuse d.{p}\n\nf : ℕ\nf = p\n"
        self.assertEqual(self.names({"crates/a/proofs/f/Answers.antt": twice}), ["q"])

    def test_what_invariants_declare_for_answers(self):
        goals = "use Rattle.a.proofs.f.Goals as goal\n"
        self.assertEqual(self.names({
            "crates/a/specs/L.antt": laws("test", "returns"),
            "crates/a/proofs/f/Invariants.antt": "pub test : ℕ\ntest = 1\n",
            "crates/a/proofs/f/Answers.antt": "use Rattle.a.proofs.f.Invariants.{test}\n" + goals
                                              + "\npub x : goal.returns\nx = test\n",
        }), ["test", "returns"])

    def test_names_that_are_passed_on(self):
        self.assertEqual(self.names({
            "crates/a/specs/D.antt": DEFINITIONS + "pub p : ℕ\np = 1\n",
            "crates/a/specs/E.antt": DEFINITIONS + "pub use Rattle.a.specs.D.{p as q}\n",
            "crates/a/proofs/f/Answers.antt": "use Rattle.a.specs.E.{q}\n\nf : ℕ\nf = q\n",
        }), [])

    def test_what_readers_look_at(self):
        self.assertEqual(self.names({
            "docs/REVIEW.md": "The law `one` holds. So does `Laws.two`; `a` three `b`.\n"
                              "`copied d`/`four` at `specs/five`\n",
            "docs/ARCHITECTURE.md": "Another page: `seven`\n",
            "crates/a/specs/L.antt": laws("one", "two", "three", "four", "five", "seven"),
            "crates/a/specs/Cases.antt": LAWS + "pub six : ℕ\nsix = 1\n",
        }), ["three", "seven"])

    def test_edits_that_must_fail(self):
        edit = "It says p.\nfile: specs/D.antt\nold: 1\nnew: q\n"
        text = DEFINITIONS + "use lib.N.{p, q}\npub p : ℕ\np = 1\n"
        files = {"crates/a/specs/D.antt": text, "docs/REVIEW.md": "`p`"}
        self.assertEqual(self.names(files), ["q"])
        self.assertEqual(self.names({"crates/a/must-fail/q.edit": edit}), [])

    def test_code_in_an_edit_is_no_contract(self):
        files = {"crates/a/src/lib.rt": code("result ≡ n", "ghost use lib.N.{◌≡◌, ◌-◌};\n")}
        edit = "file: src/lib.rt\nold:     n\nnew:     n - 1\n"
        self.assertEqual(self.names({**files, "crates/a/must-fail/e.edit": edit}), ["◌-◌"])
        edit = "file: src/lib.rt\nold: result ≡ n\nnew: result ≡ n - 1\n"
        self.assertEqual(self.names({**files, "crates/a/must-fail/e.edit": edit}), [])

    def test_a_use_line_that_an_edit_quotes_stays(self):
        files = {"crates/a/proofs/L.antt": LAWS + "use lib.N.{p}\n"}
        edit = "file: proofs/L.antt\nold: use lib.N.{p}\nnew: use lib.N.{p, q}\n"
        self.assertEqual(self.names(files), ["p"])
        self.assertEqual(self.names({**files, "crates/a/must-fail/e.edit": edit}), [])

    def test_functions_of_one_block(self):
        text = LAWS + (
            "a : ℕ\na = 1\n\nb : ℕ\nb = 1\n\n"
            "mutual\n  even : ℕ\n  even = odd\n    where\n      go : ℕ\n      go = a\n\n"
            "  odd : ℕ\n  odd = even\n"
        )
        self.assertEqual(self.names({"crates/a/specs/L.antt": text, "docs/REVIEW.md": "`odd`"}),
                         ["b"])

    def test_a_fixity_is_no_use(self):
        text = LAWS + "infixl 70 ◌⊓◌\n◌⊓◌ : ℕ → ℕ → ℕ\na ⊓ b = a\n\nc : ℕ\nc = 1\n"
        files = {"crates/a/specs/L.antt": text, "docs/REVIEW.md": "`c`"}
        self.assertEqual(self.names(files), ["◌⊓◌"])
        self.assertEqual(self.names({"crates/a/specs/L.antt": text + "    ⊓ 2\n"}), [])

    def test_a_module_that_is_no_file_has_everything_so_spelled(self):
        self.assertEqual(self.names({
            "crates/a/specs/D.antt": DEFINITIONS + "pub p : ℕ\np = 1\n\npub q : ℕ\nq = 1\n",
            "crates/a/proofs/f/Answers.antt": "use Rattle.a.specs.X.{p}\n\nf : ℕ\nf = p\n",
        }), ["q"])

    def test_a_module_that_rattle_makes_and_one_of_the_library_have_nothing_of_ours(self):
        made = "Rattle.a.specs.declared.m.T", "Rattle.a.proofs.g.Goals", "Rattle.std.specs.Prelude"
        for module in made:
            with self.subTest(module):
                self.assertEqual(self.names({
                    "crates/a/specs/D.antt": DEFINITIONS + "pub p : ℕ\np = 1\n",
                    "crates/a/proofs/f/Answers.antt": f"use {module}.{{p}}\n\nf : ℕ\nf = p\n",
                }), ["p"])

    def test_a_set_of_rules(self):
        text = "-- Rules.\nuse lib.N.{n}\n\nx : ℕ\nx = 1\n\npub ruleset rules = (x, n)\n"
        proof = "use Rattle.a.proofs.P.{rules}\n\nf : ℕ\nf = search rules\n"
        files = {"crates/a/proofs/P.antt": text, "crates/a/proofs/f/Answers.antt": proof}
        self.assertEqual(self.names(files), [])


class Imports(Case):
    """Which imports of antt a file uses."""

    def unused(self, uses, body):
        return self.names({"crates/a/proofs/f/Answers.antt": f"{uses}\n\nf : ℕ\nf = {body}\n"})

    def test_operators_are_used_by_their_parts(self):
        uses = "use lib.N.{◌+◌, ◌-◌, if◌then◌else◌, ◌∙◌, ◌*◌, ¬◌, ◌≡◌}"
        body = "(if x then ◌+◌ 1 else 2) (◌∙ 3) (4 *◌) ¬ y"
        self.assertEqual(self.unused(uses, body), ["◌-◌", "◌≡◌"])

    def test_what_a_dot_parts(self):
        uses = "use lib.N.{a, b, c, d, e}\nuse lib.M as m\nuse lib.K as k\nuse lib.H"
        body = "(λ a. b) (x.c) ((y z).d) (m.e 1) (k 2) (H.z)"
        self.assertEqual(self.unused(uses, body), ["c", "d", "e", "k"])

    def test_brackets_and_lists(self):
        self.assertEqual(self.unused("use lib.N.{[], ◌∷◌, a, b}", "{x = a} ∷ [];"), ["b"])

    def test_renamed_and_escaped_names(self):
        uses = "use lib.N.{a as b, c as d, «max_len», «min_len»}"
        self.assertEqual(self.unused(uses, "a d «max_len»"), ["b", "«min_len»"])

    def test_comments_and_quoted_texts_are_no_use(self):
        self.assertEqual(self.unused("use lib.N.{a, b, c, d}", '1 -- a\n  {- b -} "c -- " d'),
                         ["a", "b", "c"])

    def test_a_name_of_a_declared_type(self):
        self.assertEqual(self.unused("use Rattle.a.specs.declared.t.T.{T}", "1"), ["T"])

    def test_a_long_line_has_a_row_at_each_name(self):
        uses = "use lib.N.{\n  a,\n  b,\n}"
        rows = self.rows({"crates/a/proofs/f/Answers.antt": f"{uses}\n\nf : ℕ\nf = a\n"})
        self.assertEqual(rows, ["crates/a/proofs/f/Answers.antt:3: unused import b"])


class RattleImports(Case):
    """Which imports of Rattle a file uses."""

    def unused(self, text):
        return self.names({"crates/a/src/lib.rt": text})

    def test_names_types_and_modules(self):
        uses = "use crate::m;\nuse crate::n;\nuse a::T;\nuse a::{U, V as W};\nuse a::X;\n"
        body = "mod n;\n// X\nfn f(t: T) -> u8 { m::g(t.n, b\"X\", b'X', U) }\n"
        self.assertEqual(self.unused(uses + body), ["n", "W", "X"])

    def test_a_range_is_no_field(self):
        self.assertEqual(self.unused("use a::N;\nfn f() { for i in 0..N {} }\n"), [])

    def test_a_contract_may_say_a_name_of_rattle(self):
        text = code("result ≡ Kind.Big SIZE", "use a::Kind;\nuse a::SIZE;\nuse a::T;\n")
        self.assertEqual(self.unused(text), ["T"])

    def test_a_module_with_things_of_it(self):
        uses = "use std::io::{self, BufReader};\nuse std::fmt::{self, Display};\n"
        self.assertEqual(self.unused(uses + "fn f() -> io::Result<Display> {}\n"),
                         ["BufReader", "fmt"])

    def test_traits_whose_methods_are_called(self):
        uses = "use std::io::Read;\nuse std::io::{BufRead, Write};\nuse a::Read as R;\n"
        self.assertEqual(self.unused(uses + "fn f() { x.read() }\n"), ["R"])

    def test_exports_and_paths_through_an_import(self):
        self.assertEqual(self.unused("use crate::m;\npub use m::T;\npub(crate) use a::U;\n"), [])


class Mend(Case):
    """What `--mend` does to `use` lines."""

    def mended(self, text, path="crates/a/proofs/f/Answers.antt"):
        self.write({path: text})
        self.run_tool("--mend")
        return (self.root / path).read_text(encoding="utf-8")

    def test_it_says_what_it_removed(self):
        self.write({"crates/b/proofs/f/Answers.antt": "use lib.N.{a, b}\n\nf : ℕ\nf = a\n",
                    "crates/b/proofs/f/Invariants.antt": "use lib.N.{a}\n\ng : ℕ\ng = 1\n",
                    "crates/a/src/lib.rt": "use a::T;\n"})
        done = self.run_tool("--mend")
        self.assertEqual(done.returncode, 0)
        self.assertEqual(done.stdout.splitlines(), [
            "crates/a/src/lib.rt:1: removed import T",
            "crates/b/proofs/f/Answers.antt:1: removed import b",
            "crates/b/proofs/f/Invariants.antt:1: removed import a",
            "unused definitions: 0, unused laws: 0, removed imports: 3",
            "run rt fmt in crates/a",
            "run rt fmt in crates/b",
        ])
        self.assertEqual(self.run_tool().returncode, 0)

    def test_definitions_stay_and_are_listed(self):
        text = DEFINITIONS + "use lib.N.{a}\n\np : ℕ\np = 1\n"
        self.write({"crates/a/specs/D.antt": text})
        self.assertEqual(self.run_tool("--mend").returncode, 1)
        mended = (self.root / "crates/a/specs/D.antt").read_text(encoding="utf-8")
        self.assertEqual(mended, DEFINITIONS + "\np : ℕ\np = 1\n")

    def test_names_at_each_place_of_a_line(self):
        body = "\n\nf : ℕ\nf = b d\n"
        text = "use lib.N.{a, b, c, d, e}\nuse lib.M.{x}\nuse lib.K as k\nuse lib.O.{d}"
        self.assertEqual(self.mended(text + body), "use lib.N.{b, d}\nuse lib.O.{d}" + body)

    def test_a_long_line_keeps_its_shape(self):
        body = "\n\nf : ℕ\nf = b\n"
        self.assertEqual(self.mended("use lib.N.{\n  a,\n  b,\n  c,\n}" + body),
                         "use lib.N.{\n  b,\n}" + body)

    def test_no_blank_line_is_left_over(self):
        body = "f : ℕ\nf = 1\n"
        self.assertEqual(self.mended("use lib.N.{a}\nuse lib.M.{b}\n\n" + body), body)
        self.assertEqual(self.mended("-- A.\n\nuse lib.N.{a}\n\n" + body), "-- A.\n\n" + body)

    def test_lines_of_rattle(self):
        text = "// A.\nghost use lib.N.{a, b};\nuse crate::m;\nuse a::{T, U};\n"
        contract = code("b T")
        self.assertEqual(self.mended(text + contract, "crates/a/src/lib.rt"),
                         "// A.\nghost use lib.N.{b};\nuse a::{T};\n" + contract)


if __name__ == "__main__":
    unittest.main()
