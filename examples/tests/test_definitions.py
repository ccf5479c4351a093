"""Tests of tools/definitions, over small sources whose closure can be seen by eye."""

import unittest

from scripts import EXAMPLES, ScriptTest, module_of

SCRIPT = EXAMPLES.parent / "tools" / "definitions"
definitions = module_of(SCRIPT)

NUMBERS = """\
-- Numbers, in the lowest crate.
use Rattle.std.specs.Prelude.{ℕ, ◌+◌}
use Rattle.vyrd_low.specs.declared.word.Word.{Word}

-- This comment names far.
abbrev pub one : ℕ
one = 1

abbrev pub two : ℕ
two = one + one  -- and so does this

abbrev pub far : ℕ
far = 9

pub record Pair : Type 0 where
  -- a field that has the name of a definition
  pub far : ℕ
  pub word : Word

infix 30 ◌joins◌
abbrev pub ◌joins◌ : ℕ → ℕ → ℕ
a joins b = two

pub data Tree : Type 0 where
  leaf : Tree
  node : Tree → Pair → Tree
"""

ANSWERS = """\
use Rattle.vyrd_low.specs.Numbers.{one, two, far, ◌joins◌, node as made}
use Rattle.vyrd_low.specs.Numbers as numbers
use Rattle.vyrd_top.specs.declared.form.Form.{Form}
use Rattle.vyrd_top.specs.declared.form.Form.TheVariants as asked
use Rattle.vyrd_top.specs.declared.form.Form.TheVariants.{Run}

abbrev pub said : ℕ
said = codes "far -- one"

abbrev pub joined : ℕ → ℕ
joined n =
    n joins 3

abbrev pub answer : Form → ℕ
answer asked.Check = one
answer (asked.Step show) = said
answer Run = numbers.far

abbrev pub of_pair : Pair → ℕ
of_pair p = p.far

abbrev pub of_tree : ℕ
of_tree = made
"""

WORD = """\
//! A word.
ghost use Rattle.vyrd_low.specs.Numbers.{one, two};

use crate::kind::Kind;

/// A word below one.
#[derive(Clone)]
pub struct Word {
    kind: Kind,
    /// Not two.
    ghost low: { kind < one },
}
"""

KIND = "pub enum Kind {\n    Only,\n}\n"
DEVICE = """\
pub trait Source {
    ghost rest: { Self → List };

    ghost faults: { Self → ℕ };

    fn read(&mut self)
        ensures given { rest self.new };
}

pub trait Played {
    ghost subject: { Kind };

    ghost is_right: { (n : ℕ) → two ≡ subject };
}
"""
DEVICE_USES = "ghost use Rattle.vyrd_low.specs.Numbers.{two};\nuse crate::kind::Kind;\n\n"
FORM = "pub enum Form {\n    Check,\n    Step { show: u32 },\n    Run,\n}\n"
TOP = """\
ghost use Rattle.vyrd_top.specs.Answers.{answer, joined, of_pair, of_tree};
use vyrd_low::{Source, Word};

/// This names joined.
pub fn top<R: Sync, S: Source>(
    words: &[&str],
    source: &mut S,
) -> Ended
    // And this names of_tree.
    ensures answered { answer (S.rest source.old) }
    ensures joined { IfSome (λ n. { joined n }) }
    ensures paired { of_pair }
    ensures treed { of_tree }
{
    joined(source)
}

pub fn law()
    requires { of_pair }
    ensures { joined }
{}
"""
LOW = "vyrd_low/specs/Numbers.antt"
HIGH = "vyrd_top/specs/Answers.antt"
RUST = "vyrd_top/src/top.rt"


class Definitions(ScriptTest):
    def setUp(self):
        super().setUp()
        self.write(LOW, NUMBERS)
        self.write(HIGH, ANSWERS)
        self.write(RUST, TOP)
        self.write("vyrd_low/src/word.rt", WORD)
        self.write("vyrd_low/src/kind.rt", KIND)
        self.write("vyrd_low/src/device.rt", DEVICE_USES + DEVICE)
        self.write("vyrd_top/src/form.rt", FORM)

    def write(self, name, text):
        self.file(f"crates/{name}", text)

    def sources(self):
        return definitions.Sources(self.folder / "crates", ("vyrd_top/src/form.rt", "Form"))

    def row(self, forms, clauses):
        return definitions.row_of("1", definitions.Sentence(forms, clauses), self.sources())

    def assert_reached(self, clause, forms, expected):
        """What a clause of `top` reaches: the names, each with its file."""
        sources = self.sources()
        reached = sources.reached(sources.clauses((RUST, "top"), (clause,)).values(), forms)
        self.assertEqual(reached, {(file, name) for file, names in expected.items() for name in names.split()})

    def test_names_are_followed(self):
        self.assert_reached("joined", (), {HIGH: "joined", LOW: "◌joins◌ two one"})

    def test_equations_of_other_forms_are_left_out(self):
        always = {"vyrd_low/src/device.rt": ["Source.rest"], "vyrd_top/src/form.rt": ["Form"]}
        beside = {file: " ".join(names) for file, names in always.items()}
        self.assert_reached("answered", ("Check",), {HIGH: "answer", LOW: "one", **beside})
        self.assert_reached("answered", ("Step",), {HIGH: "answer said", **beside})
        self.assert_reached("answered", ("Run",), {HIGH: "answer", LOW: "far", **beside})
        self.assert_reached("answered", ("Check", "Step"), {HIGH: "answer said", LOW: "one", **beside})
        self.assert_reached("answered", (), {HIGH: "answer", **beside})

    def test_fields_are_no_references(self):
        self.assert_reached("paired", (), {HIGH: "of_pair"})

    def test_constructors_stand_for_their_type(self):
        declared = {"vyrd_low/src/word.rt": "Word", "vyrd_low/src/kind.rt": "Kind"}
        self.assert_reached("treed", (), {HIGH: "of_tree", LOW: "Tree Pair one", **declared})

    def test_members_of_traits_are_clauses(self):
        row = self.row((), {("vyrd_low/src/device.rt", "Played"): ("is_right",)})
        declared = [("vyrd_low/src/device.rt", "Played.subject"), ("vyrd_low/src/kind.rt", "Kind")]
        self.assertEqual(row, definitions.Row("1", ["Played.is_right"], [LOW], 2, 4, declared, ["vyrd_low"]))

    def test_clause_without_a_name(self):
        row = self.row((), {(RUST, "law"): ("",)})
        self.assertEqual((row.clauses, row.definitions), (["law"], 4))

    def test_all_clauses_of_a_function(self):
        row = self.row(None, {(RUST, "top"): ()})
        self.assertEqual(row.clauses, ["top.answered", "top.joined", "top.paired", "top.treed"])
        self.assertEqual(row.files, [LOW, HIGH])
        # of Numbers one, two, far, Pair, joins, Tree; of Answers all five
        self.assertEqual((row.definitions, row.lines), (11, 2 + 2 + 2 + 3 + 2 + 3 + 2 + 3 + 4 + 2 + 2))

    def test_table(self):
        row = self.row(("Step",), {(RUST, "top"): ("answered", "joined")})
        lines = list(definitions.table([row], True))
        self.assertEqual(lines[0].split()[:3], ["sentence", "clauses", "files"])
        self.assertEqual(lines[1].split(), ["1", "2", "2", "6", "15", "2", "low", "top"])
        self.assertEqual(
            lines[2:],
            [
                "    clauses: top.answered top.joined",
                "    vyrd_low/specs: Numbers",
                "    vyrd_low/src: Source.rest",
                "    vyrd_top/specs: Answers",
                "    vyrd_top/src: Form",
            ],
        )

    def assert_broken(self, sentence, clauses, forms=()):
        with self.assertRaisesRegex(definitions.Broken, sentence):
            self.row(forms, clauses)

    def test_what_isnt_there_is_said(self):
        self.assert_broken("top in crates/.*top.rt has no clause said", {(RUST, "top"): ("said",)})
        self.assert_broken("has no clause without a name", {(RUST, "top"): ("",)})
        self.assert_broken("Form in crates/.*form.rt has no form Stop", {(RUST, "top"): ()}, ("Check", "Stop"))
        self.assert_broken("has no function bottom", {(RUST, "bottom"): ("said",)})
        self.assert_broken("crates/vyrd_top/src/no.rt can't be read", {("vyrd_top/src/no.rt", "top"): ("said",)})
        self.write(LOW, NUMBERS.replace("  node :", "  knot :"))
        self.assert_broken("crates/vyrd_low/specs/Numbers.antt has no definition node", {(RUST, "top"): ("treed",)})

    def test_import_of_another_form_is_said(self):
        self.write(HIGH, ANSWERS.replace("{one, two,", "{one,\n    two,"))
        self.assert_broken("has an import of another form", {(RUST, "top"): ("joined",)})


class Words(ScriptTest):
    def definitions(self, *words):
        return self.run_script(SCRIPT, *words)

    def test_help(self):
        ran = self.definitions("--help")
        self.assert_ended(ran, 0, ran.stdout, [])
        self.assertIn(b"tools/definitions [--files] [SENTENCE...]", ran.stdout)

    def test_misuse(self):
        self.assert_ended(self.definitions("10"), 64, b"", ["'10' is no sentence"])
        self.assert_ended(self.definitions("1", "-x"), 64, b"", ["'-x' is no sentence"])

    def test_output_that_takes_nothing(self):
        self.assert_ended(self.run_shell('"$examples"/../tools/definitions 8 > /dev/full'), 5, b"", ["can't be written to"])
        self.assert_ended(self.run_shell('"$examples"/../tools/definitions --files | true'), 0, b"", [])

    def test_one_sentence_of_this_repository(self):
        ran = self.definitions("--files", "4")
        self.assertEqual((ran.returncode, ran.stderr), (0, b""))
        self.assertEqual([line.split()[0] for line in ran.stdout.decode().splitlines()[:2]], ["sentence", "4"])
        self.assertRegex(ran.stdout, rb"(?m)^    vyrd_mover/specs: Blocks ")


if __name__ == "__main__":
    unittest.main()
