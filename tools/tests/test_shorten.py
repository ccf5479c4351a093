"""Shorter proofs: what may stand in place of one, and what is kept of it. The kit's checks are made up."""

import importlib.machinery
import importlib.util
import os
import shutil
import unittest

import proofs
from arguments import arguments_in
from layout import joined
from support import TOOLS, ScriptTest

loader = importlib.machinery.SourceFileLoader("shorten", str(TOOLS / "shorten"))
shorten = importlib.util.module_from_spec(importlib.util.spec_from_loader("shorten", loader))
loader.exec_module(shorten)

LAW = """-- two steps
pub law : (a b : ℕ) → a ≡ b → f a ≡ g b
law a b e = ap (λ x. f x) e
    ∙ sym (same b)
    ∙ refl

other : P
other = q
"""

LOCAL = """law : (b : Bool) → P b
law b = by_test b
  where
    -- each way
    by_test : (b : Bool) → P b
    by_test true = first
    by_test false = second
"""

# A check that refuses the copies in which some words stand, and a layout that leaves everything as it is.
RT = r"""#!/bin/bash
echo "$*" >>FOLDER/calls
[ ! -e FOLDER/unproved ] || exit 1
status=0
for file in proofs/*.antt; do
    while IFS= read -r words; do
        for line in $(grep -n -F -- "$words" "$file" | cut -d : -f 1); do
            echo "./$file:$line:3: error: no proof"
            status=1
        done
    done <FOLDER/refused
done
echo "crate made: modules loaded=0 checked=$(cat FOLDER/read)"
exit $status
"""
RATTLE = '#!/bin/sh\ncat "$2"\n'


def change_of(text, changes):
    """Each change as what was there, in one line, and what would be."""
    return [(" ".join(text[it.start : it.end].split()), it.text) for it in changes]


class Places(unittest.TestCase):
    def test_a_definition_goes_from_its_signature_to_its_last_clause(self):
        lines = LAW.split("\n")
        self.assertEqual([it[:4] for it in proofs.definitions_of(lines)], [("law", 1, 2, 5), ("other", 6, 7, 8)])

    def test_a_where_block_belongs_to_its_definition(self):
        lines = (LOCAL + "\nnext : P\nnext = q\n").split("\n")
        self.assertEqual([it[:4] for it in proofs.definitions_of(lines)], [("law", 0, 1, 7), ("next", 8, 9, 10)])
        self.assertEqual([(it.name, it.line, it.end) for it in proofs.clauses_of(lines)][1:3], [("by_test", 5, 6), ("by_test", 6, 7)])

    def test_a_record_ends_with_its_bracket(self):
        lines = "law : P\nlaw = record {\n  first = x;\n}\nnext : P\nnext = q".split("\n")
        self.assertEqual([(it.name, it.end) for it in proofs.definitions_of(lines)], [("law", 4), ("next", 6)])

    def test_a_definition_of_a_module_stands_at_its_edge(self):
        text = "module _ (a : A)\n    (b : B) where\n  pub law : P\n  law = q\n    where\n      p : P\n      p = q\n\n  next : P\n  next = law\n"
        lines = (text + "last : Q\nlast = r\n").split("\n")
        found = [("law", 2, 3, 7, 2), ("next", 8, 9, 10, 2), ("last", 10, 11, 12, 0)]
        self.assertEqual([tuple(it) for it in proofs.definitions_of(lines)], found)

    def test_words_and_parts_keep_brackets_whole(self):
        self.assertEqual(proofs.words_of("f (g x) [y, z]"), ["f", "(g x)", "[y, z]"])
        self.assertEqual(proofs.cut_at("(a ∙ b) ∙ c", "∙"), ["(a ∙ b)", "c"])
        self.assertEqual(proofs.cut_at("(a, b), c", ","), ["(a, b)", "c"])
        self.assertEqual(proofs.without_brackets("((f x))"), "f x")
        self.assertEqual(proofs.without_brackets("(a, b)"), "(a, b)")
        self.assertFalse(proofs.is_whole("(a) (b)"))


class Forms(unittest.TestCase):
    def test_a_chain_stands_on_the_equations_of_its_steps(self):
        chain = "ap (λ x. f x) e ∙ sym (same b) ∙ (more c ∙ refl)"
        self.assertEqual(shorten.facts_of(chain), ["e", "same b", "more c"])
        self.assertEqual(shorten.plain_facts(chain), ["same b", "more c"])

    def test_a_fact_that_holds_a_function_is_not_listed(self):
        self.assertIsNone(shorten.plain_facts("first (λ x. y) ∙ second a"))

    def test_a_right_side_is_looked_for_by_its_facts_and_by_its_lemmas(self):
        found = shorten.found_by("λ n. first n a ∙ e", "f ≡ g", {"first"}, set())
        wanted = {"cc": "λ n. cc (first n a)", "grind": "λ n. grind (arith, first n a)"}
        wanted |= {"search": "search (first, arith)", "grind by lemmas": "grind (arith, first)"}
        self.assertEqual(found, wanted)
        self.assertNotIn("cc", shorten.found_by("first a b", "P a", {"first"}, set()))

    def test_a_definition_as_a_whole_takes_the_names_of_its_type(self):
        self.assertEqual(shorten.parameters("(a b : ℕ) {c : ℕ} → a ≡ b → P → Q", " zero b same (x, y)"), ["a", "b", "same", "e3"])
        self.assertEqual(shorten.parameters("P → (e0 : ℕ) → Q", " (x, y) n"), None)

    def test_chains_with_a_function_of_their_own(self):
        text = "law = let x : a ≡ b = ap (λ y. f y) (same a) ∙ e in g (ap (λ z. z) x) x"
        self.assertEqual(
            change_of(text, shorten.chains_in(text, 5, len(text))),
            [("ap (λ y. f y) (same a) ∙ e", "cc (same a)"), ("ap (λ z. z) x", "cc")],
        )

    def test_a_motive_goes_and_what_is_proved_stays(self):
        text = "law = subst (λ x. P x)\n    (sym (same a)) (subst (λ y. Q y) e t)"
        self.assertEqual(
            change_of(text, shorten.rewritings_in(text, 5, len(text))),
            [("subst (λ x. P x) (sym (same a))", "rw (same a)"), ("subst (λ y. Q y) e", "rw (← e)")],
        )

    def test_a_record_that_copies_fields_is_an_update(self):
        text = "law = record { a = r.a; b = new; c = r.c }"
        self.assertEqual(change_of(text, shorten.updates_in(text, 5, len(text)))[0][1], "record r { b = new }")
        for other in ("record { a = r.a; b = new }", "record { a = r.a; b = r.b }", "record { a = r.b; b = r.a; c = d }"):
            self.assertEqual(list(shorten.updates_in(other, 0, len(other))), [])

    def test_of_changes_within_one_another_the_outer_one_stays(self):
        outer, inner, behind = shorten.Change(2, 9, "a"), shorten.Change(4, 6, "b"), shorten.Change(9, 12, "c")
        self.assertEqual(shorten.apart([behind, inner, outer]), [outer, behind])


class Arguments(unittest.TestCase):
    def found(self, text, *own):
        def shown(it):
            return (text[it.start : it.end], [shown(inner) for inner in it.inner]) if it.inner else text[it.start : it.end]

        return [shown(it) for it in arguments_in(text, 0, len(text), own)]

    def test_those_in_a_bracket_stand_in_it(self):
        self.assertEqual(self.found("lemma (f aa (g bb)) cc.rest 1 ∙ other dd"), [("(f aa (g bb))", ["aa", ("(g bb)", ["bb"])]), "cc.rest", "dd"])

    def test_types_binders_motives_and_lists_of_tactics_have_none(self):
        self.assertEqual(self.found("let this : f aa ≡ bb = g cc in λ (x : h dd) ee. k ff"), ["cc", "ff"])
        self.assertEqual(self.found("elim (f aa) as (λ b. g b bb) [ true ↦ h cc | false ↦ search (h dd, arith) ]"), ["aa", "cc"])

    def test_what_is_never_found_by_itself_stays_and_is_looked_into(self):
        self.assertEqual(self.found("subst (λ x. P xx) (sym (f aa)) (own bb (g cc)) ∙ (h dd) ee", "own"), ["xx", "aa", "cc", "dd"])

    def test_comments_and_texts_are_passed_over(self):
        self.assertEqual(self.found('lemma aa -- f bb (\n    "g cc" dd'), ["aa", '"g cc"', "dd"])


class Layouts(unittest.TestCase):
    def test_a_clause_is_one_line_up_to_let(self):
        text = "law : P\nlaw = let x = f\n    a in\n    g (\n      x,\n    )\n\nother : P\nother =\n    q\n"
        self.assertEqual(joined(text, {"law"}), text.replace("f\n    a in", "f a in").replace("g (\n      x,\n    )", "g (x,)"))

    def test_a_right_side_stays_on_a_line_of_its_own(self):
        text = "law : P\nlaw =\n    f a\n    b\n"
        self.assertEqual(joined(text, {"law"}), "law : P\nlaw =\n    f a b\n")
        self.assertEqual(joined(text, {"law"}, whole=True), "law : P\nlaw = f a b\n")

    def test_the_brackets_of_cases_stand_by_themselves(self):
        text = "law : P\nlaw = elim b [\n      true ↦ refl\n      | false ↦ (\n        q\n      )\n    ]\n"
        self.assertEqual(joined(text, {"law"}), "law : P\nlaw = elim b [ true ↦ refl | false ↦ (q) ]\n")
        text = "law : P\nlaw = f [\n      a,\n      b\n    ]\n"
        self.assertEqual(joined(text, {"law"}), "law : P\nlaw = f [a, b]\n")

    def test_a_clause_with_a_comment_stays(self):
        text = "law : P\nlaw = f -- why\n    a\n"
        self.assertEqual(joined(text, {"law"}), text)


class Texts(unittest.TestCase):
    def test_local_functions_that_nothing_names_go(self):
        unused = LOCAL.replace("law b = by_test b", "law b = grind arith")
        self.assertEqual(shorten.without_unused(unused), "law : (b : Bool) → P b\nlaw b = grind arith\n")
        self.assertEqual(shorten.without_unused(LOCAL), LOCAL)

    def test_a_definition_with_as_many_lines_stays_as_it_was(self):
        new = LAW.replace("law a b e = ap (λ x. f x) e\n    ∙ sym (same b)\n    ∙ refl", "law a b e = cc (same b)")
        self.assertEqual(shorten.fewer_lines(LAW, new.replace("other = q", "other = r"), {"law", "other"}), new)
        self.assertEqual(shorten.fewer_lines(LAW, new, {"other"}), LAW)

    def test_values_that_nothing_names_go_unless_a_tactic_may_have_used_them(self):
        text = "law : P\nlaw = let x : A = f a in\n    let y = let z = b in g z in\n    h y\n"
        self.assertEqual(shorten.without_unused_values(text, {"law"}), "law : P\nlaw = let y = let z = b in g z in\n    h y\n")
        self.assertEqual(shorten.without_unused_values(text, {"other"}), text)
        by_tactic = text.replace("h y", "search arith")
        self.assertEqual(shorten.without_unused_values(by_tactic, {"law"}), by_tactic)


@unittest.skipUnless(shutil.which("grep") and shutil.which("cut"), "the checks are made up of grep and cut")
class Crates(ScriptTest):
    def setUp(self):
        super().setUp()
        (self.folder / "made/proofs").mkdir(parents=True)
        (self.folder / "bin").mkdir()
        for name, text in (("rt", RT), ("rattle", RATTLE)):
            path = self.folder / "bin" / name
            path.write_text(text.replace("FOLDER", str(self.folder)))
            path.chmod(0o755)
        self.environment["PATH"] = f"{self.folder}/bin{os.pathsep}{self.environment['PATH']}"
        (self.folder / "read").write_text("1")
        self.refuse()

    def refuse(self, *words):
        (self.folder / "refused").write_text("".join(f"{it}\n" for it in words))

    def shortened(self, text, *words):
        """What is left of a crate with one file of proofs, and how the script ended."""
        file = self.folder / "made/proofs/Laws.antt"
        file.write_text(text, encoding="utf-8")
        said = self.run_script("shorten", *words, "made")
        return file.read_text(encoding="utf-8"), said

    def calls(self):
        return (self.folder / "calls").read_text().splitlines()

    def test_a_proof_gives_way_to_what_the_kit_takes(self):
        self.refuse("search", "grind")
        new, said = self.shortened(LAW)
        self.assertEqual((said.out, said.error, said.status), ("made: 2 lines fewer\n", "", 0))
        self.assertIn("law a b e = cc (same b)\n\nother : P\nother = q\n", new)
        self.assertEqual(set(self.calls()), {"check --jobs 1"})

    def test_what_the_kit_refuses_stays(self):
        self.refuse("search", "grind", "cc")
        new, said = self.shortened(LAW)
        self.assertEqual((new, said.out, said.status), (LAW, "made: 0 lines fewer\n", 0))

    def test_one_refused_part_of_a_copy_takes_no_other_along(self):
        self.refuse("search", "grind", "cc (second", "_")
        text = "law : A ≡ B\nlaw = pair\n    (ap (λ x. f x)\n    (first a) ∙ e)\n    (ap (λ x. f x)\n    (second a) ∙ e)\n"
        new, said = self.shortened(text)
        self.assertEqual(said.out, "made: 4 lines fewer\n")
        self.assertEqual(new, "law : A ≡ B\nlaw = pair (cc (first a)) (ap (λ x. f x) (second a) ∙ e)\n")

    def test_arguments_give_way(self):
        self.refuse("search", "grind")
        text = "law : P\nlaw = lemma\n    (first here)\n    (second there)\n"
        new, said = self.shortened(text)
        self.assertEqual((new, said.out), ("law : P\nlaw = lemma _ _\n", "made: 2 lines fewer\n"))

    def test_what_was_not_read_is_not_found(self):
        self.refuse("search", "grind", "_")
        (self.folder / "read").write_text("0")
        new, said = self.shortened(LAW)
        self.assertEqual((new.count("\n"), said.out, said.status), (6, "made: 2 lines fewer\n", 0))
        self.assertEqual(len(self.calls()), 4)

    def test_what_does_not_go_together_gives_way(self):
        self.refuse("search", "grind", "_", "law a b e = cc")
        new, said = self.shortened(LAW)
        self.assertEqual((new, said.out, said.status), (LAW, "made: 0 lines fewer\n", 0))

    def test_steps_are_a_limit_of_the_search_alone(self):
        self.refuse(" cc", " grind", "steps 400000")
        new, said = self.shortened(LAW, "--steps", "7", "--jobs", "3")
        self.assertEqual(said.out, "made: 2 lines fewer\n")
        self.assertIn("law a b e = search arith\n", new)
        self.assertEqual(set(self.calls()), {"check --jobs 3"})

    def test_a_crate_that_is_not_proved_is_left_alone(self):
        (self.folder / "unproved").touch()
        new, said = self.shortened(LAW)
        self.assertEqual(new, LAW)
        self.assert_refused(said, "shorten: made isn't proved as it is", 1)

    def test_definitions_of_data_are_no_proofs(self):
        text = LAW.replace("f a ≡ g b", "ℕ")
        self.assertEqual(self.shortened(text)[0], text)
        self.assertEqual(len(self.calls()), 2)


class Words(ScriptTest):
    def test_no_crate_and_one_that_is_none(self):
        self.assert_refused(self.run_script("shorten"), "shorten: it takes a crate")
        self.assert_refused(self.run_script("shorten", "nosuch"), "shorten: nosuch is no crate with proofs")
        self.assert_refused(self.run_script("shorten", "--steps", "x", "a"), "shorten: --steps takes a number of at most 9 digits")

    def test_help(self):
        said = self.run_script("shorten", "--help")
        self.assertEqual((said.error, said.status), ("", 0))
        self.assertIn("Looks for shorter proofs", said.out)


if __name__ == "__main__":
    unittest.main()
