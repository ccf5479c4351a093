"""The definitions of a verdict, and the crates that judge by them, name no structure and none of its methods."""

import re
import unittest

from support import TOOLS

CRATES = TOOLS.parent / "crates"
SUBJECT = CRATES / "vyrd_base/src/subject.rt"
VERDICT = ("Callers", "Commits", "Faults", "Front", "Places", "Shape", "Starts", "TextVerdicts", "Verdicts", "Words")
JUDGING = ("shape", "shadow", "words", "observers", "plain", "judge", "check")


def structures():
    """The variants of `Subject`."""
    return re.findall(r"(?m)^    (\w+),", re.search(r"(?m)pub enum Subject \{([\s\S]*?)^\}", SUBJECT.read_text())[1])


def named(text, names):
    """What in a file of code, definitions or proofs names a structure or a method of one."""
    either = "|".join(names)
    lower = "|".join(name.lower() for name in names)
    forms = (
        rf"\b(?:Subject|Method)::(?:{either})\b",
        rf"\b(?:{either})Method\b",
        r"\b(?:Subject|Method)\.(?:TheVariants\b|(?:%s)\b)" % either,
        rf"\bvyrd_base\.specs\.(?:declared\.)?(?:{either}|{lower})\.",
    )
    return [found[0] for form in forms for found in re.finditer(form, text)]


class Structures(unittest.TestCase):
    def assert_none_named(self, files):
        names = structures()
        for file in files:
            self.assertEqual(named(file.read_text(), names), [], f"in {file.relative_to(CRATES)}")

    def test_there_are_four_and_the_users_own(self):
        self.assertEqual(structures(), ["Multiset", "Cache", "Tree", "Buffers", "Own"])

    def test_what_names_one_is_found(self):
        for text in (
            "match subject { Subject::Tree => 1, _ => 0 }",
            "method: Method::Multiset(MultisetMethod::Lookup),",
            "use Rattle.vyrd_base.specs.declared.subject.Method.TheVariants.{Cache as OfCache}",
            "use Rattle.vyrd_base.specs.declared.tree.TreeMethod.TheVariants.{Insert}",
            "use Rattle.vyrd_base.specs.Buffers.{buffers}",
            "ensures { serves Subject.Cache }",
        ):
            self.assertNotEqual(named(text, structures()), [], text)
        self.assertEqual(named("Kind::Write(word, value) => method.must_commit()", structures()), [])

    def test_the_definitions_of_a_verdict_name_none(self):
        self.assert_none_named(CRATES / "vyrd_base/specs" / f"{name}.antt" for name in VERDICT)

    def test_the_crates_that_judge_name_none(self):
        for crate in JUDGING:
            folder = CRATES / f"vyrd_{crate}"
            files = [file for kind in ("src", "specs", "proofs") for file in sorted((folder / kind).rglob("*.*"))]
            self.assertGreater(len(files), 9)
            self.assert_none_named(file for file in files if file.suffix in (".rt", ".antt"))
