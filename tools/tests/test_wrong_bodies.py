"""The wrong bodies that the gate doesn't try: that each can still be applied, and what the script that tries them says."""

import os
import shutil
import unittest

from support import TOOLS, ScriptTest

BODIES = TOOLS / "wrong_bodies"
CRATES = TOOLS.parent / "crates"
TRY = "wrong_bodies/try"


def named():
    """The wrong bodies by their crate and name."""
    return sorted(f"{it.parent.name}/{it.stem}" for it in BODIES.glob("*/*.edit"))


class Bodies(ScriptTest):
    def test_each_can_be_applied(self):
        said = self.run_script(TRY, "--list")
        self.assertEqual((said.out.splitlines(), said.error, said.status), (named(), "", 0))

    def test_none_is_one_of_the_gate_too(self):
        both = [it for it in named() if (CRATES / it.split("/")[0] / "must-fail" / (it.split("/")[1] + ".edit")).exists()]
        self.assertEqual(both, [])

    def test_each_has_a_crate_whose_own_are_in_the_gate(self):
        for name in {it.split("/")[0] for it in named()}:
            self.assertTrue(list((CRATES / name / "must-fail").glob("*.edit")), name)

    def test_one_crate_is_listed_by_its_name(self):
        said = self.run_script(TRY, "--list", "vyrd_text")
        self.assertEqual(said.out.splitlines(), [it for it in named() if it.startswith("vyrd_text/")])

    def test_a_crate_without_any_is_refused(self):
        self.assert_refused(self.run_script(TRY, "nosuch"), "try: there are no wrong bodies of a crate nosuch here")

    def test_a_word_that_is_no_option_is_refused(self):
        self.assert_refused(self.run_script(TRY, "--all"), "try: there is no option --all; --help says which there are")


class Kits(ScriptTest):
    """The script with a kit that is made up: it says what it was given, and ends as a kit does."""

    def setUp(self):
        super().setUp()
        (self.folder / "bin").mkdir()
        self.environment["PATH"] = f"{self.folder / 'bin'}{os.pathsep}{os.environ['PATH']}"

    def kit(self, script):
        path = self.write("bin/rt", f"#!/bin/sh\n{script}\n")
        os.chmod(path, 0o755)

    def test_the_kit_gets_the_bodies_of_the_crate_and_no_others(self):
        self.kit('echo "$@"; ls crates/vyrd_text/must-fail; ls -d crates/*/must-fail')
        said = self.run_script(TRY, "vyrd_text")
        bodies = [f"{it.split('/')[1]}.edit" for it in named() if it.startswith("vyrd_text/")]
        wanted = ["must-fail vyrd_text", *bodies, "crates/vyrd_text/must-fail"]
        self.assertEqual((said.out.splitlines(), said.error, said.status), (wanted, "", 0))

    def test_a_body_that_is_not_refused_is_status_1(self):
        self.kit("echo 'must-fail vyrd_text/x.edit: NOT REFUSED'; exit 1")
        said = self.run_script(TRY, "vyrd_text")
        self.assertEqual((said.out, said.status), ("must-fail vyrd_text/x.edit: NOT REFUSED\n", 1))

    def test_without_a_kit_none_is_tried(self):
        for name in ("python3", "git"):
            os.symlink(shutil.which(name), self.folder / "bin" / name)
        self.environment["PATH"] = str(self.folder / "bin")
        self.assert_refused(self.run_script(TRY, "vyrd_text"), "try: there is no command rt: the kit's rt tries them", 70)


if __name__ == "__main__":
    unittest.main()
