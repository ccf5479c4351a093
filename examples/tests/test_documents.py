"""Tests of documents, over documents of their own."""

import unittest

from scripts import EXAMPLES, ScriptTest, module_of


class Documents(ScriptTest):
    def documents(self, *lines, **others):
        """Runs the commands of a document that has these lines in one block."""
        self.file("page.md", "\n".join(["# A page", "", *(f"    {line}" for line in lines), ""]))
        return self.run_script("documents", "page.md", **others)

    def assert_counts(self, ran, passed, failed):
        self.assertEqual(ran.returncode, int(failed > 0), ran.stderr)
        self.assertEqual(ran.stdout.decode().splitlines()[-1], f"documents: {passed} commands passed, {failed} failed")

    def test_output_is_compared(self):
        self.assert_counts(self.documents("$ echo a", "a", "$ printf 'b\\n\\nc\\n'", "b", "", "c"), 2, 0)
        self.assert_counts(self.documents("$ echo a", "b", "$ echo b", "b"), 1, 1)
        self.assert_counts(self.documents("$ echo a b c", "a ... c"), 1, 0)
        self.assert_counts(self.documents("$ echo a b c", "a ... d"), 0, 1)
        self.assert_counts(self.documents("$ echo a", "$ true", "a"), 0, 2)

    def test_status_and_files_are_there_for_the_next_command(self):
        self.assert_counts(self.documents("$ (exit 7)", "$ echo $?", "7", "$ echo a > b", "$ cat b", "a"), 4, 0)

    def test_repository_is_seen(self):
        self.assert_counts(self.documents("$ head -n 1 README.md", "# VYRD"), 1, 0)

    def test_shell_that_ends_early(self):
        self.assert_counts(self.documents("$ cd .", "$ echo a", "b"), 1, 1)
        self.assert_counts(self.documents("$ echo a", "a", "$ exit 0", "$ echo b", "b"), 1, 2)
        self.assert_counts(self.documents("$ true", "$ echo 'a", "$ true"), 1, 2)

    def test_command_without_its_program(self):
        ran = self.documents("$ echo a", "a", "$ no-such-compiler x", "b", "$ echo c", "d")
        self.assert_counts(ran, 1, 0)
        self.assertIn(b"skipped: `no-such-compiler x`, of page.md, and what follows it\n", ran.stdout)

    def test_input_of_a_command_is_empty(self):
        self.assert_counts(self.documents("$ cat", "$ echo a", "a", stdin=b"not this\n"), 2, 0)

    def test_program_that_is_named(self):
        checker = self.program("checker", 'echo "checker: $*"')
        self.assert_counts(self.documents("$ ./vyrd check", "checker: check", vyrd=checker), 1, 0)
        self.assert_counts(self.documents("$ ./vyrd check", "checker: check", vyrd="./checker"), 1, 0)
        self.assert_counts(self.documents('$ "$VYRD" x', "checker: x", vyrd="./checker"), 1, 0)

    def test_text_that_isnt_utf_8(self):
        self.file("page.md", b"\xff\n")
        self.assert_ended(self.run_script("documents", "page.md"), 64, b"", ["page.md can't be read: it isn't text in UTF-8"])
        self.assert_counts(self.documents("$ printf '\\377'", "\N{REPLACEMENT CHARACTER}"), 1, 0)

    def test_documents_that_cant_be_read(self):
        (self.folder / "folder").mkdir()
        none = "No such file or directory"
        for name, why in (("missing.md", none), ("-x", none), ("folder", "Is a directory")):
            self.assert_ended(self.run_script("documents", name), 64, b"", [f"{name} can't be read: {why}"])

    def test_output_that_takes_nothing(self):
        self.file("page.md", "    $ true\n")
        self.assert_ended(self.run_shell('"$examples"/documents page.md > /dev/full'), 5, b"", ["can't be written to"])

    def test_command_that_doesnt_end(self):
        module = module_of(EXAMPLES / "documents")
        module.SECONDS = 0.5
        self.assertEqual(module.run([("echo a", "a"), ("sleep 600 | cat", "")], self.folder), ["a"])


if __name__ == "__main__":
    unittest.main()
