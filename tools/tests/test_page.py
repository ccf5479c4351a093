"""What tools/page writes: pages that no log can break out of, whose data is the log, and whose views agree where a verdict says so.

No browser is needed here; tests/browser opens pages in one.
"""

import base64
import gzip
import hashlib
import io
import json
import os
import random
import re
import subprocess
import time
import unittest
from array import array
from html.parser import HTMLParser
from unittest.mock import patch

from columns import SAFE
from command import temporary
from logtext import Log
from support import FAULT, FAULT_ANSWER, QUEUE, QUEUE_RUN, TOOLS, ProgramTest, ScriptTest
from webpage import Page

EXAMPLES = TOOLS.parent / "examples"
SPECIFICATIONS = TOOLS.parent / "specifications"
TYPES = {"line": "I", "calls": "I", "commits": "I", "returns": "I", "lanes": "H", "source": "i", "kinds": "B", "looks": "B"}
BEGIN = b"vyrd 1 multiset 1 1\n0 call insert 5\n"
HOSTILE = (
    b"</script><script>alert(1)</script>",
    b"\"'><img src=x onerror=alert(1)>",
    b"<!--<script>",
    b"{{data}}{{script}}",
    bytes(range(256)).replace(b"\n", b""),
    b"9" * 5000,
    b"0 write 1 " + b"9" * 5000,
    b"0 write 1 " + b"9" * 50,
    b"99999999999999999999 open",
)


class Parts(HTMLParser):
    """The elements of a page with their attributes, and the texts of its scripts and styles."""

    def __init__(self, page):
        super().__init__()
        self.elements, self.texts, self.name = [], {"script": [], "style": [], "title": []}, None
        self.feed(page)

    def handle_starttag(self, tag, attrs):
        self.elements.append((tag, attrs))
        self.name = tag
        if tag in self.texts:
            self.texts[tag].append("")

    def handle_endtag(self, tag):
        self.name = None

    def handle_data(self, data):
        if self.name in self.texts:
            self.texts[self.name][-1] += data


class Opened:
    """A page taken apart, as its script does it."""

    def __init__(self, page):
        self.parts = Parts(page.decode())
        packed, self.script = self.parts.texts["script"]
        columns = dict(line.split(":") for line in packed.strip().split("\n"))
        self.columns = {name: gzip.decompress(base64.b64decode(column)) for name, column in columns.items()}
        self.data = json.loads(self.columns.pop("data"))

    def __getitem__(self, name):
        """A column of numbers."""
        numbers = array(TYPES.get(name.rpartition(".")[2], "d"), self.columns[name])
        if name == "calls" or name.endswith(".line"):
            for place in range(1, len(numbers)):
                numbers[place] += numbers[place - 1]
        return numbers

    def number(self, packed):
        """A number as a text, or None."""
        return self.data["great"][int(-1 - packed)] if packed < 0 else str(int(packed))

    def changes(self, track):
        return zip(*(self[f"{track}.{name}"] for name in ("line", "at", "value")))

    def amount(self, amounts, key):
        """An amount of a track: if there is none, that of 0."""
        damage = self.data["damage"]
        return amounts.get(key, self.data["zeros"][damage is not None and key >= damage])

    def commit_lines(self):
        return sorted(call + after for call, after in zip(self["calls"], self["commits"]) if after)


def log_of(text, answer):
    file = temporary()
    file.write(text)
    return Log(file, "a.log", answer)


def page_of(text, answer, name="a.log"):
    page = io.BytesIO()
    Page(log_of(text, answer), name).write(page)
    return Opened(page.getvalue())


def examples():
    """The logs of examples/table.tsv with their answers."""
    for row in (EXAMPLES / "table.tsv").read_text().splitlines():
        source, words, _, output = row.split("\t")
        if words == "check":
            yield (EXAMPLES / source).read_bytes(), output
        elif words == "step --log" and output.startswith("@"):
            text, _, answer = (EXAMPLES / output[1:]).read_text().rstrip("\n").rpartition("\n")
            yield text.encode() + b"\n", answer


def own_examples():
    """The logs of specifications/logs behind their specifications, with the answers that stand in them."""
    for path in sorted((SPECIFICATIONS / "logs").glob("*/*.log")):
        front = (SPECIFICATIONS / f"{path.parent.name}.spec").read_bytes()
        lines, above = path.read_text().split("\n"), len(front.splitlines())
        notes = (re.match("# (accepted|violation|malformed): (.*)", line) for line in lines)
        place, (kind, why) = next((place, note.groups()) for place, note in enumerate(notes) if note)
        answer = f"{kind}: {why}" if kind == "accepted" else f"{kind} at line {above + place}: {why}"
        yield front + path.read_bytes(), answer


class Safe(ScriptTest):
    """Whatever bytes a log has, and whatever the answer about it, they are data in its page."""

    def setUp(self):
        super().setUp()
        self.checker("cat > /dev/null\ncat \"${0%/*}/answer\"\nexit $(cat \"${0%/*}/status\")")
        taken = patch.dict(os.environ, self.environment)
        taken.start()
        self.addCleanup(taken.stop)
        self.wanted = self.page_of(BEGIN, None).parts.elements

    def page_of(self, text, answer, name="a.log"):
        """A page by a checker that says this answer."""
        said = answer or "accepted: 0 entries, 0 commits, 0 observers"
        self.write("answer", f"{said}\n")
        self.write("status", "0" if said.startswith("accepted") else "2")
        return page_of(text, answer, name)

    def assert_safe(self, text, answer, name="a.log"):
        page = self.page_of(text, answer, name)
        self.assertEqual(page.parts.elements, self.wanted)
        self.assertEqual(page.columns["text"], text)
        self.assertEqual(page.data["answer"], answer)
        self.assertEqual(len(page["kinds"]), len(text.split(b"\n")) - text.endswith(b"\n") - (not text))
        return page

    def test_the_policy_lets_a_page_run_its_own_script_alone(self):
        page = self.page_of(BEGIN, None)
        header = ("http-equiv", "Content-Security-Policy")
        policy = next(dict(attributes)["content"] for _, attributes in page.parts.elements if header in attributes)
        digests = (hashlib.sha256(text.encode()).digest() for text in (page.script, page.parts.texts["style"][0]))
        hashes = [base64.b64encode(digest).decode() for digest in digests]
        wanted = "default-src 'none'; script-src 'sha256-{}'; style-src 'sha256-{}'; base-uri 'none'; form-action 'none'"
        self.assertEqual(policy, wanted.format(*hashes))
        attributes = {name for _, attributes in page.parts.elements for name, _ in attributes}
        self.assertEqual(attributes & {"src", "href", "style", "srcdoc", "action"}, set())
        self.assertFalse(any(name.startswith("on") for name in attributes))
        makers = r"innerHTML|outerHTML|insertAdjacent|document\.write|eval\(|Function\(|fetch\(|XMLHttpRequest|import\("
        self.assertNotRegex(page.script, makers)

    def test_hostile_bytes_are_data(self):
        for bad in HOSTILE:
            for log in (bad, bad + b"\nend\n", BEGIN + bad + b"\nend\n", BEGIN + b"0 call insert " + bad + b"\n"):
                for answer in (None, "accepted: 1 entries, 0 commits, 0 observers"):
                    self.assert_safe(log, answer)
            self.assert_safe(BEGIN + bad + b"\nend\n", "malformed at line 3: bad entry")
            self.assert_safe(b"vyrd 3 own 0 1\n" + bad + b"\nlog\nend\n", "malformed at line 2: bad specification line")

    def test_empty_and_binary_files(self):
        for log in (b"", b"\n", b"\n\n", bytes(range(256)) * 400, b"\x00" * 100_000):
            self.assert_safe(log, None)
        self.assert_safe(b"", "malformed at line 1: no end")

    def test_the_name_of_the_file_is_escaped(self):
        for name in ("</title><script>alert(1)</script>", "a\nb.log", "a\udcffb", '"><img>'):
            page = self.assert_safe(BEGIN, None, name)
            self.assertTrue(page.parts.texts["title"][0].endswith(": no answer"))
            self.assertTrue(page.data["name"].isprintable())

    def test_random_bytes_in_a_log(self):
        chance = random.Random(4)
        for log, answer in [*examples(), *own_examples()][::9]:
            bad = bytearray(log)
            for _ in range(8 if bad else 0):
                bad[chance.randrange(len(bad))] = chance.choice((0, 10, 32, 49, 57, 60, 200))
            self.assert_safe(bytes(bad), None if chance.random() < 0.5 else "accepted: 1 entries, 0 commits, 0 observers")


class Views(ProgramTest):
    """What the page plays is what the verdict says: both views are equal at each commit before the fault."""

    def assert_agrees(self, text, answer):
        """Gives at how many commits the views were compared, and whether they differ at the line that the answer names."""
        page = page_of(text, answer)
        self.assertEqual(page.columns["text"], text)
        fault, tracks = page.data["fault"], [[*page.changes(name)] for name in ("shown", "has")]
        views, compared = ({}, {}), 0
        named = re.search(r"view differs at key (\d+)", answer)
        for commit in page.commit_lines() if page.data["compares"] else ():
            if commit > page.data["until"] or (fault and commit > fault) or (commit == fault and not named):
                break
            for view, changes in zip(views, tracks):
                while changes and changes[0][0] <= commit:
                    _, key, amount = changes.pop(0)
                    view[key] = amount
            differing = [key for key in {*views[0], *views[1]} if page.amount(views[0], key) != page.amount(views[1], key)]
            if commit == fault:
                self.assertEqual(str(min(int(page.number(key)) for key in differing)), named[1], answer)
                self.assertEqual(page.data["summary"]["key"], named[1])
            else:
                self.assertEqual(differing, [], (answer, commit))
            compared += 1
        return compared

    def test_the_examples(self):
        self.assertGreater(sum(self.assert_agrees(*each) for each in examples()), 50)

    def test_the_examples_of_version_3(self):
        self.assertGreater(sum(self.assert_agrees(*each) for each in own_examples()), 250)


class Followed(ProgramTest):
    """Single rows of what the page plays, worked out by hand from the logs."""

    def assert_changes(self, page, track, wanted):
        rows = [(int(line), int(at), page.number(value)) for line, at, value in page.changes(track)]
        self.assertEqual(rows, wanted)

    def test_a_queue_of_version_3(self):
        page = page_of((QUEUE + QUEUE_RUN).encode(), "accepted: 9 entries, 2 commits, 0 observers")
        self.assertEqual((page.data["front"], page.data["lists"], page.data["compares"]), (16, ["waiting"], True))
        self.assert_changes(page, "words", [(18, 1, "5"), (19, 0, "1"), (24, 0, "0")])
        self.assert_changes(page, "shown", [(19, 5, "1"), (24, 5, "0")])
        self.assert_changes(page, "has", [(20, 5, "1"), (25, 5, "0")])
        self.assert_changes(page, "lists", [(20, 0, "5"), (25, 0, None)])
        self.assertEqual(page.columns["kinds"].decode(), "?" + "p" * 15 + "cwwmrc#wmr?")

    def test_registers_lists_and_hidden_amounts(self):
        front = "vyrd 3 own 0 1\nregister r 7\nlist a\n  holds 3\nlist b\nhidden 4 18446744073709551614\n"
        front += "method m x\n  allow (reply == 1)\n    set r none\n    prepend a x\n    append b x\n    drop last a\n"
        front += "    set {x} 9\n    set [x] 2\n    clear\nlog\n"
        page = page_of(f"{front}0 call m 6\n0 commit\n0 return 1\nend\n".encode(), "accepted: 3 entries, 1 commits, 0 observers")
        self.assertFalse(page.data["compares"])
        self.assert_changes(page, "registers", [(0, 0, "7"), (18, 0, "none")])
        self.assert_changes(page, "lists", [(0, 0, "3"), (18, -16, "6"), (18, 1, "6"), (18, 0, None)])
        self.assert_changes(page, "hidden", [(0, 4, "18446744073709551614"), (18, 6, "9")])
        self.assert_changes(page, "has", [(18, 6, "2"), (18, 6, "0")])

    def test_words_at_the_start_and_a_commit_inside_a_block(self):
        log = "vyrd 2 multiset 1 2\nstart 2 2\nstart 3 8\n0 call insert 5\n0 write 1 5\n0 open\n0 commit\n"
        log += "0 write 0 2\n0 close\n0 return 1\nend\n"
        page = page_of(log.encode(), "accepted: 7 entries, 1 commits, 0 observers")
        self.assert_changes(page, "words", [(0, 2, "2"), (0, 3, "8"), (5, 1, "5"), (7, 0, "2")])
        self.assertEqual([*page["words.source"]], [0, 0, 0, 1])  # line 8 counts on line 7
        self.assertEqual([(line, key) for line, key, _ in page.changes("shown")], [(0, 8), (7, 5)])
        self.assertEqual([(line, key) for line, key, _ in page.changes("has")], [(0, 8), (7, 5)])
        self.assertEqual(page.columns["kinds"].decode(), "?ssc" + "womwxr?")

    def test_a_reply_that_is_not_allowed_changes_nothing(self):
        log = b"vyrd 1 multiset 1 1\n0 call delete 5\n0 commit\n0 return 1\nend\n"
        page = page_of(log, "violation at line 3: reply 1 not allowed")
        self.assert_changes(page, "has", [])
        self.assertEqual(page.data["summary"]["texts"], ["1", "0"])

    def test_calls_that_only_look(self):
        log = b"vyrd 1 multiset 1 1\n0 call lookup 5\n0 return 0\n0 call insert 5\nend\n"
        self.assertEqual([*page_of(log, None)["looks"]], [1, 0])
        run = QUEUE + "0 call dequeue\n0 return 0\n0 call dequeue\n0 commit\n0 return 1\n0 call dequeue\n"
        page = page_of(run.encode(), None)
        self.assertEqual(([*page["looks"]], [*page["commits"]], [*page["returns"]]), ([1, 0, 0], [0, 1, 0], [1, 2, 0]))

    def test_numbers_that_are_none_of_javascript(self):
        log = f"vyrd 1 cache 1 1\n0 call flush 0\n0 write 1 {SAFE}\n0 write 2 {SAFE - 1}\n"
        self.assert_changes(page_of(log.encode(), None), "words", [(3, 1, str(SAFE)), (4, 2, str(SAFE - 1))])

    def test_a_malformed_log_is_followed_up_to_its_fault(self):
        log = FAULT.replace("return 1", "return 0").encode() + b"0 write 0 2\nend\n"
        page = page_of(log, "malformed at line 5: no call open")
        self.assertEqual((page.data["until"], page.data["summary"]["sentence"].split(":")[0]), (4, "The log itself is wrong on line 5"))
        for text, rule in ((b"vyrd 1 multiset 0 1\n", "bad header"), (b"", "no end")):
            self.assertEqual(page_of(text, f"malformed at line 1: {rule}").data["until"], 0)

    def test_keys_that_entries_name(self):
        log = b"vyrd 1 multiset 1 1\n0 call insert_pair 5 6\n0 write 1 5\n0 write 0 1\n0 write 3 7\n"
        page = page_of(log, None)
        self.assertEqual([*zip(page["named.line"], page["named.at"])], [(2, 5), (2, 6), (3, 5), (5, 7)])


class Script(ScriptTest):
    """The command line, as that of explain and lanes."""

    def opened(self, said):
        self.assertEqual((said.error, said.status), ("", 0))
        return Opened(said.out.encode("latin-1"))

    def test_an_answer_behind_the_log_and_a_checker(self):
        self.take_program()
        page = self.opened(self.run_script("page", given=FAULT + "end\n" + FAULT_ANSWER))
        self.assertEqual((page.data["fault"], page.data["name"], page.data["answer"]), (3, "a log", FAULT_ANSWER.strip()))
        sections = [section[0] for section in page.data["findings"]]
        self.assertEqual(sections[:2], ["The call", "Key 5: the element 5"])
        page = self.opened(self.run_script("page", "--", self.write("-q.log", FAULT + "end\n")))
        self.assertEqual((page.data["fault"], page.data["name"], page.columns["text"].decode()), (3, "-q.log", FAULT + "end\n"))

    def test_a_log_without_an_answer_and_one_cut_off(self):
        self.take_program()
        page = self.opened(self.run_script("page", given=FAULT))
        self.assertEqual((page.data["fault"], page.data["summary"]["sentence"]), (None, "There is no verdict about this log."))
        page = self.opened(self.run_script("page", given=FAULT[:-4] + "malformed at line 4: no line feed\n"))
        self.assertIn(["The calls that are open there"], [section[:1] for section in page.data["findings"]])

    def test_a_slow_pipe(self):
        self.take_program()
        self.write("run", FAULT + FAULT_ANSWER)
        command = f"(head -c 30 run; sleep 0.3; tail -c +31 run) | '{TOOLS / 'page'}'"
        ran = subprocess.run(["sh", "-c", command], cwd=self.folder, env=self.environment, capture_output=True, check=False)
        self.assertEqual((Opened(ran.stdout).columns["text"], ran.returncode), (FAULT.encode(), 0))

    def test_refusals_are_one_sentence_each(self):
        self.take_program()
        given = FAULT + "end\n"
        other = "page: this log isn't the one that the answer is about"
        wrong = "violation at line 2: reply 1 not allowed", "violation at line 3: reply 7 not allowed"
        for answer in (*wrong, "malformed at line 99: no end"):
            self.assert_refused(self.run_script("page", given=f"{given}{answer}\n"), other)
        missing = "page: no.log can't be read: No such file or directory"
        self.assert_refused(self.run_script("page", "no.log"), missing)
        self.assert_refused(self.run_script("page", "."), "page: . can't be read: Is a directory")
        self.assert_refused(self.run_script("page", "--svg"), "page: there is no option --svg; --help says which there are")
        self.assert_refused(self.run_script("page", "a", "b"), "page: b is one word too many; --help says what there is")
        self.checker("exit 6")
        path = self.write("a.log", given)
        self.assert_refused(self.run_script("page", path), "page: the checker ended with status 6 and gave no verdict", 6)
        self.take_program()
        with open("/dev/full", "wb") as full:
            said = self.run_script("page", given=given + FAULT_ANSWER, stdout=full)
        self.assertEqual((said.error, said.status), ("page: this could not be written: No space left on device\n", 5))

    def test_help(self):
        said = self.run_script("page", "--help")
        self.assertEqual((said.error, said.status), ("", 0))
        self.assertIn("who passes it on passes the log on", said.out)

    def test_100000_lines_take_seconds_and_little_memory(self):
        look = "0 call lookup 6\n0 return 0\n"
        path = self.write("long.log", "vyrd 1 multiset 1 1\n" + look * 50_000 + FAULT.partition("\n")[2] + "end\n")
        answer = "violation at line 100003: view differs at key 5\n"
        explain = f"{answer}call at line 100002\nreply at line 100004\nagreed at the start: key 5 amount 0\n"
        self.checker_says_of(1, check=answer, explain=explain, follow=answer)
        begun = time.monotonic()
        limited = f"ulimit -v 150000; exec '{TOOLS / 'page'}' '{path}'"
        ran = subprocess.run(["bash", "-c", limited], env=self.environment, capture_output=True, check=False)
        self.assertEqual((ran.stderr, ran.returncode), (b"", 0))
        self.assertLess(len(ran.stdout), 400_000)
        self.assertLess(time.monotonic() - begun, 100)


if __name__ == "__main__":
    unittest.main()
