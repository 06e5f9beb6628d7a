"""Tests of the viewer's pages. Without a browser only viewer/make is tested.

What a page shows is read from the document that the browser has made of it, and compared with the program's lines.
"""

from __future__ import annotations

import base64
import collections
import hashlib
import html.parser
import json
import os
import pathlib
import shutil
import subprocess
import sys
import unittest
from collections.abc import Iterator
from typing import Any

import viewer_runs as runs
from viewer_browser import Document, Tab
from viewer_pages import EXAMPLES, MAKE, TOP, Pages, browser, lines_of, needs_browser, run_make, viewed

__all__ = ["viewed"]  # a fixture
# files that nothing can be drawn of: the name, the bytes, what is said of it, and what the program explains
NO_RUNS = (
    (
        "elf",
        b"\x7fELF\x02\n\x1b[31m",
        "neither lines of --json nor a scenario: \\x7fELF\\x02\\n\\x1b[31m",
        r"line 1, column 1: `\u{7f}ELF\u{2}` is not a JSON value; texts go in double quotes",
    ),
    ("empty", b"\n", "there is nothing in it", "line 2, column 1: expected a value, but the text ends"),
    (
        "plain",
        (TOP / "examples" / "first.out").read_bytes(),
        "these are lines of the plain text; run tracehost with --json",
        "line 1: this is a line that tracehost printed; run the scenario that it came from",
    ),
    (
        "cut",
        b'{"steps":[{"user',
        "this scenario is cut short, or no JSON",
        "line 1, column 17: the text that begins at line 1, column 12 has no quotes at its end",
    ),
    ("no array", b'{"steps":7}', '"steps" is no array', "steps: expected an array of steps, got 7"),
)


class Make(unittest.TestCase):
    """viewer/make, without a browser."""

    def setUp(self) -> None:
        self.pages = Pages()
        self.addCleanup(self.pages.folder.cleanup)

    def embedded(self, page: bytes) -> tuple[Any, int]:
        """What a page has in it, as a browser's reader of HTML finds it, and how many scripts."""
        names: list[object] = []
        texts: list[str] = []

        class Reader(html.parser.HTMLParser):
            def handle_starttag(self, tag: str, attrs: list[tuple[str, str | None]]) -> None:
                if tag == "script":
                    names.append(dict(attrs).get("id"))
                    texts.append("")

            def handle_data(self, data: str) -> None:
                if texts and self.cdata_elem == "script":
                    texts[-1] += data

        Reader().feed(page.decode())
        data = [json.loads(text) for name, text in zip(names, texts) if name == "embedded"]
        self.assertEqual(len(data), 1)
        return data[0], len(texts)

    def test_files_come_back_as_they_were(self) -> None:
        hostile = '</script><script>alert(1)</script>\n<!-- <script>\n]]>\u2028\u2029"\\ &lt; \u00e9 \U0001f600\n'
        data, scripts = self.embedded(self.pages.unread("a", hostile).read_bytes())
        self.assertEqual((data["files"], scripts), ([{"name": "a.lines", "text": hostile}], 2))
        line = json.dumps({"user": 1001, "step": 1, "reply": "ok", "note": hostile}, ensure_ascii=False) + "\n"
        steps = '{"steps":[{"user":1001,"op":"kill","caller":1,"which":1,"signal":1}, "</script>"]}'
        made = run_make(self.pages.file("a.lines", line.encode()), self.pages.file("b.json", steps.encode()))
        data, scripts = self.embedded(made.stdout)
        self.assertEqual(data, {"title": "b.json", "files": [{"name": "a.lines", "text": line}, {"name": "b.json", "text": steps}]})
        self.assertEqual((scripts, made.returncode), (2, 1))
        self.assertEqual(
            made.stderr.decode().splitlines(),
            ['viewer/make: b.json, step 2: no step: "</script>"', '  steps[1]: expected an object, got "</script>"'],
        )

    def test_only_the_data_differs_from_the_empty_page(self) -> None:
        lines = self.pages.file("a.lines", b'{"refused":"BadJson"}\n')
        made, empty = run_make(lines, check=True).stdout.decode(), run_make(check=True).stdout.decode()
        before, after = empty.split('id="embedded">null<')
        self.assertTrue(made.startswith(before + 'id="embedded">{') and made.endswith("}<" + after))

    def test_output_title_and_standard_input(self) -> None:
        lines = self.pages.file("a.lines", b'{"refused":"BadJson"}\n')
        page = self.pages.room / "page.html"
        done = run_make("-", "-t", "A <b> title", "-o", page, input=lines.read_bytes())
        self.assertEqual((done.returncode, done.stdout, done.stderr), (0, b"", b""))
        data, _ = self.embedded(page.read_bytes())
        self.assertEqual(data["title"], "A <b> title")
        self.assertEqual(data["files"], [{"name": "standard input", "lines": [{"refused": "BadJson"}]}])

    def test_bytes_that_are_no_text_are_replaced(self) -> None:
        line = b'{"user":1001,"step":1,"reply":"ok","a":"\xff\xfe"}\n'
        data, _ = self.embedded(run_make(self.pages.file("a.lines", line), check=True).stdout)
        self.assertEqual(data["files"][0]["lines"], [{"user": 1001, "step": 1, "reply": "ok", "a": "\ufffd\ufffd"}])

    def test_a_missing_file(self) -> None:
        page = self.pages.room / "page.html"
        done = run_make(self.pages.room / "none.lines", "-o", page)
        self.assertEqual((done.returncode, done.stdout), (1, b""))
        self.assertRegex(done.stderr.decode(), r"\Aviewer/make: .*none.lines: No such file or directory\n\Z")
        self.assertFalse(page.exists())

    def told(self, *words: object, **how: Any) -> tuple[list[str], bool]:
        """The lines that are said of files that aren't a run, and whether there is a page."""
        page = self.pages.room / "page.html"
        page.unlink(missing_ok=True)
        done = run_make(*words, "-o", page, **how)
        self.assertEqual((done.returncode, done.stdout), (1, b""), done.stderr)
        text = done.stderr.decode()
        self.assertTrue(text.startswith("viewer/make: ") and text.endswith("\n"), text)
        return text.removeprefix("viewer/make: ").removesuffix("\n").split("\n"), page.exists()

    def test_what_is_no_run_is_refused(self) -> None:
        """With a status, a line, and what the program says of it."""
        for name, data, fault, explanation in NO_RUNS:
            with self.subTest(name):
                self.assertEqual(self.told(self.pages.file(name, data)), ([f"{name}: {fault}", f"  {explanation}"], False))

    def test_without_a_program_what_is_no_run_is_refused_by_its_line_only(self) -> None:
        """None is named, on the path, beside the viewer or in a checkout."""
        folder = self.pages.room / "prefix" / "share" / "viewer"
        shutil.copytree(TOP / "viewer", folder)
        alone = {"make": folder / "make", "env": {**os.environ, "TRACEHOST": "", "PATH": str(folder)}}
        for name, data, fault, _ in NO_RUNS:
            with self.subTest(name):
                self.assertEqual(self.told(self.pages.file(name, data), **alone), ([f"{name}: {fault}"], False))

    def test_a_program_that_explains_nothing(self) -> None:
        """One that refuses the option, says nothing, or is ended by a signal: that on the path is asked instead."""
        name, data, fault, explanation = NO_RUNS[0]
        file, path = self.pages.file(name, data), self.pages.room / "bin"
        path.mkdir()
        (path / "tracehost").symlink_to(os.environ["TRACEHOST"])
        for words in ("echo usage >&2; echo more >&2; exit 2", "exit 1", "kill -9 $$"):
            silent = self.pages.file("silent", f"#!/bin/sh\n{words}\n".encode())
            silent.chmod(0o755)
            env = {**os.environ, "TRACEHOST": str(silent), "PATH": f"{path}:/usr/bin:/bin"}
            with self.subTest(words):
                self.assertEqual(self.told(file, env=env), ([f"{name}: {fault}", f"  {explanation}"], False))

    def test_a_page_is_made_of_what_can_be_drawn(self) -> None:
        """And what can't is told in a line: the program isn't asked of lines that it has printed."""
        lines = lines_of(TOP / "examples" / "first.json")
        (text,), is_made = self.told(self.pages.file("half", lines[:-20]))
        self.assertTrue(is_made)
        self.assertRegex(text, r"^half, line \d+: no JSON: ")
        self.assertEqual(
            self.told(self.pages.file("two", b"[]\n" + lines + b"{}\n")),
            (["two, line 1: no object: [] (and 1 more, which the page lists)"], True),
        )
        (text,), is_made = self.told(self.pages.file("lines", lines), TOP / "examples" / "sandbox.json")
        self.assertTrue(is_made)
        self.assertRegex(text, r"^sandbox.json isn't the scenario of these lines: its step \d+ of user \d+ can't be answered")

    def test_a_run_without_steps(self) -> None:
        """It has no lines, and a page."""
        scenario = self.pages.file("none.json", b'{"steps":[]}')
        done = run_make(self.pages.file("none.lines", b""), scenario)
        self.assertEqual((done.returncode, done.stderr), (0, b""))
        self.assertIn(b"</html>", done.stdout)

    def test_a_page_is_whole_or_as_it_was(self) -> None:
        """A disk that is full, for standard output and for a file; a file's mode stays, and so does what can't be written."""
        lines = self.pages.file("a.lines", lines_of(TOP / "examples" / "first.json"))
        with open("/dev/full", "wb") as full:
            done = subprocess.run([sys.executable, str(MAKE), str(lines)], stdout=full, stderr=subprocess.PIPE)
        self.assertEqual((done.returncode, done.stderr), (1, b"viewer/make: standard output: No space left on device\n"))
        page = self.pages.file("page.html", b"an older page")
        page.chmod(0o640)
        small = f"import resource, runpy, sys; resource.setrlimit(resource.RLIMIT_FSIZE, (20000, 20000)); runpy.run_path({str(MAKE)!r}, run_name='__main__')"
        done = subprocess.run([sys.executable, "-c", small, str(lines), "-o", str(page)], capture_output=True)
        self.assertEqual((done.returncode, done.stdout), (1, b""))
        self.assertTrue(done.stderr.decode().endswith(f": {page}: File too large\n"), done.stderr)
        self.assertEqual(page.read_bytes(), b"an older page")
        self.assertEqual(sorted(path.name for path in self.pages.room.iterdir()), ["a.lines", "page.html"])
        run_make(lines, "-o", page, check=True)
        self.assertEqual(page.stat().st_mode & 0o777, 0o640)
        self.assertIn(b"</html>", page.read_bytes())

    def test_the_policy_has_the_digest_of_the_script(self) -> None:
        """Content-Security-Policy: it has the SHA-256 of the text between the script's tags, and no other script may run."""
        text = run_make(check=True).stdout.decode()
        code = text.split("<script>", 1)[1].split("</script>", 1)[0]
        digest = base64.b64encode(hashlib.sha256(code.encode()).digest()).decode()
        policy = text.split('http-equiv="Content-Security-Policy"', 1)[1].split(">", 1)[0]
        self.assertIn(f"default-src 'none'; script-src 'sha256-{digest}';", policy)

    def test_the_page_needs_nothing_else(self) -> None:
        text = run_make(check=True).stdout.decode()
        self.assertEqual(text.count("http"), text.count("http://www.w3.org/2000/svg") + text.count("http-equiv"))
        for word in ("src=", "href=", "@import", "url(", "fetch(", "XMLHttpRequest", "innerHTML", "eval("):
            self.assertNotIn(word, text)


@needs_browser
class Examples(unittest.TestCase):
    """Each example's page, its marks counted against its lines."""

    pages: Pages
    lines: dict[str, bytes]
    documents: dict[str | int, Document]

    @classmethod
    def setUpClass(cls) -> None:
        cls.pages = Pages()
        cls.addClassCleanup(cls.pages.folder.cleanup)
        cls.lines = {path.stem: lines_of(path) for path in EXAMPLES}
        page, opened = cls.pages.page, cls.pages.open
        pages: dict[str, pathlib.Path] = {path.stem: page(path.stem, cls.lines[path.stem], path) for path in EXAMPLES}
        two = TOP / "examples" / "two_users.json"
        alone: dict[str | int, Document] = {
            user: opened(pages["two_users"], f"draw=all&lwps=all&user={user}") for user in (1001, 1002)
        }
        pages |= {f"only {user}": page(f"only{user}", lines_of(two, "--user", user), two) for user in alone}
        pages["threads"] = page("threads", lines_of(two, "--threads"), two)
        pages["alone"] = page("alone", cls.lines["follow_a_fork"])
        pages["trace"] = page("trace", lines_of("--json=trace", two))
        pages["trace by user"] = page("trace_by_user", lines_of("--json=trace", "--threads", two))
        pages |= cls.more_pages()
        cls.documents = {**alone, **{name: opened(path) for name, path in pages.items()}}

    @classmethod
    def more_pages(cls) -> dict[str, pathlib.Path]:
        """A debugger's end with nothing behind it, under both settings; a run by lines, which tells none; others."""
        pages: dict[str, pathlib.Path] = {}
        steps = json.loads((TOP / "examples" / "death_of_a_debugger_leaves.json").read_text())["steps"]
        for setting in (0, 1):
            scenario = {"kill_on_debugger_exit": setting, "steps": steps[:10]}
            file = cls.pages.file(f"end{setting}.json", json.dumps(scenario).encode())
            pages[f"end {setting}"] = cls.pages.page(f"end{setting}", lines_of(file), file)
        file = cls.pages.file("each_step", "".join(json.dumps(step) + "\n" for step in steps).encode())
        lines = lines_of("--lines", file, "--kill-on-debugger-exit", 0)
        pages["steps"] = cls.pages.page("steps", lines, file)
        pages["by_list"] = cls.pages.page(
            "by_list",
            b"""{"user":1001,"step":1,"reply":"new","pid":1000,"lwp":100000}
            {"user":1001,"step":2,"reply":"new","pid":1001,"lwp":100001}
            {"user":1001,"step":3,"reply":"ended","word":0,"exited":0}
            {"user":1001,"step":4,"reply":"pids","pids":[1000]}""",
        )
        scenarios = {"threads_of_one": runs.thread_steps(), "two_forks": runs.fork_steps(), "by_turn": runs.untold_end()}
        for name, scenario in scenarios.items():
            file = cls.pages.file(f"{name}.json", json.dumps(scenario).encode())
            pages[name] = cls.pages.page(name, lines_of(file), file)
        return pages

    def examples(self) -> Iterator[tuple[str, list[runs.Step], list[runs.Step], Document]]:
        for path in EXAMPLES:
            steps = json.loads(path.read_text())["steps"]
            replies = [json.loads(line) for line in self.lines[path.stem].splitlines()]
            self.assertEqual(len(steps), len(replies))
            yield path.stem, steps, replies, self.documents[path.stem]

    def test_each_step_has_its_mark_on_its_lane(self) -> None:
        for name, steps, replies, document in self.examples():
            with self.subTest(name):
                found = [(mark["data-mark"], mark["lane"]) for mark in document.primary()]
                self.assertEqual(found, runs.expected_marks(steps, replies))
                names = [(mark["data-user"], mark["data-step"]) for mark in document.primary()]
                self.assertEqual(names, [(str(reply["user"]), str(reply["step"])) for reply in replies])
                self.assertEqual(document.faults, [])
                self.assertIn("data-milliseconds", document.body)

    def test_marks_are_as_many_as_replies(self) -> None:
        for name, steps, replies, document in self.examples():
            with self.subTest(name):
                kinds = collections.Counter(mark["data-mark"] for mark in document.primary())
                words = collections.Counter(reply["reply"] for reply in replies)
                self.assertEqual(kinds["birth"] + kinds["lwp-birth"], words["new"])
                self.assertEqual(kinds["birth"], len({reply["pid"] for reply in replies if reply["reply"] == "new"}))
                for kind, word in (
                    ("stop", "stopped"),
                    ("wait", "status"),
                    ("handled", "handled"),
                    ("end", "ended"),
                    ("error", "error"),
                    ("held", "held"),
                    ("nothing", "nothing"),
                    ("caught", "caught"),
                ):
                    self.assertEqual(kinds[kind], words[word], kind)
                asked = [step for step, reply in zip(steps, replies) if reply["reply"] == "ok" and step.get("signal")]
                self.assertEqual(kinds["post"], sum(step["op"] in ("kill", "turn") for step in asked))

    def test_lanes(self) -> None:
        for name, steps, replies, document in self.examples():
            with self.subTest(name):
                self.assertEqual(sorted(document.lanes), sorted(runs.expected_lanes(steps, replies)))

    def test_who_traces_whom(self) -> None:
        self.assertEqual(set(runs.TRACES), {path.stem for path in EXAMPLES})
        for name, _, _, document in self.examples():
            with self.subTest(name):
                self.assertEqual(sorted(document.traces, key=str), sorted(runs.TRACES[name], key=str))

    def test_what_follows_from_steps(self) -> None:
        for name, _, _, document in self.examples():
            with self.subTest(name):
                self.assertEqual(document.steps("gone"), runs.ENDS.get(name, []))
                self.assertEqual(document.steps("followed"), runs.FOLLOWED.get(name, []))
                self.assertEqual(document.steps("seen"), [])

    def test_the_end_of_a_debugger(self) -> None:
        self.assertEqual(self.documents["end 0"].steps("gone"), [])
        self.assertEqual(self.documents["end 1"].steps("gone"), [(1001, 10), (1002, 10)])
        for name in ("end 0", "end 1"):
            self.assertEqual(sorted(self.documents[name].traces), [("1000 1001", 4, 10), ("1000 1002", 6, 10)])

    def test_steps_as_lines_and_a_process_that_lives_on(self) -> None:
        document = self.documents["steps"]
        self.assertEqual((len(document.primary()), document.faults, document.steps("gone")), (14, [], []))

    def test_stops_calls_and_suspensions_along_the_lanes(self) -> None:
        document = self.documents["threads_of_one"]
        self.assertEqual({tip for tip in document.tips if ", from step " in tip}, runs.THREAD_STRETCHES)
        self.assertEqual((document.traces, document.faults), ([("1000 1001", 4, 27)], []))
        self.assertEqual(document.lives, runs.THREAD_LIVES)
        kinds = collections.Counter(mark["data-mark"] for mark in document.primary())
        expected = {"birth": 2, "lwp-birth": 1, "stop": 4, "held": 1, "error": 1, "post": 2, "wait": 5}
        self.assertEqual({kind: kinds[kind] for kind in expected}, expected)

    def test_ends_that_nothing_tells(self) -> None:
        for name, end in (("by_turn", 5), ("by_list", 4)):
            self.assertEqual(self.documents[name].steps("gone"), [(1001, end)], name)
            self.assertEqual(self.documents[name].lives["lwp", 100001], (2, end), name)

    def test_the_children_of_two_followed_forks(self) -> None:
        document = self.documents["two_forks"]
        self.assertEqual(document.steps("followed"), [(1003, 14), (1004, 15)])
        self.assertEqual(
            sorted(document.traces, key=str),
            [("1000 1001", 4, None), ("1000 1002", 5, None), ("1000 1003", 14, None), ("1000 1004", 15, None)],
        )

    def test_a_mark_tells_its_step_and_its_reply(self) -> None:
        stop = self.documents["follow_a_fork"].primary()[7]
        for words in (
            "user 1001, step 8",
            "LWP 100001: leave",
            "5 is SIGTRAP",
            "stopped 100001 5 flags=PL_FLAG_SCX+PL_FLAG_FORKED",
        ):
            self.assertIn(words, stop["aria-label"])
        self.assertIn("SIGTRAP SCX FORKED", self.documents["follow_a_fork"].texts)

    def test_labels_do_not_overlap(self) -> None:
        overlapping = """(() => {
            const labels = [...document.querySelectorAll(".label")];
            const boxes = labels.map((label) => ({ text: label.textContent, box: label.getBoundingClientRect() }));
            const meet = (one, other) => one.left < other.right && other.left < one.right
              && one.top + 2 < other.bottom && other.top + 2 < one.bottom;
            const pairs = boxes.flatMap((one, place) => boxes.slice(place + 1).map((other) => [one, other]));
            const found = pairs.filter(([one, other]) => meet(one.box, other.box));
            return found.map(([one, other]) => [one.text, other.text]).concat(boxes.length ? [] : "no label");
        })()"""
        for name in ("crash_collector", "sandbox", "two_users"):
            for width in (8, 26, 60, 110):
                with self.subTest(name, width=width):
                    tab = Tab(browser(), self.pages.room / f"{name}.html", f"draw=all&width={width}")
                    self.assertEqual(tab.value(overlapping), [])
                    tab.close()

    def test_one_user_alone(self) -> None:
        for user in (1001, 1002):
            document = self.documents[user]
            lines = [line for line in map(json.loads, self.lines["two_users"].splitlines()) if line["user"] == user]
            self.assertEqual(len(document.primary()), len(lines))
            self.assertEqual({mark["owner"] for mark in document.marks}, {str(user)})
            numbers = range(1000 * (user - 1000), 1000 * (user - 999))
            self.assertEqual({number in numbers for kind, number in document.lanes if kind == "process"}, {True})

    def test_one_users_lines_give_the_same_picture(self) -> None:
        for user in (1001, 1002):
            alone, only = self.documents[user], self.documents[f"only {user}"]
            shown = [[(mark["data-mark"], mark["lane"], mark["data-step"]) for mark in one.primary()] for one in (alone, only)]
            self.assertEqual(*shown)
            self.assertEqual(alone.traces, only.traces)

    def test_lines_of_threads_stand_in_the_scenarios_order(self) -> None:
        shown = [
            [(mark["data-mark"], mark["data-user"], mark["data-step"]) for mark in self.documents[name].primary()]
            for name in ("threads", "two_users")
        ]
        self.assertEqual(*shown)

    def test_a_trace_needs_no_scenario(self) -> None:
        wanted = self.documents["two_users"]
        shown = [
            [(mark["data-mark"], mark["lane"], mark["data-user"], mark["data-step"]) for mark in one.primary()]
            for one in (wanted, self.documents["trace"], self.documents["trace by user"])
        ]
        self.assertEqual(shown, [shown[0]] * 3)
        for name in ("trace", "trace by user"):
            self.assertEqual((self.documents[name].faults, self.documents[name].traces), ([], wanted.traces))

    def test_lines_alone(self) -> None:
        document = self.documents["alone"]
        self.assertEqual((document.faults, document.traces), ([], []))
        self.assertEqual(len(document.primary()), 18)
        found = {("birth", ("process", 1000)), ("stop", ("lwp", 100001)), ("wait", ("process", 1002))}
        self.assertLessEqual(found, {(mark["data-mark"], mark["lane"]) for mark in document.primary()})
