"""Pages of hostile, damaged and other texts in a browser."""

from __future__ import annotations

import json
import pathlib
import unittest

import viewer_runs as runs
from viewer_browser import Document
from viewer_pages import TOP, Pages, lines_of, needs_browser, viewed

__all__ = ["viewed"]  # a fixture
ALARM = "document.body.dataset.executed = 1"


@needs_browser
class Page(unittest.TestCase):
    """What is hostile, long, or done by hand."""

    pages: Pages
    example: pathlib.Path
    lines: bytes
    bad: list[str]
    documents: dict[str, Document]

    @classmethod
    def setUpClass(cls) -> None:
        cls.pages = Pages()
        cls.addClassCleanup(cls.pages.folder.cleanup)
        cls.example = TOP / "examples" / "two_users.json"
        cls.lines = lines_of(cls.example)
        cls.documents = {name: cls.pages.open(page) for name, page in cls.hostile().items()}

    @classmethod
    def hostile(cls) -> dict[str, pathlib.Path]:
        good = b'{"user":1001,"step":1,"reply":"new","pid":1000,"lwp":100000}\n'
        bad = [
            f"</script><script>{ALARM}</script>",
            f'{{"user":1001,"step":2,"reply":"<img src=x onerror=\'{ALARM}\'>"}}',
            '{"user":1001,"step":2,"reply":"stopped","lwp":100000,"signal":"<b onclick=x>","number":5,"flags":[]}',
            '{"user":1001,"step":2,"reply":"error","errno":"<i>","number":3}',
            '{"user":1001,"step":2,"reply":"new","pid":"1000","lwp":100000}',
            '{"user":1001,"step":2,"reply":"status","pid":1000,"word":0}',
            '{"user":"__proto__","step":2,"reply":"ok"}',
            '{"user":1001,"step":2,"reply":"constructor"}',
            '{"refused":"<script>"}',
            cls.row_line(2, {"processes": [{"pid": 1000, "parent": 1, "state": f"<img onerror='{ALARM}'>"}]}),
            cls.row_line(2, {"processes": [{"pid": 1000, "parent": 1, "state": "runs", "pending": ["<b>"]}]}),
            cls.row_line(2, {"lwps": [{"lwp": 100000, "pid": 1000, "mode": "in_call", "call": "<script>"}]}),
            cls.row_line(2, {"lwps": {"__proto__": []}}),
            cls.row_line(2, []),
            "[]",
            "null",
            "1001 2 ok",
        ]
        cls.bad = bad
        steps: list[runs.Step] = [{"op": "spawn"}, {"op": "ptrace", "caller": 1000, "request": f"<img onerror='{ALARM}'>"}]
        text = json.dumps({"steps": [{"user": 1001, **step} for step in steps]})
        scenario = cls.pages.file("hostile.json", text.encode())
        truncated = cls.lines[:-20]
        page = cls.pages.page
        return {
            "bad": page("bad", good + "\n".join(bad).encode() + b"\n", status=1),
            "bad scenario": page("scenario", good + b'{"user":1001,"step":2,"reply":"ok"}\n', scenario, status=1),
            "truncated": page("truncated", truncated, cls.example, status=1),
            "other scenario": page("other", cls.lines, TOP / "examples" / "sandbox.json", status=1),
            "plain": cls.pages.unread("plain", (TOP / "examples" / "first.out").read_text()),
            "injected": cls.injected(page("injected", cls.lines, cls.example)),
            "refused": page("refused", good + b'{"refused":"BadName"}\n{"user":1001,"step":2,"reply":"ok"}\n'),
            "empty": cls.pages.empty(),
            "odd rows": page("odd", "\n".join(cls.odd_rows()).encode()),
        }

    @classmethod
    def row_line(cls, step: int, rows: object) -> str:
        asked = {"op": "list", "caller": 1000}
        line = {"user": 1001, "step": step, "index": step, "asked": asked, "reply": "pids", "pids": [1000], "rows": rows}
        return json.dumps(line)

    @classmethod
    def odd_rows(cls) -> list[str]:
        """Rows of the right form that no host has: without their processes, in circles, gone before they came."""
        runs_now: dict[str, object] = {"parent": 1, "state": "runs"}
        odd: list[object] = [
            {"removed_processes": [7], "removed_lwps": [8]},
            {"lwps": [{"lwp": 100000, "pid": 77, "mode": "waits_for_vfork", "vfork_child": 99}]},
            {"processes": [dict(runs_now, pid=1000, tracer=1001), dict(runs_now, pid=1001, tracer=1000)]},
            {"processes": [{"pid": 1000, "parent": 1000, "state": "trace_stop", "stop_signal": "SIGHUP", "stop_lwp": 5}]},
            {"processes": [{"pid": 1000, "parent": 1001, "state": "zombie", "status": 4294967295}]},
            {"processes": [dict(runs_now, pid=1000)], "removed_lwps": [100000], "removed_processes": [1000]},
        ]
        return [cls.row_line(step, rows) for step, rows in enumerate(odd, 1)]

    def test_odd_rows_are_drawn(self) -> None:
        document = self.documents["odd rows"]
        self.assertEqual((document.faults, len(document.primary())), ([], 6))
        self.assertIn("data-milliseconds", document.body)

    def test_bad_lines_are_shown_and_not_executed(self) -> None:
        document = self.documents["bad"]
        self.assertEqual(len(document.faults), len(self.bad))
        for number, (fault, line) in enumerate(zip(document.faults, self.bad), 2):
            self.assertIn(f"bad.lines, line {number}: ", fault)
            self.assertIn(line[:150], fault)
        self.assertEqual(len(document.primary()), 1)
        self.is_harmless(document)

    @classmethod
    def injected(cls, page: pathlib.Path) -> pathlib.Path:
        """A page with scripts of somebody else in it, as if its data had ended its element."""
        scripts = f"<script>{ALARM}</script><img src=x onerror='{ALARM}'><a id=a href='javascript:{ALARM}'></a></body>"
        text = page.read_text()
        assert text.count("</body>") == 1
        page.write_text(text.replace("</body>", scripts))
        return page

    def test_the_policy_stops_other_scripts(self) -> None:
        """The page's own script runs: its marks are there."""
        document = self.documents["injected"]
        self.assertNotIn("data-executed", document.body)
        self.assertEqual(len(document.primary()), 16)

    def test_a_bad_scenario_is_told(self) -> None:
        document = self.documents["bad scenario"]
        self.assertIn("<img onerror=", document.faults[0])
        self.assertEqual(len(document.primary()), 2)
        self.is_harmless(document)

    def is_harmless(self, document: Document) -> None:
        self.assertNotIn("data-executed", document.body)
        self.assertEqual([tag for tag, _ in document.elements if tag in ("img", "b", "i")], [])
        self.assertEqual(sum(tag == "script" for tag, _ in document.elements), 2)

    def test_a_truncated_file(self) -> None:
        document = self.documents["truncated"]
        self.assertEqual(len(document.faults), 1)
        self.assertIn("line 16: no JSON: ", document.faults[0])
        self.assertEqual(len(document.primary()), 15)

    def test_another_scenario_is_told_and_left_out(self) -> None:
        document = self.documents["other scenario"]
        self.assertIn("isn't the scenario of these lines", document.faults[0])
        self.assertEqual((len(document.primary()), document.traces), (16, []))

    def test_plain_text_is_told(self) -> None:
        self.assertIn("run tracehost with --json", self.documents["plain"].faults[0])

    def test_refused_lines_have_a_lane(self) -> None:
        found = [(mark["data-mark"], mark["lane"][0]) for mark in self.documents["refused"].primary()]
        self.assertEqual(found, [("birth", "process"), ("refused", "input"), ("ok", "user")])

    def test_the_empty_page(self) -> None:
        self.assertEqual((self.documents["empty"].marks, self.documents["empty"].faults), ([], []))
