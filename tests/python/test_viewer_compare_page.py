"""The page of two runs in a browser: the first difference, both states at it, and what keys, links and print do."""

from __future__ import annotations

import json
import random
from collections.abc import Iterator
from pathlib import Path
from typing import Any, Optional

import pytest
import viewer_runs
from by_chance import scenario
from checking import TOP
from compared_runs import Step, lines_of, trace_of
from test_trace_rows import State
from test_viewer_compare import changed, shifted
from test_viewer_state import lwp_words, process_words
from viewer_browser import Tab
from viewer_pages import Pages, browser, needs_browser, run_make, viewed
from viewer_yardstick import times_to_make, times_to_open, yardstick_of_runs

__all__ = ["viewed"]  # a fixture
Object = dict[str, Any]
MOST_TIMES_TO_OPEN = 4  # of the yardstick's time
MOST_TIMES_TO_MAKE = 1  # of the time to read the lines
SESSIONS, ROWS_OF_A_SESSION = 12, 20
ALARM = "document.body.dataset.executed = 1"
EXAMPLE = json.loads((TOP / "examples/follow_a_fork.json").read_text())["steps"]
WITHOUT_WAIT = EXAMPLE[:3] + EXAMPLE[4:]

pytestmark = needs_browser

# the rows in the window: each one's number, kind and texts
ROWS = """[...document.querySelectorAll(".pair")].map((row) => ({ number: Number(row.dataset.row), kind: row.classList[1],
    isCurrent: row.getAttribute("aria-selected") === "true",
    texts: [...row.querySelectorAll(":scope > span")].map((cell) => cell.textContent) }))"""
# the rows of a state: kind, name, mark, facts with whether they are marked
STATE = """((side) => [...document.querySelectorAll(`#${side} [role=treeitem]`)].map((row) => [row.classList[0],
    row.querySelector(".name").textContent, row.querySelector(".note")?.textContent ?? "",
    [...row.querySelectorAll(".fact")].map((fact) => [fact.textContent, fact.classList.contains("changed")])]))"""


class Compared:
    """Pages of two runs, and the tabs that show them."""

    def __init__(self, program: Path) -> None:
        self.program, self.pages = program, Pages()
        self.tabs: list[Tab] = []
        self.made = 0

    def page(self, left: str, right: str, *words: str, status: int = 0) -> Path:
        files = [self.pages.file(name, text.encode()) for name, text in (("left", left), ("right", right))]
        self.made += 1
        made = self.pages.room / f"page{self.made}.html"
        done = run_make(*files, "-o", made, *words)
        assert done.returncode == status, done.stderr
        return made

    def of_steps(self, left: list[Step], right: list[Step], how: str = "trace+rows") -> Path:
        return self.page(trace_of(self.program, left, how), trace_of(self.program, right, how))

    def open(self, page: Path, address: str = "", width: int = 1400, height: int = 800) -> Tab:
        self.tabs.append(Tab(browser(), page, address, width, height))
        return self.tabs[-1]

    def close(self) -> None:
        for tab in self.tabs:
            tab.close()
        self.pages.folder.cleanup()


@pytest.fixture
def compared(program: Path) -> Iterator[Compared]:
    made = Compared(program)
    yield made
    made.close()


def current(tab: Tab) -> Object:
    (row,) = [row for row in tab.value(ROWS) if row["isCurrent"]]
    found: Object = row
    return found


def test_other_numbers_of_the_same_processes(compared: Compared) -> None:
    """One more spawn is the only difference, and the page says who got another number."""
    steps = viewer_runs.long_scenario(400)["steps"]
    tab = compared.open(compared.of_steps(steps, [*steps[:4], {"user": 1001, "op": "spawn"}, *map(shifted, steps[4:])]))
    assert text_of(tab, "verdict") == "The runs differ in one place at step 2 of user 1001, which only the right one makes."
    assert text_of(tab, "renamed") == (
        "1001 of user 1001 is 1002 in the right run, and 3 more numbers are others: they are compared as the same."
    )
    assert text_of(compared.open(compared.of_steps(steps, steps[1:])), "renamed") == ""


def text_of(tab: Tab, name: str) -> str:
    return str(tab.value(f"document.getElementById('{name}').textContent"))


def test_the_first_difference(compared: Compared) -> None:
    """The left run waits for the stop, the right one doesn't: there the stop isn't reported yet."""
    tab = compared.open(compared.of_steps(EXAMPLE, WITHOUT_WAIT))
    assert text_of(tab, "verdict") == "The runs differ in 3 places, first at step 4 of user 1001, which only the left one makes."
    row = current(tab)
    assert (row["number"], row["kind"]) == (4, "left")
    assert row["texts"] == ["1001 4", "process 1000: wait4 for any", "status 1001 4479", "−", "", "", ""]
    traced = ["trace stop SIGSTOP of LWP 100001", False], ["traced by 1000", False], ["events EXEC", False]
    left, right = tab.value(f"{STATE}('left')"), tab.value(f"{STATE}('right')")
    assert left[2] == ["process", "1001", "", [traced[0], ["reported", True], *traced[1:]]]
    assert right[2] == ["process", "1001", "", [traced[0], ["not reported yet", True], *traced[1:]]]
    assert [row[:3] for row in left] == [row[:3] for row in right] == [
        ["process", "1000", ""], ["lwp", "LWP 100000", ""], ["process", "1001", ""], ["lwp", "LWP 100001", ""],
    ]  # fmt: skip


def test_another_reply_to_the_same_step(compared: Compared) -> None:
    tab = compared.open(compared.of_steps(EXAMPLE, WITHOUT_WAIT))
    tab.press("ArrowDown", 40)
    row = current(tab)
    assert row["kind"] == "reply"
    assert row["texts"][2:4] == ["ok", "≠"] and row["texts"][-1] == "error EBUSY 16"


def test_equal_runs(compared: Compared) -> None:
    """The same file twice; the buttons have nowhere to go."""
    tab = compared.open(compared.of_steps(EXAMPLE, EXAMPLE))
    assert text_of(tab, "verdict") == "The runs are equal: 18 steps."
    assert {row["kind"] for row in tab.value(ROWS)} == {"same"}
    assert tab.value("document.getElementById('next').disabled && document.getElementById('before').disabled")
    tab.press("d", 68)
    assert text_of(tab, "said") == "no later difference"


def test_keys(compared: Compared) -> None:
    tab = compared.open(compared.of_steps(EXAMPLE, WITHOUT_WAIT))
    firsts = [4, 14, 18]
    assert tab.value("page.differences.map(({ number }) => number)") == firsts
    seen = []
    for key in "ddddDDD":
        tab.press(key, 68)
        seen.append(current(tab)["number"])
    assert seen == [14, 18, 18, 18, 14, 4, 4]
    assert text_of(tab, "said") == "no earlier difference"
    for key, code, number in (("End", 35, 18), ("ArrowUp", 38, 17), ("Home", 36, 1), ("ArrowDown", 40, 2), ("PageDown", 34, 18)):
        tab.press(key, code)
        assert current(tab)["number"] == number
    tab.point("#before", click=True)
    assert current(tab)["number"] == 14


def test_only_what_differs(compared: Compared) -> None:
    """Equal steps farther than three from a difference are left out."""
    steps = [*EXAMPLE[:2], *[{"user": 1001, "op": "list", "caller": 1000}] * 30]
    tab = compared.open(compared.of_steps([*steps, *EXAMPLE[2:]], [*steps, *WITHOUT_WAIT[2:]]))
    shown = tab.value("page.list.rows.map(({ number }) => number)")
    tab.press("q", 81)
    assert tab.value("page.list.rows.map(({ number }) => number)") == [number for number in shown if number >= 31]
    assert current(tab)["number"] == 34
    tab.press("q", 81)
    assert tab.value("page.list.rows.length") == len(shown) == 48


def test_links(compared: Compared) -> None:
    page = compared.of_steps(EXAMPLE, WITHOUT_WAIT)
    tab = compared.open(page, "row=14&theme=dark")
    assert current(tab)["number"] == 14
    assert tab.value("document.documentElement.dataset.theme") == "dark"
    tab.press("d", 68)
    tab.settle(0.5)
    assert tab.value("location.hash") == "#row=18&theme=dark"
    assert current(compared.open(page, "row=99"))["number"] == 4


def test_one_user(compared: Compared) -> None:
    left = json.loads((TOP / "examples/two_users.json").read_text())["steps"]
    tab = compared.open(compared.of_steps(left, [step for step in left if step.get("which") != -1 or step["user"] != 1002]))
    assert {row["texts"][0][:4] for row in tab.value(ROWS)} == {"1001", "1002"}
    assert "user 1002" in text_of(tab, "verdict")
    tab.value("location.hash = 'user=1001'")
    tab.settle()
    assert {row["texts"][0][:4] for row in tab.value(ROWS)} == {"1001"}
    assert text_of(tab, "verdict") == "For user 1001 the runs are equal: 8 steps."


def test_notes_are_above_their_step(compared: Compared) -> None:
    traces = [trace_of(compared.program, steps) for steps in (EXAMPLE, WITHOUT_WAIT)]
    page = compared.page(*traces, "--note", f"5:<b>{'x' * 30}", "--note", "5:again", "--note", "99:at the end")
    rows = {row["number"]: row["texts"] for row in compared.open(page).value(ROWS)}
    assert rows[6][:2] == [f"<b>{'x' * 30}", "again"] and rows[6][2] == "1001 6"
    assert rows[18][0] == "at the end"


def test_a_failure(compared: Compared) -> None:
    """What a test says is on the page, and its step is the right run's."""
    traces = [trace_of(compared.program, steps) for steps in (EXAMPLE, WITHOUT_WAIT)]
    tab = compared.open(compared.page(*traces, "--failed", "test_fork", "--message", "</pre>lost", "--at", "10"))
    assert "test_fork" in text_of(tab, "failure") and "</pre>lost" in text_of(tab, "failure")
    tab.press("f", 70)
    assert current(tab)["number"] == 11


def seen_after(trace: str) -> dict[int, list[State]]:
    """What each user sees after each of the user's steps."""
    found: dict[int, list[State]] = {}
    for line in lines_of(trace):
        states = found.setdefault(line["user"], [State()])
        state = State()
        state.processes, state.lwps = dict(states[-1].processes), dict(states[-1].lwps)
        state.change(line["rows"])
        states.append(state)
    return found


def expected_state(own: State, other: State) -> list[tuple[str, str, str, list[str]]]:
    """The rows of one side with their facts; a row that only this side has is marked."""
    rows = [
        ("process", str(pid), "" if pid in other.processes else "only here", process_words(row))
        for pid, row in own.processes.items()
    ]
    rows += [("lwp", f"LWP {lwp}", "" if lwp in other.lwps else "only here", lwp_words(row)) for lwp, row in own.lwps.items()]
    return sorted(rows)


def check_state(shown: list[Any], own: State, other: State) -> None:
    found = sorted((kind, name, mark, [text for text, _ in facts]) for kind, name, mark, facts in shown)
    assert found == expected_state(own, other)
    for kind, name, mark, facts in shown:
        rows = (other.processes, process_words) if kind == "process" else (other.lwps, lwp_words)
        row: Optional[Object] = rows[0].get(int(name.removeprefix("LWP ")))
        if row is not None:
            marked = {text for text, is_marked in facts if is_marked}
            assert marked == {text for text, _ in facts} - {*rows[1](row)}


@pytest.mark.parametrize("part", range(3))
def test_states_of_random_rows(compared: Compared, part: int) -> None:
    """Both sides have what their user sees then, by the traces' rows, and mark in what they differ."""
    for seed in range(part * SESSIONS // 3, (part + 1) * SESSIONS // 3):
        chance = random.Random(seed)
        steps = scenario(chance)["steps"]
        traces = [trace_of(compared.program, one) for one in (steps, changed(chance, steps))]
        tab = compared.open(compared.page(*traces))
        pairs = tab.value("page.all.map(({ user, onLeft: left, onRight: right }) => ({ user, counts: { left, right } }))")
        seen = [seen_after(trace) for trace in traces]
        for place in chance.sample(range(len(pairs)), ROWS_OF_A_SESSION):
            shown = tab.value(f"(page.go(page.all[{place}]), [{STATE}('left'), {STATE}('right')])")
            user, counts = pairs[place]["user"], pairs[place]["counts"]
            left, right = seen[0].get(user, [State()])[counts["left"]], seen[1].get(user, [State()])[counts["right"]]
            check_state(shown[0], left, right)
            check_state(shown[1], right, left)
        compared.tabs.pop().close()


def test_traces_without_rows(compared: Compared) -> None:
    tab = compared.open(compared.of_steps(EXAMPLE, WITHOUT_WAIT, how="trace"))
    for side in ("left", "right"):
        assert "make it with --json=trace+rows" in text_of(tab, side)
    assert text_of(tab, "verdict").startswith("The runs differ in 3 places")


# ---- windows, colours, paper


@pytest.mark.parametrize("width, height", [(1400, 900), (390, 844)])
def test_the_first_difference_is_in_the_middle(compared: Compared, width: int, height: int) -> None:
    steps = viewer_runs.random_scenario(300, 300)["steps"]
    tab = compared.open(compared.of_steps(steps, [*steps[:150], *steps[151:]]), "", width, height)
    row, window = tab.value("['#chosen', '#pairs'].map((name) => document.querySelector(name).getBoundingClientRect().toJSON())")
    assert abs((row["top"] + row["bottom"]) / 2 - (window["top"] + window["bottom"]) / 2) <= 20
    boxes = tab.value(
        "['header', 'pairs', 'left', 'right'].map((id) => document.getElementById(id).getBoundingClientRect().toJSON())"
    )
    assert all(box["left"] >= 0 and box["right"] <= width and box["bottom"] <= height and box["height"] > 60 for box in boxes)
    left, right = boxes[2:]
    assert (left["top"], left["bottom"]) == (right["top"], right["bottom"]) and left["right"] <= right["left"] + 1
    assert tab.value("document.documentElement.scrollWidth") <= width


CONTRASTS = """(() => {
  const canvas = document.createElement("canvas").getContext("2d", { willReadFrequently: true });
  const rgb = (...colours) => {
    canvas.clearRect(0, 0, 1, 1);
    for (const colour of colours) { canvas.fillStyle = colour; canvas.fillRect(0, 0, 1, 1); }
    return [...canvas.getImageData(0, 0, 1, 1).data].slice(0, 3).map((part) => part / 255);
  };
  const luminance = (colour) => {
    const [red, green, blue] = colour.map((part) => part <= 0.04045 ? part / 12.92 : ((part + 0.055) / 1.055) ** 2.4);
    return 0.2126 * red + 0.7152 * green + 0.0722 * blue;
  };
  const ground = (one) => {
    const found = [];
    for (let at = one; at; at = at.parentElement) found.unshift(getComputedStyle(at).backgroundColor);
    return rgb(...found);
  };
  const least = (one) => {
    const [low, high] = [luminance(rgb(getComputedStyle(one).color)), luminance(ground(one))].sort((a, b) => a - b);
    return (high + 0.05) / (low + 0.05);
  };
  const texts = [...document.querySelectorAll("header *, #heads *, .pair span, #states p, #states .fact, #states .name, #states .note")]
    .filter((one) => one.textContent && one.checkVisibility() && !one.disabled);
  return [texts.length, texts.map((one) => [least(one), one.className, one.textContent]).sort((a, b) => a[0] - b[0])[0]];
})()"""


@pytest.mark.parametrize("theme", ["light", "dark"])
def test_contrast(compared: Compared, theme: str) -> None:
    """Each text can be read on its ground: 4.5 by WCAG 2, at every kind of row."""
    pages = [
        compared.of_steps(EXAMPLE, WITHOUT_WAIT),
        compared.of_steps(EXAMPLE[:8], [*EXAMPLE[:5], {"user": 1001, "op": "list", "caller": 1000}, *EXAMPLE[6:8], EXAMPLE[3]]),
    ]
    kinds = set()
    for page in pages:
        tab = compared.open(page, f"theme={theme}")
        kinds |= {row["kind"] for row in tab.value(ROWS)}
        count, (least, *where) = tab.value(CONTRASTS)
        assert count > 60 and least >= 4.5, (least, where)
    assert {"same", "left", "right", "reply", "step"} <= kinds


def test_print(compared: Compared) -> None:
    """Paper has the verdict, the rows in the window and both states, one below the other."""
    steps = viewer_runs.random_scenario(300, 300)["steps"]
    tab = compared.open(compared.of_steps(steps, [*steps[:150], *steps[151:]]))
    tab.ask("Emulation.setEmulatedMedia", media="print")
    boxes = tab.value(
        """[...document.querySelectorAll(".pair"), document.getElementById("states")]
        .map((one) => one.getBoundingClientRect()).map(({ top, bottom, height }) => [top, bottom, height])"""
    )
    assert len(boxes) > 20
    for above, below in zip(boxes, boxes[1:]):
        assert above[1] <= below[0] + 1 and above[2] > 0
    assert tab.value("document.getElementById('verdict').checkVisibility() && !document.getElementById('next').checkVisibility()")
    assert len(tab.ask("Page.printToPDF")["data"]) > 10000


# ---- hostile and long


def test_hostile_lines(compared: Compared) -> None:
    good = trace_of(compared.program, EXAMPLE)
    bad = [
        f"</script><script>{ALARM}</script>",
        f'{{"user":1001,"step":19,"index":19,"asked":{{"op":"<img src=x onerror=\'{ALARM}\'>"}},"reply":"ok"}}',
        '{"user":1001,"step":1e400,"index":19,"asked":{"op":"list","caller":1000},"reply":"pids","pids":[]}',
        '{"user":1001,"step":19,"index":99999999999999999999,"asked":{"op":"list","caller":1000},"reply":"pids","pids":[-1]}',
        '{"user":1001,"step":19,"index":19,"asked":{"op":"list","caller":1000},"reply":"pids","pids":[1000],"rows":{"lwps":[{}]}}',
        '{"user":"__proto__","step":1,"index":1,"asked":{"op":"spawn"},"reply":"ok"}',
    ]
    name = f"<img src=x onerror='{ALARM}'>"
    page = compared.page(good, good + "\n".join(bad) + "\n", "-t", name, "--note", f"3:{name}", status=1)
    document = compared.open(page).document()
    assert "data-executed" not in document.body
    assert [tag for tag, _ in document.elements if tag in ("img", "script")] == ["script"] * 2
    assert len(document.faults) == len(bad)
    assert all(f"right, line {number}: " in fault for number, fault in enumerate(document.faults, 19))


def test_huge_numbers(compared: Compared) -> None:
    """Steps and indexes may be as great as JSON's whole numbers."""
    line = '{{"user":1001,"step":{0},"index":{0},"asked":{{"op":"list","caller":1000}},"reply":"pids","pids":[1000]}}\n'
    great = line.format(9007199254740991)
    tab = compared.open(compared.page(line.format(1) + great, great + line.format(3)))
    assert text_of(tab, "verdict") == "The runs are equal: 2 steps."


def test_cut_traces(compared: Compared) -> None:
    """What was read is compared; the page doesn't say that the whole runs are equal."""
    whole = trace_of(compared.program, EXAMPLE)
    tab = compared.open(compared.page(whole, whole[:-20], status=1))
    assert "which only the left one makes" in text_of(tab, "verdict")
    same = "".join(whole.splitlines(keepends=True)[:-1])
    tab = compared.open(compared.page(same, whole[:-20], status=1))
    assert text_of(tab, "verdict") == "The runs are equal, as far as they can be read: 17 steps."


def test_a_run_without_steps(compared: Compared) -> None:
    tab = compared.open(compared.page("", trace_of(compared.program, EXAMPLE)))
    assert text_of(tab, "verdict") == "The runs differ in one place at step 1 of user 1001, which only the right one makes."
    assert len([row for row in tab.value(ROWS) if row["kind"] == "right"]) == 18


def test_50000_steps(compared: Compared) -> None:
    """One step is left out in the middle: the page is made and opens fast, and the list scrolls."""
    steps = viewer_runs.long_scenario(50000)["steps"]
    compared.open(compared.of_steps(EXAMPLE, EXAMPLE))  # the browser is there
    page = compared.of_steps(steps, [*steps[:20000], *steps[20001:]])
    assert times_to_make(*(compared.pages.room / name for name in ("left", "right"))) < MOST_TIMES_TO_MAKE
    other = compared.pages.file("yardstick.html", yardstick_of_runs(page))
    assert times_to_open(compared.open, page, other) < MOST_TIMES_TO_OPEN
    tab = compared.open(page)
    assert "first at step 5001 of user 1001, which only the left one makes" in text_of(tab, "verdict")
    assert tab.value("page.all.length") == 50000
    tab.value("document.getElementById('pairs').scrollTop = 1e9")
    tab.settle()
    assert tab.value(ROWS)[-1]["number"] == 50000
    assert tab.value("document.querySelectorAll('.pair').length") < 100
