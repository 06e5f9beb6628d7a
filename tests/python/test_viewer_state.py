"""What a page shows beside the picture: the rows that a user sees after a step, as the library has them then.

The pages' lines come from the program. What they have to show comes from sessions of the library that make the same
steps, and the dispositions, which the library's rows don't have, from the second model.
"""

from __future__ import annotations

import json
import random
from pathlib import Path
from typing import Any, NamedTuple, Optional

import pytest
from by_chance import scenario
from checking import TOP, run
from reference.reading import parse, read_step
from reference.runs import Host
from session_ways import Tools, opened
from test_trace_rows import lwp_object, process_object
from tracehost.names import Signal
from tracehost.rows import lwp_row, process_row
from viewer_browser import Tab
from viewer_pages import Pages, browser, needs_browser, viewed

__all__ = ["viewed"]  # a fixture
Object = dict[str, Any]
SESSIONS, STEPS = 200, 2000
SESSIONS_OF_A_TEST = 20

pytestmark = needs_browser

# what the page shows: of each row its level, kind, name, mark and facts; of a changed fact what it is now
SHOWN = """(() => [...document.getElementById("state-rows").children].map((row) => ({
    level: Number(row.getAttribute("aria-level")), kind: row.classList[0], name: row.querySelector(".name").textContent,
    mark: ["changed", "new", "gone"].find((word) => row.classList.contains(word)) ?? "",
    facts: [...row.querySelectorAll(".fact")].map((fact) => fact.querySelector("del") && !fact.querySelector("ins") ? ""
        : (fact.querySelector("ins") ?? fact).textContent).filter(Boolean) })))()"""


class Seen(NamedTuple):
    """What a user sees: processes and LWPs by their numbers."""

    processes: dict[int, Object]
    lwps: dict[int, Object]


NOTHING = Seen({}, {})


def some(word: str, values: Optional[list[str]]) -> list[str]:
    names = [value.removeprefix("PTRACE_").removeprefix("PL_FLAG_") for value in values or []]
    return [f"{word} {' '.join(names)}"] if names else []


def process_words(row: Object) -> list[str]:
    state = {
        "runs": "runs",
        "trace_stop": f"trace stop {row.get('stop_signal')} of LWP {row.get('stop_lwp')}",
        "job_stop": f"job stop {row.get('stop_signal')}",
        "zombie": f"zombie, {end_words(row.get('status', 0))}",
    }[row["state"]]
    words = [state]
    if "stop" in row["state"]:
        words.append("reported" if row.get("reported") else "not reported yet")
    words += [f"traced by {row['tracer']}"] if "tracer" in row else []
    words += [f"child of {row['parent']}"] if row["parent"] != 1 else []
    words += ["continued, not reported yet"] if row.get("continued") else []
    words += some("events", row.get("events")) + some("pending", row.get("pending"))
    return words + some("ignores", row.get("ignore")) + some("catches", row.get("catch"))


def end_words(word: int) -> str:
    return f"ended by {Signal(word % 128).name}" if word % 128 else f"exited {word // 256}"


def lwp_words(row: Object) -> list[str]:
    call = row.get("call")
    code = f" {row.get('argument', 0)}" if call in ("exit", "other") else ""
    words = [
        {"runs": "runs", "in_call": f"in {call}{code}", "waits_for_vfork": f"waits for vfork child {row.get('vfork_child')}"}[
            row["mode"]
        ]
    ]
    words += ["suspended"] if row.get("suspended") else []
    words += ["steps"] if row.get("stepping") else []
    words += [f"due: {row['due'].replace('_', ' ')}"] if "due" in row else []
    words += some("blocks", row.get("blocked")) + some("pending", row.get("pending"))
    shown = [" ".join(flag.removeprefix("PL_FLAG_") for flag in row.get("flags", []))]
    shown += [f"child {row['child']}"] if "child" in row else []
    shown += [f"code {row['code']}"] if "code" in row else []
    return words + some("last stop:", [", ".join(word for word in shown if word)] if any(shown) else [])


class Replay:
    """A session of the library and one of the second model, and what each user has seen at some steps."""

    def __init__(self, tools: Tools, given: Object, chosen: list[int]) -> None:
        kills = given.get("kill_on_debugger_exit", 1) != 0
        self.host, self.model = opened(tools, kills), Host(kills)
        self.seen: dict[int, tuple[int, int, Seen, Seen]] = {}  # a step's user and own number, before and after it
        counts: dict[int, int] = {}
        for index, step in enumerate(given["steps"]):
            text, user = json.dumps(step), step["user"]
            before = self.view(user) if index in chosen else NOTHING
            self.host.exchange(text)
            self.model.line(*read_step(parse(text.encode())), False)
            counts[user] = counts.get(user, 0) + 1
            if index in chosen:
                self.seen[index] = user, counts[user], before, self.view(user)

    def view(self, user: int) -> Seen:
        """What the user sees now; the dispositions of a zombie mean nothing."""
        processes, lwps = self.host.rows(user)
        rows = {row.pid: process_object(process_row(row), row.status) for row in processes}
        for process in filter(lambda one: one.live, self.model.views[user].processes):
            for key, signals in (("ignore", process.ignored), ("catch", process.caught)):
                if signals:
                    rows[process.number][key] = [Signal(number).name for number in sorted(signals)]
        return Seen(rows, {row.lwp: lwp_object(lwp_row(row)) for row in lwps})


def marked(row: Object, before: Optional[Object]) -> str:
    return "new" if before is None else "" if before == row else "changed"


def expected(before: Seen, after: Seen) -> list[tuple[str, str, str, tuple[str, ...]]]:
    """The rows that are shown, sorted: their kinds, names, marks and facts."""
    rows = [
        ("process", str(pid), marked(row, before.processes.get(pid)), tuple(process_words(row)))
        for pid, row in after.processes.items()
    ]
    rows += [("lwp", f"LWP {lwp}", marked(row, before.lwps.get(lwp)), tuple(lwp_words(row))) for lwp, row in after.lwps.items()]
    rows += [
        ("process", str(pid), "gone", tuple(process_words(row)))
        for pid, row in before.processes.items()
        if pid not in after.processes
    ]
    rows += [("lwp", f"LWP {lwp}", "gone", tuple(lwp_words(row))) for lwp, row in before.lwps.items() if lwp not in after.lwps]
    return sorted(rows)


def traces(seen: Seen, pid: int, other: int) -> bool:
    """Whether a process traces another one, directly or through others, or through those that these have made."""
    at, left = other, len(seen.processes)
    while at != pid and left and at in seen.processes:
        at, left = seen.processes[at].get("tracer", seen.processes[at]["parent"]), left - 1
    return at == pid


def check_tree(seen: Seen, shown: list[Object]) -> None:
    """Each process is below its tracer, else below its parent; each LWP is below its process."""
    path: list[int] = []
    for row in shown:
        if row["mark"] == "gone":
            continue
        if row["kind"] == "lwp":
            assert path[row["level"] - 2] == seen.lwps[int(row["name"].removeprefix("LWP "))]["pid"]
            continue
        process = seen.processes[int(row["name"])]
        upper = process.get("tracer", process["parent"])
        path[row["level"] - 1 :] = [process["pid"]]
        if row["level"] > 1:
            assert path[-2] == upper
        else:
            assert upper not in seen.processes or ("tracer" not in process and traces(seen, process["pid"], upper)), process


def compare(tab: Tab, program: Path, tools: Tools, given: Object, chosen: list[int]) -> int:
    """Compares what the page shows after these steps, counted from 0; how many it has compared."""
    trace = run(program, "--json=trace+rows", given=json.dumps(given)).out
    tab.value(f"page.take([{{name: 'trace', text: {json.dumps(trace)}}}])")
    assert tab.value("document.getElementById('faults').textContent") == ""
    shown = tab.value(f"{chosen}.map((index) => {{ page.goToEntry(index); return [{SHOWN},"
                      " document.getElementById('state-head').textContent]; })")  # fmt: skip
    replay = Replay(tools, given, chosen)
    for index, (rows, head) in zip(chosen, shown):
        user, number, before, after = replay.seen[index]
        assert head.startswith(f"user {user} after step {number} of "), (head, index)
        found = sorted((row["kind"], row["name"].lstrip("▾▸ "), row["mark"], tuple(row["facts"])) for row in rows)
        assert found == expected(before, after), (given["steps"][index], index)
        check_tree(after, rows)
    return len(shown)


@pytest.fixture(scope="module")
def tools(program: Path, library: Path) -> Tools:
    return Tools(program, library)


@pytest.fixture
def tab() -> Any:
    pages = Pages()
    opened_tab = Tab(browser(), pages.empty(), "", width=800, height=400)
    yield opened_tab
    opened_tab.close()
    pages.folder.cleanup()


@pytest.mark.parametrize("part", range(SESSIONS // SESSIONS_OF_A_TEST))
def test_random_steps_of_random_sessions(part: int, program: Path, tools: Tools, tab: Tab) -> None:
    compared = 0
    for seed in range(part * SESSIONS_OF_A_TEST, (part + 1) * SESSIONS_OF_A_TEST):
        chance = random.Random(seed)
        given = scenario(chance)
        chosen = chance.sample(range(len(given["steps"])), STEPS // SESSIONS)
        compared += compare(tab, program, tools, given, chosen)
    assert compared == SESSIONS_OF_A_TEST * STEPS // SESSIONS


@pytest.mark.parametrize("name", ["follow_a_fork", "vfork_and_exec", "job_control", "crash_collector"])
def test_each_step_of_an_example(name: str, program: Path, tools: Tools, tab: Tab) -> None:
    given = json.loads((TOP / "examples" / f"{name}.json").read_text())
    steps = list(range(len(given["steps"])))
    assert compare(tab, program, tools, given, steps) == len(steps)
