"""tracehost-run --compare: the page of the plain schedule beside a failing run, with the switch and its place in the program."""

from __future__ import annotations

import json
import re
from pathlib import Path
from typing import Any

from posix_kit import Posix


def embedded(page: Path) -> Any:
    found = re.search(r'<script type="application/json" id="embedded">(.*?)</script>', page.read_text())
    assert found
    return json.loads(found[1])


def test_the_switch_of_a_race(posix: Posix, tmp_path: Path) -> None:
    """The runs are the same up to the switch; from there the debugger enters pause(2) in one, and its child goes on in the other."""
    page = tmp_path / "page.html"
    done = posix.run("--schedules", 300, "--compare", page, posix.race("lost_wakeup"))
    assert done.returncode == 1, done.stderr
    (switch,) = re.findall(r"--switches (\S+)", done.stderr)
    data = embedded(page)
    assert data["title"] == f"lost_wakeup: the plain schedule and --switches {switch}"
    assert [file["name"] for file in data["files"]] == ["the plain schedule (passed)", f"--switches {switch}"]
    (note,) = data["notes"]
    assert re.fullmatch(r"switch: 1000/100000 in pause at .*lost_wakeup\.c:\d+; 1001/100001 goes on", note["text"])
    left, right = ([row[2:4] for row in file["rows"]] for file in data["files"])
    step = note["step"] - 1
    assert left[:step] == right[:step]
    assert data["values"][left[step][0]] == {"op": "turn", "lwp": 100000, "act": "enter", "call": "pause"}
    assert data["values"][right[step][0]] == {"op": "turn", "lwp": 100001, "act": "compute"}
    failed = data["failure"]
    assert (failed["test"], failed["step"]) == (f"lost_wakeup --switches {switch}", len(right))
    assert failed["message"].startswith("deadlock: 1000/100000 waits in pause") and "lost_wakeup.c:" in failed["message"]


def test_given_switches(posix: Posix, tmp_path: Path) -> None:
    """A run by its switches, of a program that passes under them: the page is made, and says nothing of a failure."""
    program = posix.remedy("lost_wakeup")
    found = posix.run("--seed", 4, "--record", tmp_path / "run.json", program)
    assert found.returncode == 0, found.stderr
    switches = json.loads((tmp_path / "run.json.schedule").read_text())["switches"]
    done = posix.run("--switches", switches, "--compare", tmp_path / "page.html", program)
    assert (done.returncode, done.stderr) == (0, "")
    data = embedded(tmp_path / "page.html")
    assert data["failure"] is None and len(data["notes"]) == len(switches.split(","))


def test_no_page(posix: Posix, tmp_path: Path) -> None:
    """There is none of a search that passes, nor of the plain schedule: then an older one doesn't stay."""
    program, page = posix.remedy("lost_wakeup"), tmp_path / "page.html"
    page.write_text("older")
    done = posix.run("--schedules", 3, "--compare", page, program)
    assert (done.returncode, page.read_text()) == (0, "older")
    done = posix.run("--compare", page, program)
    assert (done.returncode, done.stderr) == (
        0,
        f"tracehost-run: --compare: {page} isn't written: this run is the plain schedule\n",
    )
    assert not page.exists()
    done = posix.run("--schedules", 3, "--compare", tmp_path / "no/page.html", program)
    assert (done.returncode, done.stderr) == (2, f"tracehost-run: --compare: {tmp_path}/no/page.html: No such file or directory\n")
