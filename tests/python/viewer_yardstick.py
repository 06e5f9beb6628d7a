"""How long pages take: the processor time to open one, beside that of a page that only reads the same steps, and that to
make one, beside that of a program that only reads the same lines.

A machine that has other work, or a slower one, needs more for both.
"""

from __future__ import annotations

import os
import re
import subprocess
import sys
from collections.abc import Callable
from pathlib import Path
from typing import Any

from viewer_browser import Tab
from viewer_pages import MAKE, browser

DATA = re.compile(r'<script type="application/json" id="embedded">(.*?)</script>', re.DOTALL)
PAGE = """<!doctype html><meta charset="utf-8"><title>yardstick</title><body>
<script type="application/json" id="embedded">%s</script><script>
const data = JSON.parse(document.getElementById("embedded").textContent);
const seen = new Map();
%s
document.body.textContent = seen.size;
</script>"""
# It keeps what each step changed, and draws nothing
OF_A_RUN = """for (const { rows } of data)
    for (const row of [...rows.processes ?? [], ...rows.lwps ?? []]) seen.set(row.lwp ?? row.pid, row);"""
OF_TWO_RUNS = """for (const { rows } of data.files)
    for (const [user, step, asked, said] of rows) seen.set(user * 1e6 + step, [data.values[asked], data.values[said]]);"""


# It reads each line of its files, and writes nothing
ONLY_READS = "import json, sys; [json.loads(line) for name in sys.argv[1:] for line in open(name)]"


def yardstick_of_run(trace: Path) -> bytes:
    """A page with the lines of a trace."""
    lines = ",".join(trace.read_text(encoding="utf-8").splitlines())
    return (PAGE % (f"[{lines}]", OF_A_RUN)).encode()


def yardstick_of_runs(page: Path) -> bytes:
    """A page with the data of a page of two runs."""
    data = DATA.search(page.read_text(encoding="utf-8"))
    assert data is not None
    return (PAGE % (data[1], OF_TWO_RUNS)).encode()


def seconds_of(*words: object) -> float:
    """The processor time of a program: the less of two."""
    seconds = []
    for _ in range(2):
        before = os.times()
        subprocess.run([sys.executable, *map(str, words)], check=True, stdout=subprocess.DEVNULL)
        after = os.times()
        seconds.append(after.children_user + after.children_system - before.children_user - before.children_system)
    return min(seconds)


def times_to_make(*traces: Path) -> float:
    """How many times longer the page of the traces takes to make than only to read their lines."""
    mine, least = seconds_of(MAKE, *traces), seconds_of("-c", ONLY_READS, *traces)
    print(f"{' '.join(trace.name for trace in traces)}: made with {mine:.2f} s of the processor, read with {least:.2f} s")
    return mine / least


def processor_seconds() -> float:
    """What the browser's processes have used that read, run and lay out pages."""
    found: list[dict[str, Any]] = browser().ask("SystemInfo.getProcessInfo")["processInfo"]
    return float(sum(process["cpuTime"] for process in found if process["type"] == "renderer"))


def seconds_to_open(open_page: Callable[[], Tab]) -> float:
    """The less of two times."""
    seconds = []
    for _ in range(2):
        before = processor_seconds()
        open_page().settle()
        seconds.append(processor_seconds() - before)
    return min(seconds)


def times_to_open(open_page: Callable[[Path], Tab], page: Path, other: Path) -> float:
    """How many times longer the page takes than the yardstick, which is the other one."""
    mine, least = seconds_to_open(lambda: open_page(page)), seconds_to_open(lambda: open_page(other))
    assert int(open_page(other).value("document.body.textContent")) > 8
    print(f"{page.name}: opened with {mine:.2f} s of the processor, the yardstick with {least:.2f} s")
    return mine / least
