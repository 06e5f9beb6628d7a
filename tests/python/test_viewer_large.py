"""Pages of large sessions: what folds, what can be left out, the overview, files of pictures, and how fast all of it is."""

from __future__ import annotations

import base64
import json
import struct
import zlib
from collections.abc import Iterator
from pathlib import Path

import pytest
import viewer_runs as runs
from viewer_browser import Tab
from viewer_pages import Pages, browser, lines_of, needs_browser, run_make, viewed
from viewer_yardstick import processor_seconds, times_to_make, times_to_open, yardstick_of_run

__all__ = ["viewed"]  # a fixture
pytestmark = needs_browser

NAMES = "page.picture.plan.lanes.map(({ name }) => name)"
STEPS = "page.picture.plan.steps.map(({ at }) => at + 1)"
TICKS = "[...document.querySelectorAll('#axis text')].map((text) => Number(text.textContent))"
FRAMES = 120
# of the yardstick's time, by steps: of a short session most is the drawing; and of a frame of one of 300 steps
MOST_TIMES_TO_OPEN, MOST_TIMES_A_FRAME = {5000: 6, 50000: 2}, 2
MOST_TIMES_TO_MAKE = 1  # of the time to read the lines


class Run:
    """A random session: its page, and its replies."""

    def __init__(self, pages: Pages, scenario: runs.Scenario, name: str) -> None:
        file = pages.file(f"{name}.json", json.dumps(scenario).encode())
        self.trace = pages.file(f"{name}.trace", lines_of("--json=trace+rows", file))
        self.replies = [json.loads(line) for line in self.trace.read_text().splitlines()]
        self.page = pages.room / f"{name}.html"
        run_make(self.trace, "-o", self.page, check=True)

    def numbers(self, *words: str) -> list[int]:
        """The numbers of the steps with these replies."""
        return [number for number, reply in enumerate(self.replies, 1) if reply["reply"] in words]


@pytest.fixture(scope="module")
def pages() -> Iterator[Pages]:
    made = Pages()
    yield made
    made.folder.cleanup()


@pytest.fixture(scope="module")
def many(pages: Pages) -> Run:
    return Run(pages, runs.random_scenario(3000, 3000), "many")


@pytest.fixture(scope="module")
def some(pages: Pages) -> Run:
    return Run(pages, runs.random_scenario(300, 300), "some")


@pytest.fixture
def tabs() -> Iterator[list[Tab]]:
    opened: list[Tab] = []
    yield opened
    for tab in opened:
        tab.close()


def open_tab(tabs: list[Tab], page: Path, address: str = "", **size: int) -> Tab:
    tabs.append(Tab(browser(), page, address, **size))
    return tabs[-1]


def test_one_lwp_is_on_the_lane_of_its_process(tabs: list[Tab], some: Run) -> None:
    """Only LWPs of processes with more have lanes, and no mark is lost; all have one by a key."""
    tab = open_tab(tabs, some.page, "draw=all")
    lwps: dict[int, set[int]] = {}
    for reply in some.replies:
        for row in reply["rows"].get("lwps", []):
            lwps.setdefault(row["pid"], set()).add(row["lwp"])
    tab.value("page.picture.hidesOthers && page.toggleOthers()")
    wanted = sorted(f"LWP {lwp}" for own in lwps.values() if len(own) > 1 for lwp in own)
    assert sorted(name for name in tab.value(NAMES) if name.startswith("LWP")) == wanted
    assert tab.value("document.querySelectorAll('#picture .mark:not([data-more])').length") == 300
    tab.press("w")
    tab.settle()
    assert sum(name.startswith("LWP") for name in tab.value(NAMES)) == sum(map(len, lwps.values()))
    assert tab.value("location.hash") == "#draw=all&lwps=all"


def test_users_and_processes_fold(tabs: list[Tab], some: Run) -> None:
    """What is below is drawn as bars on the folded lane, and its steps stay in the list."""
    tab = open_tab(tabs, some.page, "draw=all")
    tab.value("page.picture.hidesOthers && page.toggleOthers()")
    before = tab.value(NAMES)
    inside = tab.value("document.querySelectorAll('.lane[data-user=\"1001\"] .mark').length")
    assert inside > 20
    tab.point("#names .user .fold", click=True)
    after = tab.value(NAMES)
    place = after.index("user 1001")
    assert after[place + 1] == "user 1002"
    assert after == [name for name in before if name in after]
    assert tab.value("document.querySelectorAll('[data-lane=user][data-user=\"1001\"] .density').length") == 1
    assert tab.value(STEPS) == list(range(1, 301))
    number = next(number for number, reply in enumerate(some.replies, 1) if reply["user"] == 1001 and number > 50)
    tab.value(f"page.goToStep({number})")
    assert tab.value("document.getElementById('active').closest('[data-lane]')?.dataset.number ?? '1001'") == "1001"
    tab.point("#names .user .fold", click=True)
    assert tab.value(NAMES) == before


def test_waits_with_nothing_can_be_left_out(tabs: list[Tab], some: Run) -> None:
    tab = open_tab(tabs, some.page, "draw=all")
    tab.point("#view summary", click=True)
    tab.point("#nothing", click=True)
    tab.settle()
    assert tab.value("location.hash") == "#draw=all&hide=nothing"
    left_out = some.numbers("nothing")
    assert left_out and tab.value(STEPS) == [number for number in range(1, 301) if number not in left_out]
    assert tab.value("nothing.textContent") == f"nothing {len(left_out)}"


@pytest.mark.parametrize("hide", ["", "held,error,nothing"])
@pytest.mark.parametrize("width", [2, 9, 26, 110])
def test_ticks_are_round_numbers(tabs: list[Tab], some: Run, hide: str, width: int) -> None:
    """All but that of the first step; each is where its step is, or would be."""
    tab = open_tab(tabs, some.page, f"draw=all&hide={hide}&width={width}")
    ticks = tab.value(TICKS)
    shown = tab.value(STEPS)
    gaps = {one - other for one, other in zip(ticks[2:], ticks[1:])}
    least = min(gaps)
    assert len(ticks) > 3 and str(least).rstrip("0") in ("1", "2", "5")
    assert all(tick % least == 0 for tick in ticks[1:])
    places = tab.value("[...document.querySelectorAll('#axis text')].map((text) => Number(text.getAttribute('x')))")
    for tick, place in list(zip(ticks, places))[1:]:
        before = sum(number < tick for number in shown)
        assert place == pytest.approx((before + (0.5 if tick in shown else 0)) * width), tick


def test_only_the_steps_that_were_found(tabs: list[Tab], some: Run) -> None:
    """The list has the hits of a search; the others can be left out of the picture too, and a link says so."""
    tab = open_tab(tabs, some.page, "draw=all")
    tab.press("/")
    tab.write("pt_continue")
    wanted = [
        number for number, reply in enumerate(some.replies, 1) if reply["asked"].get("request") == "PT_CONTINUE"
    ]  # fmt: skip
    rows = "[...document.querySelectorAll('#rows .row')].map((row) => Number(row.dataset.line))"
    assert wanted and tab.value("page.list.steps.length") == len(wanted)
    assert tab.value(rows) == wanted[: len(tab.value(rows))]
    assert tab.value(STEPS) == list(range(1, 301))
    tab.point("#only", click=True)
    tab.settle()
    assert tab.value("location.hash") == "#draw=all&only=pt_continue"
    assert tab.value(STEPS) == wanted
    lanes = tab.value("page.picture.plan.lanes.filter(({ kind, seen }) => kind !== 'user' && seen.length === 0).length")
    assert lanes == 0 or not tab.value("page.picture.hidesOthers")
    again = open_tab(tabs, some.page, "only=pt_continue")
    assert again.value(STEPS) == wanted
    again.point("#only", click=True)
    again.settle()
    assert again.value(STEPS) == list(range(1, 301))


def test_the_steps_of_a_process(tabs: list[Tab], some: Run) -> None:
    tab = open_tab(tabs, some.page, "only=1001")
    numbers = tab.value(STEPS)
    made = {number for number, reply in enumerate(some.replies, 1) if reply["asked"].get("caller") == 1001}
    assert made and made <= set(numbers) and len(numbers) < 300


def test_the_overview(tabs: list[Tab], many: Run) -> None:
    """Its window goes with the picture, and a click moves the picture."""
    tab = open_tab(tabs, many.page)
    frame = """(([strip, frame]) => [frame.left - strip.left, frame.width])(
        ["overview-picture", "overview-window"].map((id) => document.getElementById(id).getBoundingClientRect()))"""
    left, width = tab.value(frame)
    room = tab.value("document.getElementById('overview-picture').clientWidth")
    assert left < 2 and 0 < width < room / 10
    tab.value("scroller.scrollLeft = scroller.scrollWidth / 2")
    tab.settle()
    assert tab.value(frame)[0] == pytest.approx(room / 2, abs=room / 50)
    x, y = tab.middle("#overview-picture")
    tab.mouse("mousePressed", x + room / 4, y, 1)
    tab.mouse("mouseReleased", x + room / 4, y)
    tab.settle()
    assert tab.value(frame)[0] + width / 2 == pytest.approx(0.75 * room, abs=room / 50)
    tab.press("0")
    assert tab.value("overview.hidden")


def test_light_and_dark(tabs: list[Tab], some: Run) -> None:
    tab = open_tab(tabs, some.page, "theme=light")
    ground = "getComputedStyle(document.body).backgroundColor"
    before = tab.value(ground)
    for wanted in ("dark", "light"):
        tab.press("d")
        tab.settle()
        assert tab.value("[document.documentElement.dataset.theme, location.hash]") == [wanted, f"#theme={wanted}"]
        assert (tab.value(ground) == before) == (wanted == "light")


def pixels(data: bytes) -> tuple[int, int, set[bytes]]:
    """The width, the height and some colours of a PNG of 8-bit RGBA."""
    width, height, depth, kind = struct.unpack(">IIBB", data[16:26])
    assert (data[:8], depth, kind) == (b"\x89PNG\r\n\x1a\n", 8, 6)
    parts, at = b"", 8
    while at < len(data):
        (length,) = struct.unpack(">I", data[at : at + 4])
        if data[at + 4 : at + 8] == b"IDAT":
            parts += data[at + 8 : at + 8 + length]
        at += length + 12
    raw = zlib.decompress(parts)
    return width, height, {raw[place : place + 4] for place in range(1, len(raw) - 4, 4)}


def test_a_file_of_png(tabs: list[Tab], some: Run) -> None:
    """It has twice the pixels of the file of SVG, and its drawing: more colours than the ground."""
    tab = open_tab(tabs, some.page, "theme=light")
    url = tab.value(
        """(async () => {
            const file = svgFile(page.picture);
            const png = await pngFile(file);
            const bytes = new Uint8Array(await png.arrayBuffer());
            return [file.getAttribute("width"), file.getAttribute("height"), btoa(bytes.reduce((text, byte) => text + String.fromCharCode(byte), ""))];
        })()"""
    )
    width, height, colours = pixels(base64.b64decode(url[2]))
    assert (width, height) == (int(2 * float(url[0])), int(2 * float(url[1])))
    assert len(colours) > 50


def frame_milliseconds(tab: Tab) -> float:
    """Of the processor, for a frame while the picture scrolls: the mean. The tab has to be in front, else it draws none."""
    before = processor_seconds()
    tab.value(
        f"""new Promise((done) => {{
            let count = 0;
            const next = () => {{
                scroller.scrollLeft += 30;
                scroller.scrollTop += 7;
                if (++count < {FRAMES}) requestAnimationFrame(next);
                else done(count);
            }};
            requestAnimationFrame(next);
        }})"""
    )
    return 1000 * (processor_seconds() - before) / FRAMES


@pytest.mark.parametrize("count", MOST_TIMES_TO_OPEN)
def test_a_long_session_is_fast(tabs: list[Tab], pages: Pages, some: Run, count: int) -> None:
    """By the time of the processor, in times what other pages of the same browser take: the machine may have other work."""
    run = Run(pages, runs.long_scenario(count), f"long{count}")
    other = pages.file("yardstick.html", yardstick_of_run(run.trace))
    open_tab(tabs, pages.empty())  # the browser has begun
    assert times_to_open(lambda page: open_tab(tabs, page), run.page, other) < MOST_TIMES_TO_OPEN[count]
    short_frame = min(frame_milliseconds(open_tab(tabs, some.page)) for _ in range(2))
    frame = min(frame_milliseconds(open_tab(tabs, run.page)) for _ in range(2))
    tab = tabs[-1]
    assert tab.value("page.picture.plan.columns") == count
    print(f"{count} steps: a frame takes {frame:.1f} ms of the processor, of 300 steps {short_frame:.1f} ms")
    assert frame < MOST_TIMES_A_FRAME * short_frame
    tab.value(f"page.goToStep({count // 2})")
    assert tab.value("document.getElementById('active').dataset.line") == str(count // 2)


def test_a_page_has_each_part_of_its_lines_once(pages: Pages) -> None:
    """The page of a long session is a small part of its trace, and fast to make."""
    run = Run(pages, runs.long_scenario(50000), "parts")
    data = run.page.stat().st_size - pages.empty().stat().st_size
    assert data < 30 * len(run.replies) < run.trace.stat().st_size / 10
    assert times_to_make(run.trace) < MOST_TIMES_TO_MAKE
