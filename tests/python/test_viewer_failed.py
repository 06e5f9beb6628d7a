"""The page of a failed test, what to look at, and the panel by hand."""

from __future__ import annotations

import json
from collections.abc import Callable, Iterator
from pathlib import Path
from typing import Any, Optional

import pytest
from checking import TOP
from viewer_browser import Tab
from viewer_pages import Pages, browser, lines_of, needs_browser, run_make, viewed

__all__ = ["viewed"]  # a fixture
Step = dict[str, Any]
Open = Callable[..., Tab]
COLLECTOR = TOP / "examples" / "crash_collector.json"
MESSAGE = "assert <b>4</b> == 9\n +  where 4 = len([1, 2, 3, 4])"
SPAWN: Step = {"op": "spawn"}
WAIT: Step = {"op": "wait4", "caller": 1000, "which": -1}
ROWS = "[...document.querySelectorAll('#state-rows > *')].map((row) => row.querySelector('.name').textContent)"
LOOK_AT = "[...document.querySelectorAll('#notices button')].map((button) => button.textContent)"


@pytest.fixture
def pages() -> Iterator[Pages]:
    made = Pages()
    yield made
    made.folder.cleanup()


@pytest.fixture
def opened(pages: Pages) -> Iterator[Open]:
    """Opens the page of a scenario's trace with rows, with more words for viewer/make."""
    tabs: list[Tab] = []

    def open_page(scenario: Path, *words: object, address: str = "", **size: int) -> Tab:
        trace = pages.file("trace", lines_of("--json=trace+rows", scenario))
        page = pages.room / "page.html"
        run_make(trace, "-o", page, *words, check=True)
        tabs.append(Tab(browser(), page, address, **size))
        return tabs[-1]

    yield open_page
    for tab in tabs:
        tab.close()


def ptrace(request: str, target: int, **more: Any) -> Step:
    return {"op": "ptrace", "caller": 1000, "request": request, "target": target, **more}


def turn(lwp: int, act: str = "compute", **more: Any) -> Step:
    return {"op": "turn", "lwp": lwp, "act": act, **more}


def attached(count: int) -> list[Step]:
    """A debugger that has attached to so many processes, and lets them run."""
    targets = range(1001, 1001 + count)
    attaches = [step for target in targets for step in (ptrace("PT_ATTACH", target), WAIT)]
    return [SPAWN] * (count + 1) + attaches + [ptrace("PT_CONTINUE", target) for target in targets]


def stop(lwp: int, signal: int) -> list[Step]:
    return [turn(lwp, "raise", signal=signal), turn(lwp)]


def kill(signal: int) -> Step:
    return {"op": "kill", "caller": 1000, "which": 1001, "signal": signal}


def scenario(pages: Pages, steps: list[Step]) -> Path:
    return pages.file("steps.json", json.dumps({"steps": [{"user": 1001, **step} for step in steps]}).encode())


@needs_browser
@pytest.mark.parametrize("width", [1400, 390])
def test_a_failed_test(opened: Open, width: int) -> None:
    """The name and the message, the step in red in picture, list and panel; it is chosen, and in the window."""
    tab = opened(COLLECTOR, "--failed", "test_x.py::test_<i>crash</i>", "--message", MESSAGE, "--at", 19, width=width, height=800)
    shown = tab.value("document.getElementById('failure').textContent")
    assert shown == f"failed test_x.py::test_<i>crash</i> after step 19{MESSAGE}"
    assert tab.value("document.querySelectorAll('#failure :is(i, b)').length") == 0
    assert tab.value("document.getElementById('active').dataset.line") == "19"
    if width < 700:  # the list has the panel's room
        tab.press("t")
    assert tab.value("document.querySelector('.row.failed').dataset.line") == "19"
    if width < 700:
        tab.press("t")
    assert tab.value("document.querySelector('#axis .failed').textContent") == "19"
    assert tab.value("document.getElementById('state-head').textContent").startswith("user 1001 after step 19 of 25")
    middle, width_of = tab.value(
        """(() => {
        const [box, picture] = [document.querySelector('#picture .failed'), document.getElementById('scroller')]
            .map((one) => one.getBoundingClientRect());
        return [box.left + box.width / 2 - picture.left, picture.width];
    })()"""
    )
    assert 0 < middle < width_of
    red = tab.value("getComputedStyle(document.querySelector('#picture .failed')).fill")
    assert red == tab.value("getComputedStyle(document.querySelector('#failure pre')).color")
    tab.press("End")
    tab.value("document.activeElement.blur()")
    tab.press("f")
    assert tab.value("document.getElementById('active').dataset.line") == "19"


@needs_browser
def test_no_card_hides_what_led_to_a_failure(opened: Open) -> None:
    """There is one as soon as somebody goes on."""
    tab = opened(COLLECTOR, "--failed", "test", "--at", 19)
    assert tab.value("document.getElementById('card').hidden")
    tab.press("f")
    assert not tab.value("document.getElementById('card').hidden")
    assert not opened(COLLECTOR, address="step=3").value("document.getElementById('card').hidden")


@needs_browser
def test_what_is_nearest_to_the_failure_comes_first(opened: Open, pages: Pages) -> None:
    """Of its user; others' follow, and what came later."""
    dropped = [
        *attached(1),
        *stop(100_001, 15),
        WAIT,
        ptrace("PT_CONTINUE", 1001),
        *stop(100_001, 10),
        WAIT,
        ptrace("PT_CONTINUE", 1001),
    ]
    numbers = {"caller": 1000, "target": 1000, "lwp": 4000}
    others = [{name: value + numbers[name] if name in numbers else value for name, value in step.items()} for step in dropped]
    steps = [{"user": user, **step} for pair in zip(dropped, others) for user, step in zip((1001, 1002), pair)]
    file = pages.file("steps.json", json.dumps({"steps": steps}).encode())
    plain = opened(file).value(LOOK_AT)
    places = [int(text.partition(":")[0]) for text in plain]
    assert len(places) == 4 and places == sorted(places)
    first = places[0]
    found = opened(file, "--failed", "test", "--at", places[2] - 1).value(LOOK_AT)
    own = [place for place in places if place % 2 == (places[2] - 1) % 2]
    assert [int(text.partition(":")[0]) for text in found][: len(own)] == sorted(
        own, key=lambda at: (at > places[2] - 1, abs(places[2] - 1 - at))
    )
    assert first in places and sorted(found) == sorted(plain)


@needs_browser
@pytest.mark.parametrize("width", [1400, 390])
def test_no_name_of_a_lane_loses_digits(opened: Open, pages: Pages, width: int) -> None:
    """Of processes and LWPs below eight others."""
    steps = [SPAWN]
    for lwp in range(100_000, 100_008):
        steps += [turn(lwp, "enter", call="fork"), turn(lwp, "leave")]
    tab = opened(scenario(pages, steps), address="lwps=all", width=width)
    cut = "[...document.querySelectorAll('#names > div')].filter((one) => one.scrollWidth > one.clientWidth).map((one) => one.textContent)"
    assert tab.value("document.querySelectorAll('#names > div').length") > 10 and tab.value(cut) == []


@needs_browser
def test_a_refused_step_says_its_condition(opened: Open, pages: Pages) -> None:
    """In the list, in the card, and for a search."""
    tab = opened(scenario(pages, [*attached(2), ptrace("PT_CONTINUE", 1001), kill(17), turn(100_001), ptrace("PT_CONTINUE", 1001)]))
    for line, why in ((10, "1001 is in no trace stop"), (13, "no wait has reported the stop of 1001")):
        tab.value(f"(page.find(''), page.goToEntry({line - 1}))")
        assert tab.value(f"document.querySelector('.row[data-line=\"{line}\"] .meaning').textContent") == why
        assert why in tab.value("document.getElementById('card').textContent")
        tab.value(f"page.find({json.dumps(why)})")
        assert tab.value("page.list.found.size") == 1


@needs_browser
def test_escape_leaves_a_search_as_it_is(opened: Open) -> None:
    """In the list and in the field, which a browser would empty."""
    tab = opened(COLLECTOR)
    tab.press("/")
    tab.write("PT_ATTACH")
    count = tab.value("page.list.steps.length")
    assert 0 < count < 25
    tab.press("Escape", 27)
    assert (tab.value("page.list.steps.length"), tab.value("document.getElementById('find').value")) == (count, "PT_ATTACH")
    assert tab.value("document.activeElement === document.body")


@needs_browser
def test_a_link_goes_to_its_own_step(opened: Open) -> None:
    tab = opened(COLLECTOR, "--failed", "test", address="step=3")
    assert tab.value("document.getElementById('active').dataset.line") == "3"
    assert tab.value("document.querySelector('.row.failed').dataset.line") == "25"


@pytest.mark.parametrize(
    "words, status, text",
    [
        (["--message", "text"], 2, "--message and --at need --failed"),
        (["--at", "1"], 2, "--message and --at need --failed"),
        (["--failed", "test", "--at", "0"], 2, "steps are counted from 1, so 0 is none"),
        (["--failed", "test", "--at", "one"], 2, "invalid"),
        (["--failed", "test", "--at", "26"], 1, "viewer/make: --at 26: there are 25 steps\n"),
    ],
)
def test_wrong_words(pages: Pages, words: list[str], status: int, text: str) -> None:
    """Without such a step there is a page, which marks none."""
    trace = pages.file("trace", lines_of("--json=trace+rows", COLLECTOR))
    page = pages.room / "page.html"
    done = run_make(trace, "-o", page, *words)
    assert done.returncode == status
    assert text in done.stderr.decode()
    assert page.exists() == (status == 1)
    if status == 1:
        assert '"step": null' in page.read_text()


def test_a_failure_needs_lines() -> None:
    done = run_make("--failed", "test")
    assert (done.returncode, done.stdout) == (2, b"")


LOST = [*stop(100001, 30), *stop(100002, 31), WAIT, WAIT, ptrace("PT_CONTINUE", 1001, data=30), WAIT, WAIT]
UNSEEN = [*stop(100001, 30), *stop(100002, 31), WAIT, ptrace("PT_CONTINUE", 1001, data=30)]
WRONG = [*stop(100001, 15), WAIT, ptrace("PT_CONTINUE", 1001, data=16)]
DROPPED = [*stop(100001, 15), WAIT, ptrace("PT_CONTINUE", 1001)]
TRAP = [kill(5), kill(2), turn(100001), WAIT, ptrace("PT_DETACH", 1001), turn(100001)]
RIGHT = [
    *[*stop(100001, 15), WAIT, ptrace("PT_CONTINUE", 1001, data=15), WAIT],
    *[*stop(100002, 5), WAIT, ptrace("PT_CONTINUE", 1002), WAIT],
]


@needs_browser
@pytest.mark.parametrize(
    "steps, told",
    [
        (LOST, ["18: 1000 waits, but 1002 is still in the stop that it reported"]),
        (UNSEEN, ["13: no wait of 1000 reports this SIGUSR2 of 1002"]),
        (WRONG, ["13: PT_CONTINUE of 1001 passes SIGURG for its SIGTERM"]),
        (DROPPED, ["13: PT_CONTINUE of 1001 drops its SIGTERM"]),
        (TRAP, ["14: PT_DETACH of 1001 drops its SIGINT", "14: 1001 is detached with a pending SIGTRAP"]),
        (RIGHT, []),
    ],
    ids=["lost", "unseen", "wrong", "dropped", "trap", "right"],
)
def test_faults_of_a_debugger(opened: Open, pages: Pages, steps: list[Step], told: list[str]) -> None:
    """They are in the first screen, and their marks have a frame. What is only open has another colour."""
    tab = opened(scenario(pages, attached(2) + steps))
    assert tab.value(LOOK_AT) == told
    kinds, colours = (
        tab.value(f"[...document.querySelectorAll('#notices button')].map((button) => {of_button})")
        for of_button in ("button.className", "getComputedStyle(button).borderColor")
    )
    assert kinds == ["open" if steps in (LOST, UNSEEN) else "wrong"] * len(told)
    alarm = tab.value("getComputedStyle(document.getElementById('faults')).color")
    assert [colour == alarm for colour in colours] == [kind == "wrong" for kind in kinds]
    lines = tab.value("[...document.querySelectorAll('.mark.noticed')].map((mark) => Number(mark.dataset.line))")
    assert sorted(set(lines)) == sorted({int(text.split(":")[0]) for text in told})
    for place in range(len(told)):
        bottom = tab.value(f"document.querySelectorAll('#notices button')[{place}].getBoundingClientRect().bottom")
        assert bottom < 150
        tab.value(f"document.querySelectorAll('#notices button')[{place}].click()")
        assert tab.value("document.getElementById('active').dataset.line") == told[place].split(":")[0]


@needs_browser
def test_lines_without_rows_have_nothing_to_look_at(pages: Pages) -> None:
    page = pages.page("plain", lines_of(COLLECTOR), COLLECTOR)
    tab = Tab(browser(), page, "")
    assert tab.value("[notices.hidden, state.hidden]") == [True, True]
    tab.press("t")
    assert "--json=trace+rows" in tab.value("document.getElementById('state-head').textContent")
    tab.close()


@needs_browser
def test_a_missing_line(pages: Pages) -> None:
    """What the user sees isn't known from there on, and everything is concluded."""
    lines = lines_of("--json=trace+rows", COLLECTOR).splitlines(keepends=True)
    tab = Tab(browser(), pages.page("cut", b"".join(lines[:9] + lines[10:])), "")
    heads = [tab.value(f"(page.goToEntry({at}), document.getElementById('state-head').textContent)") for at in (8, 9)]
    assert heads[0].startswith("user 1001 after step 9 ")
    assert "missing" in heads[1]
    assert tab.value("document.querySelectorAll('[data-mark=gone]').length") > 0
    tab.close()


@needs_browser
def test_keys_of_the_panel(opened: Open) -> None:
    tab = opened(TOP / "examples" / "follow_a_fork.json", address="step=8")
    assert tab.value(ROWS) == ["1000", "LWP 100000", "1001", "LWP 100001", "1002", "LWP 100002"]
    tab.value("document.getElementById('state-rows').focus()")
    active: Optional[str] = None
    for key, wanted in (("Home", "1000"), ("ArrowDown", "LWP 100000"), ("ArrowDown", "1001"), ("ArrowLeft", "1001")):
        tab.press(key)
        active = tab.value("document.querySelector('#state-active .name').textContent")
        assert active == wanted
    assert tab.value(ROWS) == ["1000", "LWP 100000", "1001", "1002", "LWP 100002"]
    assert tab.value("document.querySelector('#state-active').getAttribute('aria-expanded')") == "false"
    tab.press("ArrowRight")
    assert len(tab.value(ROWS)) == 6
    tab.press("End")
    tab.press("Enter")
    assert tab.value("document.getElementById('active').dataset.line") == "8"
    tab.press("ArrowUp")  # the child of the fork, which has made no step: it was born at this one
    tab.press("Enter")
    assert tab.value("document.getElementById('active').dataset.line") == "8"
    tab.press("t")
    assert tab.value("state.hidden")


@needs_browser
def test_the_panel_is_printed(opened: Open) -> None:
    tab = opened(TOP / "examples" / "follow_a_fork.json", address="step=8&theme=dark")
    tab.value("dispatchEvent(new Event('beforeprint'))")
    printed = tab.value("document.querySelector('#print .state').textContent")
    assert printed.startswith("user 1001 after step 8 of 18")
    assert "trace stop SIGTRAP of LWP 100001" in printed
    assert tab.value("document.querySelectorAll('#print [id]').length") == 0


@needs_browser
@pytest.mark.parametrize("user", [1001, 1002])
def test_a_user_sees_only_their_own_rows(opened: Open, user: int) -> None:
    """Of each step of the session, if the user is chosen."""
    tab = opened(TOP / "examples" / "two_users.json", address=f"user={user}")
    names = tab.value(f"[...page.picture.plan.steps].flatMap((mark) => (page.go(mark), {ROWS}))")
    numbers = [int(name.removeprefix("LWP ")) for name in names]
    assert numbers and all(number // 1000 == user - 1000 or 100000 <= number - 4000 * (user - 1001) < 104000 for number in numbers)
