"""Reads the sequence of atomic calls out of the sources of the door, and compares it with the steps of door.py.

The text of a function comes down to its words of control and its calls, in their order. So a changed order, a changed
condition, or a call more or less is a failure.
"""

from __future__ import annotations

import re
from collections.abc import Iterator
from pathlib import Path

from checking import TOP, Checks

SOURCES = TOP / "crates/host_lock/src"

ATOMIC = "fetch_add|fetch_sub|load|store|swap|park|wake_one|wake_all|exchange|peek"
CALLED = (
    "try_lock|try_for_a_while|prepare_wait|wait|notify_one|enter|leave|let_go|left_in_turn|call_sleeper"
    "|serve|await_ticket|count_up|give_back|drop|make"
)
TOKEN = re.compile(
    r"\b(?:for|if|else|match|while|loop|return|break|continue|Some|None)\b|&&|\|\||[!=<>]=|[!{}<>]"
    rf"|\b(?:\w+\.)*(?:{ATOMIC}|{CALLED})(?:::<\w+>)?\((?:[^()]|\((?:[^()]|\([^()]*\))*\))*\)"
)
FUNCTION = re.compile(r"^( *)(?:pub(?:\(crate\))? )?fn (\w+)\b[^\n]*(.*?)^\1\}$", re.DOTALL | re.MULTILINE)

# The shape of each function. A call's step of door.py comes after `@`; `exchange` and the count move the host, which
# only the caller inside does, and `make` is its step.
SHAPES: dict[str, dict[str, str]] = {
    "host.rt": {"call": "if ! { door.let_go return } door.enter serve door.leave"},
    "door.rt": {
        "enter": "if ! && ! try_lock@enter { wait }",
        "try_lock": "! is_locked.load(SeqCst) && ! is_locked.swap(true,SeqCst)",
        "wait": """if { } else { } trying.fetch_add(1,SeqCst)@begin-to-try
            for { if try_for_a_while { trying.fetch_sub(1,SeqCst)@got-in return }
            sleepers.prepare_wait is_called.store(false,SeqCst)@store-before-sleep
            trying.fetch_sub(1,SeqCst)@try-no-more if try_lock@last-look { return } call.wait
            trying.fetch_add(1,SeqCst)@try-again is_called.store(false,SeqCst)@store-after-sleep }""",
        "try_for_a_while": "for { if try_lock@try { return } for { } }",
        "leave": """announced.left_in_turn != if == { is_locked.store(false,SeqCst)@open }
            if == || ==@look-ahead { call_sleeper }""",
        "call_sleeper": """trying.load(SeqCst)@see-who-tries == if && ! is_called.load(SeqCst)@see-called
            && ! is_called.swap(true,SeqCst)@swap-called { sleepers.notify_one }""",
        "let_go": "if { leave }",
    },
    "turn.rt": {
        "serve": """fetch_add::<Draw>(seat,1,1)@draw await_ticket
            exchange(seat,0,HostSlot::Taken(user,Snapshot::of(plain))) else { } state.make
            if { give_back return } count_up give_back""",
        "await_ticket": "for { load::<Look>(seat,0)@look-at-serving if == { return } }",
        "count_up": "fetch_add::<Count>(seat,2,1)",
        "give_back": "exchange(seat,0,HostSlot::Present(state)) fetch_add::<Release>(seat,0,1)@serve-next",
    },
    "event_count.rt": {
        "prepare_wait": "waiters.fetch_add(1,SeqCst)@count-as-waiter { epoch.load(SeqCst)@look-at-epoch }",
        "notify_one": """if waiters.load(SeqCst)@see-who-waits != { epoch.fetch_add(1,SeqCst)@raise-epoch
            epoch.wake_one()@wake-one }""",
        "wait": """for { if epoch.load(SeqCst)@compare-epoch != { break }
            epoch.park(rt,(self.epoch&0xffff_ffff)asu32)@park }""",
        "drop": "{ } waiters.fetch_sub(1,SeqCst)@drop-key",
    },
}
# the functions behind the calls in a shape; a key of the event count is dropped at the end of its wait
BEHIND: dict[str, list[tuple[str, str]]] = {
    "door.enter": [("door.rt", "enter")],
    "wait": [("door.rt", "wait")],
    "try_for_a_while": [("door.rt", "try_for_a_while")],
    "sleepers.prepare_wait": [("event_count.rt", "prepare_wait")],
    "call.wait": [("event_count.rt", "wait"), ("event_count.rt", "drop")],
    "serve": [("turn.rt", "serve")],
    "await_ticket": [("turn.rt", "await_ticket")],
    "count_up": [("turn.rt", "count_up")],
    "give_back": [("turn.rt", "give_back")],
    "door.leave": [("door.rt", "leave")],
    "call_sleeper": [("door.rt", "call_sleeper")],
    "sleepers.notify_one": [("event_count.rt", "notify_one")],
}
# a key is also dropped by the return after the last look, which no word of the source shows
UNSEEN = {"cancel"}


def shape_of(text: str) -> str:
    """The words of control and the calls of a function's body; a call of another function without its arguments."""
    found = []
    for token in TOKEN.findall(re.sub(r"//[^\n]*|[=-]>|unreachable!\(\)", "", text)):
        word = re.sub(r"^(?:self|of|table)\.(?=\w+[.(:])|^door\.(?=\w+\.)|,(?=\s*\))|\s", "", token)
        is_called = re.match(rf"((?:\w+\.)*(?:{CALLED}))\(", word)
        found.append(is_called[1] if is_called else word)
    return " ".join(found)


def shapes_in(text: str) -> dict[str, str]:
    """The shape of each function of a file."""
    found = {}
    for function in FUNCTION.finditer(text):
        body = re.search(rf"(?:^{function[1]}|\s)\{{\n(.*)^{function[1]}\}}$", function[0], re.DOTALL | re.MULTILINE)
        found[function[2]] = shape_of(body[1] if body else "")
    return found


def steps_of(file: str, function: str) -> Iterator[str]:
    """The steps of a function in the order of the source, with those of the functions that it calls in their place."""
    for word in SHAPES[file][function].split():
        _, is_step, step = word.partition("@")
        if is_step:
            yield step.replace("-", " ")
        for below in BEHIND.get(word.partition("@")[0], []):
            yield from steps_of(*below)


def check_steps(checks: Checks, ways: dict[str, set[str]]) -> None:
    """Compares the steps in the shapes with the machine's; each leads to the steps in `ways`."""
    steps = list(steps_of("host.rt", "call"))
    checks.check({*steps} | UNSEEN == {*ways}, f"the machine has other steps: {({*steps} | UNSEEN) ^ {*ways}}")
    for place, step in enumerate(steps[1:], 1):
        leading = {after for earlier in steps[:place] for after in ways.get(earlier, set())}
        checks.check(step in leading, f"in the machine no step before {step} in the source leads to it")


def check_source(checks: Checks, path: Path) -> None:
    """Compares each function of a file with its shape."""
    found = shapes_in(path.read_text(encoding="utf-8"))
    for function, shape in SHAPES[path.name].items():
        wanted, got = re.sub(r"@\S+", "", " ".join(shape.split())), found.get(function, "nothing")
        checks.check(wanted == got, f"{path.name}, {function}: the machine has {wanted}\n    and the source {got}")
