"""Rows that are too long to be written out, as texts of sessions: each repeats some lines, with other numbers."""

from __future__ import annotations

import json
from collections.abc import Callable
from pathlib import Path

from long_sessions import FIRST_LWP, FIRST_PID, LWP_NUMBERS, PIDS, chain_ends, lwps_run_out, spawns
from sessions import FIRST_USER, Session, sessions_of


def pid_of(user: int, birth: int) -> int:
    """The number of a user's process, whose births are counted from 0."""
    return FIRST_PID * (user - FIRST_USER + 1) + birth % PIDS


def tid_of(user: int, birth: int) -> int:
    return FIRST_LWP + LWP_NUMBERS * (user - FIRST_USER) + birth


def spawn(user: int, birth: int) -> str:
    return f"{user}: spawn -> new {pid_of(user, birth)} {tid_of(user, birth)}\n"


def life(user: int, birth: int, first: str) -> str:
    """A process is born and ends. If it is the user's first one, it makes a step before."""
    tid = tid_of(user, birth)
    ends = f"{user}: turn {tid} enter exit 0 -> ok\n{user}: turn {tid} leave -> ended 0\n"
    return spawn(user, birth) + (first if birth == 0 else "") + ends


def attach(user: int) -> str:
    """Once each number was used, the first two are used again. The first process attaches to the second one."""
    pid = pid_of(user, 0)
    return f"{spawn(user, PIDS)}{spawn(user, PIDS + 1)}{user}: ptrace {pid} PT_ATTACH {pid + 1} -> ok\n"


def thousand_processes() -> str:
    lives = "".join(life(FIRST_USER, birth, "") for birth in range(PIDS))
    return f"{lives}{attach(FIRST_USER)}wait4 {FIRST_PID} -1 -> status {FIRST_PID + 1} 4479\n"


def thousand_processes_with_a_handler(*users: int) -> str:
    """The handler of each user's first process doesn't outlive it."""
    text = ""
    for birth in range(PIDS):
        for user in users:
            text += life(user, birth, f"{user}: install {pid_of(user, 0)} continue 0 -> ok\n")
    for user in users:
        pid, stop = pid_of(user, 0), "signal=17 flags=none child=0 code=0"
        handled = f"handled {pid + 1} 4479 at {tid_of(user, PIDS + 1)} {stop} by none decline"
        text += f"{attach(user)}{user}: handle {pid} -> {handled}\n"
    return text


def numbers_come_round() -> str:
    """The first three processes live. Each other one is killed before the next birth, so its number is free again."""
    text = spawns(4)
    for birth in range(4, PIDS):
        text += f"kill {FIRST_PID} {pid_of(FIRST_USER, birth - 1)} 9 -> ok\n{spawn(FIRST_USER, birth)}"
    return f"{text}spawn -> new 1003 101000\nspawn -> new 1004 101001\n"


def chain_of_all_processes() -> str:
    return chain_ends(" 0", "1002: spawn -> new 2000 104000\n") + "1002: list 2000 -> pids 2000\n"


TEXTS: dict[str, Callable[[], str]] = {
    "runs/a_long_chain_of_debuggers_ends": chain_ends,
    "runs/numbers_come_round": numbers_come_round,
    "sessions/chain_of_all_processes": chain_of_all_processes,
    "sessions/most_lwps": lwps_run_out,
    "sessions/thousand_processes": thousand_processes,
    "sessions/thousand_processes_of_two_users": lambda: thousand_processes_with_a_handler(1001, 1002),
    "sessions/thousand_processes_with_a_handler": lambda: thousand_processes_with_a_handler(1001),
}
LONG_ROWS = {Path("tests/rows", f"{name}.json"): text for name, text in TEXTS.items()}


def session_of(file: Path) -> Session:
    (session,) = sessions_of(f"# {file.stem}\n{LONG_ROWS[file]()}", {}).values()
    return session


def write_row(file: Path, folder: Path) -> Path:
    """Writes a row and its expected output into this folder, and returns the path of the scenario."""
    session, path = session_of(file), folder / file
    steps = ",\n".join(json.dumps(line.step, separators=(",", ":")) for line in session.lines)
    path.parent.mkdir(parents=True, exist_ok=True)
    path.write_text(f'{{"steps":[\n{steps}\n]}}\n')
    path.with_suffix(".out").write_text("".join(f"{line}\n" for line in session.printed()))
    return path
