"""Random sessions for kernels: how they are made, played on this machine's kernel, cut down, and whether faults are found."""

from __future__ import annotations

import csv
import itertools
import json
import os
import random
import re
import shutil
import subprocess
import sys
from collections import Counter
from collections.abc import Iterator
from pathlib import Path

import pytest

from checking import run
from kernel.sessions.faults import found_by
from kernel.sessions.form import texts_in
from kernel.sessions.goals import LEAST, Group, goals_of, reached, read_unreached, why_unreached
from kernel.sessions.kinds import KINDS, any_order
from kernel.sessions.maker import Maker, Session
from kernel.sessions.model import NO_ROWS, Model, Settler, Unsettled, lines_of, restless, step_in, user_of
from kernel.sessions.playing import DIFFERS, NOT_DONE, SAME, Played, Player, Result, play
from kernel.sessions.remaking import remade
from kernel.sessions.running import Part, Total, report
from kernel.sessions.shortening import fewest
from kernel.sessions.starts import FILE, read_starts
from kernel_player import EXAMPLE, HEADING, KERNEL, built

SCALE = int(os.environ.get("TRACEHOST_TEST_SCALE", "1"))
DIFFERENCES = KERNEL / f"differences/{sys.platform}.tsv"
MAKE, RUN, SHORTEN = (KERNEL / name for name in ("make-sessions", "run", "shorten"))


@pytest.fixture(scope="module", autouse=True)
def of_the_tested_library(library: Path) -> Iterator[None]:
    with pytest.MonkeyPatch.context() as patch:
        patch.setenv("TRACEHOST_LIBRARY", str(library / "libtracehost.so"))
        yield


@pytest.fixture(scope="module")
def player(tmp_path_factory: pytest.TempPathFactory) -> Path:
    if shutil.which("make") is None or shutil.which("cc") is None:
        pytest.skip("not installed: make, cc")
    program = built(tmp_path_factory.mktemp("player"))
    tried = run(program, EXAMPLE)
    if tried.status == NOT_DONE:
        pytest.skip(f"this kernel plays no sessions: {tried.err.strip()}")
    return program


def made(kind: str, how_many: int, seed: int = 5) -> list[Session]:
    return list(Maker(seed, kind, users=3).sessions(how_many))


# ---- how sessions are made


@pytest.mark.parametrize("kind", KINDS)
def test_the_model_answers_so(kind: str) -> None:
    """Each reply and each row is the model's, all rows that changed are told, and no LWP is restless after a step."""
    for session in made(kind, 40):
        model, told = Model(session.kills), dict[str, str]()
        for part in session.parts:
            assert [model.make(line.words) for line in part.made] == list(part.made)
            for row in part.rows:
                kind_of_row, number = row.removeprefix("= gone ").removeprefix("= ").split()[:2]
                told.pop(f"{kind_of_row} {number}", None)
                if not row.startswith("= gone"):
                    told[f"{kind_of_row} {number}"] = row.removeprefix("= ")
            users = {user_of(line.words) for part in session.parts for line in part.made}
            known = [lines_of(user, model.rows(user)) for user in users]
            assert told == {name: line for lines in known for name, line in lines.items()}
            assert not any(restless(model.rows(user)) for user in users)


@pytest.mark.parametrize("kind", KINDS)
def test_no_order_of_turns_decides(kind: str) -> None:
    """With LWPs that take their turns in other orders, all comes out the same."""
    for seed, session in enumerate(made(kind, 15)):
        chance, model = random.Random(seed), Model(session.kills)
        for part in session.parts:
            user = user_of(part.made[0].words)
            first = [line for line in part.made if line.words == part.made[0].words or line.words.endswith("leave")][:1]
            replies = [model.make(line.words) for line in first]
            if step_in(first[0].words).get("act") == "enter" and first[0].reply == "ok":
                replies.append(model.make(part.made[1].words))
            while waiting := restless(model.rows(user)):
                lwp = chance.choice(waiting)
                turn = next(line.words for line in part.made[1:] if f"turn {lwp['lwp']} " in line.words)
                replies.append(model.make(turn))
            assert sorted(replies) == sorted(part.made)


def test_an_order_that_decides_is_told() -> None:
    settler, model = Settler(random.Random(1), KINDS["all"].unordered), Model()
    for words in ("spawn", "turn 100000 enter thr_new", "sigaction 1000 30 catch"):
        settler.group(model, words)
    with pytest.raises(Unsettled, match="order of turns"):
        settler.group(model, "kill 1000 1000 30")


def test_an_order_of_signals_that_differs_is_told() -> None:
    """SIGURG is 16 here and 23 on Linux, SIGTERM 15 on both: of SIGUSR1 (30, and 10) and SIGTERM the order differs."""
    settler, model = Settler(random.Random(1), KINDS["shared"].unordered), Model()
    for words in ("spawn", "turn 100000 block 15 30", "kill 1000 1000 15", "kill 1000 1000 30"):
        settler.group(model, words)
    with pytest.raises(Unsettled, match="order of signals"):
        settler.group(model, "turn 100000 block")


def test_the_same_words_make_the_same_file(tmp_path: Path) -> None:
    files = []
    for seed in ("0", "1"):
        file = tmp_path / seed
        words = [sys.executable, str(MAKE), "--kinds", "all", "--users", "2", "--count", "20", str(file)]
        subprocess.run(words, env={**os.environ, "PYTHONHASHSEED": seed}, stderr=subprocess.DEVNULL, check=True)
        files.append(file.read_bytes())
    assert files[0] == files[1] != b""


def test_kinds_leave_out_what_kernels_have_not() -> None:
    text = "\n".join(map(str, made("shared", 60)))
    assert "PT_ATTACH" in text and "thr_new" in text
    assert not re.search(r"PT_(STEP|SYSCALL|TO_|SUSPEND|SET_EVENT)|install|handle|(kill|raise|sigaction) .* (7|29) ", text)
    assert "kill 1000 -1 " not in "\n".join(map(str, made("model", 60)))


def test_marks_to_step_stay_until_a_turn() -> None:
    """Also if the model has taken the mark off a suspended thread."""
    settler, model, rows = Settler(random.Random(1), any_order), Model(), NO_ROWS

    def marked_after(*steps: str) -> frozenset[int]:
        nonlocal rows
        for words in steps:
            rows = model.rows(1001).since(rows, settler.group(model, words))
        return rows.marked

    begin = ("spawn", "spawn", "turn 100001 enter thr_new", "ptrace 1000 PT_ATTACH 1001", "wait4 1000 1001")
    assert marked_after(*begin, "ptrace 1000 PT_SUSPEND 100002", "ptrace 1000 PT_STEP 100002", "kill 1000 1001 17") == {100002}
    assert marked_after("wait4 1000 1001", "ptrace 1000 PT_CONTINUE 1001", "kill 1000 1001 30", "wait4 1000 1001") == {100002}
    assert "stepping" not in json.dumps(model.rows(1001).lwps[100002])
    assert marked_after("ptrace 1000 PT_RESUME 100002", "ptrace 1000 PT_CONTINUE 1001", "turn 100001 compute") == {100002}
    assert marked_after("turn 100002 compute") == frozenset()


def test_calls_are_traced_once_an_image_has_run() -> None:
    """Its start makes calls that no session knows of: also behind a step, or a signal, in it."""
    settler, model, rows = Settler(random.Random(1), KINDS["all"].unordered), Model(), NO_ROWS
    traces = [step_in("ptrace 1000 PT_SYSCALL 1001"), step_in("ptrace 1000 PT_SET_EVENT_MASK 1001 PTRACE_SCE")]

    def allowed_after(*steps: str) -> set[bool]:
        nonlocal rows
        for words in steps:
            made = settler.group(model, words)
            assert not made[0].reply.startswith("error")
            rows = model.rows(1001).since(rows, made)
        return {KINDS["all"].allows(rows, step) for step in traces}

    signal, goes_on, waits = "kill 1000 1001 30", "ptrace 1000 PT_CONTINUE 1001", "wait4 1000 1001"
    assert allowed_after("spawn", "spawn", "ptrace 1000 PT_ATTACH 1001", waits) == {True}
    assert allowed_after(goes_on, "turn 100001 enter exec", waits) == {False}
    assert allowed_after("ptrace 1000 PT_STEP 1001", waits) == {False}
    assert allowed_after(signal, goes_on, waits) == {False}
    assert allowed_after(goes_on, signal, waits) == {True}


# ---- what they reach


@pytest.mark.parametrize("name", KINDS)
def test_starts_reach_their_goals(name: str) -> None:
    """Their steps are ones that the kernels of each of their kinds can be asked for, and lead to one state."""
    kind, goals_of_kind = KINDS[name], set(goals_of(KINDS[name]))
    settler = Settler(random.Random(1), kind.unordered)
    starts = [start for start in read_starts(FILE.read_text(encoding="utf-8")) if name in start.kinds]
    for start in starts:
        model, goals = Model(start.kills is not False), set[str]()
        for words in start.steps:
            before = model.rows(1001)
            assert kind.allows(before, step_in(words)), (start.name, words)
            group = Group(1001, before, NO_ROWS, settler.group(model, words))
            group = group._replace(after=model.rows(1001))
            goals = reached(group, model)
            assert not group.is_refused or words == start.steps[-1], (start.name, words)
        assert start.name in goals or start.name not in goals_of_kind, start.name
    assert len({start.name for start in starts} & goals_of_kind) > 3


@pytest.mark.parametrize("kind", KINDS)
def test_goals_are_reached(kind: str) -> None:
    """In 5,000 sessions each at least twenty times, in fewer in proportion. None that can't be is."""
    sessions = 250 * SCALE
    maker, unreached = Maker(2, kind, users=3), read_unreached()
    assert sum(1 for _ in maker.sessions(sessions)) == sessions
    goals = {goal: why_unreached(kind, goal, unreached) for goal in goals_of(KINDS[kind])}
    assert set(maker.counts) <= set(goals)
    assert [goal for goal, why in goals.items() if why and maker.counts[goal]] == []
    assert [goal for goal, why in goals.items() if not why and maker.counts[goal] < LEAST * sessions / 5000] == []


def test_each_reason_is_for_some_goal() -> None:
    for unreached in read_unreached():
        assert len(unreached.why.split()) > 4
        for kind in unreached.kinds:
            assert any(why_unreached(kind, goal, [unreached]) for goal in goals_of(KINDS[kind])), unreached


# ---- playing


def test_this_kernel_plays_them(player: Path, tmp_path: Path) -> None:
    words: list[str | Path] = ["--player", player, "--count", str(300 * SCALE), "--users", "2", "--jobs", "2", "--folder", tmp_path]
    ran = run(RUN, *words, seconds=1200 * SCALE)
    assert (ran.status, ran.err) == (SAME, ""), ran.out + ran.err
    verdicts = [int(part.split()[0]) for part in ran.out.splitlines()[0].split(": ")[1].split(", ")]
    assert sum(verdicts) == 300 * SCALE
    steps, compared, rows = map(int, re.findall(r"\d+", ran.out.splitlines()[1]))
    assert steps > 20 * 300 * SCALE and compared > steps / 2 and rows > 2 * compared


def test_a_pattern_that_is_too_wide(player: Path, tmp_path: Path) -> None:
    """It would explain a signal that is pending for anybody at any time."""
    wide = tmp_path / "wide.tsv"
    wide.write_text(DIFFERENCES.read_text() + "wide\t*\t\tpending=*\tpending=*16*\tend\tWhy.\tkill(2)\n")
    ran = run(RUN, "--player", player, "--differences", wide, "--count", "30", "--jobs", "1", seconds=600)
    assert (ran.status, ran.out.splitlines()[-1]) == (DIFFERS, "listed for far more than where it occurs: wide"), ran.out


@pytest.mark.parametrize(
    ("count", "met", "status"),
    [
        (10_000, "gone: 0 of 3", DIFFERS),
        (9_999, "gone: 0 of 3", SAME),
        (10_000, "gone: 0 of 0", SAME),
        (10_000, "gone: 1 of 3", SAME),
    ],
)
def test_a_listed_difference_that_is_gone(count: int, met: str, status: int, capsys: pytest.CaptureFixture[str]) -> None:
    """It fails a whole corpus if it was possible there; if it wasn't, that is said."""
    differed, possible = (Counter({"gone": int(number)}) for number in re.findall(r"\d+", met))
    played = Played(SAME, [Result("one", "same", 1, 1, 0, "", "", "")], 1, differed, possible, "")
    assert report(Total([Part(0, 1, "", played)]), count) == status
    told = capsys.readouterr().out
    assert ("listed, but it didn't occur: gone" in told) == (met == "gone: 0 of 3")
    assert ("listed, but it wasn't possible here: gone" in told) == (met == "gone: 0 of 0")


def test_planted_faults_are_found(player: Path, tmp_path: Path) -> None:
    """Refusals exchanged, stops left out, and fields of rows altered, in what the kernel had answered the same."""
    plays, file = Player(player, DIFFERENCES), tmp_path / "sessions.txt"
    file.write_text("".join(f"{session}\n" for session in made("shared", 150 * SCALE)))
    played = play(plays, file, tmp_path / "results.tsv")
    counts, fault = found_by(plays, file, played.results, 4, tmp_path)
    assert fault == ""
    assert counts.missed() == []
    kinds = {
        "row process pending",
        "row process status",
        "row lwp blocked",
        "row process caught",
        "stop left out, state=trace_stop",
    }
    assert kinds <= set(counts.planted)
    assert sum(counts.planted.values()) >= 80


def test_a_difference_is_cut_down(player: Path, tmp_path: Path) -> None:
    """Without a list of differences a kernel that has a reaper in process 1's place differs: two steps show it."""
    none, file = tmp_path / "none.tsv", tmp_path / "sessions.txt"
    none.write_text(HEADING + "nothing\tnothing\t\tnothing\tnothing\tend\tnothing\tnothing\n")
    steps = ["spawn", "turn 100000 enter fork", "sigaction 1001 30 catch", "spawn", "kill 1000 1001 30", "ptrace 1000 PT_TRACE_ME"]
    session = remade("long", True, [*steps, "turn 100001 enter exit 0"])
    assert session is not None
    file.write_text(f"{session}\n")
    ran = run(SHORTEN, "--player", player, "--differences", none, file, "long", seconds=300)
    assert ran.status == DIFFERS, ran.err
    (shortest,) = texts_in(_written(tmp_path / "shortest.txt", ran.out))
    assert shortest.steps() == ["spawn", "ptrace 1000 PT_TRACE_ME"]
    ran = run(SHORTEN, "--player", player, file, "long", seconds=300)
    assert (ran.status, ran.out) == (SAME, "")


def _written(file: Path, text: str) -> Path:
    file.write_text(text)
    return file


def test_fewest() -> None:
    for wanted in itertools.combinations("abcdefg", 3):
        assert fewest("abcdefg", lambda steps: set(wanted) <= set(steps)) == list(wanted)


# ---- runs that don't do their work


@pytest.mark.parametrize(
    ("player_does", "said"),
    [
        ("exit 3", "the player ended with status 3"),
        ("exit 0", "results of 0 sessions of 5"),
        ("kill -9 $$", "the player ended with status -9"),
        ("echo Linux; exit 2", "the player ended with status 2: Linux"),
        ('printf "session\\tverdict\\nx\\tsame\\t1\\t1\\t\\t\\t\\t\\n" > "$4"', "results of 1 sessions of 5"),
        ('for n in 1 2 3 4 5; do printf "x\\tdiffers\\t1\\t1\\t1\\ts\\tm\\tk\\n"; done | sed 1p > "$4"', "says otherwise"),
    ],
)
def test_a_player_that_fails_is_no_pass(tmp_path: Path, player_does: str, said: str) -> None:
    false = tmp_path / "player"
    false.write_text(f"#!/bin/sh\n{player_does}\n")
    false.chmod(0o755)
    ran = run(RUN, "--player", false, "--count", "5", "--jobs", "1")
    assert ran.status == NOT_DONE
    assert said.replace("says", "say") in ran.err or said in ran.err


def test_runs_that_cannot_be_made(tmp_path: Path) -> None:
    assert run(RUN, "--player", tmp_path / "none").status == NOT_DONE
    assert run(RUN, "--count", "0").status == 2
    assert run(RUN, "--kinds", "none").status == 2
    assert run(MAKE, "--count", "3", "/dev/full").status == NOT_DONE
    assert run(MAKE, "--count", "3", tmp_path / "no/file").status == NOT_DONE
    assert run(SHORTEN, _written(tmp_path / "x.txt", "spawn -> new 1000 100000\n"), "x").status == 2
    assert run(SHORTEN, tmp_path / "none.txt", "x").status == NOT_DONE


def test_output_that_cannot_be_written(tmp_path: Path) -> None:
    """A run in which all is the same, on a full disk."""
    same = tmp_path / "player"
    same.write_text('#!/bin/sh\nprintf "session\\tverdict\\nx\\tsame\\t1\\t1\\t\\t\\t\\t\\n" > "$4"\n')
    same.chmod(0o755)
    words: list[str | Path] = [sys.executable, RUN, "--player", same, "--count", "1", "--jobs", "1"]
    assert subprocess.run(words, stdout=subprocess.DEVNULL, check=False).returncode == SAME
    with open("/dev/full", "w", encoding="utf-8") as full:
        ran = subprocess.run(words, stdout=full, stderr=subprocess.PIPE, text=True, check=False)
    assert (ran.returncode, ran.stderr) == (NOT_DONE, "run: [Errno 28] No space left on device\n")


# ---- the lists of differences


_DETACHED = ["sigaction 1000 20 catch", "ptrace 1000 PT_ATTACH 1001", "wait4 1000 1001", "ptrace 1000 PT_DETACH 1001 5"]


@pytest.mark.skipif(sys.platform != "linux", reason="habits of Linux")
@pytest.mark.parametrize(
    ("name", "where", "steps"),
    [
        ("blocked_stays", "turn 100000 raise 19: lwp 100000", ["turn 100000 block 19", "turn 100000 raise 19"]),
        ("blocked_stays", "turn 100000 raise 20: lwp 100000", ["turn 100000 block 20 28", "turn 100000 raise 20"]),
        ("detach_ends_untraced", "ptrace 1000 PT_DETACH 1001 5: process 1001", _DETACHED),
        (
            "kill_cont_in_session",
            "kill 1000 -1 19: process 2000",
            ["1002: spawn", "1002: spawn", "1002: ptrace 2001 PT_ATTACH 2000", "kill 1000 -1 19"],
        ),
        (
            "passes_signal",
            "ptrace 1000 PT_DETACH 1001 18: lwp 100001",
            ["turn 100001 block 18", "ptrace 1000 PT_ATTACH 1001", "wait4 1000 1001", "ptrace 1000 PT_DETACH 1001 18"],
        ),
        (
            "sigio_ends",
            "kill 1000 1001 23: process 1001",
            ["kill 1000 1001 17", "kill 1000 1001 23"],
        ),
        (
            "taken_together",
            "turn 100001 compute",
            ["sigaction 1001 19 catch", "kill 1000 1001 17", "kill 1000 1001 26", "kill 1000 1001 19"],
        ),
    ],
)
def test_habits_of_linux(name: str, where: str, steps: list[str], player: Path, tmp_path: Path) -> None:
    """What the kernel does otherwise at the last step is listed by this name, and nothing differs before."""
    session = remade("habit", True, ["spawn", "spawn", *steps])
    assert session is not None
    played = play(Player(player, DIFFERENCES), _written(tmp_path / "session.txt", f"{session}\n"), tmp_path / "results.tsv")
    assert [(result.verdict, result.step) for result in played.results] == [(f"listed {name}", where)], played.said


@pytest.mark.parametrize("system", ["linux", "freebsd"])
def test_differences_are_told_in_words(system: str) -> None:
    with (KERNEL / f"differences/{system}.tsv").open(newline="", encoding="utf-8") as file:
        rows = list(csv.DictReader(file, delimiter="\t", quoting=csv.QUOTE_NONE))
    assert len(rows) > 30 and list(rows[0]) == HEADING.split()
    for row in rows:
        assert None not in row and re.fullmatch("[a-z0-9_]+", row["name"]), row
        assert row["then"] in ("follow", "end") and row["step"] and row["model"] and row["kernel"], row
        assert re.fullmatch(r"[A-Z0-9-].*\.", row["why"]), row
        assert re.match(r"\w+\(\d\)", row["where"]), row
        assert row["model"] != row["kernel"] or "*" in row["model"], row
    keys = [(row["step"], row["condition"], row["model"], row["kernel"]) for row in rows]
    assert len(keys) == len(set(keys))
