"""`tracehost-corpus`: folders and lists of scenarios, by one process for many of them. What fuzzers leave, and what goes wrong.

TRACEHOST_TEST_SCALE multiplies how many files the test of its speed has: 10 make a million.
"""

from __future__ import annotations

import json
import os
import random
import resource
import shutil
import subprocess
import sys
import time
from pathlib import Path
from xml.etree import ElementTree

import pytest
from by_chance import scenario
from checking import TOP, Ended, needs, run
from dask_cluster import Cluster, cluster, needs_dask
from posix_kit import POSIX, SCALE

__all__ = ["cluster"]  # a fixture
CORPUS = POSIX / "tracehost-corpus"
SPAWN = b'{"steps":[{"user":1001,"op":"spawn"}]}'
LINE = "1001 1 new 1000 100000\n"
ALL = "tracehost-corpus: {} scenarios compared: {} differ, {} refused; {} only run: {} refused; {} not run, {} crashed\n"


def corpus(program: Path, *words: str | Path, cwd: Path | None = None) -> Ended:
    return run(sys.executable, CORPUS, "--model", program, *words, cwd=cwd)


def put(folder: Path, **files: str | bytes) -> Path:
    """Files of these names, with a dot for each double underscore."""
    folder.mkdir(parents=True, exist_ok=True)
    for name, data in files.items():
        (folder / name.replace("__", ".")).write_bytes(data if isinstance(data, bytes) else data.encode())
    return folder


def test_a_folder_of_both_kinds(program: Path, tmp_path: Path) -> None:
    put(tmp_path, a__json=SPAWN, a__out=LINE, plain=SPAWN, word="hello\n", lone__out="no scenario\n")
    put(tmp_path / "below", b__json=SPAWN, b__out=LINE.replace("1000 ", "1001 "), c__json="[]", c__out="")
    put(tmp_path / ".state", hidden="never run")
    ended = corpus(program, tmp_path)
    said = [
        f'{tmp_path}/below/b.out:1: expected "1001 1 new 1001 100000", got "1001 1 new 1000 100000"',
        f"{tmp_path}/below/c.json: tracehost: refused: BadShape at step 0",
    ]
    assert ended == Ended(1, "".join(f"{line}\n" for line in said), ALL.format(3, 1, 1, 3, 2, 0, 0))


def test_a_list(program: Path, tmp_path: Path) -> None:
    put(tmp_path, s=SPAWN, right=LINE, rows="s\tright\n\ns\n")
    assert corpus(program, "rows", cwd=tmp_path) == Ended(0, "", ALL.format(1, 0, 0, 1, 0, 0, 0))


def test_the_examples_and_the_sums_as_json(program: Path) -> None:
    """One is to be refused, as its .status and .err say."""
    ended = corpus(program, "--json", "--jobs", "2", TOP / "examples")
    assert ended.status == 0 and ended.out.count("\n") == 1
    sums = json.loads(ended.out)
    assert sums.pop("compared") == len(list(TOP.glob("examples/*.json")))
    assert set(sums.values()) == {0} and set(sums) == {
        "differ", "refused", "run", "run_refused", "not_run", "crashed", "faults", "status"
    }  # fmt: skip


def test_a_scenario_that_is_refused(program: Path, tmp_path: Path) -> None:
    """By its name it is one, so it is told. What else a fuzzer keeps may be refused."""
    put(tmp_path, typo__json=b'{"steps":[{"user":1001,"op":"swapn"}]}', kept=b"no scenario", run__json=SPAWN)
    ended = corpus(program, tmp_path)
    assert ended == Ended(1, f"{tmp_path}/typo.json: tracehost: refused: BadName at step 1\n", ALL.format(0, 0, 0, 3, 2, 0, 0))


@pytest.mark.parametrize(
    ("text", "fault", "said"),
    [
        (b"[]", "tracehost: refused: BadShape at step 0\n", None),
        (b"[]", None, None),
        (
            b"[]",
            "tracehost: refused: BadName\n",
            ": tracehost: refused: BadShape at step 0, in place of tracehost: refused: BadName",
        ),
        (SPAWN, None, ": it isn't refused, as its .status says"),
    ],
)
def test_a_scenario_that_is_to_be_refused(program: Path, tmp_path: Path, text: bytes, fault: str | None, said: str | None) -> None:
    put(tmp_path, a__json=text, a__status="1\n", **({} if fault is None else {"a__err": fault}))
    ended = corpus(program, tmp_path)
    told = "" if said is None else f"{tmp_path}/a.json{said}\n"
    assert ended == Ended(0 if said is None else 1, told, ALL.format(1, 0 if said is None else 1, 0, 0, 0, 0, 0))


# ---- new lines, JUnit and reasons


@pytest.mark.parametrize("listed", [False, True])
def test_bless(program: Path, tmp_path: Path, listed: bool) -> None:
    """What differs gets the lines of this run, and nothing else is written. A refused one stays a failure."""
    put(tmp_path, a__json=SPAWN, a__out="?\n", b__json=SPAWN, b__out=LINE, c__json=b"[]", c__out="?\n", d__json=SPAWN, d__out="?\n")
    before = (tmp_path / "b.out").stat().st_mtime_ns
    rows = tmp_path.with_name("rows")
    rows.write_text("".join(f"{tmp_path}/{name}.json\t{tmp_path}/{name}.out\n" for name in "abcd"))
    ended = corpus(program, "--bless", rows if listed else tmp_path)
    said = [f"{tmp_path}/{name}.out: it has the lines of this run now" for name in "ad"]
    assert ended.out.splitlines() == [said[0], f"{tmp_path}/c.json: tracehost: refused: BadShape at step 0", said[1]]
    assert (ended.status, ended.err) == (1, ALL.format(4, 0, 1, 0, 0, 0, 0))
    assert [(tmp_path / f"{name}.out").read_text() for name in "abcd"] == [LINE, LINE, "?\n", LINE]
    assert (tmp_path / "b.out").stat().st_mtime_ns == before
    (tmp_path / "c.json").unlink()
    (tmp_path / "c.out").unlink()
    assert corpus(program, tmp_path).status == 0


def test_lines_that_cannot_be_written(program: Path, tmp_path: Path) -> None:
    """The difference stays one. Workers can't write them."""
    put(tmp_path, a__json=SPAWN, rows=f"{tmp_path}/a.json\t/proc/version\n")
    ended = corpus(program, "--bless", tmp_path / "rows")
    assert ended.status == 1 and "/proc/version: tracehost: cannot write" in ended.out and "1 differ" in ended.err, ended
    ended = corpus(program, "--bless", "--workers", "tcp://localhost:1", tmp_path)
    assert ended == Ended(2, "", "tracehost-corpus: --bless: the workers have only copies of the files\n")


def test_junit(program: Path, tmp_path: Path) -> None:
    """A case for each file: failures, and errors for what wasn't run. Names are text."""
    put(tmp_path / "c", a__json=SPAWN, a__out=LINE, b__json=SPAWN, b__out="?\n", typo__json="[]", kept="[]")
    put(tmp_path / "c", **{"<&\x1b>__json": SPAWN})
    (tmp_path / "c/circle").symlink_to("circle")
    report = tmp_path / "junit.xml"
    ended = corpus(program, "--junit-xml", report, tmp_path / "c")
    suite = ElementTree.parse(report).getroot()
    assert ended.status == 3 and (suite.get("tests"), suite.get("failures"), suite.get("errors")) == ("6", "2", "1")
    cases = {case.get("name"): case[0].tag if len(case) else "" for case in suite}
    assert cases == {"a.json": "", "b.json": "failure", "typo.json": "failure", "kept": "", "<&\\x1b>.json": "", "circle": "error"}
    (failure,) = [case[0] for case in suite if case.get("name") == "b.json"]
    assert failure.get("message") == f'{tmp_path}/c/b.out:1: expected "?", got "{LINE.strip()}"'
    ended = corpus(program, "--junit-xml", "/dev/full", tmp_path / "c")
    assert ended.status == 3 and ended.err.endswith("tracehost-corpus: /dev/full: No space left on device\n")


@pytest.mark.parametrize(
    ("variables", "explains"),
    [
        ({}, False),
        ({"CI": "true"}, True),
        ({"TRACEHOST_EXPLAIN": "always"}, True),
        ({"CI": "true", "TRACEHOST_EXPLAIN": "never"}, False),
    ],
)
def test_reasons_if_nobody_can_ask_again(
    program: Path, tmp_path: Path, monkeypatch: pytest.MonkeyPatch, variables: dict[str, str], explains: bool
) -> None:
    """Of a scenario that is refused, of one that can't be read, and of lines that can't."""
    for name, value in variables.items():
        monkeypatch.setenv(name, value)
    shutil.copy(TOP / "examples/broken.json", tmp_path)
    (tmp_path / "rows").write_text(f"{tmp_path}/broken.json\n{tmp_path}/none.json\n")
    ended = corpus(program, tmp_path / "rows")
    reasons = [
        '  steps[2].request: "pt_attach" is no request; did you mean "PT_ATTACH"?',
        f"  {tmp_path}/none.json: No such file or directory",
    ]
    told = [f"{tmp_path}/broken.json: tracehost: refused: BadName at step 3", f"{tmp_path}/none.json: cannot read"]
    lines = [line for pair in zip(told, reasons) for line in pair] if explains else told
    assert (ended.status, ended.out.splitlines()) == (3, lines)


NAMES = [b"line\nfeed", b"tab\there", b"\xff\xfe", b"esc\x1b]0;x\x07", b"-", b" ", b"a: b", b"x.json", "ä".encode(), b"*", b"\\n"]


@pytest.mark.parametrize("right", [True, False])
def test_odd_names(program: Path, tmp_path: Path, right: bool) -> None:
    """With a wrong line each is told, in a line of its own that has no control character."""
    for name in NAMES:
        folder = os.fsencode(tmp_path) + b"/" + name
        os.mkdir(folder)
        for file, data in ((name + b".json", SPAWN), (name + b".out", LINE.encode() if right else b"?\n"), (b"run" + name, SPAWN)):
            with open(folder + b"/" + file, "wb") as opened:
                opened.write(data)
    ended = corpus(program, tmp_path)
    count = len(NAMES)
    assert (ended.status, ended.err) == (0 if right else 1, ALL.format(count, 0 if right else count, 0, count, 0, 0, 0))
    assert len(ended.out.splitlines()) == (0 if right else count) and all(line.isprintable() for line in ended.out.splitlines())


def test_what_cannot_be_read_is_not_passed_over(program: Path, tmp_path: Path) -> None:
    """A file that has vanished, links that lead nowhere, what is no file, and a folder that isn't ours."""
    put(tmp_path, good=SPAWN, rows=f"{tmp_path}/vanished\n{tmp_path}/good\t{tmp_path}/gone\n")
    os.mkfifo(tmp_path / "fifo")
    (tmp_path / "nowhere").symlink_to("nothing")
    (tmp_path / "circle").symlink_to("circle")
    (tmp_path / "folder").symlink_to(tmp_path)
    ended = corpus(program, tmp_path / "rows")
    assert sorted(ended.out.splitlines()) == [f"{tmp_path}/gone: cannot read", f"{tmp_path}/vanished: cannot read"]
    assert (ended.status, ended.err) == (3, ALL.format(0, 0, 0, 0, 0, 2, 0))
    (tmp_path / "rows").unlink()
    ended = corpus(program, tmp_path)
    assert set(ended.out.splitlines()) == {f"{tmp_path}/{name}: it is no file" for name in ("fifo", "nowhere", "folder", "circle")}
    assert (ended.status, ended.err) == (3, ALL.format(0, 0, 0, 1, 0, 4, 0))


NOBODY = ("setpriv", "--reuid=65534", "--regid=65534", "--clear-groups")


@needs("setpriv")
@pytest.mark.skipif(os.geteuid() != 0, reason="it takes root to be another user")
def test_a_folder_and_a_file_of_another_user(program: Path) -> None:
    room = Path(f"/tmp/tracehost-corpus-{os.getpid()}")
    try:
        put(room, open=SPAWN, closed=SPAWN)
        put(room / "below", hidden=SPAWN)
        shutil.copy(program, room / ".tracehost")
        for name, mode in ((".tracehost", 0o755), (".", 0o755), ("open", 0o644), ("closed", 0o600), ("below", 0o700)):
            (room / name).chmod(mode)
        if run(*NOBODY, sys.executable, CORPUS, "--version").status != 0:
            pytest.skip("another user can't run the command here")
        ended = run(*NOBODY, sys.executable, CORPUS, "--model", room / ".tracehost", room)
        assert set(ended.out.splitlines()) == {f"{room}/below: Permission denied", f"{room}/closed: cannot read"}
        assert (ended.status, ended.err) == (3, ALL.format(0, 0, 0, 1, 0, 2, 0))
    finally:
        shutil.rmtree(room)


@pytest.mark.parametrize(
    ("words", "said"),
    [
        ([], "the following arguments are required: CORPUS"),
        (["nothing"], "nothing: No such file or directory"),
        (["empty"], "there is no scenario in these corpora"),
        (["--jobs", "0", "empty"], "--jobs: '0' is no number from 1 to 4611686018427387903"),
        (["--patience", "0", "empty"], "--patience: '0' is no number of seconds above 0"),
    ],
)
def test_mistakes(program: Path, tmp_path: Path, words: list[str], said: str) -> None:
    (tmp_path / "empty").mkdir()
    assert corpus(program, *words, cwd=tmp_path) == Ended(2, "", f"tracehost-corpus: {said}\n")


@pytest.mark.parametrize("words", [[], ["--json"]])
def test_a_full_disk(program: Path, tmp_path: Path, words: list[str]) -> None:
    put(tmp_path, a__json=SPAWN, a__out=LINE if words else "?\n")
    with open("/dev/full", "w") as full:
        command = [sys.executable, str(CORPUS), "--model", str(program), *words, str(tmp_path)]
        ended = subprocess.run(command, stdout=full, stderr=subprocess.PIPE, text=True, check=False)
    assert (ended.returncode, ended.stderr) == (3, "tracehost-corpus: standard output: No space left on device\n")


@pytest.mark.parametrize(("closed", "status"), [(">&-", 3), ("<&-", 0), ("2>&-", 0), ("2>/dev/full", 3)])
def test_closed_and_full_streams(program: Path, tmp_path: Path, closed: str, status: int) -> None:
    put(tmp_path, a__json=SPAWN, a__out=LINE)
    command = f"exec '{sys.executable}' '{CORPUS}' --model '{program}' '{tmp_path}' {closed}"
    assert run("sh", "-c", command).status == status


def faulty(room: Path, program: Path, fault: str) -> Path:
    """A program that has a fault if a row of its list is about `bad`, and else is tracehost."""
    path = room / "faulty"
    path.write_text(
        "#!/bin/sh\n"
        f"rows=$(cat); case $rows in *bad*) {fault};; esac; printf '%s\\n' \"$rows\" | exec '{program}' --expect-list /dev/stdin\n"
    )
    path.chmod(0o755)
    return path


@pytest.mark.parametrize(
    ("fault", "said"),
    [
        ("kill -SEGV $$", "tracehost was ended by SIGSEGV"),
        ("kill -KILL $$", "tracehost was ended by SIGKILL"),
        ("echo no memory >&2; exit 3", "tracehost has ended with status 3: no memory"),
        ("exec sleep 60", "it hasn't ended after 2 seconds"),
        ("exit 4", "tracehost has ended with status 4: "),
    ],
)
def test_a_scenario_that_crashes_the_program(program: Path, tmp_path: Path, fault: str, said: str) -> None:
    """It is found among others, and these are all run."""
    files = {f"{number:02}__json": SPAWN for number in range(20)}
    put(tmp_path / "corpus", **files, **{f"{number:02}__out": "?\n" if number == 3 else LINE for number in range(20)})
    put(tmp_path / "corpus", bad__json=SPAWN, bad__out=LINE)
    ended = corpus(faulty(tmp_path, program, fault), "--patience", "2", tmp_path / "corpus")
    lines = [f'{tmp_path}/corpus/03.out:1: expected "?", got "{LINE.strip()}"', f"{tmp_path}/corpus/bad.json: {said}"]
    assert ended == Ended(3, "".join(f"{line}\n" for line in lines), ALL.format(20, 1, 0, 0, 0, 0, 1))


def test_a_process_that_others_have_killed_is_replaced(program: Path, tmp_path: Path) -> None:
    put(tmp_path / "corpus", bad=SPAWN, good=SPAWN)
    once = f"mkdir '{tmp_path}/was' 2>/dev/null && kill -KILL $$"
    ended = corpus(faulty(tmp_path, program, once), tmp_path / "corpus")
    again = "tracehost-corpus: run again: tracehost was ended by SIGKILL\n"
    assert ended == Ended(0, "", again + ALL.format(0, 0, 0, 2, 0, 0, 0))


# ---- fuzzers


def test_a_folder_of_afl(program: Path, tmp_path: Path) -> None:
    queue, crashes = tmp_path / "found/default/queue", tmp_path / "found/default/crashes"
    put(queue / ".state/auto_extras", extra=b"\0")
    put(crashes, README__txt="Command line used to find this crash:\n")
    for place, name in (
        (queue, "id:000000,time:0,execs:0,orig:first.json"),
        (crashes, "id:000001,sig:06,src:000000,op:havoc,rep:2"),
    ):
        (place / name).write_bytes(SPAWN)
    put(tmp_path / "found/default", fuzzer_stats="start_time : 1\n", __cur_input=SPAWN)
    assert corpus(program, tmp_path / "found") == Ended(0, "", ALL.format(0, 0, 0, 4, 2, 0, 0))


# ---- other machines


@needs_dask
def test_workers_come_to_what_one_machine_does(program: Path, cluster: Cluster, tmp_path: Path) -> None:
    """One of two is killed meanwhile. Names that no list can have, a difference and what can't be read are told alike."""
    files: dict[str, str | bytes] = {f"{number}__json": SPAWN for number in range(8000)}
    files.update({f"{number}__out": LINE for number in range(8000)})
    files.update({"4000__out": "?\n", "line\nfeed": SPAWN, "refused": "[]"})
    put(tmp_path / "corpus", **files)
    (tmp_path / "corpus/nowhere").symlink_to("nothing")
    here = corpus(program, tmp_path / "corpus")
    killed, _ = (cluster.worker(TRACEHOST=str(program)) for _ in range(2))
    command = [sys.executable, CORPUS, "--model", program, "--workers", cluster.address, tmp_path / "corpus"]
    search = subprocess.Popen(list(map(str, command)), stdout=subprocess.PIPE, stderr=subprocess.PIPE, text=True)
    time.sleep(1)
    killed.kill()
    out, errors = search.communicate()
    assert Ended(search.returncode, out, errors) == here
    assert here.status == 3 and here.err == ALL.format(8000, 1, 0, 2, 1, 1, 0)


@needs_dask
def test_a_file_that_vanishes_and_a_worker_with_another_program(program: Path, cluster: Cluster, tmp_path: Path) -> None:
    other = tmp_path / "tracehost"
    shutil.copy(program, other)
    with open(other, "ab") as file:
        file.write(b"\0")
    (tmp_path / "rows").write_text(f"{tmp_path}/gone\n{TOP}/examples/first.json\n")
    worker = cluster.worker(TRACEHOST=str(program))
    ended = corpus(program, "--workers", cluster.address, tmp_path / "rows")
    said = f"{tmp_path}/gone: No such file or directory\n"
    assert ended == Ended(3, said, ALL.format(0, 0, 0, 1, 0, 1, 0))
    worker.kill()
    worker.wait()
    cluster.worker(TRACEHOST=str(other))
    ended = corpus(program, "--workers", cluster.address, tmp_path / "rows")
    assert (ended.status, ended.out) == (2, said) and ": another model: " in ended.err


# ---- speed


def seconds_of_children(before: resource.struct_rusage) -> float:
    after = resource.getrusage(resource.RUSAGE_CHILDREN)
    return after.ru_utime + after.ru_stime - before.ru_utime - before.ru_stime


def test_many_files_take_a_tenth_of_a_process_each(program: Path, tmp_path: Path) -> None:
    """100,000 files by one command, and some by a process each in the same run, in processor seconds a file."""
    texts, files = 200, 100_000 * SCALE
    chance = random.Random(0)
    put(tmp_path / "texts")
    for number in range(texts):
        (tmp_path / f"texts/{number}.json").write_text(json.dumps({"steps": scenario(chance)["steps"][:8]}))
    before = resource.getrusage(resource.RUSAGE_CHILDREN)
    for number in range(texts):
        (tmp_path / f"texts/{number}.out").write_text(run(program, f"{number}.json", cwd=tmp_path / "texts").out)
    of_a_process = seconds_of_children(before) / texts
    for number in range(files):
        if number % 1000 == 0:
            folder = put(tmp_path / f"corpus/{number}")
        for kind in ("json", "out"):
            os.link(tmp_path / f"texts/{number % texts}.{kind}", folder / f"{number}.{kind}")
    (tmp_path / "corpus/0/999.out").unlink()
    (tmp_path / "corpus/0/999.out").write_text("?\n")
    before = resource.getrusage(resource.RUSAGE_CHILDREN)
    ended = run(sys.executable, CORPUS, "--jobs", "2", "--model", program, tmp_path / "corpus", seconds=600 * SCALE)
    of_a_file = seconds_of_children(before) / files
    assert (ended.status, ended.err, ended.out.count("\n")) == (1, ALL.format(files, 1, 0, 0, 0, 0, 0), 1)
    assert of_a_file * 10 < of_a_process, (of_a_file, of_a_process)
