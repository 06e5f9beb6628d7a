"""The player's own ends: signals, a player or a part of it that is killed, and that nothing outlives it."""

from __future__ import annotations

import os
import random
import shutil
import signal
import subprocess
import time
from collections.abc import Callable, Iterator
from contextlib import contextmanager
from pathlib import Path

import pytest
from kernel_player import EXAMPLE, KERNEL, descendants, orphans, results_of, shared_player, shared_refusals, state_of
from posix_kit import SCALE

RUN = KERNEL / "run"
SECONDS = 60
"""So long a machine may take to let processes end that were killed."""
KILLS = 20 * SCALE
MOMENTS = 10 * SCALE
ENDING = [signal.SIGTERM, signal.SIGINT, signal.SIGHUP, signal.SIGUSR1, signal.SIGALRM]
PASSING = [signal.SIGCHLD, signal.SIGCONT, signal.SIGWINCH, signal.SIGURG]


@pytest.fixture
def player(tmp_path_factory: pytest.TempPathFactory, tmp_path: Path) -> Iterator[Path]:
    """In a folder of its own. What outlives it comes to this process."""
    with orphans():
        yield Path(shutil.copy(shared_player(tmp_path_factory), tmp_path / "tracehost-play"))


@pytest.fixture(params=["private numbers", "no private numbers"])
def words(request: pytest.FixtureRequest, tmp_path_factory: pytest.TempPathFactory) -> list[str]:
    """What comes before the player on the command line."""
    return [] if request.param == "private numbers" else [str(shared_refusals(tmp_path_factory)), "no_numbers"]


@pytest.fixture
def long_text(tmp_path: Path) -> Path:
    """More sessions than a test waits for."""
    path = tmp_path / "long.txt"
    path.write_text((EXAMPLE.read_text() + "\n") * 3000)
    return path


@contextmanager
def playing(words: list[str], player: Path, long_text: Path) -> Iterator[subprocess.Popen[str]]:
    """A player in the midst of its sessions."""
    results = player.with_name("results.tsv")
    results.unlink(missing_ok=True)
    command = [*words, str(player), "--results", str(results), str(long_text)]
    with subprocess.Popen(command, stdout=subprocess.DEVNULL, stderr=subprocess.PIPE, text=True) as process:
        try:
            until(lambda: results.exists() and len(results.read_text().splitlines()) > 3 or process.poll() is not None)
            assert process.poll() is None
            until(lambda: len(list(descendants(process.pid))) > 1)  # puppets too
            yield process
        finally:
            process.kill()


def until(holds: Callable[[], bool]) -> None:
    end = time.monotonic() + SECONDS
    while not holds():
        assert time.monotonic() < end, "it doesn't come true"
        time.sleep(0.002)


def nothing_is_left(player: Path, *files: str) -> None:
    until(lambda: not list(descendants(os.getpid())))
    assert sorted(path.name for path in player.parent.iterdir()) == sorted(["long.txt", "tracehost-play", *files])


@pytest.mark.parametrize("number", [signal.SIGTERM, signal.SIGKILL])
def test_a_run_that_is_killed_leaves_no_player(number: signal.Signals, player: Path, long_text: Path, tmp_path: Path) -> None:
    words = [str(RUN), "--count", "2000", "--jobs", "2", "--player", str(player), "--folder", str(tmp_path / "kept")]
    with subprocess.Popen(words, stdout=subprocess.DEVNULL, stderr=subprocess.DEVNULL) as process:
        try:
            results = tmp_path / "kept/0.tsv"
            until(lambda: results.exists() and len(results.read_text().splitlines()) > 3)
        finally:
            process.send_signal(number)
    assert process.returncode == -number
    nothing_is_left(player, "kept")
    assert len(results_of(results)) < (tmp_path / "kept/0.txt").read_text().count("# ")


def test_a_player_ends_with_the_process_that_started_it(player: Path, long_text: Path) -> None:
    done = subprocess.run([player, "--parent", "1", long_text], capture_output=True, text=True, check=False)
    said = "tracehost-play: process 1, which it is to end with, didn't start it, or has ended\n"
    assert (done.returncode, done.stdout, done.stderr) == (3, "", said)
    for wrong in ("", "0", "-1", "x", "1x"):
        assert subprocess.run([player, "--parent", wrong, long_text], capture_output=True, check=False).returncode == 2
    nothing_is_left(player)


def moments() -> Iterator[float]:
    """Moments of chance: of a start, of a session, between two."""
    chance = random.Random(5)
    while True:
        yield chance.choice([0.001, 0.01, 0.1]) * chance.random()


@contextmanager
def started(words: list[str], player: Path, long_text: Path, moment: float) -> Iterator[subprocess.Popen[str]]:
    """A player that was begun so long ago."""
    command = [*words, str(player), str(long_text)]
    with subprocess.Popen(command, stdout=subprocess.DEVNULL, stderr=subprocess.PIPE, text=True) as process:
        try:
            time.sleep(moment)
            yield process
        finally:
            process.kill()


@pytest.mark.parametrize("number", ENDING)
def test_a_signal_ends_it_and_is_told(number: signal.Signals, words: list[str], player: Path, long_text: Path) -> None:
    with playing(words, player, long_text) as process:
        process.send_signal(number)
        _, error = process.communicate(timeout=SECONDS)
    assert process.returncode == 3
    assert error.splitlines()[-1] == f"tracehost-play: ended by signal {number:d}"
    assert {row.verdict for row in results_of(player.with_name("results.tsv"))} == {"same"}
    nothing_is_left(player, "results.tsv")


def test_a_signal_at_any_moment(words: list[str], player: Path, long_text: Path) -> None:
    """Before it has handlers, the signal's default ends it."""
    told = 0
    for moment, number in zip(moments(), ENDING * MOMENTS):
        with started(words, player, long_text, moment) as process:
            process.send_signal(number)
            _, error = process.communicate(timeout=SECONDS)
        assert process.returncode in (3, -number) and (error == "") == (process.returncode == -number)
        told += f"ended by signal {number:d}\n" in error
        nothing_is_left(player)
    assert told > MOMENTS


@pytest.mark.parametrize("number", PASSING)
def test_a_signal_that_concerns_nobody_changes_nothing(number: signal.Signals, player: Path) -> None:
    with subprocess.Popen([player, EXAMPLE], stdout=subprocess.PIPE, text=True) as process:
        process.send_signal(number)
        output, _ = process.communicate(timeout=SECONDS)
    assert process.returncode == 0 and output.endswith("unlisted: 0\n")


def inner_of(process: subprocess.Popen[str]) -> list[int]:
    """The process that plays; none once it has ended."""
    return list(descendants(process.pid, deep=False))


def send(number: signal.Signals, process: subprocess.Popen[str]) -> None:
    """To both processes of the player."""
    for pid in [process.pid, *inner_of(process)]:
        try:
            os.kill(pid, number)
        except ProcessLookupError:
            pass  # it is through


def plays_on(player: Path, words: list[str], disturb: Callable[[subprocess.Popen[str]], None]) -> None:
    """It plays the example a few times, as if nothing disturbed it."""
    with subprocess.Popen([*words, player, *[EXAMPLE] * 20], stdout=subprocess.PIPE, text=True) as process:
        until(lambda: bool(inner_of(process)) or process.poll() is not None)
        disturb(process)
        output, _ = process.communicate(timeout=SECONDS)
    assert process.returncode == 0 and output.endswith("unlisted: 0\n"), output
    until(lambda: not list(descendants(os.getpid())))


def test_a_storm_of_signals_that_concern_nobody(words: list[str], player: Path) -> None:
    def storm(process: subprocess.Popen[str]) -> None:
        for turn in range(3000):
            send(PASSING[turn % len(PASSING)], process)

    plays_on(player, words, storm)


@pytest.mark.parametrize("number", [signal.SIGTSTP, signal.SIGTTIN, signal.SIGTTOU, signal.SIGSTOP])
def test_a_player_that_is_stopped_goes_on(number: signal.Signals, words: list[str], player: Path) -> None:
    def stop(process: subprocess.Popen[str]) -> None:
        for moment, _ in zip(moments(), range(10)):
            send(number, process)
            time.sleep(moment)
            send(signal.SIGCONT, process)

    plays_on(player, words, stop)


def test_nothing_is_left_of_a_player_that_is_killed(words: list[str], player: Path, long_text: Path) -> None:
    for moment, _ in zip(moments(), range(KILLS)):
        with started(words, player, long_text, moment) as process:
            process.kill()
        nothing_is_left(player)


def test_the_process_that_plays_may_be_killed(words: list[str], player: Path, long_text: Path) -> None:
    with playing(words, player, long_text) as process:
        (inner,) = inner_of(process)
        os.kill(inner, signal.SIGKILL)
        _, error = process.communicate(timeout=SECONDS)
    assert process.returncode == 3
    assert error.splitlines()[-1] == "tracehost-play: the process that plays was ended by signal 9"
    nothing_is_left(player, "results.tsv")


def killed_again(process: subprocess.Popen[str]) -> bool:
    """The process that plays is killed, and one that takes its place; true once the player has ended."""
    for inner in inner_of(process):
        try:
            os.kill(inner, signal.SIGKILL)
        except ProcessLookupError:
            pass
    return process.poll() is not None


def test_the_process_that_plays_may_be_killed_at_any_moment(words: list[str], player: Path, long_text: Path) -> None:
    for moment, _ in zip(moments(), range(MOMENTS)):
        with started(words, player, long_text, moment) as process:
            until(lambda: killed_again(process))
            _, error = process.communicate(timeout=SECONDS)
        assert process.returncode == 3 and error.startswith("tracehost-play: "), error
        nothing_is_left(player)


def test_both_of_its_processes_may_be_killed(words: list[str], player: Path, long_text: Path) -> None:
    """Without private numbers a process may be left that its debugger's end leaves stopped, but none that runs."""
    for moment, _ in zip(moments(), range(MOMENTS)):
        with started(words, player, long_text, moment) as process:
            send(signal.SIGKILL, process)
        until(lambda: all(words and state_of(pid) == "T" for pid in descendants(os.getpid())))
        for pid in list(descendants(os.getpid())):
            os.kill(pid, signal.SIGKILL)
        nothing_is_left(player)


def test_a_reader_that_goes_away_is_told(player: Path) -> None:
    reader, writer = os.pipe()
    os.close(reader)
    ended = subprocess.run([player, EXAMPLE], stdout=writer, stderr=subprocess.PIPE, text=True, check=False)
    os.close(writer)
    assert ended.returncode == 3 and "cannot write standard output" in ended.stderr
