"""clients/explore: its command, and the traces that it leaves."""

from __future__ import annotations

import os
import random
import re
import signal
import subprocess
import time
from math import comb
from pathlib import Path

import pytest
from c_programs import output
from cargo import Cargo
from checking import TOP, needs
from stranger import block

CRATE = TOP / "clients/explore"
RACES = sorted(path.stem for path in (TOP / "clients/posix/races").glob("*.c"))

pytestmark = needs("cargo")


@pytest.fixture(scope="module")
def cargo(library: Path, tmp_path_factory: pytest.TempPathFactory) -> Cargo:
    made = Cargo(CRATE, library, tmp_path_factory.mktemp("cargo"))
    made("build", "--quiet", "--release", "--bins")
    return made


@pytest.fixture(scope="module")
def command(cargo: Cargo) -> str:
    return str(cargo.target / "release/tracehost-explore")


def test_it_has_all_races(command: str) -> None:
    assert [line.split()[0] for line in output(command, "--list").splitlines()] == RACES


@pytest.mark.parametrize("race", RACES)
def test_a_race_and_its_remedy(command: str, program: Path, race: str, tmp_path: Path) -> None:
    """The program replays the trace, whose end the search has told."""
    scenario = tmp_path / "race.json"
    said = output(command, race, "--save", scenario, status=1)
    output(program, scenario, "--expect", tmp_path / "race.out")
    steps = re.findall(r"^ *\d+ .* -> ", said, re.MULTILINE)
    assert len(steps) == int(re.findall(r"after (\d+) steps", said)[0]) <= len(scenario.read_text().splitlines()) - 2
    assert output(command, race, "--right").startswith("all interleavings passed: ")


@pytest.mark.parametrize("race", RACES)
def test_a_race_beside_a_process_that_computes(command: str, program: Path, race: str, tmp_path: Path) -> None:
    """It is found too, and replays; its remedy passes, and nothing of that is vacuous."""
    scenario = tmp_path / "race.json"
    said = output(command, race, "--ticker", "--save", scenario, status=1)
    assert said.startswith(("stuck: ", "assertion: "))
    output(program, scenario, "--expect", tmp_path / "race.out")
    passed, chance = output(command, race, "--right", "--ticker").splitlines()
    assert passed.startswith("all interleavings passed: ") and chance.startswith("a state was taken for another")


@pytest.mark.parametrize(
    ("words", "why"),
    [
        ([], "a model is missing"),
        (["nix"], "there is no model nix"),
        (["lost_wakeup", "group_stop"], "a second model, group_stop"),
        (["lost_wakeup", "--fast"], "there is no option --fast"),
        (["lost_wakeup", "--threads"], "--threads needs a value"),
        (["lost_wakeup", "--limit", "-1"], "--limit -1: "),
        (["lost_wakeup", "--users", "65"], "--users is 1 to 64"),
        (["lost_wakeup", "--resume"], "--resume needs --checkpoint"),
        (["stop_lost_at_detach", "--size", "0"], "--size of stop_lost_at_detach is 1..=20"),
    ],
)
def test_a_mistake(command: str, words: list[str], why: str) -> None:
    ended = subprocess.run([command, *words], capture_output=True, text=True, check=False)
    assert ended.returncode == 2 and not ended.stdout
    assert ended.stderr.startswith(f"tracehost-explore: {why}")


def test_what_is_not_finished(command: str, tmp_path: Path) -> None:
    """A limit, a full disk and a checkpoint of another search are no pass."""
    right = ["stop_lost_at_detach", "--right"]
    assert output(command, *right, "--limit", "100", status=3).startswith("not all states were seen: ")
    assert not output(command, *right, "--memory", "0", status=3).startswith("all")
    for words in (right, ["--list"], ["--help"]):
        with open("/dev/full", "wb") as full:
            assert subprocess.run([command, *words], stdout=full, stderr=subprocess.DEVNULL, check=False).returncode == 3
    output(command, "lost_wakeup", "--save", tmp_path / "no/race.json", status=3)
    saved = ["--checkpoint", str(tmp_path / "search"), "--every", "0"]
    output(command, *right, *saved)
    output(command, *right, "--size", "3", *saved, "--resume", status=3)
    output(command, *right, *saved, "--resume")


def test_equal_processes(command: str) -> None:
    """Of a target's states 12 are without the debugger, which has one of 3 targets at hand at most: 12^3 + 3 * 2 * 12^2."""
    words = [command, "tracees", "--size", "3"]
    assert output(*words).startswith("all interleavings passed: 2592 states")
    assert output(*words, "--symmetric").startswith(f"all interleavings passed: {comb(14, 3) + 2 * comb(13, 2)} states")


def test_odd_names(command: str, tmp_path: Path) -> None:
    """A path may be any bytes; other words are refused, and nothing panics."""
    odd = os.fsdecode(os.fsencode(tmp_path) + b"/\xff race.json")
    output(command, "lost_wakeup", "--save", odd, status=1)
    assert sorted(os.listdir(os.fsencode(tmp_path))) == [b"\xff race.json", b"\xff race.out"]
    output(command, os.fsdecode(b"\xff"), status=2)
    output(command, "lost_wakeup", "--limit", os.fsdecode(b"\xff"), status=2)


def test_other_options_go_on(command: str, tmp_path: Path) -> None:
    """The model's own arguments count, and no others: the file may have another name, too."""
    words = [command, "stop_lost_at_detach", "--right", "--size", "4"]
    whole = output(*words)
    output(*words, "--limit", "50000", "--threads", "1", "--checkpoint", tmp_path / "first", status=3)
    os.rename(tmp_path / "first.1001", tmp_path / "second.1001")
    more = ["--threads", "2", "--memory", "2000", "--answers", "1000", "--every", "1", "--progress", "60"]
    assert output(*words, *more, "--checkpoint", tmp_path / "second", "--resume") == whole
    wrong = [word for word in words if word != "--right"]
    output(*wrong, "--checkpoint", tmp_path / "second", "--resume", status=3)


def test_a_search_that_is_killed(command: str, tmp_path: Path) -> None:
    """Its checkpoint is whole, what it hasn't written to the end is removed, and the rest of the search comes to the same."""
    words = [command, "stop_lost_at_detach", "--right", "--size", "4"]
    whole = output(*words)
    saved = tmp_path / "search"
    for moment in range(4):
        left = Path(f"{saved}.1001")
        left.unlink(missing_ok=True)
        with subprocess.Popen([*words, "--checkpoint", saved, "--every", "0"], stdout=subprocess.DEVNULL) as searching:
            until = time.monotonic() + 60
            while not left.exists():
                assert time.monotonic() < until and searching.poll() is None
                time.sleep(0.001)
            time.sleep(random.Random(moment).uniform(0, 0.5))
            searching.kill()
            assert searching.wait() in (0, -signal.SIGKILL)
        Path(f"{saved}.1001.{searching.pid}.unfinished").write_bytes(b"half")
        assert output(*words, "--checkpoint", saved, "--resume") == whole
        assert list(tmp_path.iterdir()) == [left]


def limited(kibibytes: int, *words: str | Path) -> subprocess.CompletedProcess[str]:
    """A run that gets so much memory."""
    shell = ["sh", "-c", f'ulimit -v {kibibytes}; exec "$@"', "sh"]
    return subprocess.run([*shell, *words], capture_output=True, text=True, check=False)


@pytest.mark.parametrize(
    ("words", "limits", "most"),
    [
        (["--threads", "1"], [24_000, 35_000], 50_000),
        (["--threads", "2"], [100_000, 200_000, 300_000], 300_000),
        (["--threads", "1", "--symmetric"], [24_000, 28_000], 40_000),
    ],
    ids=["one", "two", "symmetric"],
)
def test_refused_memory(command: str, tmp_path: Path, words: list[str], limits: list[int], most: int) -> None:
    """It ends a search, which can go on from its checkpoint."""
    model = [command, "tracees", "--size", "5", *words]
    whole = output(*model)
    assert whole.startswith("all interleavings passed: ")
    saved = ["--checkpoint", str(tmp_path / "search")]
    for limit in [*limits, random.Random(most).randrange(24_000, most)]:
        ended = limited(limit, *model, *saved)
        assert ended.returncode == 3 and not ended.stderr, ended.stderr
        assert "no failure among them: the system has refused memory" in ended.stdout.splitlines()[0]
        assert output(*model, *saved, "--resume") == whole
    for limit in range(6_000, 22_000, 4_000):  # too little for the start
        ended = limited(limit, *model, "--checkpoint", tmp_path / "none")
        assert ended.returncode in (3, 127) and "passed" not in ended.stdout, ended.stderr


def test_the_example(cargo: Cargo, program: Path, tmp_path: Path) -> None:
    words = ["cargo", "run", "--offline", "--quiet", "--manifest-path", str(CRATE / "Cargo.toml")]
    said = output(*words, "--example", "lost_wakeup", cwd=tmp_path, environment=cargo.environment)
    assert said == block("../clients/explore/README.md", "text")
    page = (TOP / "docs/SEARCH.md").read_text(encoding="utf-8")
    assert "".join(f"    {line}\n" for line in said.splitlines()) in page
    left = map(str.strip, (CRATE / "examples/lost_wakeup.rs").read_text(encoding="utf-8").splitlines())
    assert all(line in left for line in block("SEARCH.md", "rust").splitlines())  # in this order
    output(program, tmp_path / "race.json", "--expect", tmp_path / "race.out")
