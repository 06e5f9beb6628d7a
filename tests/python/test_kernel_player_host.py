"""The player on a host that has too little: processes, threads, descriptors, memory, room on a disk. It says so, with status 3, and
never that the kernel differs."""

from __future__ import annotations

import os
import re
import resource
import shutil
import subprocess
from collections.abc import Callable, Iterator, Sequence
from pathlib import Path

import pytest
from kernel_player import (
    EXAMPLE,
    Done,
    as_stranger,
    descendants,
    opened,
    orphans,
    sessions_in,
    shared_player,
    shared_refusals,
    text_of,
)

ROOT = pytest.mark.skipif(os.geteuid() != 0, reason="only the super-user can become another user, and has groups of processes")
USERS = """# Two users
spawn -> new 1000 100000
1002: spawn -> new 2000 104000
turn 100000 enter fork -> ok
turn 100000 leave -> new 1001 100001
"""


@pytest.fixture
def player(tmp_path_factory: pytest.TempPathFactory) -> Iterator[Path]:
    """What outlives it comes to this process."""
    with orphans():
        yield opened(shared_player(tmp_path_factory))


@pytest.fixture(params=["private numbers", "no private numbers"])
def words(request: pytest.FixtureRequest, player: Path, tmp_path_factory: pytest.TempPathFactory) -> list[str]:
    """The command, without options."""
    refusals = opened(shared_refusals(tmp_path_factory))
    return [str(player)] if request.param == "private numbers" else [str(refusals), "no_numbers", str(player)]


def run(words: Sequence[object], text: str = EXAMPLE.read_text(), before: Callable[[], None] | None = None) -> Done:
    """Plays a text, after which nothing is left."""
    done = subprocess.run(
        [str(word) for word in [*words, "--time", "5"]],
        input=text,
        capture_output=True,
        text=True,
        timeout=300,
        check=False,
        preexec_fn=before,
    )
    assert not list(descendants(os.getpid()))
    return done


def refusal(done: Done) -> str:
    """Why it isn't played; "" if all of it was, and nothing differs."""
    if done.returncode == 0:
        assert done.stdout.endswith("unlisted: 0\n") and "not tried" not in done.stdout
        return ""
    assert done.returncode == 3 and done.stdout == "", done.stdout + done.stderr
    said = done.stderr.splitlines()[-1]
    assert said.startswith("tracehost-play: "), done.stderr
    return said.removeprefix("tracehost-play: ")


def refusals_up_to_enough(play: Callable[[int], Done], counts: Sequence[int]) -> list[str]:
    """What is told of each count that is too small; from one on all is played."""
    told = [refusal(play(count)) for count in counts]
    enough = told.index("")
    assert not any(told[enough:]) and enough > 0
    return told[:enough]


def limited(kind: int) -> Callable[[int], Callable[[], None]]:
    """Becomes a user who has only so much."""

    def before(most: int) -> Callable[[], None]:
        def begin() -> None:
            resource.setrlimit(kind, (most, most))
            as_stranger()

        return begin

    return before


PROCESS, BIRTH = "the host refuses a new process: ", "the host refuses a new process or thread: "


@ROOT
def test_a_user_has_too_few_processes(words: list[str]) -> None:
    before = limited(resource.RLIMIT_NPROC)
    told = refusals_up_to_enough(lambda most: run(words, before=before(most)), range(12))
    assert {text.rpartition(": ")[0] + ": " for text in told} == {PROCESS, BIRTH}


BIRTHS = {
    kind: f"# s\nspawn -> new 1000 100000\nturn 100000 enter {kind} -> ok\nturn 100000 leave -> new {child} 100001\n"
    for kind, child in (("fork", 1001), ("vfork", 1001), ("thr_new", 1000))
}


@ROOT
@pytest.mark.parametrize("kind", BIRTHS)
def test_each_call_that_finds_no_room(kind: str, words: list[str]) -> None:
    before = limited(resource.RLIMIT_NPROC)
    told = refusals_up_to_enough(lambda most: run(words, BIRTHS[kind], before(most)), range(12))
    assert told[-1].startswith(BIRTH) and all(text.startswith(PROCESS) for text in told[:-1])


def test_a_new_image_is_refused(player: Path, tmp_path_factory: pytest.TempPathFactory) -> None:
    command = [shared_refusals(tmp_path_factory), "no_image", player]
    text = text_of([session for session in sessions_in(EXAMPLE.read_text()) if any("enter exec" in line for line in session)])
    assert refusal(run([player], text)) == ""
    done = run(command, text)
    assert done.returncode == 3 and "the host refuses a new image: Resource temporarily unavailable" in done.stderr


@pytest.fixture
def group() -> Iterator[Path]:
    """A group of processes, whose number can be limited."""
    for top in map(Path, ("/sys/fs/cgroup/pids", "/sys/fs/cgroup")):
        made = top / f"tracehost-test-{os.getpid()}"
        try:
            made.mkdir()
        except OSError:
            continue
        if (made / "pids.max").exists():
            yield made
            made.rmdir()  # it fails if a process is left
            return
        made.rmdir()
    pytest.skip("no group of processes can be made")


@ROOT
@pytest.mark.parametrize("text", [EXAMPLE.read_text(), USERS], ids=["example", "users"])
def test_the_table_of_processes_is_full(text: str, words: list[str], group: Path) -> None:
    def enter() -> None:
        (group / "cgroup.procs").write_text(str(os.getpid()))

    def play(most: int) -> Done:
        (group / "pids.max").write_text(str(most))
        return run(words, text, enter)

    told = refusals_up_to_enough(play, range(1, 12))
    assert {text.rpartition(": ")[0] + ": " for text in told} == {PROCESS, BIRTH}
    assert not (group / "cgroup.procs").read_text()


@ROOT
def test_too_few_descriptors(words: list[str], tmp_path: Path) -> None:
    """The loader of programs needs three or four."""
    tmp_path.chmod(0o777)
    text, results = opened(Path(shutil.copy(EXAMPLE, tmp_path))), tmp_path / "results.tsv"
    before = limited(resource.RLIMIT_NOFILE)
    told = refusals_up_to_enough(lambda most: run([*words, "--results", results, text], before=before(most)), range(4, 20))
    assert all("Too many open files" in text for text in told)


@ROOT
@pytest.mark.parametrize("kind", [resource.RLIMIT_AS, resource.RLIMIT_DATA])
def test_too_little_memory(kind: int, player: Path) -> None:
    """From as much as lets the program begin."""
    before = limited(kind)
    told = refusals_up_to_enough(lambda most: run([player], before=before(most)), range(4_500_000, 30_000_000, 1_700_000))
    assert all("memory" in text or text.startswith(BIRTH) or "refuses a new process" in text for text in told)


# ---- what it writes


def test_a_full_device(player: Path) -> None:
    for words in (
        f'"{player}" "{EXAMPLE}" >/dev/full',
        f'"{player}" --results /dev/full "{EXAMPLE}"',
        f'"{player}" "{EXAMPLE}" >&-',
    ):
        done = subprocess.run(["sh", "-c", words], capture_output=True, text=True, check=False)
        assert done.returncode == 3 and "cannot write" in done.stderr, words


@ROOT
def test_a_disk_that_becomes_full(player: Path, tmp_path: Path) -> None:
    small = "mount -t tmpfs -o size=8k none '{0}' && exec '{1}' --results '{0}/results.tsv' {2}"
    words = small.format(tmp_path, player, " ".join(f"'{EXAMPLE}'" for _ in range(40)))
    done = subprocess.run(["unshare", "-m", "sh", "-c", words], capture_output=True, text=True, check=False)
    if "mount" in done.stderr or "unshare" in done.stderr:
        pytest.skip(done.stderr)
    assert done.returncode == 3
    assert re.search(r"cannot write .*/results\.tsv: No space left on device", done.stderr), done.stderr


@ROOT
def test_no_file_may_grow(words: list[str]) -> None:
    done = run(words, before=limited(resource.RLIMIT_FSIZE)(0))
    assert refusal(done) == "the host refuses memory: File too large"
