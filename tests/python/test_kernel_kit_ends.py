"""The kit for machines with FreeBSD when something goes wrong: a player that doesn't do its work, a run that is ended, full disks."""

from __future__ import annotations

import os
import signal
import subprocess
import time
from collections import Counter
from collections.abc import Callable
from pathlib import Path

import pytest
from kit_rooms import ALL_SAME, FAKE_HEAD, KIT, Room, are_gone, as_freebsd, kit_archive, soon


@pytest.fixture(scope="session")
def archive(tmp_path_factory: pytest.TempPathFactory, library: Path) -> Path:
    return kit_archive(tmp_path_factory, library)


@pytest.fixture
def room(archive: Path, tmp_path: Path) -> Room:
    return Room(archive, tmp_path / "an odd folder's")


# ---- a player that doesn't do its work


def test_a_player_that_ends(room: Room) -> None:
    """It goes on behind the session that it ended at, as often as is sensible."""
    room.few()
    script = """n=0
grep '^# ' "$7" | while read -r _ name; do
	n=$((n + 1))
	[ $n -lt 4 ] || { echo 'a puppet hangs' >&2; exit 3; }
	same "$name" 2 3 4 5 "$6"
done
"""
    room.fake_player(FAKE_HEAD + script)
    assert room.run(PARTS="shared").returncode == 3
    rows = [row for row in room.rows() if row["part"] == "shared"]
    expected = ["not tried" if place % 4 == 3 else "same" for place in range(len(rows))]
    assert [row["verdict"] for row in rows] == expected
    assert {row["kernel"] for row in rows if row["verdict"] == "not tried"} == {"status 3: a puppet hangs"}


def test_a_torn_row(room: Room) -> None:
    """A row without its end is none."""
    room.few()
    script = """name=$(sed -n 's/^# //p' "$7" | head -n 1)
same "$name" 2 3 4 5 "$6"
printf 'x\\tsame\\t1\\t1\\t0\\t\\t\\t' >>"$6"
kill -KILL $$
"""
    room.fake_player(FAKE_HEAD + script)
    assert room.run(PARTS="shared").returncode == 3
    verdicts = Counter(row["kernel"] for row in room.rows() if row["part"] == "shared" and row["verdict"] == "not tried")
    assert sum(count for reason, count in verdicts.items() if reason.startswith("status 137")) == min(20, sum(verdicts.values()))


def test_a_player_that_says_nothing(room: Room) -> None:
    room.few()
    room.fake_player("#!/bin/sh\nexit 0\n")
    assert room.run(PARTS="shared").returncode == 3
    assert room.verdicts()["shared", "same"] == 0


def test_a_player_that_is_not_built(room: Room) -> None:
    room.few()
    room.put("player/play.h", "#error no such system\n")
    done = room.run(PARTS="shared")
    assert done.returncode == 3
    assert "no such system" in done.stdout and "# build: " in room.results.read_text()
    assert all("cannot be built" in row["kernel"] for row in room.rows() if row["part"] == "shared")


# ---- ends that nobody wants


ENDS = [
    (os.killpg, signal.SIGINT),  # ^C
    (os.kill, signal.SIGTERM),
    (os.kill, signal.SIGHUP),
    (os.kill, signal.SIGKILL),
    (os.killpg, signal.SIGKILL),
]


@pytest.mark.parametrize("kill, number", ENDS)
def test_a_run_that_is_ended(room: Room, tmp_path: Path, kill: Callable[[int, int], None], number: signal.Signals) -> None:
    """No results are written, no process is left, and a setting is set back if it can be."""
    room.few()
    settings = tmp_path / "settings"
    as_freebsd(room, settings)
    marker = f"{1000 + os.getpid()}.{time.monotonic_ns() % 1_000_000}"
    room.fake_player(f"#!/bin/sh\nsleep {marker} & exec sleep {marker}\n")
    room.keep("sessions/shared-01.txt", "sessions/*.txt")
    with room.start(SETTINGS="change") as process:
        assert soon(lambda: not are_gone(f"sleep\0{marker}"))
        kill(process.pid, number)
        out, _ = process.communicate(timeout=60)
    assert soon(lambda: are_gone(f"sleep\0{marker}"))
    assert process.returncode == (3 if number != signal.SIGKILL else -signal.SIGKILL)
    assert number == signal.SIGKILL or ("ended by a signal" in out and settings.read_text() == "1\n")
    assert not list(room.path.glob("results-*.tsv"))


def test_full_disks(room: Room, tmp_path: Path) -> None:
    """However little room is left: a file of results that is there is whole."""
    room.few()
    room.fake_player(ALL_SAME)
    disk = tmp_path / "disk"
    disk.mkdir()
    made = subprocess.run(["unshare", "--mount", "true"], capture_output=True, check=False)
    if os.getuid() != 0 or made.returncode != 0:
        pytest.skip("only root has file systems of its own")
    script = """set -e
mount -t tmpfs -o size=16m none "$1"
cp -R "$2" "$1/kit"
cd "$1/kit"
for left in 8 24 40 48 56 64 80 96 120 160 400; do
	rm -rf work results-* fill
	free=$(df -k . | awk 'NR == 2 { print $4 }')
	dd if=/dev/zero of=fill bs=1024 count=$((free - left)) 2>/dev/null
	status=0
	PARTS=shared sh run.sh >/dev/null 2>&1 || status=$?
	whole=none
	for file in results-*.tsv; do
		[ ! -f "$file" ] || whole=$(tail -n 1 "$file" | cut -f 1)
	done
	echo "$left $status $whole"
done
"""
    words = ["unshare", "--mount", "sh", "-c", script, "sh", disk, room.path]
    done = room.run(*map(str, words))
    ends = [line.split(" ", 2)[1:] for line in done.stdout.splitlines()]
    assert len(ends) == 11, done.stdout
    assert all(end in (["3", "none"], ["3", "# end"], ["0", "# end"]) for end in ends), done.stdout
    assert ends[0] == ["3", "none"] and ends[-1] == ["0", "# end"]


def test_a_folder_that_takes_no_files(room: Room) -> None:
    if os.getuid() == 0:
        done = room.run("setpriv", "--reuid=65534", "--clear-groups", "sh", "run.sh")
    else:
        room.path.chmod(0o555)
        done = room.run()
        room.path.chmod(0o755)
    assert done.returncode in (2, 3) and not list(room.path.glob("results-*"))


@pytest.mark.parametrize(
    "name, value", [("PARTS", "shared nosuch"), ("PARTS", " "), ("MINUTES", "-1"), ("CASE_SECONDS", "1s"), ("SETTINGS", "yes")]
)
def test_wrong_variables(room: Room, name: str, value: str) -> None:
    done = room.run(**{name: value})
    assert done.returncode == 2 and name in done.stdout
    assert not (room.path / "work").exists()


def test_no_compiler(room: Room) -> None:
    done = room.run(CC="false")
    assert done.returncode == 3 and "no compiler: false" in done.stdout
    assert not list(room.path.glob("results-*"))


# ---- the runner with a time limit


@pytest.fixture(scope="module")
def limited(tmp_path_factory: pytest.TempPathFactory) -> Path:
    made = tmp_path_factory.mktemp("limited") / "limited"
    subprocess.run(["cc", "-std=gnu11", "-Wall", "-Wextra", "-Werror", "-O2", "-o", made, KIT / "limited.c"], check=True)
    return made


@pytest.mark.parametrize(
    "script, status",
    [
        ("exit 7", 7),
        ("kill -KILL $$", 128 + signal.SIGKILL),
        ("exec sleep 60", 124),
        ("kill -STOP $$", 124),
        ("trap '' TERM INT HUP; while :; do :; done", 124),
        ("cat", 0),
    ],
)
def test_limited(limited: Path, script: str, status: int) -> None:
    done = subprocess.run([limited, "1", "sh", "-c", script], timeout=60, check=False)
    assert done.returncode == status


def test_limited_ends_the_group(limited: Path) -> None:
    marker = f"{2000 + os.getpid()}.{time.monotonic_ns() % 1_000_000}"
    done = subprocess.run([limited, "9", "sh", "-c", f"sleep {marker} & exit 5"], timeout=60, check=False)
    assert done.returncode == 5 and soon(lambda: are_gone(f"sleep\0{marker}"))


def test_limited_resets_signals(limited: Path) -> None:
    """As under nohup(1), in a shell's background, and with something blocked."""
    script = f"""trap '' HUP INT QUIT PIPE CHLD; exec '{limited}' 9 grep -E '^Sig(Ign|Blk)' /proc/self/status"""
    signal.pthread_sigmask(signal.SIG_BLOCK, {signal.SIGUSR1})
    try:
        done = subprocess.run(["sh", "-c", script], stdout=subprocess.PIPE, text=True, timeout=60, check=False)
    finally:
        signal.pthread_sigmask(signal.SIG_UNBLOCK, {signal.SIGUSR1})
    assert done.stdout.split() == ["SigBlk:", "0" * 16, "SigIgn:", "0" * 16]


@pytest.mark.parametrize("words", [["0", "true"], ["1x", "true"], ["9"], [], ["99999999", "true"], ["9", "/nonexistent"]])
def test_limited_refuses(limited: Path, words: list[str]) -> None:
    assert subprocess.run([limited, *words], capture_output=True, check=False).returncode == 125


def test_limited_as_freebsd_compiles_it(tmp_path: Path) -> None:
    """With a stand-in for FreeBSD's header, so this shows only that the text is C."""
    (tmp_path / "sys").mkdir()
    (tmp_path / "sys/_types.h").touch()  # of the compiler's stddef.h
    (tmp_path / "sys/procctl.h").write_text("#define PROC_PDEATHSIG_CTL 11\nint procctl(int, int, int, void *);\n")
    words = [
        "cc",
        "-fsyntax-only",
        "-Wall",
        "-Wextra",
        "-Werror",
        "-U__linux__",
        "-D__FreeBSD__=14",
        "-D_GNU_SOURCE",
        f"-I{tmp_path}",
    ]
    subprocess.run([*words, KIT / "limited.c"], check=True)
