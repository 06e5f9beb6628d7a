"""The kit for machines with FreeBSD, tools/kit: what its archive has, its whole path on this machine, and as far as it can be had
here FreeBSD's."""

from __future__ import annotations

import os
import re
import shutil
import subprocess
import sys
import tarfile
from pathlib import Path

import pytest
from checking import TOP, load_script, needs
from kit_rooms import ALL_SAME, KIT, PERCENT, Room, as_freebsd, case_compiler, kit_archive, make_kit
from posix_kit import CC, RUN

sys.path.insert(0, str(TOP / "tools"))
from kit_parts import PARTS, case_names, version  # noqa: E402

SHARED = ("shared", "shared-users")


@pytest.fixture(scope="session")
def archive(tmp_path_factory: pytest.TempPathFactory, library: Path) -> Path:
    return kit_archive(tmp_path_factory, library)


@pytest.fixture
def room(archive: Path, tmp_path: Path) -> Room:
    return Room(archive, tmp_path / "an odd folder's")


# ---- the archive


def members(archive: Path) -> dict[str, bytes]:
    with tarfile.open(archive) as opened:
        found = {}
        for member in opened:
            assert member.isreg() and member.mode == 0o644 and (member.uid, member.gid, member.uname) == (0, 0, "")
            content = opened.extractfile(member)
            assert content
            found[member.name] = content.read()
    return found


def test_contents(archive: Path) -> None:
    files = members(archive)
    top = f"tracehost-kit-{version()}/"
    assert all(name.startswith(top) for name in files)
    names = {name[len(top) :] for name in files}
    sources = {f"cases/{file.name}" for file in (TOP / "clients/posix/tests").glob("*_test.c")}
    assert sources | {"README", "LICENSE", "VERSION", "Makefile", "run.sh", ".cirrus.yml", "VIRTUAL-MACHINE"} <= names
    assert {"player/tracehost-play.c", "player/freebsd.c", "player/linux.c", "player/Makefile"} <= names
    assert {"differences/freebsd.tsv", "differences/linux.tsv", "cases/cases.h", "cases/DIFFERENCES.txt"} <= names
    for part, sessions in PARTS.items():
        text = b"".join(files[name] for name in files if re.match(f"{top}sessions/{part}-[0-9]+.txt", name)).decode()
        assert sorted(re.findall("^# (.*)$", text, re.MULTILINE)) == sorted(sessions.names(sessions.number * PERCENT // 100))
    for name, content in files.items():  # a file's sessions have one setting
        values = {b"\nkill_on_debugger_exit: 0\n" in text for text in content.strip().split(b"\n\n")}
        assert "/sessions/" not in name or len(values) == 1


def test_size_of_the_whole(archive: Path, tmp_path: Path) -> None:
    """As many times the sessions are below the limit that tools/kit keeps."""
    with tarfile.open(archive) as opened:
        others = [member for member in opened if "/sessions/" not in member.name]
        opened.extractall(tmp_path, members=others)
    subprocess.run(["tar", "czf", "others.tgz", f"tracehost-kit-{version()}"], cwd=tmp_path, check=True)
    apart = (tmp_path / "others.tgz").stat().st_size
    assert apart + (archive.stat().st_size - apart) * 100 / PERCENT < 2_000_000
    assert load_script(TOP / "tools/kit").MOST_BYTES == 2_000_000


def test_same_bytes(archive: Path, tmp_path: Path, library: Path) -> None:
    again = make_kit(tmp_path / "again.tar.gz", library, PYTHONHASHSEED="7", TZ="Asia/Tokyo", LC_ALL="C")
    assert again.read_bytes() == archive.read_bytes()


def test_full_disk_of_the_maker(library: Path) -> None:
    words: list[str | Path] = [sys.executable, TOP / "tools/kit", "--sessions", "1", "/dev/full/kit.tar.gz"]
    done = subprocess.run(words, env={**os.environ, "TRACEHOST_LIB_DIR": str(library)}, capture_output=True, check=False)
    assert done.returncode != 0 and done.stdout == b""


def test_no_library(tmp_path: Path) -> None:
    """A maker that fails is told, and leaves no archive."""
    words: list[str | Path] = [sys.executable, TOP / "tools/kit", "--sessions", "1", tmp_path / "kit.tar.gz"]
    environment = {**os.environ, "TRACEHOST_LIB_DIR": str(tmp_path)}
    done = subprocess.run(words, env=environment, capture_output=True, text=True, check=False)
    assert (done.returncode, done.stdout) == (1, "") and "kit: the maker of sessions has failed" in done.stderr
    assert not list(tmp_path.iterdir())


def test_readme_names_what_there_is() -> None:
    text = (KIT / "README.md").read_text()
    for part, sessions in PARTS.items():
        assert f"| {part} | {sessions.number} |" in text
    assert f"| cases | {len(list(case_names()))} |" in text


@needs("shellcheck")
def test_shell() -> None:
    done = subprocess.run(["shellcheck", "-s", "sh", KIT / "run.sh"], stdout=subprocess.PIPE, text=True, check=False)
    assert (done.returncode, done.stdout) == (0, "")


# ---- the whole path


def tools_of(words: list[str], folder: Path) -> dict[str, str]:
    """A PATH on which `awk` is another one."""
    folder.mkdir()
    for word in words:
        (folder / "awk").symlink_to(str(shutil.which(word)))
    return {"PATH": f"{folder}:/usr/bin:/bin"}


WAYS = [
    pytest.param(["make"], ["mawk"], marks=needs("make", "mawk"), id="GNU make"),
    pytest.param(["bmake"], ["original-awk"], marks=needs("bmake", "original-awk"), id="BSD make and awk"),
]


@pytest.mark.parametrize("make, awk", WAYS)
def test_shared_sessions(room: Room, tmp_path: Path, make: list[str], awk: list[str]) -> None:
    """They are all played on this machine's kernel, and differ only as is listed; the others aren't tried, as is said."""
    variables = tools_of(awk, tmp_path / "bin")
    done = room.run(*make, f"PARTS={' '.join(SHARED)}", **variables)
    verdicts = room.verdicts()
    assert done.returncode == 0, done.stdout
    for part in SHARED:
        names = [row["name"] for row in room.rows() if row["part"] == part]
        assert sorted(names) == sorted(room.names(part))
        assert verdicts[part, "same"] + verdicts[part, "listed"] == len(names) > 0
        assert verdicts[part, "same"] > 0
    assert verdicts["cases", "not tried"] == len(list(case_names()))
    assert "weren't asked for. Of the others (shared shared-users):\nAll was run, and nothing differs" in done.stdout
    assert not list(room.path.glob("*.part"))


def test_another_user(room: Room) -> None:
    """One user's sessions are played by anybody."""
    if os.getuid() != 0:
        pytest.skip("only root becomes another user")
    for folder in (room.path, *room.path.parents):
        if folder.stat().st_uid == 0 and folder != Path("/") and "pytest" in str(folder):
            folder.chmod(0o755)
    subprocess.run(["chown", "-R", "65534:65534", room.path], check=True)
    done = room.run("setpriv", "--reuid=65534", "--regid=65534", "--clear-groups", "sh", "run.sh", PARTS="shared")
    assert done.returncode == 0, done.stdout
    assert "# user\t65534\n" in room.results.read_text()


def test_all_of_it_here(room: Room) -> None:
    """What Linux can't run isn't a pass."""
    room.few()
    done = room.run()
    assert done.returncode == 3 and "could not be tried" in done.stdout
    assert {row["kernel"] for row in room.rows() if row["what"] == "case"} == {
        "needs FreeBSD's headers, or CC=tracehost-cc RUN=tracehost-run"
    }


def test_cases_on_the_model(room: Room, program: Path, library: Path) -> None:
    room.few()
    variables = {
        "TRACEHOST": str(program),
        "TRACEHOST_LIB_DIR": str(library),
        "TRACEHOST_ARTIFACTS": str(room.path.parent / "left"),
    }
    done = room.run("make", f"CC={CC}", f"RUN={RUN}", "PARTS=cases", **variables)
    assert done.returncode == 0, done.stdout
    rows = {row["name"]: row for row in room.rows() if row["what"] == "case"}
    assert rows.pop("exec_test vfork_shares_memory")["listed"] == "exec_test.vfork_shares_memory"
    assert len(rows) == 11 and {row["verdict"] for row in rows.values()} == {"same"}
    room.put("cases/DIFFERENCES.txt", "exec_test exec_fails\n")
    done = room.run("make", f"CC={CC}", f"RUN={RUN}", "PARTS=cases", **variables)
    assert done.returncode != 0
    differs = {row["name"] for row in room.rows() if row["verdict"] == "differs"}
    assert differs == {"exec_test exec_fails", "exec_test vfork_shares_memory"}


# ---- differences


def session_with(room: Room, line: str) -> tuple[Path, str]:
    """A file and its session with such a line."""
    for file in sorted(room.path.glob("sessions/shared-[0-9]*.txt")):
        for text in file.read_text().split("\n\n"):
            if re.search(line, text, re.MULTILINE):
                return file, text
    raise AssertionError(line)


def test_a_difference_is_cut_down(room: Room) -> None:
    """A false answer of the model is found, and its shortest form plays to the same difference."""
    # before the first request of ptrace(2), so that no listed difference ends the session earlier
    answered = r"^(kill (\d+) \2 0 -> ok|list \d+ -> pids.*)$"
    file, text = session_with(room, rf"(?s:\A(?:(?!ptrace ).)*?){answered}")
    found = list(re.finditer(answered, text.partition("ptrace ")[0], re.MULTILINE))[-1]
    step = found[1].split(" -> ")[0]
    file.write_text(text[: found.start()] + f"{step} -> error ENOMEM 12" + text[found.end() :] + "\n\n")
    room.keep(f"sessions/{file.name}", "sessions/*.txt")
    done = room.run(PARTS="shared")
    assert done.returncode == 1 and "1 differ otherwise than is listed." in done.stdout, done.stdout
    (row,) = [row for row in room.rows() if row["verdict"] == "differs"]
    assert (row["step"], row["model"]) == (step, "error ENOMEM 12")
    cut, shortest = row["shortest"].split(": ", 1)
    steps = shortest.split(" ; ")
    assert cut in ("changing", "needed") and steps[-1] == f"{step} -> error ENOMEM 12"
    rest = iter(file.read_text().splitlines())
    assert all(line in rest for line in steps)
    assert all(line in done.stdout for line in steps)


def test_a_changed_row_is_found(room: Room) -> None:
    file, text = session_with(room, "^= process 1000 .* caught=-")
    file.write_text(text.replace("caught=-", "caught=5", 1) + "\n\n")
    room.keep(f"sessions/{file.name}", "sessions/*.txt")
    assert room.run(PARTS="shared").returncode == 1
    (row,) = [row for row in room.rows() if row["verdict"] == "differs"]
    assert (row["model"], row["kernel"]) == ("caught=5", "caught=-")


# ---- FreeBSD, as far as it can be had here


def test_cases_of_a_kernel(room: Room, tmp_path: Path) -> None:
    """What the lists of cases mean on FreeBSD: the model's failures pass there, and a few may fail."""
    as_freebsd(room, tmp_path / "settings")
    room.few()
    body = """case $1 in
exec_fails) echo 'failed: odd'; exit 1 ;;
exec_family) echo 'skipped: not here' ;;
exec_of_a_thread) exec sleep 30 ;;
exec_of_traced) kill -SEGV $$ ;;
exec_keeps_the_mask) ;;
exec_keeps_the_number) [ "$(ls -A)" = '' ] && touch a && chmod 000 . && echo passed ;;
*) echo passed ;;
esac"""
    done = room.run(PARTS="cases", CASE_SECONDS="1", **case_compiler(room, body))
    rows = {row["name"].split()[1]: (row["verdict"], row["kernel"]) for row in room.rows() if row["what"] == "case"}
    assert done.returncode == 1
    assert rows.pop("exec_fails") == ("differs", "fail: status 1: failed: odd")
    assert rows.pop("exec_family") == ("not tried", "not tried: skipped: not here")
    assert rows.pop("exec_of_a_thread") == ("differs", "fail: no end in 1 seconds")
    assert rows.pop("exec_of_traced")[0] == "differs"
    assert rows.pop("exec_keeps_the_mask")[0] == "not tried"
    assert rows.pop("vfork_shares_memory") == ("listed", "pass")
    assert len(rows) == 6 and set(rows.values()) == {("same", "pass")}


def test_a_case_that_may_fail(room: Room, tmp_path: Path) -> None:
    as_freebsd(room, tmp_path / "settings")
    room.keep("sessions/shared-01.txt", "sessions/*.txt")
    room.keep("cases/attach_test.c", "cases/*_test.c")
    body = "[ $1 = attach_to_the_debugger ] && { echo failed: EPERM; exit 1; }\necho passed"
    assert room.run(PARTS="cases", **case_compiler(room, body)).returncode == 0
    (listed,) = [row for row in room.rows() if row["verdict"] == "listed"]
    assert (listed["name"], listed["listed"]) == ("attach_test attach_to_the_debugger", "attach_test.attach_to_the_debugger")


def test_all_of_freebsd(room: Room, tmp_path: Path) -> None:
    """All parts are run, and a setting is changed only if that is asked for, and set back."""
    settings = tmp_path / "settings"
    as_freebsd(room, settings)
    room.fake_player(ALL_SAME)
    room.keep("cases/exec_test.c", "cases/*_test.c")
    compiler = case_compiler(room, "echo passed")
    assert room.run(PARTS="shared", **compiler).returncode == 0
    assert not Path(f"{settings}.all").exists()
    done = room.run(SETTINGS="change", **compiler)
    assert done.returncode == 0 and "All was run, and nothing differs but what is listed." in done.stdout
    assert set(Path(f"{settings}.all").read_text().split()) == {"0", "1"} and settings.read_text() == "1\n"
    assert room.results.with_name(f"{room.results.name}.old").exists()
    verdicts = room.verdicts()
    assert verdicts["freebsd", "same"] == PARTS["freebsd"].number * PERCENT // 100
    assert (verdicts["cases", "same"], verdicts["cases", "listed"]) == (11, 1)
