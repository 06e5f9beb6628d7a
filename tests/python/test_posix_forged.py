"""A hostile program forges messages on the runtime's sockets: the run ends in time, in a status and in words of ours, and
nothing is left of it. No sanitizer finds anything in the broker or the runtime meanwhile.

A number draws each script (forging.py), or names those that say numbers at their ends (forged_numbers.py). Each runs in a namespace of processes of its own, so that a broker that is misled
can't signal anybody else. TRACEHOST_TEST_SCALE multiplies the scripts.
"""

from __future__ import annotations

import json
import os
import re
import shutil
import subprocess
import sys
import tempfile
from pathlib import Path

import pytest
from c_programs import HEADERS, SANITIZERS, output, sanitized
from checking import Checks, needs
from forged_messages import CASES, WROTE, timely
from forged_numbers import FIELDS, HELLOS, REFUSED, Lines, asked, edges, is_near, is_refused
from forging import ENDS_THAT_GO_ON, FORMS, OF_A_SCRIPT, SECONDS, Ended, at_ends, options, script
from planted import CHECKS
from posix_kit import CC, POSIX, RUN, SCALE, Posix, once, shared_folder

pytestmark = needs("unshare")

AS_ROOT = [] if os.geteuid() == 0 else ["--user", "--map-root-user"]
ALONE = ["unshare", "--pid", "--fork", "--kill-child", "--mount-proc", *AS_ROOT]
FORGING = Path(__file__).with_name("forging.py")
SOURCE = POSIX / "tests" / "forged.c"
EACH = 20
"""Scripts of a test."""
OF_ENDS = 50
"""Scripts that say numbers at their ends, each of which has all that matter at once."""
NOISE = re.compile(
    r"^==\d+==WARNING: ASan (doesn't fully support makecontext|is ignoring requested __asan_handle_no_return).*\n"
    r"|^False positive error reports may follow\n|^For details see https://github.com/google/sanitizers/issues/189\n",
    re.MULTILINE,
)
"""A sanitizer says so of coroutines, and clears what it knows of a stack when one goes on there."""
FAULTS = (
    r"process \d+ has written .* on the runtime's socket",
    r"process \d+ begins with .*",
    r"process \d+ doesn't read what it is answered on the runtime's socket",
    r"process \d+ remarks on more than it asks",
    r"process \d+: .*",  # a forged fault of the runtime's
    r"\d+/\d+ doesn't answer .*",
    r"process \d+ has set a filter of seccomp\(2\) itself, .*",  # said of the runtime's own, if its server's message is forged
    r"another one than the runtime has written on the socket of the program's server",
    r"the program's server has (ended|said nothing for \S+ s)",
)
FAILURES = (
    r"deadlock: .*",
    r"hang: .*",
    r"no end.*",
    r"the first process (exited with status|was ended by|was killed).*",
    r"process \d+ has ended, or closed its socket, outside of the model.*",
    r"process \d+ has exited with status \d+, but was then ended .*",
    r"\d+/\d+ (calls .*|.*, which has no runtime, was ended by the host's SIGSYS: .*)",
)
JUDGED = "tracehost-run: the fault is not the program's, which isn't judged: "


@pytest.fixture(scope="module")
def plain(posix: Posix) -> tuple[Path, Path]:
    """tracehost-run, and the hostile program."""
    return RUN, posix.compiled("tests/forged.c")


@pytest.fixture(scope="module")
def checked(posix: Posix, tmp_path_factory: pytest.TempPathFactory) -> tuple[Path, Path]:
    """The same with broker, runtime and program compiled with the sanitizers."""
    if not sanitized():
        pytest.skip("cc has no sanitizers here")
    room = shared_folder(tmp_path_factory) / "sanitized"

    def make() -> None:
        flags = f"CFLAGS=-O0 -g -fno-omit-frame-pointer {' '.join(SANITIZERS)}"
        places = [f"build={room / 'build'}", f"PREFIX={room / 'prefix'}", f"PYTHON={sys.executable}"]
        done = posix.execute("make", "-s", "-C", POSIX, "install", *places, flags, "HARDENING=", seconds=1800)
        assert done.returncode == 0, done.stderr
        words = ["-g", "-w", *SANITIZERS, "-o", room / "forged", SOURCE]
        done = posix.execute(room / "prefix/bin" / CC.name, *words)
        assert done.returncode == 0, done.stderr

    return room / "prefix/bin" / RUN.name, once(room / "forged", make).parent / "forged"


def runs(build: tuple[Path, Path], scripts: list[tuple[list[str], str]]) -> list[Ended]:
    """What comes of the scripts, with options of tracehost-run."""
    done = subprocess.run(
        [*ALONE, sys.executable, FORGING, *build],
        input=json.dumps(scripts),
        env={**os.environ, "ASAN_OPTIONS": "detect_leaks=0", "UBSAN_OPTIONS": "print_stacktrace=1"},
        capture_output=True,
        text=True,
        timeout=(SECONDS + 30) * len(scripts),
        check=False,
    )
    if "unshare" in done.stderr:
        pytest.skip(f"no namespace of processes: {done.stderr.strip()}")
    assert done.returncode == 0, done.stderr
    ends = [Ended(*json.loads(line)) for line in done.stdout.splitlines()]
    assert len(ends) == len(scripts)
    return ends


def fault(ended: Ended) -> str:
    """What is wrong with this end; nothing if all is well."""
    said = NOISE.sub("", ended.said)
    if ended.status is None:
        return f"hangs: {said}"
    if ended.left:
        return f"left: {ended.left}"
    odd = [line for line in said.splitlines() if not re.match("tracehost-run: |tracehost: |  ", line)]
    if odd or re.search(r"Traceback|[^\n\t\x20-\x7e\x80-\U0010ffff]", said):
        return f"says: {said}"
    told = [line for line in said.splitlines() if line.startswith("tracehost-run: ")]
    if ended.status == 3:
        why = re.sub(r"^(the plain schedule|--seed \d+|--switches \S+): ", "", told[-1].removeprefix(JUDGED)) if told else ""
        well = bool(told) and told[-1].startswith(JUDGED) and any(re.fullmatch(words, why) for words in FAULTS)
    else:
        whys = [line.removeprefix("tracehost-run: ") for line in told]
        well = ended.status == 0 or any(re.fullmatch(words, why) for words in FAILURES for why in whys)
    return "" if well and ended.status in (0, 1, 3) else f"status {ended.status}: {said}"


@pytest.mark.parametrize("chunk", range(5 * SCALE))
@pytest.mark.parametrize("kind", ["plain", "checked"])
def test_forged_messages(request: pytest.FixtureRequest, checks: Checks, kind: str, chunk: int) -> None:
    first = (2 * chunk + (kind == "checked")) * EACH
    seeds = range(first, first + EACH)
    for seed, ended in zip(seeds, runs(request.getfixturevalue(kind), [(options(seed), script(seed)) for seed in seeds])):
        checks.check(not fault(ended), f"script {seed}, {ended.seconds:.1f} s: {fault(ended)}")


# ---- numbers at their ends


def test_each_number_of_a_question_has_its_ends() -> None:
    """Those of `hello` and the words beside numbers are of their own forms."""
    assert FIELDS.keys() == {form.name for form in FORMS}
    own = ("hello", "enter", "again")
    assert {name: len(kinds) for name, kinds in FIELDS.items() if name not in own} == {
        form.name: form.most for form in FORMS if form.name not in own
    }
    assert len(ENDS_THAT_GO_ON) <= OF_A_SCRIPT * OF_ENDS


@pytest.mark.parametrize("chunk", range(5 * SCALE))
@pytest.mark.parametrize("kind", ["plain", "checked"])
def test_numbers_at_their_ends(request: pytest.FixtureRequest, checks: Checks, kind: str, chunk: int) -> None:
    numbers = range(chunk * OF_ENDS // 5, (chunk + 1) * OF_ENDS // 5)
    for number, ended in zip(numbers, runs(request.getfixturevalue(kind), [(options(n), at_ends(n)) for n in numbers])):
        checks.check(not fault(ended), f"script {number} of ends, {ended.seconds:.1f} s: {fault(ended)}")


WRONG_COUNTS = ("getppid 1", "call", "stat 1000 0 0", "wait 1000", "ptrace 13 1000", "ptrace 13 1000 0 0 0", "action 28 0 0 0")


def test_what_the_runtime_never_says_is_refused(plain: tuple[Path, Path], checks: Checks) -> None:
    """With these words, and nothing that comes after them is heard."""
    scripts = {}
    for edge in filter(is_refused, edges()):
        if SCALE == 1 and not is_near(edge):
            continue
        lines = Lines()
        lines.ask(edge)
        scripts[asked(edge, lines.children)] = lines
    for said in (*WRONG_COUNTS, *REFUSED):
        scripts[said] = Lines()
        scripts[said].say_all(f"ask {said}")
    for words, refused in HELLOS.items():
        if refused:
            scripts[f"hello {words}"] = Lines()
            scripts[f"hello {words}"].hello(words)
    for said, ended in zip(scripts, runs(plain, [([], lines.text()) for lines in scripts.values()])):
        words = re.escape(said[:36]).replace(r"\$P", r"\d+").replace(r"\$T", r"\d+")
        told = re.search(rf"process 1000 has written '(0 )?{words}", ended.said)
        checks.check(ended.status == 3 and not fault(ended) and told is not None, f"{said}: {ended.status} {ended.said}")


BROKER_FLAGS = ["-O0", "-g", "-w", "-std=gnu11", "-D_GNU_SOURCE", "-fPIE", *SANITIZERS, *HEADERS]
BUILT = "lib/tracehost-posix/build/tracehost-broker"


@pytest.fixture(scope="module")
def objects(checked: tuple[Path, Path]) -> Path:
    """The broker's, with the sanitizers."""
    folder = checked[1].parent / "objects"

    def make() -> None:
        with tempfile.TemporaryDirectory(dir=folder.parent) as room:
            output("cc", *BROKER_FLAGS, "-c", *(POSIX / "broker").glob("*.c"), cwd=Path(room))
            shutil.copytree(room, folder)

    return once(folder, make)


def planted(build: tuple[Path, Path], objects: Path, library: Path, room: Path, change: list[str]) -> tuple[Path, Path]:
    """The same programs, but for a change of the broker's source."""
    name, old, new = change
    shutil.copytree(POSIX / "broker", room / "posix/broker")
    shutil.copytree(POSIX / "runtime", room / "posix/runtime")
    source, made = room / "posix/broker" / name, room / Path(name).with_suffix(".o")
    assert source.read_text().count(old) == 1, f"{name} has no check {old!r} any more"
    source.write_text(source.read_text().replace(old, new))
    output("cc", *BROKER_FLAGS, "-c", "-o", made, source)
    shutil.copytree(build[0].parents[1], room / "prefix", symlinks=True)
    others = [path for path in objects.glob("*.o") if path.name != made.name]
    output("cc", *BROKER_FLAGS, "-pie", "-o", room / "prefix" / BUILT, made, *others, library / "libtracehost.a")
    return room / "prefix/bin" / build[0].name, build[1]


@pytest.mark.parametrize("check", list(CHECKS)[:: 8 if SCALE == 1 else 1])
def test_a_check_that_is_taken_away_is_found(
    checked: tuple[Path, Path], objects: Path, library: Path, tmp_path: Path, check: str
) -> None:
    """By a message that the broker checks there."""
    *change, message = CHECKS[check]
    build = planted(checked, objects, library, tmp_path, change)
    said, status, words = CASES[message] if message in CASES else (timely(f"ask {message}"), 3, WROTE)
    for _ in range(5):  # what a child says to the server may come before its time
        (ended,) = runs(build, [([], said)])
        if fault(ended) or ended.status != status or words not in ended.said:
            return
    pytest.fail(f"{message} doesn't find it: {ended}")


# ---- a message, and what the run says


@pytest.mark.parametrize("name", CASES)
def test_a_forged_message(plain: tuple[Path, Path], name: str) -> None:
    """The broker goes on as if the runtime had said it, or says whose the fault is."""
    said, status, words = CASES[name]
    (ended,) = runs(plain, [([], said)])
    assert not fault(ended), fault(ended)
    assert status in (None, ended.status) and words in ended.said, ended
    assert ended.seconds < SECONDS / 2
