"""Prints how many lines the tests reach: of the client in C and of the runtime of C programs on the model (gcov), the
client in Python (coverage.py) and the viewer's script (V8's counts by node and Chromium's are joined if both are here).

    python3 tests/python/coverage_of.py PROGRAM LIBRARY [python | c | viewer | runtime]

Each part prints `NAME: P% of N lines`. The status is 1 if a part is below its bound, or can't be measured here.
"""

from __future__ import annotations

import json
import os
import pathlib
import re
import shutil
import subprocess
import sys
import tempfile

TOP = pathlib.Path(__file__).resolve().parents[2]
sys.path.insert(0, str(TOP / "clients/python"))

import v8_coverage  # noqa: E402  # once the client is found
from row_files import locator, plain_files  # noqa: E402
from test_posix_programs import variants  # noqa: E402

BOUNDS = {"python": 95.0, "c": 95.0, "viewer": 90.0, "runtime": 85.0}
NEEDED = {"python": (), "c": ("gcovr", "cc"), "viewer": ("node", "chromium"), "runtime": ("gcovr", "cc", "c++", "make")}
SCHEDULES = 2  # of each case, beside the plain one
UNITTESTS = ("tracehost", "recording", "blocking", "debug", "library")
SUITES = ("arguments", "checkouts", "handlers", "lifetimes", "recording_faults", "refusals", "pytest_plugin", "artifacts")


def run(*command: object, **environment: str) -> None:
    """Runs a command in the top folder. Its tests have to pass."""
    words = [str(word) for word in command]
    done = subprocess.run(
        words, cwd=TOP, env={**os.environ, **environment}, stdout=subprocess.PIPE, stderr=subprocess.STDOUT, text=True
    )
    if done.returncode:
        raise SystemExit(f"coverage: {' '.join(words)}: status {done.returncode}\n{done.stdout[-3000:]}")


def python_with(*modules: str) -> str:
    for python in (sys.executable, "/usr/bin/python3"):
        if not subprocess.run([python, "-c", f"import {','.join(modules)}"], stderr=subprocess.DEVNULL).returncode:
            return python
    raise SystemExit(f"coverage: no python3 here has {', '.join(modules)}")


def of_python(room: pathlib.Path, program: str, library: str) -> tuple[float, int]:
    """By coverage.py, in the processes too that tests start: a user's site folder begins it in each."""
    python = python_with("coverage", "pytest", "hypothesis")
    package = TOP / "clients/python/tracehost"
    settings = room / "settings"
    settings.write_text(f"[run]\nparallel = True\ndata_file = {room}/data\nsource = {package}\n")
    where = "import site; print(site.getusersitepackages())"
    base = {"PYTHONUSERBASE": str(room / "user"), "COVERAGE_PROCESS_START": str(settings)}
    user = subprocess.run([python, "-c", where], env={**os.environ, **base}, stdout=subprocess.PIPE, text=True, check=True)
    begin = pathlib.Path(user.stdout.strip())
    begin.mkdir(parents=True)
    (begin / "usercustomize.py").write_text("import coverage\ncoverage.process_startup()\n")
    base |= {"TRACEHOST": program, "PYTHONPATH": str(TOP / "clients/python")}
    for name in UNITTESTS:
        run(python, TOP / f"clients/python/tests/test_{name}.py", **base, TRACEHOST_LIBRARY=library)
    run(python, "-m", "pytest", "-q", "tests/python/test_terminal.py", **base)
    suites = [TOP / f"clients/python/tests/test_{name}.py" for name in SUITES]
    # if no file may grow, coverage.py can't write its own either, and says so in the middle of what the test reads
    left_out = "--deselect=clients/python/tests/test_artifacts.py::test_a_page_that_cannot_be_written"
    run(python, "-m", "pytest", "-q", "-p", "no:cacheprovider", "-p", "tracehost.pytest_plugin", left_out, *suites, **base,
        TRACEHOST_LIBRARY=library)  # fmt: skip
    run(python, "-m", "coverage", "combine", "-q", f"--rcfile={settings}", room, **base)
    run(python, "-m", "coverage", "json", "-q", f"--rcfile={settings}", "-o", room / "report.json", **base)
    report = json.loads((room / "report.json").read_text())
    for name, file in sorted(report["files"].items()):
        print(f"  {file['summary']['percent_covered']:5.1f}% {pathlib.Path(name).name}: {file['missing_lines']}")
    return report["totals"]["percent_covered"], report["totals"]["num_statements"]


def of_c(room: pathlib.Path, program: str, library: str) -> tuple[float, int]:
    """By gcov, of the tests of clients/c."""
    client, archive = TOP / "clients/c", pathlib.Path(library).parent / "libtracehost.a"
    flags = ["-std=c11", "--coverage", "-O0", "-g", "-pthread", f"-I{TOP / 'include'}"]
    names = [str(file) for file in map(locator(room), plain_files())]
    run(sys.executable, client / "tests/words.py", room, *names)
    defines: dict[str, list[str]] = {
        "test": [], "threads": [], "replay": [], "faults/faults": ["-DCOUNTED", "-Dpwrite=pwrite_of_a_small_disk"],
    }  # fmt: skip
    for name, define in defines.items():
        sources = [client / f"tests/{name}.c", client / "tracehost_client.c", archive]
        run("cc", *flags, *define, "-o", room / pathlib.Path(name).name, *sources)
    run(room / "test", program, room, 1)
    run(room / "threads", room, 20)
    for scenario in names:
        words = room / scenario.removesuffix(".json").replace("/", "-")
        setting = words.with_suffix(".setting").read_text().strip()
        for way in (".text", ".calls"):
            with words.with_suffix(way).open("rb") as steps:
                subprocess.run([room / "replay", setting], stdin=steps, stdout=subprocess.DEVNULL, check=True)
    run(room / "faults", "fork")
    for size in range(0, 150, 7):
        run(room / "faults", "disk", room / "s.json", room / "s.out", size)
        run(room / "faults", "limit", room / "s.json", room / "s.out", 45 + size)
    run("cc", *flags, "-o", room / "codes", client / "tests/in_process/codes.c", client / "tracehost_client.c")
    run(room / "codes")
    report = room / "report.json"
    run("gcovr", "--root", client, "--exclude", ".*tests/.*", "--json-summary", report, room)
    counted = json.loads(report.read_text())
    for file in counted["files"]:
        print(f"  {file['line_percent']:5.1f}% {file['filename']}")
    return counted["line_percent"], counted["line_total"]


def of_viewer(room: pathlib.Path, program: str, library: str) -> tuple[float, int]:
    """By V8, of the viewer's script: node's tests of its parts, and pages in Chromium, with what is done there by hand."""
    runs = room / "runs"
    runs.mkdir()
    run(sys.executable, "tests/python/viewer_runs.py", runs)
    tests = sorted((TOP / "tests/node").glob("*.test.mjs"))
    run("node", "--test", *tests, PROGRAM=program, RUNS=str(runs), NODE_V8_COVERAGE=str(room / "node"))
    pages = [f"tests/python/{name}.py" for name in ("test_viewer", "test_viewer_hostile", "test_viewer_by_hand")]
    run(python_with("pytest"), "-m", "pytest", "-q", "-p", "no:cacheprovider", *pages, TRACEHOST=program, VIEWER_COVERAGE=str(room))
    return v8_coverage.report(v8_coverage.of_node(room / "node") | v8_coverage.of_pages(room))


# the runtime ends a process by _exit(2), before which gcov has to write its counts
DUMP = """void __gcov_dump(void);
void __real__exit(int status);
void __wrap__exit(int status);
void __wrap__exit(int status) { __gcov_dump(); __real__exit(status); }
"""


def copy_of_posix(room: pathlib.Path, archive: pathlib.Path) -> pathlib.Path:
    """The folder of a copy of clients/posix, in a tree with what it needs; its runtime is built for gcov."""
    posix = room / "tree/clients/posix"
    shutil.copytree(TOP / "clients/posix", posix, ignore=shutil.ignore_patterns("build", "__pycache__"))
    for name in ("clients/python", "crates", "crates.txt", "include", "man", "tools", "viewer"):
        (room / "tree" / name).symlink_to(TOP / name)
    run("make", "-s", "-C", posix, "CFLAGS=-O0 -g --coverage", LIBTRACEHOST=str(archive))
    (room / "dump.c").write_text(DUMP)
    run("cc", "-fPIE", "-c", "-o", room / "dump.o", room / "dump.c")
    return posix


def made_with_gcov(posix: pathlib.Path, source: pathlib.Path, made: pathlib.Path, *flags: str) -> pathlib.Path:
    """A program with the runtime of that copy. Only the linker gets gcov, which then counts only the runtime."""
    environment = {"CC": "c++" if source.suffix == ".cpp" else "cc"}
    run(posix / "tracehost-cc", "-g", "-w", *flags, "-c", "-o", f"{made}.o", source, **environment)
    counted = ["--coverage", "-Wl,--wrap=_exit", made.parent / "dump.o"]
    run(posix / "tracehost-cc", *flags, *counted, "-o", made, f"{made}.o", **environment)
    return made


def of_runtime(room: pathlib.Path, program: str, library: str) -> tuple[float, int]:
    """By gcov, of the cases and programs of clients/posix. A process that SIGKILL ends leaves no counts."""
    posix = copy_of_posix(room, pathlib.Path(library).with_name("libtracehost.a"))
    environment = {"TRACEHOST": program, "TMPDIR": str(room)}
    command = ["make", "-s", "-C", str(posix / "tests"), "list"]
    listed = subprocess.run(command, stdout=subprocess.PIPE, text=True, check=True)
    differences = (posix / "tests/DIFFERENCES.txt").read_text()
    programs: dict[str, pathlib.Path] = {}
    for name, case in (line.split() for line in listed.stdout.splitlines()):
        if name not in programs:
            programs[name] = made_with_gcov(posix, posix / f"tests/{name}.c", room / name)
        status = run_on_model(posix, ["--schedules", str(SCHEDULES), programs[name], case], environment)
        if status and f"\n{name} {case}\n" not in differences:
            raise SystemExit(f"coverage: {name} {case} has status {status}")
    for source in sorted((posix / "tests/programs").iterdir()):
        for number, flags in enumerate(variants(source)):
            made = made_with_gcov(posix, source, room / f"program_{source.stem}_{number}", *flags)
            run_on_model(posix, ["--schedules", str(SCHEDULES), made], environment)
    for source in sorted((posix / "races").glob("*.c")):
        run_on_model(posix, ["--schedules", "5", made_with_gcov(posix, source, room / f"race_{source.stem}")], environment)
    odd = made_with_gcov(posix, posix / "tests/odd.c", room / "odd")
    for word in ("closes", "closes_all", "deadlock", "forks", "prints", "system"):
        run_on_model(posix, [odd, word], environment)
    truss, traced = (made_with_gcov(posix, posix / f"examples/{name}.c", room / name) for name in ("truss", "traced"))
    run_on_model(posix, ["--schedules", "5", truss, "-f", traced], environment)
    refused = made_with_gcov(posix, calls_that_are_refused(posix, room), room / "refused")
    for number in range(len(refused_names(posix))):
        run_on_model(posix, [refused, number], environment)
    past_the_runtime(posix, room, environment)
    report = room / "report.json"
    run("gcovr", "--root", posix, "--filter", f"{posix}/runtime/", "--json-summary", report, posix / "build")
    counted = json.loads(report.read_text())
    for file in counted["files"]:
        print(f"  {file['line_percent']:5.1f}% {file['filename']}")
    return counted["line_percent"], counted["line_total"]


def refused_names(posix: pathlib.Path) -> list[str]:
    """The calls that the model doesn't have, without those that would set the host's clock."""
    names = re.findall(r"REFUSED\((\w+)\)", (posix / "build/refused.inc").read_text(encoding="ascii"))
    return [name for name in names if "time" not in name]


def calls_that_are_refused(posix: pathlib.Path, room: pathlib.Path) -> pathlib.Path:
    """A program that makes the refused call of a number."""
    names = [f"tracehost_refused_{name}" for name in refused_names(posix)]
    declared = "".join(f"void {name}(void);\n" for name in names)
    source = room / "refused.c"
    source.write_text(
        f"{declared}int atoi(const char *);\n"
        f"int main(int argc, char **argv) {{ void (*calls[])(void) = {{{', '.join(names)}}};"
        " calls[atoi(argv[1])](); return argc; }\n"
    )
    return source


# calls kill(2) with signal 0 by an instruction, or the C library's function of a name: the runtime's filter ends the run
PAST_THE_RUNTIME = """#include <dlfcn.h>
#include <string.h>
#include <unistd.h>
int main(int argc, char **argv)
{
    long result, kills = 62;
    if (strcmp(argv[argc - 1], "instruction") == 0)
        __asm__ volatile("syscall" : "=a"(result) : "a"(kills), "D"((long)getppid()), "S"(0L) : "rcx", "r11", "memory");
    else
        ((long (*)(long, long))dlsym(RTLD_DEFAULT, argv[argc - 1]))(getppid(), 0);
    return 0;
}
"""


def past_the_runtime(posix: pathlib.Path, room: pathlib.Path, environment: dict[str, str]) -> None:
    source = room / "past.c"
    source.write_text(PAST_THE_RUNTIME)
    made = made_with_gcov(posix, source, room / "past")
    for name in ("instruction", "kill", "fork", "vfork", "setpgid"):
        run_on_model(posix, [made, name], environment)


def run_on_model(posix: pathlib.Path, words: list[object], environment: dict[str, str]) -> int:
    """The status of a run. It may be another than 0: some programs are to fail."""
    command = [str(word) for word in (posix / "tracehost-run", "--patience", "10", *words)]
    done = subprocess.run(
        command, cwd=posix, env={**os.environ, **environment}, stdin=subprocess.DEVNULL, stdout=subprocess.DEVNULL,
        stderr=subprocess.DEVNULL, timeout=300,
    )  # fmt: skip
    return done.returncode


PARTS = {"python": of_python, "c": of_c, "viewer": of_viewer, "runtime": of_runtime}


def main() -> None:
    program, library, *names = sys.argv[1:]
    below = []
    for name in names or list(BOUNDS):
        missing = [command for command in NEEDED[name] if shutil.which(command) is None]
        if missing:
            print(f"{name}: not measured: {', '.join(missing)} isn't installed")
            below.append(name)
            continue
        with tempfile.TemporaryDirectory() as folder:
            share, lines = PARTS[name](pathlib.Path(folder), program, library)
        print(f"{name}: {share:.1f}% of {lines} lines")
        below += [name] if share < BOUNDS[name] else []
    sys.exit(f"not measured, or below its bound: {', '.join(below)}" if below else 0)


if __name__ == "__main__":
    main()
