"""Fuzzing of debuggers: a planted fault is found, by libFuzzer and AFL++, in C and in Rust, and saved as a failing test's session.

The examples are clients/c/examples/fuzz_debugger.c and clients/rust/fuzz: with and without their fault.
"""

from __future__ import annotations

import os
import shutil
import subprocess
import sys
from pathlib import Path

import pytest
from c_programs import HEADERS, STRICT, compiled, reads
from cargo import Cargo
from checking import TOP, needs
from posix_kit import POSIX, SCALE

EXAMPLE = TOP / "clients/c/examples/fuzz_debugger.c"
FUZZER = ["-g", "-O1", "-fsanitize=fuzzer"]
SECONDS = 60 * max(1, int(os.environ.get("TRACEHOST_TEST_SCALE", "1")))
"""In which a fault is found."""
AFL = ("I_DONT_CARE_ABOUT_MISSING_CRASHES", "NO_UI", "SKIP_CPUFREQ", "TRY_AFFINITY", "BENCH_UNTIL_CRASH")


def ran(*words: object, folder: Path, seconds: float = SECONDS, **environment: str) -> subprocess.CompletedProcess[str]:
    return subprocess.run(
        [*map(str, words)], cwd=folder, env={**os.environ, **environment}, capture_output=True, errors="replace", text=True,
        timeout=seconds, check=False,
    )  # fmt: skip


def fuzzer(library: Path, made: Path, source: Path, *words: str, compiler: str = "clang") -> Path:
    made.parent.mkdir(parents=True, exist_ok=True)
    return compiled(made, *FUZZER, *STRICT, *words, *HEADERS, source, library / "libtracehost.a", compiler=compiler)


@pytest.fixture(scope="module")
def libfuzzer(library: Path, tmp_path_factory: pytest.TempPathFactory) -> None:
    empty = tmp_path_factory.mktemp("empty") / "empty.c"
    empty.write_text(
        "int LLVMFuzzerTestOneInput(const char *data, long size);\nint LLVMFuzzerTestOneInput(const char *data, long size) { return !data && size; }\n"
    )
    made = ran("clang", "-fsanitize=fuzzer", empty, "-o", empty.with_suffix(""), folder=empty.parent)
    if made.returncode:
        pytest.skip("clang's runtime has no fuzzer: Debian's libclang-rt-14-dev has it")


def check_finds(folder: Path, program: Path) -> list[Path]:
    """The finds of a folder replay, and end in a tracee that an event's SIGTRAP has ended."""
    finds = sorted(folder.glob("*.find-*.json"))
    assert finds
    for find in finds:
        done = ran(program, find, "--expect", find.with_suffix(".out"), folder=folder)
        assert (done.returncode, done.stderr) == (0, "")
        lines = find.with_suffix(".out").read_text().splitlines()
        assert any(line.endswith(" 5") and " status " in line for line in lines[-3:]), lines[-3:]
    done = ran(sys.executable, POSIX / "tracehost-corpus", "--model", program, folder, folder=folder)
    assert done.returncode == 0 and f"{len(finds)} scenarios compared: 0 differ, 0 refused; 0 only run" in done.stderr, done.stderr
    return finds


@needs("clang")
@pytest.mark.parametrize("standard", ["gnu99", "gnu17", "c++11", "c++20"])
def test_the_header(tmp_path: Path, standard: str) -> None:
    for compiler in ("clang", "gcc"):
        if standard[0] == "g":
            reads(f"-std={standard}", *STRICT, *HEADERS, EXAMPLE, compiler=compiler)
        else:
            source = tmp_path / "fuzz.cpp"
            body = EXAMPLE.read_text().split("int LLVMFuzzer")[0].split("#include")[1].splitlines()[0]
            source.write_text(
                f"#include{body}\nvoid run(tracehost_fuzz *f);\nvoid run(tracehost_fuzz *f) {{ while (tracehost_fuzz_step(f)) TRACEHOST_FUZZ_CHECK(f->user); }}\n"
            )
            reads(f"-std={standard}", *STRICT, *HEADERS, source, compiler={"clang": "clang++", "gcc": "g++"}[compiler])


@needs("clang")
def test_libfuzzer_finds_the_fault(libfuzzer: None, library: Path, program: Path, tmp_path: Path) -> None:
    """In a minute. The input that it keeps makes the same record once more."""
    wrong = fuzzer(library, tmp_path / "made/wrong", EXAMPLE, "-DWRONG")
    found, again = tmp_path / "found", tmp_path / "again"
    found.mkdir()
    again.mkdir()
    done = ran(wrong, "-seed=1", f"-artifact_prefix={tmp_path}/", folder=found)
    assert done.returncode == 77 and "fuzz_debugger.c:" in done.stderr and "!d.has_ended_one" in done.stderr, done.stderr[-2000:]
    (find,) = check_finds(found, program)
    assert f"tracehost: to go on from here: tracehost-debug ./{find.name}\n" in done.stderr
    (crash,) = tmp_path.glob("crash-*")
    done = ran(wrong, crash, folder=tmp_path, TRACEHOST_ARTIFACTS=str(again))
    (second,) = again.glob("*.json")
    assert (second.name, second.read_bytes()) == (find.name, find.read_bytes()) and f"tracehost-debug {second}\n" in done.stderr


@needs("clang")
def test_without_the_fault_nothing_is_found(libfuzzer: None, library: Path, tmp_path: Path) -> None:
    """With AddressSanitizer, which finds no fault of the header either."""
    right = fuzzer(library, tmp_path / "right", EXAMPLE, "-fsanitize=address,undefined", "-fno-sanitize-recover=all")
    done = ran(right, "-seed=1", f"-runs={500 * SCALE}", "-max_len=300", "-len_control=0", folder=tmp_path)
    assert done.returncode == 0 and f"Done {500 * SCALE} runs" in done.stderr, done.stderr[-2000:]
    assert list(tmp_path.glob("*.find-*")) == []


def afl(target: Path, room: Path, monkeypatch: pytest.MonkeyPatch) -> dict[str, str]:
    """Runs a target until its first find, and returns the statistics. Finds are saved in `found`."""
    for setting in AFL:
        monkeypatch.setenv(f"AFL_{setting}", "1")
    (room / "seeds").mkdir()
    (room / "seeds/a").write_bytes(bytes(range(0, 128, 4)))
    found = room / "found"
    found.mkdir()
    words: list[object] = ["afl-fuzz", "-s", 1, "-V", SECONDS, "-t", 20000, "-i", room / "seeds", "-o", room / "afl", target]
    done = ran(*words, folder=found, seconds=3 * SECONDS, TRACEHOST_ARTIFACTS=str(found))
    assert done.returncode == 0, done.stdout[-2000:]
    lines = (room / "afl/default/fuzzer_stats").read_text().splitlines()
    stats = {name.strip(): value.strip() for name, _, value in (line.partition(":") for line in lines)}
    assert int(stats["saved_crashes"]) >= 1
    return stats


@needs("afl-clang-fast", "afl-fuzz")
def test_afl_finds_the_fault(library: Path, program: Path, tmp_path: Path, monkeypatch: pytest.MonkeyPatch) -> None:
    """The states are among its edges."""
    wrong = fuzzer(library, tmp_path / "made/wrong", EXAMPLE, "-DWRONG", compiler="afl-clang-fast")
    stats = afl(wrong, tmp_path, monkeypatch)
    assert int(stats["total_edges"]) > 8192
    check_finds(tmp_path / "found", program)


# ---- what is saved, and what can't be

BODY = """
int LLVMFuzzerTestOneInput(const uint8_t *data, size_t size)
{
    tracehost_fuzz world;
    tracehost_reply reply;
    tracehost_fuzz_open(&world, false, data, size);
    tracehost_spawn(&world.host, 1001, &reply);
    %s
    tracehost_fuzz_close(&world);
    return 0;
}
"""
WAYS: dict[str, tuple[str, list[str]]] = {
    "a fault of memory": ("memset((void *)size, 0, 1);", []),
    "an overflow": ("volatile char *a = malloc(8); a[8 + size] = 1;", ["-fsanitize=address"]),
    "an abort": ("abort();", []),
    "an odd event mask": ("tracehost_ptrace(&world.host, 1001, 1000, TRACEHOST_PT_SET_EVENT_MASK, 1000, 64, &reply); abort();", []),
}


@needs("clang")
@pytest.mark.parametrize("way", WAYS)
def test_ends_that_are_saved(libfuzzer: None, library: Path, program: Path, tmp_path: Path, way: str) -> None:
    """One step, with the setting. A step that no line has ends the record, which is told."""
    source = tmp_path / "way.c"
    code, words = WAYS[way]
    source.write_text(f"#include <tracehost_fuzz.h>\nint LLVMFuzzerTestOneInput(const uint8_t *data, size_t size);{BODY % code}")
    made = fuzzer(library, tmp_path / "way", source, "-Wno-sign-conversion", *words)
    done = ran(made, "-runs=1", f"-artifact_prefix={tmp_path}/", folder=tmp_path)
    (find,) = tmp_path.glob("way.find-*.json")
    assert done.returncode != 0 and find.read_text() == '{"kill_on_debugger_exit":0,"steps":[\n{"user":1001,"op":"spawn"}\n]}\n'
    assert find.with_suffix(".out").read_text() == "1001 1 new 1000 100000\n"
    assert ("the record ends early" in done.stderr) == (way == "an odd event mask")


@needs("clang")
def test_a_find_that_cannot_be_saved(libfuzzer: None, library: Path, tmp_path: Path) -> None:
    """The fuzzer's find stays one."""
    source = tmp_path / "way.c"
    source.write_text(
        f"#include <tracehost_fuzz.h>\nint LLVMFuzzerTestOneInput(const uint8_t *data, size_t size);{BODY % 'abort();'}"
    )
    made = fuzzer(library, tmp_path / "way", source)
    done = ran(made, "-runs=1", folder=tmp_path, TRACEHOST_ARTIFACTS=str(tmp_path / "none"))
    assert done.returncode == 77 and "tracehost: the find can't be saved: " in done.stderr
    assert "scenario: " not in done.stderr and list(tmp_path.glob("crash-*")) != []


@needs("clang")
def test_calls_of_sources_that_are_compiled_apart(libfuzzer: None, library: Path, tmp_path: Path) -> None:
    """By -include. A copy's steps aren't the session's."""
    (tmp_path / "apart.c").write_text(
        "#include <tracehost.h>\nvoid act(tracehost *h);\nvoid act(tracehost *h)\n{\n    tracehost copy = TRACEHOST_CLOSED;\n"
        "    tracehost_reply reply;\n    tracehost_copy(h, &copy);\n    tracehost_list(&copy, 1001, 1000, &reply);\n"
        "    tracehost_list(h, 1001, 1000, &reply);\n    tracehost_close(&copy);\n}\n"
    )
    source = tmp_path / "way.c"
    calls = BODY % "act(&world.host); abort();"
    source.write_text(
        f"#include <tracehost_fuzz.h>\nvoid act(tracehost *h);\nint LLVMFuzzerTestOneInput(const uint8_t *data, size_t size);{calls}"
    )
    apart = compiled(tmp_path / "apart.o", "-c", "-include", "tracehost_fuzz.h", *HEADERS, tmp_path / "apart.c", compiler="clang")
    made = fuzzer(library, tmp_path / "way", source, str(apart))
    ran(made, "-runs=1", folder=tmp_path)
    (find,) = tmp_path.glob("way.find-*.json")
    assert find.read_text().count('"op":"list"') == 1


MODEL = """
#include <tracehost_fuzz.h>
int LLVMFuzzerTestOneInput(const uint8_t *data, size_t size);
int LLVMFuzzerTestOneInput(const uint8_t *data, size_t size)
{
    static uint8_t step[1 << 16], line[1 << 16], again[1 << 16];
    tracehost copy = TRACEHOST_CLOSED;
    tracehost_fuzz world;
    size_t length, step_length, other;

    tracehost_fuzz_open(&world, true, data, size);
    if (tracehost_copy(&world.host, &copy) != TRACEHOST_ANSWERED)
        abort();
    while (tracehost_fuzz_step(&world)) {
        TRACEHOST_FUZZ_CHECK(tracehost_last_step(&world.host, step, sizeof step, &step_length) == TRACEHOST_ANSWERED);
        TRACEHOST_FUZZ_CHECK(tracehost_last_line(&world.host, false, line, sizeof line, &length) == TRACEHOST_ANSWERED);
        TRACEHOST_FUZZ_CHECK(tracehost_line(&copy, false, step, step_length, again, sizeof again, &other) == TRACEHOST_ANSWERED);
        TRACEHOST_FUZZ_CHECK(length == other && memcmp(line, again, length) == 0);
    }
    tracehost_close(&copy);
    tracehost_fuzz_close(&world);
    return 0;
}
"""


@needs("clang")
def test_the_model_is_fuzzed_without_a_debugger(libfuzzer: None, library: Path, tmp_path: Path) -> None:
    """All steps, by typed calls and as lines in a copy, whose answers are the same."""
    source = tmp_path / "model.c"
    source.write_text(MODEL)
    made = fuzzer(library, tmp_path / "model", source, "-fsanitize=address")
    kept = tmp_path / "kept"
    kept.mkdir()
    done = ran(made, "-seed=1", f"-runs={4000 * SCALE}", "-max_len=120", kept, folder=tmp_path)
    assert done.returncode == 0 and f"Done {4000 * SCALE} runs" in done.stderr, done.stderr[-2000:]
    assert len(list(kept.iterdir())) > 50


# ---- Rust

STUB = """
#[macro_export]
macro_rules! fuzz_target {
    (|$bytes:ident: &[u8]| $body:expr) => {
        #[no_mangle]
        pub extern "C" fn LLVMFuzzerTestOneInput(data: *const u8, size: usize) -> i32 {
            let $bytes = if size == 0 { &[][..] } else { unsafe { std::slice::from_raw_parts(data, size) } };
            $body
            0
        }
    };
}
"""
COVERAGE = "-Cpasses=sancov-module -Ccodegen-units=1 --cfg fuzzing " + " ".join(
    f"-Cllvm-args=-sanitizer-coverage-{word}" for word in ("level=3", "trace-compares")
)
AFL_FOLDER = Path("/usr/lib/afl")


def in_rust(library: Path, room: Path, flags: str) -> Path:
    """The target of clients/rust/fuzz with its fault, over a libfuzzer-sys of the same form: its crate isn't here."""
    crate, stub = room / "rust/fuzz", room / "stub"
    (stub / "src").mkdir(parents=True)
    (stub / "Cargo.toml").write_text('[package]\nname = "libfuzzer-sys"\nversion = "0.4.9"\nedition = "2021"\n')
    (stub / "src/lib.rs").write_text(STUB)
    shutil.copytree(TOP / "clients/rust/fuzz", crate, ignore=shutil.ignore_patterns("target", "Cargo.lock"))
    manifest = crate / "Cargo.toml"
    manifest.write_text(manifest.read_text().replace('path = ".."', f'path = "{TOP}/clients/rust"'))
    words = ["--release", "--features", "wrong", "--target", "x86_64-unknown-linux-gnu"]
    words += ["--config", f'patch.crates-io.libfuzzer-sys.path="{stub}"']
    Cargo(crate, library, room / "target")("build", *words, environment={"RUSTFLAGS": f"{COVERAGE} {flags}"})
    return room / "target/x86_64-unknown-linux-gnu/release/debugger"


@needs("cargo", "clang")
def test_libfuzzer_finds_the_fault_in_rust(libfuzzer: None, library: Path, program: Path, tmp_path: Path) -> None:
    resources = ran("clang", "-print-resource-dir", folder=tmp_path).stdout.strip()
    runtime = f"-Clink-arg={resources}/lib/linux/libclang_rt.fuzzer-x86_64.a -Clink-arg=-lstdc++"
    made = in_rust(
        library,
        tmp_path,
        f"-Cllvm-args=-sanitizer-coverage-inline-8bit-counters -Cllvm-args=-sanitizer-coverage-pc-table {runtime}",
    )
    found = tmp_path / "found"
    found.mkdir()
    done = ran(made, "-seed=1", f"-artifact_prefix={tmp_path}/", folder=found)
    assert done.returncode == 77 and "8192 Extra Counters" in done.stderr, done.stderr[-2000:]
    (find,) = check_finds(found, program)
    assert f"tracehost: to go on from here: tracehost-debug ./{find.name}\n" in done.stderr
    (crash,) = tmp_path.glob("crash-*")
    done = ran(made, crash, folder=tmp_path, TRACEHOST_ARTIFACTS=str(tmp_path / "none"))
    assert done.returncode == 77 and "tracehost: the find can't be saved: " in done.stderr
    assert "tracehost: scenario: " not in done.stderr


@needs("cargo", "afl-fuzz")
@pytest.mark.skipif(not (AFL_FOLDER / "libAFLDriver.a").exists(), reason="not installed: AFL++'s driver")
def test_afl_finds_the_fault_in_rust(library: Path, program: Path, tmp_path: Path, monkeypatch: pytest.MonkeyPatch) -> None:
    """By its driver and its runtime. It isn't told of states."""
    driver = f"-Clink-arg={AFL_FOLDER}/libAFLDriver.a -Clink-arg={AFL_FOLDER}/afl-compiler-rt.o"
    flags = f"-Cllvm-args=-sanitizer-coverage-trace-pc-guard -Clink-arg=-Wl,-u,main {driver}"
    afl(in_rust(library, tmp_path, flags), tmp_path, monkeypatch)
    check_finds(tmp_path / "found", program)
