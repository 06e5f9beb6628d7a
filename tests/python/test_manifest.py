"""What a release says it is: its MANIFEST is an in-toto statement, which tools/release writes, writes anew and checks.

The releases of this test are stand-ins in a copy of what the tools read; one for rt says the kit's line.
"""

from __future__ import annotations

import base64
import hashlib
import json
import os
import platform
import shutil
import subprocess
import sys
from collections.abc import Callable
from pathlib import Path
from typing import Any

import pytest

from checking import TOP, Ended, needs, run

sys.path.insert(0, str(TOP / "tools"))
import manifest  # noqa: E402
from crates import listed  # noqa: E402

pytestmark = needs("strip")
RELEASE = f"release/{platform.machine()}-linux"
KIT = "rattle-kit-7 logic 0123456789abcdef"
EDITS = ("tracehost/must-fail/one.edit", "pid_blocks/must-fail/other.edit")
UNCOUNTED = ("tracehost/must-fail/why.md", "tracehost/must-fail-more/one.edit", "none/must-fail/one.edit")
GATE = f"{len(listed()) + len(EDITS)} passed, 0 failed"
ARCHIVE = "5" * 64
TRUE = shutil.which("true") or ""


def digest_of(path: Path) -> str:
    return hashlib.sha256(path.read_bytes()).hexdigest()


class Copy:
    """What tools/release reads, with a release whose files are texts and whose MANIFEST is of the form of 0.20."""

    def __init__(self, top: Path) -> None:
        self.top, self.folder = top, top / RELEASE
        for name in ("tools", "crates/tracehost/src", "crates/tracehost/specs", "library", "include"):
            shutil.copytree(TOP / name, top / name, ignore=shutil.ignore_patterns("__pycache__"))
        for name in ("CHANGELOG.md", "crates.txt"):
            shutil.copy(TOP / name, top / name)
        for name in (*EDITS, *UNCOUNTED):
            (top / "crates" / name).parent.mkdir(parents=True, exist_ok=True)
            (top / "crates" / name).touch()
        self.folder.mkdir(parents=True)
        shutil.copy(TRUE, self.folder / "tracehost")  # strip(1) is asked for it
        for name in ("libtracehost.a", "libtracehost.so"):
            (self.folder / name).write_text(f"what {name} is\n")
        kit = top / "kit"
        (kit / "bin").mkdir(parents=True)
        (kit / "bin/rt").write_text(f"#!/bin/sh\necho '{KIT}'\n")
        (kit / "bin/rt").chmod(0o755)
        (kit / "WHAT").write_text(f"archive {ARCHIVE}\ncommit 1\n")
        self.manifest = self.folder / "MANIFEST"
        self.log = top / "log"
        self.log.write_text(f"rt: ok\n{GATE}\n")
        self.in_lines()

    def run(self, *words: str | Path) -> Ended:
        return run("env", f"PATH={self.top}/kit/bin:{os.environ['PATH']}", *words)

    def release(self, *words: str | Path) -> Ended:
        return self.run(self.top / "tools/release", *words)

    def sources(self, *crate: str) -> str:
        return self.run(self.top / "tools/sources", *crate).out.strip()

    def in_lines(self) -> None:
        lines = f"""version {self.run(self.top / "tools/version").out.strip()}
kit {KIT}
sources {self.sources()}
program {digest_of(self.folder / "tracehost")}
needs Linux, GLIBC 2.34
library-sources {self.sources("tracehost_c")}
archive {digest_of(self.folder / "libtracehost.a")}
shared {digest_of(self.folder / "libtracehost.so")}
library-needs Linux, GLIBC 2.14
"""
        self.manifest.write_text(lines)

    def check(self) -> Ended:
        """The last lines say what becomes of the program and of the library, which aren't built here."""
        return self.release("--check", self.folder / "tracehost")


@pytest.fixture(scope="module")
def whole(tmp_path_factory: pytest.TempPathFactory) -> Copy:
    made = Copy(tmp_path_factory.mktemp("release"))
    assert made.release("--manifest", made.log) == Ended(0, "", "")
    return made


@pytest.fixture
def copy(whole: Copy, tmp_path: Path) -> Copy:
    made = object.__new__(Copy)
    made.top = Path(shutil.copytree(whole.top, tmp_path / "copy"))
    made.folder, made.log = made.top / RELEASE, made.top / "log"
    made.manifest = made.folder / "MANIFEST"
    return made


def test_it_is_a_statement_of_in_toto_with_provenance_of_slsa(whole: Copy) -> None:
    """Members as in-toto's Statement v1, its resource descriptors, and SLSA's provenance v1 have them."""
    said: dict[str, Any] = json.loads(whole.manifest.read_text())
    assert set(said) == {"_type", "subject", "predicateType", "predicate"}
    assert (said["_type"], said["predicateType"]) == ("https://in-toto.io/Statement/v1", "https://slsa.dev/provenance/v1")
    build, run = said["predicate"]["buildDefinition"], said["predicate"]["runDetails"]
    assert set(build) == {"buildType", "externalParameters", "resolvedDependencies"} and set(run) == {"builder", "byproducts"}
    assert build["buildType"].startswith("https://") and run["builder"]["id"].startswith("https://")
    for resource in said["subject"] + build["resolvedDependencies"] + run["byproducts"]:
        assert set(resource) <= {"name", "uri", "digest", "content", "mediaType", "annotations"}
        assert {"uri", "digest", "content"} & set(resource)
    assert all(resource["digest"] for resource in said["subject"])
    assert {one["name"]: one["digest"] for one in said["subject"]} == {
        name: {"sha256": digest_of(whole.folder / name)} for name in ("tracehost", "libtracehost.a", "libtracehost.so")
    }


def test_it_says_kit_gate_and_sources(whole: Copy) -> None:
    said = json.loads(whole.manifest.read_text())["predicate"]
    made_of = {one["name"]: one for one in said["buildDefinition"]["resolvedDependencies"]}
    assert made_of["kit"]["annotations"] == {"id": KIT} and made_of["kit"]["digest"] == {"sha256": ARCHIVE}
    assert made_of["kit"]["uri"] == "pkg:generic/rattle-kit@7"
    assert made_of["sources"]["digest"] == {"sha256": whole.sources()}
    assert made_of["library-sources"]["digest"] == {"sha256": whole.sources("tracehost_c")}
    (gate,) = said["runDetails"]["byproducts"]
    assert (gate["name"], gate["annotations"]) == ("gate", {"line": GATE}) and base64.b64decode(gate["content"]) == GATE.encode()
    version = whole.run(whole.top / "tools/version").out.strip()
    assert said["buildDefinition"]["externalParameters"] == {"version": version}


def test_it_is_written_anew_with_the_same_bytes(copy: Copy) -> None:
    before = copy.manifest.read_bytes()
    given: list[list[Path]] = [[], [copy.log]]
    for words in given:
        assert copy.release("--manifest", *words) == Ended(0, "", "")
        assert copy.manifest.read_bytes() == before


def test_without_a_log_it_has_no_line_of_a_gate_and_says_so(copy: Copy) -> None:
    copy.in_lines()
    assert copy.release("--manifest") == Ended(0, "", "")
    assert "gate" not in copy.manifest.read_text()
    checked = copy.check()
    assert checked.status == 0
    assert "skipped: the manifest: it has no line of a gate; tools/release --manifest LOG adds it\n" in checked.out
    assert copy.release("--manifest", copy.log) == Ended(0, "", "")
    assert GATE in copy.manifest.read_text()
    checked = copy.check()
    assert (checked.status, checked.err) == (0, "")
    assert checked.out.startswith("the release's files are those of its manifest\n") and "the manifest: " not in checked.out


OF_A_CRATE = f"{GATE} (tracehost and the crates below alone: not the gate)"


@pytest.mark.parametrize("line", ["1233 passed, 1 failed", "0 passed, 0 failed", "", f"{GATE}, 1 skipped", "passed", OF_A_CRATE])
def test_a_log_of_a_gate_that_failed_is_refused(copy: Copy, line: str) -> None:
    before = copy.manifest.read_bytes()
    copy.log.write_text(f"rt: ok\n{GATE}\n{line}\n")
    written = copy.release("--manifest", copy.log)
    assert (written.status, written.err) == (1, f"release: {copy.log} doesn't end as a gate that passed\n")
    assert copy.manifest.read_bytes() == before


def more_edits(copy: Copy) -> None:
    (copy.top / "crates/tracehost/must-fail/more.edit").touch()


def more_crates(copy: Copy) -> None:
    with (copy.top / "crates.txt").open("a") as file:
        file.write("more staticlib: pid_blocks\n")


def other_sources(copy: Copy) -> None:
    with (copy.top / "crates/tracehost/src/main.rt").open("a") as file:
        file.write("// another commit's\n")


def no_log(copy: Copy) -> None:
    copy.log.unlink()


def other_program(copy: Copy) -> None:
    (copy.folder / "tracehost").write_text("another\n")


def no_archive(copy: Copy) -> None:
    (copy.folder / "libtracehost.a").unlink()


REFUSED: dict[Callable[[Copy], None], str] = {
    more_edits: "log is of another commit: it counts ",
    more_crates: "log is of another commit: it counts ",
    other_sources: "release: the release is of other sources than this checkout, which ",
    no_log: "release: there is no log ",
    other_program: "/tracehost: ",
    no_archive: "/libtracehost.a: missing, and ",
}


@pytest.mark.parametrize("change", REFUSED)
def test_what_the_log_is_not_of_gets_no_line(copy: Copy, change: Callable[[Copy], None]) -> None:
    copy.in_lines()
    assert copy.release("--manifest").status == 0
    before = copy.manifest.read_bytes()
    change(copy)
    written = copy.release("--manifest", copy.log)
    assert (written.status, written.out) == (1, "") and REFUSED[change] in written.err
    assert copy.manifest.read_bytes() == before and b"passed" not in before


def test_of_another_kit_the_digest_stays(copy: Copy) -> None:
    (copy.top / "kit/bin/rt").write_text("#!/bin/sh\necho rattle-kit-8\n")
    (copy.top / "kit/WHAT").write_text(f"archive {'6' * 64}\n")
    before = copy.manifest.read_bytes()
    assert copy.release("--manifest").status == 0
    assert copy.manifest.read_bytes() == before


@pytest.mark.parametrize("form", ["a statement", "lines"])
def test_changed_files_get_no_manifest(copy: Copy, form: str) -> None:
    if form == "lines":
        copy.in_lines()
    before = copy.manifest.read_bytes()
    (copy.folder / "libtracehost.so").write_text("another\n")
    written = copy.release("--manifest")
    assert written.status == 1 and "libtracehost.so: " in written.err and "the MANIFEST is as it was" in written.err
    assert copy.manifest.read_bytes() == before


# ---- the check


def test_the_check_of_a_whole_release(whole: Copy) -> None:
    checked = whole.check()
    assert (checked.status, checked.err) == (0, "")
    assert checked.out.startswith("the release's files are those of its manifest\n")
    assert " 0 failed, " in checked.out.splitlines()[-1]


def edited(old: str, new: str) -> Callable[[Copy], object]:
    def edit(copy: Copy) -> None:
        text = copy.manifest.read_text()
        assert old in text
        copy.manifest.write_text(text.replace(old, new, 1))

    return edit


def with_fact(copy: Copy, name: str, fact: object) -> None:
    facts, digests = manifest.read(copy.folder)
    said = manifest.statement({**facts, name: fact}, digests)  # type: ignore[dict-item]
    copy.manifest.write_text(f"{manifest.text_of(said)}\n")


FAULTS: dict[str, tuple[Callable[[Copy], object], str]] = {
    "another program": (lambda copy: (copy.folder / "tracehost").open("ab").write(b"x"), "/tracehost: "),
    "another archive": (lambda copy: (copy.folder / "libtracehost.a").write_text("x"), "/libtracehost.a: "),
    "a library less": (lambda copy: (copy.folder / "libtracehost.so").unlink(), "libtracehost.so: missing, and "),
    "a gate that failed": (
        lambda copy: with_fact(copy, "gate", "1233 passed, 1 failed"),
        "MANIFEST: gate is '1233 passed, 1 failed'",
    ),
    "another line of the gate's": (edited('"line": "', '"line": "1'), "isn't in the form"),
    "another digest": (edited('"libtracehost.a", "digest": {"sha256": "', '"libtracehost.a", "digest": {"sha256": "0'), "and 0"),
    "a file less": (
        edited('{"name": "libtracehost.a"', '{"name": "lib"'),
        "MANIFEST: its files are tracehost, lib, libtracehost.so",
    ),
    "a member more": (edited('"runDetails": {', '"runDetails": {"more": 1, '), "isn't in the form"),
    "a dependency more": (edited('{"name": "sources"', '{"name": "x", "digest": {}}, {"name": "sources"'), "isn't in the form"),
    "another predicate": (edited("slsa.dev/provenance/v1", "slsa.dev/provenance/v2"), "isn't in the form"),
    "no kit": (edited('"kit", ', '"tool", '), "is no statement of tools/release: KeyError"),
    "half a file": (lambda copy: copy.manifest.write_bytes(copy.manifest.read_bytes()[:700]), "JSONDecodeError"),
    "a list": (lambda copy: copy.manifest.write_text("[]\n"), "is no statement of tools/release: TypeError"),
    "a number": (edited('"version": "', '"version": 1, "was": "'), "MANIFEST: version is 1"),
    "a version that is none": (lambda copy: with_fact(copy, "version", 7), "MANIFEST: version is 7"),
    "brackets": (lambda copy: copy.manifest.write_text("[" * 100000), "is no statement of tools/release: RecursionError"),
    "no file": (lambda copy: copy.manifest.unlink(), "FileNotFoundError"),
    "lines of 0.20": (lambda copy: copy.in_lines(), "is no statement of tools/release: JSONDecodeError"),
}


@pytest.mark.parametrize("fault", FAULTS)
def test_a_fault_fails_the_check(copy: Copy, fault: str) -> None:
    change, said = FAULTS[fault]
    change(copy)
    checked = copy.check()
    assert checked.status == 1 and said in checked.err
    assert "FAILED: the release's manifest\n" in checked.out and " 1 failed, " in checked.out.splitlines()[-1]


def test_a_full_disk_leaves_the_manifest(copy: Copy) -> None:
    before = copy.manifest.read_bytes()
    written = copy.run("sh", "-c", 'ulimit -f 1 && trap "" XFSZ && exec "$0" --manifest', copy.top / "tools/release")
    assert written.status == 1 and "File too large" in written.err
    assert copy.manifest.read_bytes() == before
    assert {path.name for path in copy.folder.iterdir()} == {"MANIFEST", *manifest.NEEDS}


# ---- a new release


class Checkout(Copy):
    """A clean one. The stand-in for rt builds a program; others stand for what proves the library and for the licenses."""

    def __init__(self, top: Path) -> None:
        super().__init__(top)
        built, library = "crates/tracehost/out", "crates/tracehost_c/out"
        gate = f"mkdir -p {built} && cp '{TRUE}' {built}/tracehost && cat '{top}/log'"
        self.write("kit/bin/rt", f"case $1 in version) echo '{KIT}' ;; ci) {gate} ;; esac")
        archive = f"echo archive >{library}/libtracehost.a"
        self.write("tools/build_library.py", f"mkdir -p {library} && cp '{TRUE}' {library}/libtracehost.so && {archive}")
        self.write("tools/licenses", f"! grep fault {top}/log")
        (top / ".gitignore").write_text("out/\n/log\n/kit\n")
        for words in (["init", "-q"], ["add", "-A"], ["-c", "user.name=t", "-c", "user.email=t@t", "commit", "-qm", "all"]):
            subprocess.run(["git", *words], cwd=top, check=True)

    def write(self, name: str, code: str) -> None:
        (self.top / name).write_text(f"#!/bin/sh\n{code}\n")
        (self.top / name).chmod(0o755)


@pytest.fixture
def checkout(tmp_path: Path) -> Checkout:
    return Checkout(tmp_path / "checkout")


@needs("git", "objdump")
def test_a_new_release(checkout: Checkout) -> None:
    made = checkout.release()
    assert made.status == 0, made
    facts, digests = manifest.read(checkout.folder)
    head = subprocess.run(["git", "rev-parse", "HEAD"], cwd=checkout.top, stdout=subprocess.PIPE, text=True, check=True).stdout
    assert (facts["gate"], facts["commit"], facts["kit"], facts["kit-archive"]) == (GATE, head.strip(), KIT, ARCHIVE)
    assert (facts["sources"], facts["library-sources"]) == (checkout.sources(), checkout.sources("tracehost_c"))
    assert facts["needs"].startswith("Linux ") and "GLIBC 2." in facts["needs"]
    changelog = (checkout.top / "CHANGELOG.md").read_text(encoding="utf-8")
    assert all(f"- `{name}`: `{digest_of(checkout.folder / name)}`\n" in changelog for name in digests)
    assert checkout.check().status == 0


@needs("git", "objdump")
@pytest.mark.parametrize("log", ["1233 passed, 1 failed\n", f"{GATE}\nkilled\n", f"fault\n{GATE}\n", f"1{GATE}\n"])
def test_a_gate_that_failed_makes_no_release(checkout: Checkout, log: str) -> None:
    """Nor do licenses that aren't the kit's."""
    before = checkout.manifest.read_bytes()
    checkout.log.write_text(log)
    refused = checkout.release()
    said = "THIRD-PARTY.txt isn't that of this kit: tools/licenses write" if "fault" in log else "the gate did not pass"
    assert refused.status == 1 and refused.err.endswith(f"release: {said}\n")
    assert checkout.manifest.read_bytes() == before


# ---- what is in this repository


def test_the_release_of_this_repository() -> None:
    if not (TOP / RELEASE).exists():
        pytest.skip("there is no release for this machine")
    checked = run(sys.executable, TOP / "tools/manifest.py", "check", TOP / RELEASE)
    assert (checked.status in (0, 3), checked.err) == (True, "")


@needs("ssh-keygen")
def test_a_signature_as_the_pages_say(tmp_path: Path, whole: Copy) -> None:
    """CONTRIBUTING.md's command signs, SECURITY.md's verifies, and a changed MANIFEST isn't what was signed."""
    signs, verifies = (
        next(line.strip() for line in (TOP / page).read_text(encoding="utf-8").splitlines() if f"ssh-keygen -Y {word}" in line)
        for page, word in (("CONTRIBUTING.md", "sign"), ("SECURITY.md", "verify"))
    )
    subprocess.run(["ssh-keygen", "-q", "-t", "ed25519", "-N", "", "-f", tmp_path / "KEY"], check=True)
    (tmp_path / "SIGNERS").write_text(f"WHO {(tmp_path / 'KEY.pub').read_text()}")
    shutil.copy(whole.manifest, tmp_path / "MANIFEST")
    signs, verifies = (line.replace("release/x86_64-linux/", "") for line in (signs, verifies))
    assert "/" not in signs + verifies
    for line, status in ((signs, 0), (verifies, 0), ("echo >>MANIFEST", 0), (verifies, 255)):
        done = subprocess.run(["sh", "-c", line], cwd=tmp_path, capture_output=True, text=True, check=False)
        assert done.returncode == status, (line, done.stderr)
