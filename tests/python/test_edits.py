"""Each must-fail edit can be applied to the present sources, and each crate's further edits were tried on its present contracts.

Then what makes the record of these stale, on a copy of the crates; and tools/edits, in a repository of two small crates, with a
stand-in for the command rt that proves nothing.
"""

from __future__ import annotations

import os
import shutil
import subprocess
import sys
from pathlib import Path

import pytest

from checking import TOP, load_script

sys.path.insert(0, str(TOP / "tools"))
import crates  # noqa: E402

edits = load_script(TOP / "tools/edits")
EDITS = sorted(path.relative_to(TOP / "crates") for path in TOP.glob("crates/*/must-fail*/*.edit"))
WITH_FURTHER = sorted({path.parts[0] for path in EDITS if path.parts[1] == "must-fail-more"})
LIB, SPEC, FURTHER = "crates/one/src/lib.rt", "crates/one/specs/Next.antt", "crates/one/must-fail-more/none.edit"
REFUSED = "refused, as it must be: note: src/lib.rt:5:1"

# the stand-in says of each edit what the comment in its last line says
FILES = {
    "HANDLES": "Handles allowed: none.\n",
    "crates.txt": "low:\none: low\n",
    "tests/edits_tried.tsv": "",
    "crates/low/src/lib.rt": "pub fn least() -> u32 {\n    0\n}\n",
    "crates/low/specs/Least.antt": "least = 0\n",
    SPEC: "-- what comes after a number\nuse words.{plus}\n\nnext n = n + 1\n",
    "crates/one/proofs/Lemma.antt": "lemma = refl\n",
    LIB: """\
ghost use Rattle.one.specs.Next.{next};

/// Returns the next number.
pub fn next(number: u32) -> Option<u32>
    ensures { result ≡ next number }
{
    let one = 1;
    number.checked_add(one)
}

#[tactic(auto)]
fn is_zero(number: u32) -> bool {
    number == 0
}
""",
    "bin/rt": """\
#!/usr/bin/env python3
import sys
from pathlib import Path

assert sys.argv[1:] == ['ci', 'one'] and Path('HANDLES').exists(), sys.argv
kept = False
for edit in sorted(Path('crates').glob('*/must-fail/*.edit')):
    said = edit.read_text().rpartition('// ')[2].strip()
    kept |= said.startswith('NOT')
    print(f'rt: must-fail {edit.parts[1]}/{edit.name}: {said}')
sys.exit(kept)
""",
}


class Repository:
    """A repository with the crates `low` and `one`, which uses it."""

    def __init__(self, top: Path) -> None:
        self.top = top
        for path, text in FILES.items():
            self.write(path, text)
        self.edit("must-fail/two", "one = 1", "one = 2", REFUSED)
        self.edit("must-fail-more/none", "(one)", "(0)", REFUSED)
        (top / "bin/rt").chmod(0o755)
        self.git("init", "-q")
        self.commit()

    def write(self, path: str, text: str) -> None:
        (self.top / path).parent.mkdir(parents=True, exist_ok=True)
        (self.top / path).write_text(text, encoding="utf-8")

    def replace(self, path: str, old: str, new: str) -> None:
        text = (self.top / path).read_text(encoding="utf-8")
        assert old in text
        self.write(path, text.replace(old, new))

    def edit(self, name: str, old: str, new: str, said: str) -> None:
        self.write(f"crates/one/{name}.edit", f"file: src/lib.rt\nold: {old}\nnew: {new} // {said}\n")

    def git(self, *words: str) -> str:
        who = ["-c", "user.name=a", "-c", "user.email=a@b"]
        return subprocess.run(["git", *who, *words], cwd=self.top, check=True, capture_output=True, text=True).stdout.strip()

    def commit(self) -> None:
        self.git("add", "-A")
        self.git("commit", "-qm", "all")

    def table(self) -> list[list[str]]:
        lines = (self.top / "tests/edits_tried.tsv").read_text().splitlines()
        return [line.split("\t") for line in lines if not line.startswith("#")]

    def complaints(self) -> list[str]:
        crate = self.top / "crates/one"
        return [why for edit in sorted(crate.glob("must-fail*/*.edit")) if (why := edits.complaint(crate, edit))]


@pytest.mark.parametrize("edit", EDITS, ids=str)
def test_an_edit_can_be_applied(edit: Path) -> None:
    path = TOP / "crates" / edit
    assert edits.complaint(path.parents[1], path) == ""


@pytest.fixture(scope="module")
def stale() -> list[str]:
    """The crates whose further edits weren't tried on the present contracts."""
    found: list[str] = edits.stale()
    return found


@pytest.mark.parametrize("crate", WITH_FURTHER)
def test_the_further_edits_were_tried_on_the_present_contracts(stale: list[str], crate: str) -> None:
    assert crate not in stale, f"commit, and run tools/edits {crate}"


# ---- what makes the record stale


@pytest.fixture(scope="module")
def copied_crates(tmp_path_factory: pytest.TempPathFactory) -> Path:
    top = tmp_path_factory.mktemp("copied")
    shutil.copytree(TOP / "crates", top / "crates", ignore=shutil.ignore_patterns("out", "must-fail"))
    shutil.copy(TOP / "crates.txt", top)
    return top


@pytest.fixture
def copied(copied_crates: Path, monkeypatch: pytest.MonkeyPatch) -> Path:
    """A copy of the crates whose further edits were all tried."""
    for module in (crates, edits):
        monkeypatch.setattr(module, "TOP", copied_crates)
    monkeypatch.setattr(edits, "TABLE", copied_crates / "edits_tried.tsv")
    edits.TABLE.write_text("".join(f"{edits.state_of(crate)}commit\n" for crate in WITH_FURTHER), encoding="utf-8")
    assert edits.stale() == []
    return copied_crates


def stale_after(top: Path, changed: str, old: str, new: str) -> list[str]:
    """What is stale while a text of a file is another."""
    path = top / "crates" / changed
    text = path.read_text(encoding="utf-8")
    assert old in text
    path.write_text(text.replace(old, new, 1), encoding="utf-8")
    found: list[str] = edits.stale()
    path.write_text(text, encoding="utf-8")
    return found


@pytest.mark.parametrize("changed, old, new", [
    ("proc_table/src/lib.rt", "    pub continued: bool,\n", ""),
    ("proc_table/src/lib.rt", "Zombie { status: u32 }", "Zombie { status: u16 }"),
    ("proc_table/src/lib.rt", "    Run,\n", ""),
    ("wait4/specs/Collect.antt", "{traces, is_live, ", "{is_live as traces, traces as is_live, "),
    ("wait4/src/collecting.rt", "Processes.{process_of, traces}", "Processes.{process_of as traces, traces as process_of}"),
    ("wait4/src/collecting.rt", "use proc_table::{ProcData, State, ", "use other_table::{ProcData, State, "),
    ("pid_blocks/src/lib.rt", "pub const USERS: u32 = 64;", "pub const USERS: u32 = 65;"),
    ("step_types/src/step.rt", "pub type PlainStep = Step<Policy>;", "pub type PlainStep = Step<()>;"),
    ("stop_handlers/src/lib.rt", "pub enum Decision {", "pub enum Decision {\n    Ignore,"),
], ids=[
    "a field", "the type of a field", "a variant", "predicates exchanged", "functions exchanged", "an import", "a constant",
    "another name of a type", "one variant more",
])  # fmt: skip
def test_a_change_below_makes_the_record_stale(copied: Path, changed: str, old: str, new: str) -> None:
    crate = changed.partition("/")[0]
    found = stale_after(copied, changed, old, new)
    assert found == [name for name in crates.listed() if name in WITH_FURTHER and crate in crates.below(name)]
    assert "wait4" in found or crate == "stop_handlers"


@pytest.mark.parametrize("changed, old, new, stale_crates", [
    ("wait4/src/collecting.rt", "State::Job { seen, .. } => !seen && ", "State::Job { seen, .. } => seen && ", ["wait4"]),
    ("wait4/src/collecting.rt", "    p.tracer.is_none() && p.parent", "    p.parent", []),
    ("wait4/src/collecting.rt", "    match p.state {\n", "    // by its state\n\n    match p.state {\n", []),
    ("wait4/src/collecting.rt", "/// Tests whether the process is a child", "/// Tests whether it is a child", []),
    ("wait4/src/collecting.rt", "using(crate::proofs::LemmaSets::of_number)", "using(crate::proofs::LemmaSets::of_report)", []),
    ("wait4/specs/Collect.antt", "\n\n", "\n\n\n-- so it is\n", []),
    ("wait4/proofs/LemmaSets.antt", "\n\n", "\n\nlemma = refl\n\n", []),
], ids=[
    "a function that an edit changes", "another body", "a comment and a blank line", "a comment on a function", "a tactic",
    "a comment in specs", "a proof",
])  # fmt: skip
def test_bodies_count_if_an_edit_changes_them(copied: Path, changed: str, old: str, new: str, stale_crates: list[str]) -> None:
    assert stale_after(copied, changed, old, new) == stale_crates


def test_all_but_bodies_counts() -> None:
    """In the whole repository, against a reading by lines: what is indented by less than a body is in the digest."""
    for path in TOP.glob("crates/*/src/**/*.rt"):
        lines = [line.rstrip() for line in path.read_text(encoding="utf-8").splitlines()]
        outer = [line for line in lines if line and not line.startswith((" ", "//", "#", "}", "{"))]
        counted = set(edits.stated("\n".join(lines)))
        assert [line for line in outer if line.partition(" // ")[0] not in counted] == [], path


# ---- the tool in a small repository


@pytest.fixture
def tree(tmp_path: Path, monkeypatch: pytest.MonkeyPatch) -> Repository:
    monkeypatch.setenv("PATH", f'{tmp_path}/bin:{os.environ["PATH"]}')
    for module in (crates, edits):
        monkeypatch.setattr(module, "TOP", tmp_path)
    monkeypatch.setattr(edits, "TABLE", tmp_path / "tests/edits_tried.tsv")
    return Repository(tmp_path)


@pytest.fixture
def tried(tree: Repository) -> Repository:
    """One whose further edit was tried on the present sources."""
    assert edits.stale() == ["one"]
    assert edits.main(["one"]) == 0
    assert (edits.stale(), tree.complaints()) == ([], [])
    return tree


def test_a_run_is_noted_with_its_commit(tried: Repository) -> None:
    ((name, count, digest, commit),) = tried.table()
    assert (name, count, len(digest)) == ("one", "1", 16)
    assert tried.git("rev-parse", "HEAD").startswith(commit)


@pytest.mark.parametrize("names", [["one"], []], ids=["by name", "what is stale"])
def test_only_further_edits_are_tried(tree: Repository, capfd: pytest.CaptureFixture[str], names: list[str]) -> None:
    assert edits.main(names) == 0
    assert capfd.readouterr().out.splitlines() == [f"rt: must-fail one/none.edit: {REFUSED}", "1 passed, 0 failed"]


def test_nothing_is_left_to_try(tried: Repository, capfd: pytest.CaptureFixture[str]) -> None:
    (tried.top / "bin/rt").unlink()
    capfd.readouterr()
    assert edits.main([]) == 0
    assert capfd.readouterr().out == "edits: all were tried on the present contracts\n"


@pytest.mark.parametrize("said", [
    "NOT REFUSED: the crate is still proved",
    "BAD EDIT: it did not reach the prover",
    "NOT TRIED: its check was killed",
    "refused, as it must be (only because a proof file names what the edit took away",
])  # fmt: skip
def test_an_edit_that_is_not_refused_is_not_noted(tree: Repository, capfd: pytest.CaptureFixture[str], said: str) -> None:
    tree.edit("must-fail-more/none", "(one)", "(0)", said)
    tree.edit("must-fail-more/other", "(one)", "(3)", REFUSED)
    tree.commit()
    assert edits.main(["one"]) == 1
    assert capfd.readouterr().out.splitlines()[-1] == "1 passed, 1 failed"
    assert tree.table() == []


@pytest.mark.parametrize("name, why", [("one", "the sources are not those of a commit"), ("low", "low: no further edits")])
def test_what_cannot_be_tried(tree: Repository, capfd: pytest.CaptureFixture[str], name: str, why: str) -> None:
    tree.replace("crates/low/specs/Least.antt", "0", "1")
    with pytest.raises(SystemExit, match=f"^edits: {why}$"):
        edits.main([name])
    assert (capfd.readouterr().out, tree.table()) == ("", [])


def test_other_bodies_comments_and_proofs_may_change(tried: Repository) -> None:
    tried.replace(LIB, "number == 0", "0 == number")
    tried.replace(LIB, "auto", "none")
    tried.replace(LIB, "the next", "the following")
    tried.replace(LIB, "    let one = 1;\n", "    let one = 1; // the step\n\n")
    tried.replace("crates/low/src/lib.rt", "    0", "    1")
    tried.replace("crates/one/proofs/Lemma.antt", "refl", "sym refl")
    tried.replace(SPEC, "comes after", "follows")
    tried.replace(SPEC, "\n\n", "\n\n\n")
    assert (edits.stale(), tried.complaints()) == ([], [])


@pytest.mark.parametrize("path, old, new", [
    (LIB, "result ≡ next number", "IfSome result (λ n. n ≡ next number)"),
    (LIB, "number: u32", "number: u64"),
    (LIB, "Next.{next}", "Next.{following as next}"),
    (LIB, "checked_add", "saturating_add"),
    (LIB, "#[tactic(auto)]\n", "const ZERO: u32 = 0;\n\n"),
    (SPEC, "1", "2"),
    (SPEC, "use words.{plus}", "use words.{add as plus}"),
    (FURTHER, "(0)", "(2)"),
    ("crates/low/specs/Least.antt", "0", "1"),
    ("crates/low/src/lib.rt", "-> u32", "-> u64"),
])  # fmt: skip
def test_another_statement_makes_the_record_stale(tried: Repository, path: str, old: str, new: str) -> None:
    tried.replace(path, old, new)
    assert (edits.stale(), tried.complaints()) == (["one"], [])


def test_a_function_without_an_end_is_told(tried: Repository) -> None:
    tried.replace(LIB, "    number == 0\n}\n", "")
    with pytest.raises(LookupError, match="is_zero"):
        edits.stale()


@pytest.mark.parametrize("path, old, new, why", [
    (LIB, "let one", "let step", "its text is in src/lib.rt 0 times: one = 1"),
    (FURTHER, "old: (one)", "old: ", f"its text is in src/lib.rt {len(FILES[LIB]) + 1} times: "),
    ("crates/one/must-fail/two.edit", f"one = 2 // {REFUSED}", "one = 1", "it changes nothing"),
    ("crates/one/must-fail/two.edit", "file: src/lib", "file: src/main", "there is no file src/main.rt"),
])  # fmt: skip
def test_an_edit_that_cannot_be_applied_fails(tried: Repository, path: str, old: str, new: str, why: str) -> None:
    tried.replace(path, old, new)
    assert tried.complaints() == [why]
