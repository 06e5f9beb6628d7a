"""The tables are those of format/: `tools/format check` finds no file that is older.

In a copy of the sources, each of its files is older once the tables that it has are changed, and none is after `tools/format
write`. A word of a table that isn't known ends the tool, which tells the file and the line, and writes nothing.
"""

from __future__ import annotations

import re
import shutil
import subprocess
import tomllib
from collections.abc import Iterator
from pathlib import Path
from typing import NamedTuple

import pytest

from checking import TOP, run

TABLES = ("format/scenario.toml", "format/refusals.toml", "format/notices.toml", "format/edges.toml")
COPIED = (
    "format tools crates schema include reference clients/c clients/posix/broker clients/posix/runtime clients/posix/tracehost_posix"
    " clients/python clients/rust/src clients/go viewer docs/FORMAT.md docs/VIEWER.md man"
)
CLIENTS = (
    "clients/c/names.c clients/c/tracehost_client.h clients/python/tracehost/names.py clients/rust/src/steps.rs include/tracehost.h"
    " clients/posix/broker/model.c clients/posix/runtime/trace.c clients/go/tables.go"
)
GO = "clients/go/tables.go"
REFERENCE = "reference/names.py"
NAMES = "clients/python/tracehost/names.py"
LIMITS = f"{REFERENCE} {NAMES} include/tracehost.h {GO}"
NOT_IN_C = (
    "clients/python/tracehost/conditions.py clients/rust/src/refusals.rs include/tracehost_explain.hpp viewer/src/conditions.mjs"
)
REFUSALS = f"clients/c/refusals.c {NOT_IN_C}"
MANUAL = "clients/python/tracehost/manual.py"
SCHEMA = "schema/scenario.schema.json"
EXPLAINED = "crates/*/src/tables.rt"
KEYS = "crates/*/src/members.rt crates/*/specs/Streams.antt"
KEY_SETS = "src/keys.rt specs/Keys.antt proofs/KeyLemmas.antt proofs/KeySets.antt"
VIEWER = "viewer/src/read.mjs viewer/reading.py"
DECODERS = "clients/rust/src/replies.rs reference/printing.py viewer/src/words.mjs"


class Change(NamedTuple):
    """A change of the tables, and the files that it makes older; crates are not named."""

    name: str
    old: str
    new: str
    files: str


CHANGES = [
    Change("another kind of a key", r'^kind = "integer"$', 'kind = "word"', f"{EXPLAINED} {KEYS}"),
    Change(
        "one more key",
        "^# A key has$",
        '[[key]]\nname = "spare"\nkind = "word"\n',
        " ".join([KEYS, *(f"crates/*/{file}" for file in KEY_SETS.split())]),
    ),
    Change(
        "another reply",
        '^answers = "`number`"',
        'answers = "`info`"',
        "clients/c/calls.c clients/python/tracehost/host.py clients/posix/runtime/trace.c"
        " clients/rust/src/steps.rs docs/FORMAT.md clients/go/tables.go",
    ),
    Change(
        "another name of a request",
        "PT_ATTACH",
        "PT_SEIZE",
        f"{EXPLAINED} {SCHEMA} {CLIENTS} {MANUAL} {REFERENCE} docs/FORMAT.md man/tracehost.1 clients/rust/src/refusals.rs"
        " include/tracehost_explain.hpp viewer/src/conditions.mjs docs/VIEWER.md",
    ),
    Change(
        "another name of an op",
        r'(?<=^name = ")list|(?<=^op = ")list|(?<=^usage = .")list',
        "pids",
        f"{EXPLAINED} {SCHEMA} clients/python/tracehost/names.py {VIEWER} docs/FORMAT.md {MANUAL} {REFUSALS}",
    ),
    Change(
        "another number of a request",
        r'(?<=^variant = "Attach"\nnumber = )10$',
        "12",
        f"{CLIENTS} {REFUSALS}",
    ),
    Change(
        "another name of a call",
        '"thr_exit"',
        '"thr_end"',
        f"{EXPLAINED} {SCHEMA} clients/c/names.c clients/python/tracehost/names.py {MANUAL} docs/FORMAT.md {REFERENCE}"
        " clients/posix/broker/model.c clients/python/tracehost/typed.py include/tracehost.h viewer/src/conditions.mjs clients/go/tables.go",
    ),
    Change(
        "another range",
        "^user = .*",
        "user = [1001, 1065]",
        f"{EXPLAINED} {SCHEMA} {REFERENCE} {NAMES} include/tracehost.h viewer/src/names.mjs viewer/reading.py {GO}",
    ),
    Change(
        "another limit", "^lwps = 1000", "lwps = 999", f"{REFERENCE} {NAMES} {REFUSALS} clients/c/rows.c include/tracehost.h {GO}"
    ),
    Change("the rules of a handler", "^rules = 16", "rules = 17", f"{LIMITS} clients/rust/src/sys.rs {SCHEMA}"),
    Change(
        "the first LWP",
        "^first_lwp = 100000",
        "first_lwp = 200000",
        f"{LIMITS} {REFUSALS} {SCHEMA} clients/c/rows.c clients/rust/src/sys.rs viewer/src/names.mjs viewer/reading.py",
    ),
    Change(
        "the name of a signal",
        '"SIGUSR1"',
        '"SIGUSR3"',
        f"{NAMES} {REFERENCE} clients/c/names.c clients/c/tracehost_client.h clients/posix/broker/notices.c"
        " clients/rust/src/numbers.rs include/tracehost_explain.hpp viewer/src/names.mjs viewer/reading.py clients/go/tables.go",
    ),
    Change(
        "the number of an error",
        "^number = 35",
        "number = 11",
        f"{REFERENCE} clients/c/tracehost_client.h clients/python/tracehost/replies.py clients/rust/src/numbers.rs"
        " include/tracehost_test.hpp clients/go/tables.go",
    ),
    Change(
        "FreeBSD's bit of a flag",
        "^number = 0x0800",
        "number = 0x1000",
        f"{NAMES} clients/c/tracehost_client.h clients/posix/broker/answers.c clients/rust/src/flags.rs {GO}",
    ),
    Change(
        "a request that resumes",
        r'(?<=^name = "PT_KILL"\nvariant = "Kill"\nnumber = 8\nkeys = ..target., ..data...\ndata = ")ignored',
        "signal",
        f"{SCHEMA} {REFERENCE} {REFUSALS} {MANUAL} clients/rust/src/steps.rs clients/posix/broker/trace_calls.c"
        " viewer/src/names.mjs viewer/reading.py clients/go/tables.go",
    ),
    Change(
        "a key that may be missing",
        '"caller", "which", "signal"',
        '"caller", "which", "[signal]"',
        f"{EXPLAINED} {SCHEMA} {VIEWER}",
    ),
    Change("another help", '^help = "Counts the LWPs', 'help = "Counts LWPs', f"{MANUAL} clients/rust/src/steps.rs {GO}"),
    Change("other words of a refusal", "^words = .*traced already", 'words = "{target} is traced', REFUSALS),
    Change("another condition", "^holds = .not is_live.caller..", 'holds = "is_live(caller)"', f"clients/c/rows.c {NOT_IN_C}"),
    Change(
        "the words of a reply",
        "^words = .{pid} {lwp}.",
        'words = "{lwp} {pid}"',
        f"{DECODERS} reference/steps.py clients/python/tracehost/replies.py clients/python/tracehost/typed.py include/tracehost.h"
        " viewer/src/read.mjs viewer/reading.py clients/go/tables.go",
    ),
    Change("a key of a word", "^words = .{lwp} {signal} flags=", 'words = "{lwp} {signal} pl_flags=', DECODERS),
    Change(
        "one more field of a reply",
        '^name = "stop_pid"\n((?:.*\n)*?)words = .{lwp} {event} ',
        'name = "depth"\nkind = "word"\nabout = "a depth"\nfreebsd = "pl_depth"\n\n[[field]]\nname = "stop_pid"\n\\1words = "{lwp} {event} {depth} ',
        f"{DECODERS} reference/steps.py clients/python/tracehost/library.py clients/python/tracehost/replies.py"
        " clients/python/tracehost/typed.py clients/c/calls.c"
        " clients/c/internal.h clients/c/library.c clients/c/tracehost_client.h clients/rust/src/sys.rs include/tracehost.h"
        " viewer/src/read.mjs viewer/reading.py clients/go/tables.go",
    ),
    Change(
        "a member of a row",
        '^name = "stepping"',
        'name = "single"',
        "clients/python/tracehost/library.py clients/python/tracehost/rows.py clients/rust/src/sys.rs include/tracehost.h"
        " viewer/src/forms.mjs viewer/reading.py clients/go/tables.go",
    ),
    Change(
        "another rule",
        "^holds = .owner != 0.",
        'holds = "owner != 1"',
        "clients/python/tracehost/notice_rules.py viewer/src/notice_rules.mjs",
    ),
    Change("what a rule means", "^means = .another user's number.", 'means = "a foreign number"', "docs/VIEWER.md"),
    Change("other words of an edge", "a process is made", "a new process", "clients/python/tracehost/goals.py"),
    Change("another effect", '^effect = "lists the user.s processes.*', 'effect = "lists them"', "docs/FORMAT.md"),
]


class Mistake(NamedTuple):
    """A misspelt word in the first line of the table that it fits, what is said of it, and of which line if it is another."""

    old: str
    new: str
    said: str
    line: str = ""


ANY = "[[reply]]"
SCENARIO_MISTAKES = {
    "a table": Mistake(r"^\[\[request\]\]$", "[[requets]]", "'requets' is none of act, action, "),
    "a table of one entry": Mistake(r"^\[\[option\]\]$", "[[opt]]", "'opt' is none of act, action, "),
    "a key of a range": Mistake("^signal = .1, 31.", "singal = [1, 31]", "'singal' is none of byte, pass, "),
    "a range": Mistake("^byte = .*", "byte = [0]", "[0] has to be the least and the most"),
    "the type of a range": Mistake("^byte = .*", 'byte = [0, "255"]', "[0, '255'] has to be an array, with each value a whole"),
    "a key of a key": Mistake('^kind = "user"$', 'knid = "user"', "'knid' is none of kind, name"),
    "the kind of a key": Mistake('^kind = "word"$', 'kind = "wrod"', "'wrod' has to be one of user, word, "),
    "the type of a name": Mistake('^name = "op"$', "name = 1", "1 has to be a text"),
    "a key of an op": Mistake('^keys_text = ""$', 'key_text = ""', "'key_text' is none of about, answers, "),
    "a key that an op has": Mistake('"caller", "request"', '"caller", "requets"', "'requets' is none of act, action, call, "),
    "a key that may be missing": Mistake(r'"\[options\]"', '"[option]"', "'option' is none of act, action, call, "),
    "a key of another table": Mistake('^usage = ."spawn".$', 'client = "SPAWN"', "'client' is none of about, answers, "),
    "a form of an op": Mistake('^usage = ."spawn".$', 'usage = ["swapn"]', "'swapn' has to begin with spawn"),
    "an answer": Mistake("^answers = .`new`", 'answers = "`nwe`', "'nwe' is none of caught, ended, "),
    "a reply": Mistake('"info", "lwps"', '"inof", "lwps"', "'inof' is none of caught, ended, "),
    "a name in a text": Mistake("`which` is a number, a process or -1 for any;", "`wich` is any;", "'wich' is none of "),
    "a constant in a text": Mistake("or clears it if data is 0", "PTRACE_FROK", "did you mean 'PTRACE_FORK'?"),
    "a constant in a help": Mistake("no turns until PT_RESUME", "no turns until PT_RESMUE", "did you mean 'PT_RESUME'?"),
    "a class of data": Mistake('^data = "ignored"', 'data = "nonsense"', "'nonsense' is none of count, ignored, signal, switch"),
    "the name of a class of data": Mistake(r"^\[data.switch\]", "[data.swich]", "'swich' is none of count, ignored, "),
    "a key of a class of data": Mistake("^key = .At most", 'kee = "At most', "'kee' is none of key"),
    "the type of a number": Mistake("^number = 10$", 'number = "10"', "'10' has to be a whole number"),
    "a number that is a truth": Mistake("^number = 10$", "number = true", "True has to be a whole number"),
    "a key that is missing": Mistake('^variant = "Attach"\\n', "", "variant is missing", "[[request]]"),
    "a name that is there": Mistake('^name = "PT_STEP"', 'name = "PT_CONTINUE"', "'PT_CONTINUE' is there already"),
    "a kind of code": Mistake('^code = "byte"', 'code = "bite"', "'bite' is none of byte, pass, "),
    "one event of two": Mistake('^both = ."PTRACE_SCE"', 'both = ["PTRACE_SEC"', "'PTRACE_SEC' is none of PTRACE_EXEC, "),
    "an event without a number": Mistake(
        "^number = 0x0020\\n", "", "PTRACE_VFORK has to have either a number or both", "[[event]]"
    ),
    "a key of a decision": Mistake(r'^keys = ."\[pass\]".', 'keys = ["[pas]"]', "'pas' is none of act, action, "),
    "the kind of a field": Mistake('^kind = "handler"', 'kind = "handel"', "'handel' has to be one of word, status, "),
    "a key of a field": Mistake('^freebsd = "pl_event"', 'fredbsd = "pl_event"', "'fredbsd' is none of about, doc, "),
    "a field in words": Mistake("^words = .{pid} {lwp}.", 'words = "{pid} {lpw}"', "'lpw' is none of child, code, "),
    "a field in a member": Mistake('"signal", "flags", "child"', '"signal", "flasg", "child"', "'flasg' is none of child, code, "),
    "the type of a reply's key": Mistake("^changes = true", 'changes = "yes"', "'yes' has to be true or false"),
    "the number of a reply": Mistake(
        '^name = "held"\\nnumber = 13', 'name = "held"\nnumber = 12', "have to be 0, 1 and so on", ANY
    ),
    "a table of rows": Mistake(r"^\[\[row.lwp\]\]", "[[row.lpw]]", "'lpw' is none of lwp, process"),
    "the kind of a member": Mistake('^kind = "flag"', 'kind = "flga"', "'flga' has to be one of word, number, "),
    "a choice of a member": Mistake('^when = "in_call"', 'when = "in_cal"', "'in_cal' is none of , begun, "),
    "choices": Mistake('^choices = ."runs", "in_call".*\\n', "", "a choice, and nothing else, has choices", "[[row.lwp]]"),
    "the syntax": Mistake("^number = 10$", "number = 10 +", "Expected newline or end of document"),
}
REFUSAL_MISTAKES = {
    "a table": Mistake(r"^\[groups\]", "[gruops]", "'gruops' is none of call, condition, groups, numbers"),
    "a condition of a group": Mistake('^caller = ."caller_gone"', 'caller = ["caller_goen"', "did you mean 'caller_gone'?"),
    "an op": Mistake('^op = "list"', 'op = "lits"', "'lits' is none of handle, install, "),
    "a key of a call": Mistake('^order = ."limits".', 'oder = ["limits"]', "'oder' is none of op, order, request, text"),
    "a condition of a call": Mistake('^order = ."limits".', 'order = ["limit"]', "did you mean 'limits'?"),
    "a request": Mistake('^request = "PT_ATTACH"', 'request = "PT_ATACH"', "'PT_ATACH' is none of , PT_ATTACH, "),
    "an argument of a call": Mistake(
        "^text = .list.. by .caller.", 'text = "list() by {calle}', "'calle' is none of act, action, "
    ),
    "a key of a condition": Mistake("^possible = .lwp <=", 'posible = "lwp <=', "'posible' is none of answer, holds, "),
    "an errno": Mistake('^answer = "EPERM"', 'answer = "EPREM"', "'EPREM' is none of EAGAIN, EBUSY, "),
    "an argument in words": Mistake("^words = .{lwp} is no LWP", 'words = "{lpw} is no LWP', "did you mean 'lwp'?"),
    "an argument": Mistake("^possible = .lwp <= ", 'possible = "lpw <= ', "did you mean 'lwp'?"),
    "a number": Mistake("lwp <= LAST_PROCESS", "lwp <= LAST_PROCESSS", "did you mean 'LAST_PROCESS'?"),
    "a request in a condition": Mistake("== PT_GETLWPLIST", "== PT_GETLWPLITS", "did you mean 'PT_GETLWPLIST'?"),
    "a set": Mistake("in SIGNAL_REQUESTS", "in SINGAL_REQUESTS", "'SINGAL_REQUESTS' is none of DATA_REQUESTS, SIGNAL_REQUESTS"),
    "a function of rows": Mistake("not is_live.caller.", "not is_life(caller)", "'is_life' is none of call_of, has_child, "),
    "its arguments": Mistake("traces.caller, ", "traces(", "traces takes 2 arguments"),
    "rows in what is possible": Mistake("^possible = .act == ACT_LEAVE.$", 'possible = "lwps() == 1"', "'lwps' is none of "),
    "an operation": Mistake("lwp <= LAST_PROCESS", "lwp + 1 <= LAST_PROCESS", "has a BinOp, which no language is written for"),
    "an expression": Mistake("lwp <= LAST_PROCESS", "lwp <= ", "is no expression: "),
    "a condition that nothing asks for": Mistake(
        '"no_other_process", ', "", "no call asks for 'no_other_process'", 'name = "no_other_process"'
    ),
}
NOTICE_MISTAKES = {
    "a kind": Mistake('^kind = "wrong"', 'kind = "worng"', "'worng' is none of open, wrong"),
    "what a rule is asked of": Mistake('^of = "go_on"', 'of = "go_no"', "'go_no' is none of debugger, go_on, "),
    "a step": Mistake('^at = "since"', 'at = "sinse"', "'sinse' is none of "),
    "a fact": Mistake("^holds = .owner", 'holds = "ownr', "did you mean 'owner'?"),
    "a fact in words": Mistake("{pid} drops its", "{pdi} drops its", "'pdi' is none of has_trap, is_detach, passed_signal, pid, "),
    "a text in an expression": Mistake("^holds = .owner", 'holds = "request', "'request' is none of "),
    "a key of a rule": Mistake("^means = .another user", 'menas = "another user', "'menas' is none of at, holds, "),
}
EDGE_MISTAKES = {
    "a table": Mistake(r"^\[lwp\]", "[lpw]", "'lpw' is none of lwp, process, stop"),
    "words": Mistake('^"suspended" = .*', '"suspended" = 1', "1 has to be a text", "[lwp]"),
}
MISTAKES = [
    (table, *made)
    for table, mistakes in zip(TABLES, (SCENARIO_MISTAKES, REFUSAL_MISTAKES, NOTICE_MISTAKES, EDGE_MISTAKES))
    for made in mistakes.items()
]


@pytest.fixture(scope="module")
def sources(tmp_path_factory: pytest.TempPathFactory) -> Path:
    """A copy of what tools/format reads and writes."""
    folder = tmp_path_factory.mktemp("copy")
    listed = subprocess.run(
        ["git", "ls-files", "-z", *COPIED.split()], cwd=TOP, stdout=subprocess.PIPE, text=True, check=True
    ).stdout
    for name in filter(None, listed.split("\0")):
        (folder / name).parent.mkdir(parents=True, exist_ok=True)
        shutil.copy2(TOP / name, folder / name)
    return folder


@pytest.fixture
def copy(sources: Path) -> Iterator[Path]:
    """The copy, whose tables a test may change."""
    yield sources
    for table in TABLES:
        shutil.copy2(TOP / table, sources / table)


def change(copy: Path, old: str, new: str) -> None:
    changed = 0
    for table in TABLES:
        text, count = re.subn(old, new, (copy / table).read_text(), flags=re.MULTILINE)
        (copy / table).write_text(text)
        changed += count
    assert changed


def defined(file: str, definition: str) -> dict[str, str]:
    """The rows of a definition of the crates: what it gives for each value."""
    text = (TOP / "crates" / file).read_text(encoding="utf-8")
    return dict(re.findall(rf'^{definition} (?:\w+\.)?(\w+) = (?:codes ")?(\w+)"?$', text, re.MULTILINE))


@pytest.mark.parametrize(
    ("table", "file", "kind"),
    [
        ("op", "step_types/specs/Names.antt", "op"),
        ("request", "step_types/specs/Names.antt", "request"),
        ("act", "step_types/specs/Names.antt", "act"),
        ("call", "event_masks/specs/Calls.antt", "call"),
        ("decision", "stop_handlers/specs/Decisions.antt", "decision"),
        ("action", "signals/specs/Dispositions.antt", "disposition"),
    ],
)
def test_the_crates_have_the_same_names_and_numbers(table: str, file: str, kind: str) -> None:
    with (TOP / "format/scenario.toml").open("rb") as tables:
        entries = tomllib.load(tables)[table]
    names = defined(file, f"{kind}_name")
    assert sorted(names.values()) == sorted(entry["name"] for entry in entries)
    numbers = defined(file, f"{kind}_number")
    for entry in entries:
        number = entry.get("number", entry.get("library"))
        if numbers and number is not None:
            assert [numbers[value] for value, name in names.items() if name == entry["name"]] == [str(number)]


def test_no_file_is_older_than_the_tables() -> None:
    ran = run(TOP / "tools/format", "check")
    assert ran.status == 0, ran.out


@pytest.mark.parametrize("made", CHANGES, ids=[change.name for change in CHANGES])
def test_a_change_makes_files_older(copy: Path, made: Change) -> None:
    change(copy, made.old, made.new)
    ran = run(copy / "tools/format", "check")
    older = re.findall(r"^format: (.*) is older than", ran.out, re.MULTILINE)
    assert sorted(re.sub(r"^crates/\w+/", "crates/*/", file) for file in older) == sorted(made.files.split())


def test_nothing_is_older_once_it_is_written(copy: Path) -> None:
    change(copy, "PT_ATTACH", "PT_SEIZE")
    assert run(copy / "tools/format", "write").status == 0
    assert run(copy / "tools/format", "check").status == 0


@pytest.mark.parametrize(("table", "name", "made"), MISTAKES, ids=[f"{Path(table).stem}: {name}" for table, name, _ in MISTAKES])
def test_a_word_that_is_not_known_is_told_with_its_line(copy: Path, table: str, name: str, made: Mistake) -> None:
    text = (copy / table).read_text()
    place = re.search(made.old, text, re.MULTILINE)
    assert place
    text = text[: place.start()] + made.new + text[place.end() :]
    (copy / table).write_text(text)
    files = {file: file.read_bytes() for file in copy.rglob("*") if file.is_file()}
    ran = run(copy / "tools/format", "write")
    assert (ran.status, ran.out) == (1, "")
    told = re.fullmatch(rf"format: {table}:(\d+): (.*)\n", ran.err)
    assert told and made.said in told[2], ran.err
    line = int(told[1])
    assert text.splitlines()[line - 1] == made.line if made.line else line == text.count("\n", 0, place.start()) + 1
    assert {file: file.read_bytes() for file in files} == files
