"""What bash and zsh complete with the files in completions/, on a terminal too."""

from __future__ import annotations

import os
import pty
import re
import select
import subprocess
import time
from pathlib import Path

import pytest

from checking import TOP, needs

READY = "shell is ready"
SETUP = {
    "bash": (
        ["bash", "--norc", "--noprofile", "-i"],
        "bind 'set enable-bracketed-paste off'; for file in completions/*.bash; do source $file; done",
    ),
    "zsh": (["zsh", "-f", "-i"], "fpath=(completions $fpath); autoload -Uz compinit; compinit -u -D"),
}
# what is typed, and what the terminal then shows
CASES = [
    ("--th\t", r"--threads"),
    ("--user 106\t\t", r"1060\s+1061\s+1062\s+1063\s+1064"),
    ("--user=106\t\t", r"1060\s+1061\s+1062\s+1063\s+1064"),
    ("--user=1064\t --th\t", r"--user=1064[ \x08]+--threads"),
    ("--explain=al\t", r"--explain=always"),
    ("--explain=\t\t", r"always\b[^$]*auto\b[^$]*never|auto\b[^$]*always\b[^$]*never"),
    ("--json=tr\t", r"--json=trace"),
    ("--json=\t\t", r"replies\b[^$]*trace"),
    ("--json schema/sc\t", r"--json schema/scenario\.schema\.json"),
    ("--explain schema/sc\t", r"--explain schema/scenario\.schema\.json"),
    ("--lines --kill-on-debugger-exit=\t\t", r"0\b[^$]*\b1"),
    ("--expect=schema/sc\t", r"--expect=schema/scenario\.schema\.json"),
    ("--expect schema/sc\t", r"--expect schema/scenario\.schema\.json"),
    ("schema/sc\t", r"tracehost schema/scenario\.schema\.json"),
    ("--lines --kill\t", r"--lines --kill-on-debugger-exit"),
]
# what is typed, and what the terminal doesn't show then
NOT_OFFERED = [("--lines --u\t", "--user"), ("--user 1001 --l\t", "--lines")]
MOST_SECONDS = 60.0
# what colours the text or moves the cursor, except a step back
CONTROLS = re.compile(r"\x1b(\[[0-9;?]*[a-zA-Z]|[=>])|[\x07\r]")


class Shell:
    """A shell on a terminal of its own."""

    def __init__(self, name: str) -> None:
        words, setup = SETUP[name]
        self.terminal, theirs = pty.openpty()
        env = {**os.environ, "TERM": "xterm", "PS1": "", "COLUMNS": "200"}
        self.process = subprocess.Popen(words, cwd=TOP, stdin=theirs, stdout=theirs, stderr=theirs, env=env, start_new_session=True)
        os.close(theirs)
        self.type(f"PS1='' PROMPT=''; {setup}; stty cols 200; echo ${{NONE}}{READY}\n")
        self.shows(rf"\n{READY}", MOST_SECONDS)

    def type(self, text: str) -> None:
        os.write(self.terminal, text.encode())

    def shows(self, wanted: str, seconds: float) -> str:
        """What the terminal shows until it is what is wanted, or the time is over."""
        written = shown = ""
        end = time.monotonic() + seconds
        while time.monotonic() < end and not re.search(wanted, shown):
            if select.select([self.terminal], [], [], 0.1)[0]:
                written += os.read(self.terminal, 65536).decode(errors="replace")
                shown = CONTROLS.sub("", written)
        return shown

    def end(self) -> None:
        self.process.kill()
        self.process.wait()
        os.close(self.terminal)


def shown_after(name: str, typed: str, wanted: str, seconds: float, command: str = "tracehost") -> str:
    shell = Shell(name)
    try:
        shell.type(f"{command} {typed}")
        return shell.shows(wanted, seconds)
    finally:
        shell.end()


# the words before the cursor, the last to be completed, and what bash offers. `=` breaks words in a shell that is
# used, and not in every one
OFFERED: list[tuple[list[str], str]] = [
    (["--th"], "--threads"),
    (["--expect", "schema/sc"], "schema/scenario.schema.json"),
    (["--user", "106"], "1060 1061 1062 1063 1064"),
    (["--kill-on-debugger-exit", ""], "0 1"),
    (["schema/sc"], "schema/scenario.schema.json"),
    (["--user", "=", "106"], "1060 1061 1062 1063 1064"),
    (["--user=106"], "--user=1060 --user=1061 --user=1062 --user=1063 --user=1064"),
    (["--kill-on-debugger-exit", "="], "0 1"),
    (["--expect", "=", "schema/sc"], "schema/scenario.schema.json"),
    (["--explain", "="], "auto always never"),
    (["--explain=al"], "--explain=always"),
    (["--json", "="], "replies trace trace+rows"),
    (["--json=t"], "--json=trace --json=trace+rows"),
    (["--explain", "schema/sc"], "schema/scenario.schema.json"),
    (["--lines", "--"], "--lines --kill-on-debugger-exit --json --explain --help --version"),
    (["--user", "1001", "--"], "--user --threads --expect --bless --expect-list --json --explain --help --version"),
]


@pytest.mark.parametrize(("words", "offered"), OFFERED, ids=[" ".join(words) for words, _ in OFFERED])
def test_bash_offers(words: list[str], offered: str) -> None:
    code = 'source completions/tracehost.bash; COMP_WORDS=("$@"); COMP_CWORD=$(($# - 1)); _tracehost; echo "${COMPREPLY[*]}"'
    command = ["bash", "--norc", "-c", code, "-", "tracehost", *words]
    assert subprocess.run(command, cwd=TOP, stdout=subprocess.PIPE, text=True, check=True).stdout == offered + "\n"


each_shell = pytest.mark.parametrize("shell", [pytest.param(name, marks=needs(name)) for name in SETUP])


@each_shell
@pytest.mark.parametrize(("typed", "wanted"), CASES, ids=[typed.strip("\t") for typed, _ in CASES])
def test_the_terminal_shows(shell: str, typed: str, wanted: str) -> None:
    assert re.search(wanted, shown_after(shell, typed, wanted, MOST_SECONDS))


@each_shell
@pytest.mark.parametrize(("typed", "unwanted"), NOT_OFFERED, ids=[typed.strip("\t") for typed, _ in NOT_OFFERED])
def test_the_terminal_does_not_show(shell: str, typed: str, unwanted: str) -> None:
    shown = shown_after(shell, typed, unwanted, 1.0)
    assert unwanted not in shown.replace("tracehost " + typed.strip("\t"), "", 1)


@needs("zsh")
@pytest.mark.parametrize("file", ["_tracehost", "_tracehost-commands"])
def test_zsh_reads_the_completions(file: str) -> None:
    subprocess.run(["zsh", "-f", "-n", f"completions/{file}"], cwd=TOP, check=True)


# ---- the commands whose options come from their own --help

COMMANDS = {
    "tracehost-run": "clients/posix/tracehost-run", "tracehost-cc": "clients/posix/tracehost-cc",
    "tracehost-corpus": "clients/posix/tracehost-corpus", "tracehost-view": "viewer/make", "tracehost-perfetto": "viewer/perfetto",
}  # fmt: skip
# the words before the cursor, and what bash offers: the options of each manual page
OFFERED_BY = [
    ("tracehost-view -", "--at --failed --help --message --note --output --title --version -h -o -t"),
    ("tracehost-perfetto -", "--help --output --version -h -o"),
    ("tracehost-run --s", "--schedules --seed --seeds --sleeps --strategy --strict --switches"),
    ("tracehost-corpus -", "--bless --help --jobs --json --junit-xml --model --patience --version --workers -h"),
    ("tracehost-run --e", ""),  # --expect is another command's
    ("tracehost-run --strategy ", "random pct"),
    ("tracehost-run --kill-on-debugger-exit = ", "0 1"),
    ("tracehost-run --record schema/sc", "schema/scenario.schema.json"),
    ("tracehost-cc --fr", "--freebsd"),
    ("tracehost-cc -sh", "-shared"),
    ("tracehost-cc schema/sc", "schema/scenario.schema.json"),
]
TYPED = [
    ("tracehost-run", "--sch\t", r"--schedules"),
    ("tracehost-run", "--strategy \t\t", r"pct\s+random"),
    ("tracehost-run", "--strategy=\t\t", r"pct\s+random"),
    ("tracehost-view", "--ti\t", r"--title"),
    ("tracehost-perfetto", "-\t\t", r"--output"),
    ("tracehost-cc", "--free\t", r"--freebsd"),
    ("tracehost-cc", "schema/sc\t", r"schema/scenario\.schema\.json"),
]


@pytest.fixture
def commands(tmp_path: Path) -> Path:
    """A folder with each command by the name that it is installed by."""
    for name, path in COMMANDS.items():
        (tmp_path / name).symlink_to(TOP / path)
    return tmp_path


@pytest.mark.parametrize(("typed", "offered"), OFFERED_BY)
def test_bash_offers_the_options_of_help(commands: Path, typed: str, offered: str) -> None:
    code = """source completions/tracehost-commands.bash; COMP_WORDS=("$@"); COMP_CWORD=$(($# - 1))
        _tracehost_command "$1"; echo "${COMPREPLY[*]}" """
    env = {**os.environ, "PATH": f"{commands}:{os.environ['PATH']}"}
    ran = subprocess.run(
        ["bash", "--norc", "-c", code, "-", *typed.split(" ")], cwd=TOP, env=env, stdout=subprocess.PIPE, check=True
    )
    assert ran.stdout.decode() == offered + "\n"


@each_shell
@pytest.mark.parametrize(("command", "typed", "wanted"), TYPED, ids=[f"{name} {typed}".strip("\t") for name, typed, _ in TYPED])
def test_the_terminal_shows_the_options_of_help(
    commands: Path, monkeypatch: pytest.MonkeyPatch, shell: str, command: str, typed: str, wanted: str
) -> None:
    monkeypatch.setenv("PATH", f"{commands}:{os.environ['PATH']}")
    assert re.search(wanted, shown_after(shell, typed, wanted, MOST_SECONDS, command))
