"""A thread for each user changes no line: each scenario of tests/rows and examples with --threads, ten times if it has
several users, prints the plain run's lines, user by user; with --user too."""

from __future__ import annotations

from pathlib import Path

from checking import TOP, Checks, run
from row_files import for_each_scenario, scenario_files


def grouped(text: str) -> str:
    """The lines user by user, by rising user, each user's in their order."""
    return "".join(sorted(text.splitlines(keepends=True), key=lambda line: int(line.split(" ", 1)[0])))


@for_each_scenario(scenario_files())
def test_lines_with_threads(program: Path, file: Path, checks: Checks) -> None:
    plain = run(program, file, cwd=TOP)
    wanted = plain._replace(out=grouped(plain.out))
    users = sorted({int(line.split(" ", 1)[0]) for line in plain.out.splitlines()})
    for _ in range(10 if len(users) > 1 and plain.out.count("\n") < 100 else 1):
        checks.check(run(program, "--threads", file, cwd=TOP) == wanted, "the lines with --threads are others")
    for user in users:
        alone = "--user", str(user)
        is_same = run(program, "--threads", *alone, file, cwd=TOP) == run(program, *alone, file, cwd=TOP)
        checks.check(is_same, f"the lines of user {user} with --threads are others")
