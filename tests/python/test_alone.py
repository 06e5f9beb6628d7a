"""Each user's session is the user's own: each scenario of tests/rows and examples in full, and with only one user's steps,
gives the same lines of that user, with their numbers."""

from __future__ import annotations

import json
from pathlib import Path

from checking import TOP, Checks, run
from row_files import accepted_files, for_each_scenario


def lines_of(program: Path, scenario: object, *options: str) -> str:
    ran = run(program, *options, given=json.dumps(scenario))
    assert (ran.status, ran.err) == (0, "")
    return ran.out


@for_each_scenario(accepted_files())
def test_lines_of_each_user(program: Path, file: Path, checks: Checks) -> None:
    scenario = json.loads((TOP / file).read_bytes())
    users = sorted({step["user"] for step in scenario["steps"]})
    for user in users:
        alone = {**scenario, "steps": [step for step in scenario["steps"] if step["user"] == user]}
        is_same = lines_of(program, scenario, "--user", str(user)) == lines_of(program, alone)
        checks.check(is_same, f"the lines of user {user} differ from those of its steps alone")
    checks.check(lines_of(program, {**scenario, "steps": []}) == "", "a user without steps has no line")
