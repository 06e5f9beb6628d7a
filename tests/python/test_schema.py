"""schema/scenario.schema.json accepts what the program accepts: all row files and examples, and every kind of step in them
with one key taken away, added, or given another value."""

from __future__ import annotations

import collections
import concurrent.futures
import json
from pathlib import Path
from typing import Any

import pytest

from changed_steps import changes, shape
from checking import TOP, Checks, run
from row_files import Located, scenario_files

jsonschema = pytest.importorskip("jsonschema")
SCHEMA = json.loads((TOP / "schema/scenario.schema.json").read_text())


def in_short(scenario: Any) -> Any:
    """The scenario with at most 20 steps of each kind, since the schema's reader takes milliseconds for each."""
    if not isinstance(scenario, dict) or not isinstance(scenario.get("steps"), list):
        return scenario
    counts: collections.Counter[str] = collections.Counter()
    kept = []
    for step in scenario["steps"]:
        counts[shape(step)] += 1
        if counts[shape(step)] <= 20:
            kept.append(step)
    return {**scenario, "steps": kept}


def texts(located: Located) -> dict[bytes, str]:
    """The texts, with what they are named by. A text that is no JSON is none: a schema has nothing to say of it."""
    found: dict[bytes, str] = {}
    shapes: dict[str, Any] = {}
    for file in scenario_files():
        data = (TOP / located(file)).read_bytes()
        try:
            scenario = json.loads(data)
        except (ValueError, RecursionError):
            continue
        found[data] = str(file)
        if isinstance(scenario, dict) and isinstance(scenario.get("steps"), list):
            for step in scenario["steps"]:
                shapes.setdefault(shape(step), step)
    changed = [{"steps": [step]} for kind in shapes.values() for step in changes(kind)]
    changed += list(changes({"steps": [], "kill_on_debugger_exit": 0}))
    return found | {json.dumps(scenario).encode(): json.dumps(scenario) for scenario in changed}


def test_the_schema_is_one() -> None:
    jsonschema.Draft202012Validator.check_schema(SCHEMA)


def test_what_the_program_accepts(program: Path, located: Located, checks: Checks) -> None:
    validator = jsonschema.Draft202012Validator(SCHEMA)
    cases = texts(located)
    with concurrent.futures.ThreadPoolExecutor(8) as pool:
        accepted = list(pool.map(lambda text: run(program, given=text).status == 0, cases))
    for (data, name), is_accepted in zip(cases.items(), accepted):
        is_same = validator.is_valid(in_short(json.loads(data))) == is_accepted
        checks.check(is_same, f'the program {"accepts" if is_accepted else "refuses"}, and the schema does not: {name[:150]}')
    checks.check(any(accepted), "the program accepts no scenario")
    print(f"{len(cases)} scenarios; the program accepts {sum(accepted)}")
