"""--explain agrees with the program: it changes no status, no fault and no line, and names the fault's step.

The texts are the scenarios, every kind of step in them with one key taken away, added, or given another value, and
texts that are cut short or have one wrong byte.
"""

from __future__ import annotations

import concurrent.futures
import json
import random
import re
from collections.abc import Iterator
from pathlib import Path
from typing import Any

from changed_steps import changes, shape
from checking import TOP, Checks, run
from row_files import Located, scenario_files

# what is said of a mistake of each kind
KINDS = {
    "BadShape": r" is missing| has no key |: expected ",
    "BadUser": r"\.user: .* is out of range",
    "BadName": r'" is no ',
    "BadNumber": r" is out of range; ",
    "TooManyRules": r" rules; ",
    "BadJson": r"  line \d+, column \d+: ",
}
MOST_CHANGED, CUT = 1500, 300


def trouble(program: Path, text: str) -> str:
    """What is wrong with what the program says of the scenario with --explain, or nothing."""
    plain, got = run(program, given=text), run(program, "--explain", given=text)
    if got[:2] != plain[:2]:
        return f"another status or other lines: {got}"
    if not got.err.startswith(plain.err):
        return f"another fault: {got.err}"
    told = got.err[len(plain.err) :]
    if plain.status == 0:
        return f"it tells {told}" if told else ""
    # a line for each of the first steps with a mistake; the first line is about the fault
    if not re.fullmatch(r"(  [^\n]+\n){1,10}", told):
        return f"it tells {told}"
    return trouble_with_first(plain.err, told.split("\n")[0])


def trouble_with_first(err: str, told: str) -> str:
    """The same of the first line that it tells."""
    step = re.search(r"at step (\d+)$", err.rstrip("\n"))
    number = int(step[1]) if step else None
    named = re.match(r"  steps\[(\d+)\]", told)
    if number != (int(named[1]) + 1 if named else (None if number is None else 0)):
        return f"{err.strip()}, and it tells {told}"
    found = re.search(r"refused: (\w+)", err)
    assert found is not None
    return "" if re.search(KINDS[found[1]], told) else f"{found[1]}, and it tells {told}"


def scenarios(located: Located) -> Iterator[tuple[dict[str, Any], list[Any]]]:
    """Those that are well formed, each with its steps, without the rows about explanations."""
    for file in scenario_files():
        try:
            scenario = json.loads((TOP / located(file)).read_bytes())
            steps = list(scenario["steps"])
        except (ValueError, KeyError, TypeError, RecursionError):
            continue
        if file.parent.name != "explain":
            yield scenario, steps


def texts(located: Located) -> list[str]:
    random.seed(1)
    shapes: dict[str, Any] = {}
    made = []
    for scenario, steps in scenarios(located):
        for step in steps:
            shapes.setdefault(shape(step), step)
        if len(steps) < 1000:
            made.append(json.dumps(scenario))
            made.append(json.dumps({**scenario, "steps": [*steps, {"user": 1001, "op": "fly"}]}))
    # every kind of step behind one that is well, changed once
    first = {"user": 1001, "op": "spawn"}
    changed = [{"steps": [first, step]} for kind in shapes.values() for step in changes(kind)]
    changed += list(changes({"steps": [], "kill_on_debugger_exit": 0}))
    made += [json.dumps(scenario) for scenario in random.sample(changed, min(MOST_CHANGED, len(changed)))]
    # texts cut short, and with a byte in another's place
    whole = json.dumps({"steps": list(shapes.values())[:8]}, indent=1)
    for _ in range(CUT):
        place = random.randrange(len(whole))
        byte = random.choice(["", *'{}[],:"\\/ 0tx-'])
        made.append(whole[:place] + byte + whole[place + random.choice([0, 1, len(whole)]) :])
    return made


def test_texts_with_and_without_the_option(program: Path, located: Located, checks: Checks) -> None:
    made = texts(located)
    with concurrent.futures.ThreadPoolExecutor(4) as pool:
        for text, told in zip(made, pool.map(lambda text: trouble(program, text), made)):
            checks.check(not told, f"{text[:300]}: {told}")
    assert checks.made > MOST_CHANGED + CUT
