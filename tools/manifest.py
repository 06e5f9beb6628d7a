"""MANIFEST of a release: an in-toto statement with SLSA's provenance, which tools can sign and read. A resource is a line, so
that tools/program finds its digest by sed(1).

    tools/manifest.py write FOLDER    writes it: standard input has a line for each of `version`, `commit`, `kit`, `kit-archive`
                                      (the kit's digest), `sources`, `library-sources`, `needs`, `library-needs` and `gate`
                                      (the line that it ends with); `commit`, `kit-archive` and `gate` may be missing. A line
                                      with a file's digest refuses another file
    tools/manifest.py print FOLDER    prints such lines of the MANIFEST that is there
    tools/manifest.py check FOLDER    says what of it isn't so, and of the files; the status is 1 if something isn't, and 3 if
                                      all is so, but it has no line of a gate
"""

from __future__ import annotations

import base64
import hashlib
import json
import re
import sys
from pathlib import Path
from typing import Any

from crates import write_whole

Object = dict[str, Any]

HOME = "https://fetsabur.example/tracehost"
STATEMENT = "https://in-toto.io/Statement/v1"
PROVENANCE = "https://slsa.dev/provenance/v1"
NEEDS = {"tracehost": "needs", "libtracehost.a": "library-needs", "libtracehost.so": "library-needs"}
"""Its files, each with the fact that says what it needs of a machine."""
DEPENDENCIES = {"commit": "gitCommit", "sources": "sha256", "library-sources": "sha256"}
"""What the files are made of, besides the kit, each with the algorithm of its digest."""
PASSED = re.compile(r"[1-9]\d* passed, 0 failed")
FORMS = {
    "version": r"\d+(\.\d+)+", "commit": "[0-9a-f]{40}", "kit": r"\S.*", "kit-archive": "[0-9a-f]{64}", "sources": "[0-9a-f]{64}",
    "library-sources": "[0-9a-f]{64}", "needs": ".+", "library-needs": ".+", "gate": PASSED.pattern,
}  # fmt: skip
MAY_BE_MISSING = {"commit", "kit-archive", "gate"}


class Wrong(Exception):
    """Why there is no good MANIFEST."""


def digest(path: Path) -> str:
    return hashlib.sha256(path.read_bytes()).hexdigest()


def kit_in(facts: dict[str, str]) -> Object:
    name, _, version = facts["kit"].split()[0].rpartition("-")
    uri = f"pkg:generic/{name}@{version}" if name else f"pkg:generic/{version}"
    archive = {"digest": {"sha256": facts["kit-archive"]}} if "kit-archive" in facts else {}
    return {"name": "kit", "uri": uri, **archive, "annotations": {"id": facts["kit"]}}


def gate_in(facts: dict[str, str]) -> list[Object]:
    """The line is the content of what the gate printed at last, which in-toto wants in base64."""
    if "gate" not in facts:
        return []
    content = base64.b64encode(facts["gate"].encode()).decode()
    return [{"name": "gate", "mediaType": "text/plain", "content": content, "annotations": {"line": facts["gate"]}}]


def statement(facts: dict[str, str], digests: dict[str, str]) -> Object:
    made_of = [{"name": name, "digest": {kind: facts[name]}} for name, kind in DEPENDENCIES.items() if name in facts]
    return {
        "_type": STATEMENT,
        "subject": [
            {"name": name, "digest": {"sha256": digests[name]}, "annotations": {"needs": facts[needs]}} for name, needs in NEEDS.items()
        ],
        "predicateType": PROVENANCE,
        "predicate": {
            "buildDefinition": {
                "buildType": f"{HOME}/release/v1",
                "externalParameters": {"version": facts["version"]},
                "resolvedDependencies": [*made_of, kit_in(facts)],
            },
            "runDetails": {"builder": {"id": f"{HOME}/tools/release"}, "byproducts": gate_in(facts)},
        },
    }  # fmt: skip


def text_of(value: Any, indent: str = "") -> str:
    """As JSON, a resource and whatever has no resource in a line."""
    if isinstance(value, list) and value:
        return "[\n" + ",\n".join(f"{indent}  {json.dumps(one)}" for one in value) + f"\n{indent}]"
    if isinstance(value, dict) and any(isinstance(one, (dict, list)) for one in value.values()):
        members = (f"{indent}  {json.dumps(key)}: {text_of(one, indent + '  ')}" for key, one in value.items())
        return "{\n" + ",\n".join(members) + f"\n{indent}}}"
    return json.dumps(value)


def facts_in(said: Object) -> tuple[dict[str, str], dict[str, str]]:
    """The facts of a statement, and the digests of its files."""
    build, run = said["predicate"]["buildDefinition"], said["predicate"]["runDetails"]
    made_of = {one["name"]: one for one in build["resolvedDependencies"]}
    needs = {one["name"]: one["annotations"]["needs"] for one in said["subject"]}
    facts = {"version": build["externalParameters"]["version"]}
    facts |= {name: made_of[name]["digest"][kind] for name, kind in DEPENDENCIES.items() if name in made_of}
    facts["kit"] = made_of["kit"]["annotations"]["id"]
    facts |= {"kit-archive": one for one in made_of["kit"].get("digest", {}).values()}
    facts |= {"needs": needs["tracehost"], "library-needs": needs["libtracehost.so"]}
    facts |= {one["name"]: one["annotations"]["line"] for one in run["byproducts"]}
    return facts, {one["name"]: one["digest"]["sha256"] for one in said["subject"]}


def read(folder: Path) -> tuple[dict[str, str], dict[str, str]]:
    """The same of the MANIFEST in the folder."""
    path = folder / "MANIFEST"
    try:
        facts, digests = facts_in(json.loads(path.read_text(encoding="utf-8")))
    except (OSError, ValueError, KeyError, TypeError, AttributeError, RecursionError) as why:
        raise Wrong(f"{path} is no statement of tools/release: {type(why).__name__}: {why}") from why
    require(facts)
    if set(digests) != set(NEEDS):
        raise Wrong(f"MANIFEST: its files are {', '.join(digests)}")
    return facts, digests


def require(facts: dict[str, str]) -> None:
    """Wrong if one is missing, or has another form."""
    for name, form in FORMS.items():
        if name not in facts and name not in MAY_BE_MISSING:
            raise Wrong(f"MANIFEST: {name} is missing")
        if name in facts and not (isinstance(facts[name], str) and re.fullmatch(form, facts[name])):
            raise Wrong(f"MANIFEST: {name} is {facts[name]!r}")
    if unknown := set(facts) - set(FORMS):
        raise Wrong(f"MANIFEST: unknown: {', '.join(sorted(unknown))}")


def faults(folder: Path, digests: dict[str, str]) -> list[str]:
    """The files that haven't these digests."""
    there = {name: digest(folder / name) if (folder / name).exists() else "missing" for name in digests}
    return [f"{folder / name}: {there[name]}, and {digests[name]} in MANIFEST" for name in digests if there[name] != digests[name]]


def write(folder: Path, lines: list[str]) -> None:
    facts = dict(line.split(" ", 1) for line in lines if line)
    if found := faults(folder, {name: facts.pop(name) for name in NEEDS if name in facts}):
        raise Wrong("\n".join(found))
    require(facts)
    text = text_of(statement(facts, {name: digest(folder / name) for name in NEEDS}))
    write_whole(folder / "MANIFEST", f"{text}\n".encode())


def check(folder: Path) -> int:
    """It has the text that its facts make, and so nothing else."""
    facts, digests = read(folder)
    if (folder / "MANIFEST").read_text(encoding="utf-8") != f"{text_of(statement(facts, digests))}\n":
        raise Wrong(f"{folder / 'MANIFEST'} isn't in the form that tools/release writes")
    if found := faults(folder, digests):
        raise Wrong("\n".join(found))
    return 0 if "gate" in facts else 3


def main() -> int:
    if len(sys.argv) != 3 or sys.argv[1] not in ("write", "print", "check"):
        print(__doc__, file=sys.stderr)
        return 2
    folder = Path(sys.argv[2])
    try:
        if sys.argv[1] == "check":
            return check(folder)
        if sys.argv[1] == "write":
            write(folder, sys.stdin.read().splitlines())
        else:
            facts, digests = read(folder)
            print(*(f"{name} {fact}" for name, fact in {**facts, **digests}.items()), sep="\n")
    except (Wrong, OSError, ValueError) as why:
        print(why, file=sys.stderr)
        return 1
    return 0


if __name__ == "__main__":
    sys.exit(main())
