"""The table of format/edges.toml: rows of the machine that `tracehost-coverage` counts, for the client in Python."""

from __future__ import annotations

import json
import pathlib

from .strict import Source

Edges = dict[str, str]
TABLES = ("process", "lwp", "stop")


def read(path: pathlib.Path) -> Edges:
    """The words of each row, by the name of its table and its own."""
    source = Source(path, dict.fromkeys(TABLES, "*"))
    return {f"{table} {name}": words for table in TABLES for name, words in source.table(table, str).items()}


def python_edges(edges: Edges) -> str:
    rows = "".join(f"    {json.dumps(name)}: {json.dumps(words)},\n" for name, words in edges.items())
    return f"_EDGES: Mapping[str, str] = {{\n{rows}}}\n"
