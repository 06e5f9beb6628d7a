"""What has to be read to believe the headline: the definitions and types that some contracts cite, directly or through others.

A *definition* is a paragraph of a file of a crate's `specs/`: a declaration with the comment before it. A *type* is an
enum, a struct or a trait of a crate's `src/`, with its constants and with what contracts see of it. Names are looked up by
spelling, so what is found may be too much. It is not too little: a name that is imported from this repository and leads to
nothing is an error. Names of the kit's own libraries are not followed.
"""

from __future__ import annotations

import re
import shutil
import subprocess
import textwrap
from collections.abc import Iterable, Iterator
from functools import cache
from pathlib import Path
from typing import NamedTuple

from crates import TOP, Unavailable, listed

CRATES = TOP / "crates"
# the parts of the headline, each with the files and functions whose contracts state it, or with some clauses of these; a part
# adds to those before it
HEADLINE = {
    "Isolation alone": "visibility/src/laws.rt two_lists:seen,equal one_step:steps,seen,equal other_step:differ,view",
    "A list of all users' steps on a host": "visibility/src/runs.rt run_list requests/src/host.rt new",
    "Two hosts, and numbers of other users": "visibility/src/laws.rt one_step other_step foreign_number two_lists foreign_numbers",
    "Scripts in threads": "sessions/src/run.rt run_sessions sessions/src/laws.rt every_schedule",
    "Only the machine": "visibility/src/machine.rt *",
    "Texts: what the program reads and prints": """scenario_text/src/reading.rt read scenario_runs/src/running.rt run_with
        scenario/src/threading.rt run_threads_with open_sessions/src/serving.rt serve
        open_sessions/src/laws.rt sessions_are_private""",
    "The C library: calls on a handle": """open_sessions/src/session.rt new open_sessions/src/laws.rt calls_are_private
        tracehost_c/src/lib.rt tracehost_open tracehost_line tracehost_spawn tracehost_list tracehost_sigaction tracehost_kill
        tracehost_wait4 tracehost_install tracehost_handle tracehost_ptrace tracehost_turn tracehost_view
        tracehost_c/src/laws.rt handle_calls_are_private""",
    "The search: states, and what it calls": """open_sessions/src/laws.rt states_tell same_states_answer_alike
        tracehost_c/src/laws.rt all_calls_are_private
        tracehost_c/src/lib.rt tracehost_state tracehost_copy tracehost_copy_over tracehost_numbers tracehost_last_step
        tracehost_explain tracehost_close""",
    "Other calls of the C library": "tracehost_c/src/lib.rt tracehost_rows tracehost_last_line tracehost_copy_user",
}

IMPORT = re.compile(r"^ *(?:pub |ghost )?use (Rattle\..*?)(?: as (\w+))?;?$", re.MULTILINE)
GROUP = re.compile(r"([^\s{},]*)\{([^{}]*)\}")
OTHER = re.compile(r"^ *((pub )?(use|mod) .*|--.*)$", re.MULTILINE)
DECLARED = re.compile(r"\s*(?:abbrev |unfoldable )?(?:pub )?(record |data )?(\S+)")
CONSTRUCTOR = re.compile(r"^  (?:pub )?(\S+) :", re.MULTILINE)
FUNCTION = re.compile(r'^( *)pub (?:extern "C" )?fn (\w+)\b(.*?)^\1\{\}?$', re.DOTALL | re.MULTILINE)
CLAUSE = re.compile(r"\n +(?:requires|ensures)(?: (\w+))? \{")
CITED = re.compile(r"(?<![\w'])(?<!\w\.)([A-Za-z_][\w'-]*)")
TYPE = re.compile(r"^((?:(?:///|#\[).*\n)*)(?:pub(?:\([^)]*\))? )?(?:enum|struct|trait) (\w+)", re.MULTILINE)
# the constants of a type, the value by which contracts see it, and the blocks that may have more constants or a trait's ghosts
FURTHER = r"^bitflag_items! \{{\n    impl {0}:|^impl.* Model for {0}\b"
PARTLY = r"^impl(?: {0} \{{|.*\b{0}\b.* for )"
STATED = re.compile(r"^(?:    ///.*\n)*    (?:pub(?:\([^)]*\))? )?(?:ghost(?! use)|const) [\s\S]*?;$", re.MULTILINE)
ITEM = re.compile(r"^\}|^pub struct [^\n{]*;$", re.MULTILINE)
# what leads from a type to its parts, in the path of a name
PARTS = ("TheVariants", "TheInside", "TheConstants")


class Piece(NamedTuple):
    """A definition, a type, or a part of one."""

    path: Path
    name: str
    text: str

    def cited(self) -> list[str]:
        return CITED.findall(re.sub(r"(--|//)[^\n]*", "", self.text))


class Source(NamedTuple):
    """A file: its definitions or contracts by their names, and the modules from which it has other names."""

    pieces: dict[str, Piece]
    names: dict[str, str]


def imported(text: str) -> Iterator[tuple[str, str]]:
    """The names that a text imports, with their modules: `a.{b.{c, d}, e}` brings c and d of a.b, and e of a."""
    for path, alias in IMPORT.findall(text):
        while "{" in path:
            path = GROUP.sub(lambda group: ", ".join(group[1] + name.strip() for name in group[2].split(",")), path)
        yield from [(alias, path)] if alias else ((one.rpartition(".")[2], one.rpartition(".")[0]) for one in path.split(", "))


@cache
def read_specs(path: Path) -> Source:
    text = path.read_text(encoding="utf-8")
    pieces: dict[str, Piece] = {}
    for paragraph in text.split("\n\n"):
        if declared := DECLARED.match(OTHER.sub("", paragraph).strip("\n")):
            constructors = CONSTRUCTOR.findall(paragraph) if declared[1] == "data " else []
            pieces.update(dict.fromkeys((declared[2], *constructors), Piece(path, declared[2], paragraph.strip("\n"))))
    return Source(pieces, dict(imported(text)))


@cache
def read_contracts(path: Path) -> Source:
    """The public functions of a file of src/, each with its header: the types of its parameters, and its clauses."""
    text = path.read_text(encoding="utf-8")
    return Source({it[2]: Piece(path, it[2], it[3]) for it in FUNCTION.finditer(text)}, dict(imported(text)))


@cache
def read_types(crate: str) -> dict[str, list[Piece]]:
    """The types of a crate, each with its constants and its value."""
    found: dict[str, list[Piece]] = {}
    for path in sorted((CRATES / crate / "src").rglob("*.rt")):
        text = path.read_text(encoding="utf-8")

        def item(at: int) -> str:
            """What begins there: to its closing brace, or to the semicolon of its one line."""
            end = ITEM.search(text, at)
            return text[at : end.end() if end else len(text)]

        for head in TYPE.finditer(text):
            made = [item(it.start()) for it in (head, *re.finditer(FURTHER.format(head[2]), text, re.MULTILINE))]
            blocks = (item(it.start()) for it in re.finditer(PARTLY.format(head[2]), text, re.MULTILINE))
            made += filter(None, ("\n".join(STATED.findall(block)) for block in blocks))
            found.setdefault(head[2], []).extend(Piece(path, head[2], part) for part in made)
    return found


class Walk:
    """All that is cited from some contracts on, in the order in which a reader meets it."""

    def __init__(self) -> None:
        self.definitions: dict[Piece, None] = {}
        self.types: dict[Piece, None] = {}

    def follow(self, piece: Piece, source: Source) -> None:
        crate = piece.path.relative_to(CRATES).parts[0]
        for name in piece.cited():
            if name in source.names:
                self.cite(source.names[name], name)
            elif piece.path.suffix == ".rt":
                self.add_type(crate, name)
            elif name in source.pieces:
                self.add(source.pieces[name], source)

    def add(self, piece: Piece, source: Source) -> None:
        if piece not in self.definitions:
            self.definitions[piece] = None
            self.follow(piece, source)

    def cite(self, module: str, name: str) -> None:
        _, crate, *below = module.split(".")
        if not (CRATES / crate).is_dir() or below[1] == "contracts":
            return  # the kit's, or a function
        if below[1] == "declared":
            types = [word for word in below[2:] if word[0].isupper() and word not in PARTS]
            if not self.add_type(crate, (types or [name])[-1]):
                raise LookupError(f"{module}.{name} leads to no type of {crate}")
            return
        source = read_specs(CRATES / crate / "specs" / f'{"/".join(below[1:])}.antt')
        if name in source.pieces:
            self.add(source.pieces[name], source)
        elif name in source.names:
            self.cite(source.names[name], name)
        else:
            raise LookupError(f"{module}.{name} leads to no definition of {crate}")

    def add_type(self, crate: str, name: str) -> bool:
        """Adds a type, and those of its value if it has one, or of its fields. Returns whether the crate, or one below, has it."""
        crates = listed()
        places = (read_types(place).get(name) for place in (crate, *crates[crate].uses) if place in crates)
        if (pieces := next(filter(None, places), None)) is None:
            return False
        if pieces[0] not in self.types:
            self.types.update(dict.fromkeys(pieces))
            for piece in [it for it in pieces if " Model for " in it.text] or pieces[:1]:
                value = re.findall(r"ghost Value = \{(.*)\};", piece.text)
                self.follow(piece._replace(text=" ".join(value) or piece.text), Source({}, dict(imported(piece.text))))
        return True


def only(piece: Piece, names: list[str]) -> Piece:
    """A contract with no other clauses than these."""
    clauses = list(CLAUSE.finditer(piece.text))
    ends = [*(clause.start() for clause in clauses[1:]), len(piece.text)]
    texts = {clause[1]: piece.text[clause.start() : end] for clause, end in zip(clauses, ends)}
    if unknown := [name for name in names if name not in texts]:
        raise LookupError(f"{piece.name} has no clause {', '.join(unknown)}")
    return piece._replace(text=piece.text[: clauses[0].start()] + "".join(map(texts.__getitem__, names)))


def contracts_of(names: str) -> Iterator[tuple[Piece, Source]]:
    """The contracts of such functions, each after its file; * is all functions of a file, and `f:a,b` two clauses of one."""
    for word in names.split():
        name, colon, clauses = word.partition(":")
        if word.endswith(".rt"):
            source = read_contracts(CRATES / word)
        elif name not in ("*", *source.pieces):
            raise LookupError(f"{names}: there is no function {name}")
        elif colon:
            yield only(source.pieces[name], clauses.split(",")), source
        else:
            yield from ((piece, source) for one, piece in source.pieces.items() if name in ("*", one))


Listed = dict[Path, list[Piece]]


def by_file(pieces: Iterable[Piece]) -> Listed:
    found: Listed = {}
    for piece in pieces:
        found.setdefault(piece.path, []).append(piece)
    return found


def lines(pieces: Iterable[Piece]) -> int:
    return sum(len(piece.text.splitlines()) for piece in pieces)


def parts() -> Iterator[tuple[str, str, Listed, Listed]]:
    """Each part and its contracts, with the definitions and the types that it adds, by their files."""
    walk = Walk()
    for title, headline in HEADLINE.items():
        before = {*walk.definitions, *walk.types}
        for piece, source in contracts_of(headline):
            walk.follow(piece, source)
        definitions, types = (by_file(it for it in found if it not in before) for found in (walk.definitions, walk.types))
        yield title, " ".join(headline.split()), definitions, types


def totals() -> str:
    """How much that is, part by part."""
    text = "| part | definitions: lines in files | types: lines in files |\n|---|---|---|\n"
    for title, _, *found in parts():
        sizes = (f"{sum(map(lines, files.values())):,} in {len(files)}" if files else "-" for files in found)
        text += f"| {title} | {' | '.join(sizes)} |\n"
    return text


def definitions() -> str:
    """The names of all that, by files, with counts of lines."""
    text = ""
    for title, contracts, defined, types in parts():
        text += f"==== {title}\nlines  of {contracts}\n"
        for path, pieces in {**defined, **types}.items():
            text += f"{lines(pieces):5}  {path.relative_to(TOP)}: {', '.join(dict.fromkeys(it.name for it in pieces))}\n"
        text += f"{sum(map(lines, [*defined.values(), *types.values()])):5}\n"
    return text


def text() -> str:
    """The text of all that, to read from top to bottom."""
    shown = []
    for title, _, defined, types in parts():
        shown.append(f"==== {title}")
        for path, pieces in {**defined, **types}.items():
            shown += [f"---- {path.relative_to(TOP)}", *(piece.text for piece in pieces)]
    return "\n\n".join(shown) + "\n"


def imports() -> str:
    """What the released program and library import, by the tables in them."""
    if shutil.which("nm") is None:
        raise Unavailable("nm is missing, of Debian's package binutils")
    text = ""
    for what, file in (("program", "tracehost"), ("library", "libtracehost.so")):
        command: list[str | Path] = ["nm", "--dynamic", "--undefined-only", "--format=posix", TOP / "release/x86_64-linux" / file]
        printed = subprocess.run(command, check=True, stdout=subprocess.PIPE, text=True).stdout
        names = re.findall(r"^(\w+)\S* U\b", printed, re.MULTILINE)  # those that are weak needn't be there
        text += textwrap.fill(f"The {what}: {', '.join(f'`{name}`' for name in sorted(names))}.", 120) + "\n\n"
    return text.removesuffix("\n")


def of_the_kit() -> str:
    """The kit's crates that crates.txt names, with the crates that use each."""
    crates = listed()
    text = "| the kit's crate | used by |\n|---|---|\n"
    for use in sorted({use for crate in crates.values() for use in crate.uses} - set(crates)):
        text += f"| `{use}` | {', '.join(f'`{name}`' for name, crate in crates.items() if use in crate.uses)} |\n"
    return text
