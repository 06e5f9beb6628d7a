"""FreeBSD's numbers and structures for amd64, as others have copied them from its headers: Go's x/sys, its runtime and its
syscall package, and Rust's libc, from Debian's packages."""

from __future__ import annotations

import dataclasses
import functools
import re
from collections.abc import Iterable, Mapping
from pathlib import Path

_X_SYS = Path("/usr/share/gocode/src/golang.org/x/sys/unix")
_GO = Path("/usr/share/go-1.19/src")
_RUST = Path("/usr/share/cargo/registry")
_GO_FILES = [f"{kind}_freebsd_amd64.go" for kind in ("zerrors", "zsysnum", "ztypes")]


def are_there() -> bool:
    return _X_SYS.is_dir() and _GO.is_dir() and any(_RUST.glob("libc-*"))


# ---- numbers


def _numbers_of_go(files: Iterable[Path]) -> dict[str, int]:
    found: dict[str, int] = {}
    number = re.compile(r"^\s*_?([A-Z]\w+)\s*=\s*(?:Errno\(|Signal\(|syscall\.\w+\()?(-?0x[0-9a-f]+|-?\d+)\)?", re.M)
    for file in files:
        for name, value in number.findall(file.read_text()):
            # Go writes the calls' names in capitals
            found["SYS_" + name[4:].lower() if name.startswith("SYS_") else name] = int(value, 0)
    return found


def _numbers_of_rust() -> dict[str, int]:
    number = re.compile(r"pub const ([A-Z]\w+): [^=;]+ = (-?0x[0-9a-fA-F_]+|-?\d[\d_]*)(?: as [^;]+)?;")
    return {name: int(value.replace("_", ""), 0) for text in _sources_of_rust() for name, value in number.findall(text)}


@functools.cache
def numbers() -> Mapping[str, Mapping[str, int]]:
    """The numbers of each copy. Go's syscall is of an older FreeBSD: of it those that x/sys doesn't have."""
    new = _numbers_of_go(_X_SYS / file for file in _GO_FILES)
    old = _numbers_of_go(_GO / "syscall" / file for file in _GO_FILES)
    return {
        "x/sys": new,
        "runtime": _numbers_of_go([_GO / "runtime" / "defs_freebsd_amd64.go"]),
        "syscall": {name: old[name] for name in old.keys() - new.keys()},
        "libc": _numbers_of_rust(),
    }


# ---- structures


@functools.cache
def _sources_of_rust() -> tuple[str, ...]:
    """From the most general one to that of FreeBSD 13 on amd64."""
    [folder] = _RUST.glob("libc-*/src/unix")
    files = ("mod", *(f"bsd/{path}mod" for path in ("", "freebsdlike/", "freebsdlike/freebsd/")))
    return tuple((folder / f"{file}.rs").read_text() for file in (*files, *_OF_AMD64))


_OF_AMD64 = [f"bsd/freebsdlike/freebsd/{file}" for file in ("x86_64/mod", "freebsd13/mod", "freebsd13/b64", "freebsd13/x86_64")]
_ELSEWHERE = re.compile(
    r"""\#\[cfg\( (?!target_pointer_width\ =\ "64") (?:all\(|any\()? (?:target|freebsd11|not\(libc_union) .*? \)\]
    \s* (?:pub\ )? \w+ \s* : [^\n]* \n""",
    re.S | re.X,
)
"""Members that other systems have."""
_SIZES = {
    **dict.fromkeys(("u8", "i8", "c_char", "c_schar", "c_uchar", "bool"), 1),
    **dict.fromkeys(("u16", "i16", "c_short", "c_ushort"), 2),
    **dict.fromkeys(("u32", "i32", "c_int", "c_uint", "c_float"), 4),
    **dict.fromkeys(("u64", "i64", "c_long", "c_ulong", "c_longlong", "c_ulonglong", "usize", "isize", "c_double"), 8),
    **dict.fromkeys(("size_t", "ssize_t", "uintptr_t", "intptr_t", "ptrdiff_t", "intmax_t", "uintmax_t"), 8),
    **dict.fromkeys(("uint8_t", "int8_t"), 1),
    **dict.fromkeys(("uint16_t", "int16_t"), 2),
    **dict.fromkeys(("uint32_t", "int32_t"), 4),
    **dict.fromkeys(("uint64_t", "int64_t"), 8),
}
"""The bytes of Rust's types, which are their alignments too."""


@dataclasses.dataclass(frozen=True)
class Layout:
    """A structure's size, and the place and the size of each member, in bytes."""

    size: int
    members: Mapping[str, tuple[int, int]]


class UnknownTypeError(Exception):
    """A type that isn't declared in what is read here: a union, or an array with a length that is computed."""


class Structures:
    """The layouts, by C's rules, of the structures that Rust's libc declares."""

    def __init__(self) -> None:
        texts = _sources_of_rust()
        structure = re.compile(r"^( *)pub (struct|union) (\w+) \{\n(.*?)^\1\}", re.M | re.S)
        declared = [found for text in texts for found in structure.findall(text)]
        self._bodies = {name: body for _, _, name, body in declared}
        self._unions = {name for _, kind, name, _ in declared if kind == "union"}
        alias = re.compile(r"^ *pub type (\w+) = ([^;]+);", re.M)
        self._aliases = {name: kind for text in texts for name, kind in alias.findall(text)}
        other = re.compile(r"^ *pub const (\w+): [^=;]+ = (?:::)?(\w+)(?: as \w+)?;", re.M)
        self._numbers = {name: value for text in texts for name, value in other.findall(text)}

    def layouts(self) -> dict[str, Layout]:
        """Of all those that can be read."""
        found = {}
        for name in self._bodies:
            try:
                found[name] = self._layout(name)[0]
            except UnknownTypeError:
                continue
        return found

    def _layout(self, name: str) -> tuple[Layout, int]:
        end, most, members = 0, 1, {}
        body = re.sub(r"//.*", "", self._bodies[name])
        body = _ELSEWHERE.sub("", body)
        for public, member, kind in re.findall(r"^\s*(pub )?(\w+)\s*:\s*([^\n]+?),?\s*$", body, re.M):
            size, aligned = self._size(kind)
            place = 0 if name in self._unions else end + -end % aligned
            end, most = max(end, place + size), max(most, aligned)
            if public:
                members[member] = (place, size)
        return Layout(end + -end % most, members), most

    def _size(self, kind: str) -> tuple[int, int]:
        """The size and the alignment of a type."""
        kind = kind.removeprefix("::").strip()
        if kind.startswith(("*mut ", "*const ", "Option<", "extern ")):
            return 8, 8
        if array := re.fullmatch(r"\[(.+); ([^;\]]+)\]", kind):
            size, aligned = self._size(array[1])
            return self._number(array[2]) * size, aligned
        if kind in _SIZES:
            return _SIZES[kind], _SIZES[kind]
        if kind in self._bodies:
            layout, aligned = self._layout(kind)
            return layout.size, aligned
        if kind in self._aliases:
            return self._size(self._aliases[kind])
        raise UnknownTypeError(kind)

    def _number(self, text: str) -> int:
        if re.search(r"[*/]", text):
            raise UnknownTypeError(text)
        total = 0
        for sign, word in re.findall(r"([+-]?)\s*(?:::)?(\w+)(?: as usize)?", text):
            if not word.isdigit() and word not in self._numbers:
                raise UnknownTypeError(text)
            value = int(word) if word.isdigit() else self._number(self._numbers[word])
            total += -value if sign == "-" else value
        return total
