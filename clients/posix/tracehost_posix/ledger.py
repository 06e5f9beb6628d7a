"""A file that keeps the blocks of a search, a line each, so that a search that has ended in its midst goes on behind the last.

The first line is the identity: the program, the model, the broker and the options, by digests and by values. Blocks are in
the order of their seeds, and so the file has the same bytes however often the search has ended. Each has a checksum.
"""

from __future__ import annotations

import fcntl
import hashlib
import json
import os
import stat
from collections.abc import Mapping
from typing import Any

from .comparing import digest_of as digest_of
from .outcome import Result
from .report import say
from .setting import Refused
from .tally import Failures, Sums

_KIND = "tracehost-run ledger"
BLOCK = 256
"""The seeds of a block: from a multiple of this on. The plain schedule counts as seed 0."""


class Block:
    """Runs under consecutive seeds."""

    def __init__(self, first: int) -> None:
        self.first, self.last = first, first - 1
        self.sums = Sums()
        self.new: list[bool] = []
        """Of each run, whether no run before it was the same, except for the order of legs that commute."""
        self.different: list[int] = []
        """The numbers of those that are new."""
        self.digest = ""
        self._text = hashlib.sha256()

    def add(self, seed: int, result: Result, new: bool) -> None:
        self.last = seed
        self.sums.add_run(seed, result)
        self.new.append(new)
        if new:
            self.different.append(result.legs)
        said = [seed, result.legs, result.schedule, result.choices, result.questions, result.steps, result.why, result.digest]
        self._text.update(f"{json.dumps(said)}\n".encode())
        self.digest = self._text.hexdigest()[:16]

    def line(self) -> str:
        """The block as a line of text."""
        sums = self.sums
        fields = {
            "seeds": [self.first, self.last],
            "digest": self.digest,
            "sums": [sums.runs, sums.questions, sums.steps, sums.passed, sums.skipped, sums.examined, sums.most],
            "failures": {why: list(failures) for why, failures in sums.failures.items()},
            "new": "".join("01"[new] for new in self.new),
            "different": " ".join(f"{legs:x}" for legs in self.different),
        }
        if sums.remarks:
            fields["remarks"] = list(sums.remarks)
        text = json.dumps(fields)
        check = hashlib.sha256(text.encode()).hexdigest()[:16]
        return f'{text[:-1]}, "check": "{check}"}}'


def block_of(line: str, first: int) -> Block:
    """The block of a line, which begins with this seed; ValueError if the line isn't one."""
    block = Block(first)
    try:
        fields: Any = json.loads(line)
        start, block.last = fields["seeds"]
        block.digest = fields["digest"]
        block.new = [bool("01".index(new)) for new in fields["new"]]
        block.different = [int(legs, 16) for legs in fields["different"].split()]
        sums = block.sums
        sums.runs, sums.questions, sums.steps, sums.passed, sums.skipped, sums.examined, sums.most = fields["sums"]
        sums.remarks = dict.fromkeys(fields.get("remarks", []))
        sums.failures = {why: Failures(*failures) for why, failures in fields["failures"].items()}
    except (KeyError, TypeError, AttributeError, RecursionError) as why:
        raise ValueError(line) from why
    if start != first or block.line() != line or not len(block.new) == block.last - first + 1 == sums.runs:
        raise ValueError(line)
    return block


def _ends(seed: int, seeds: range) -> bool:
    """Whether the seed is the last one of its block."""
    return seed + 1 == seeds.stop or (seed + 1) % BLOCK == 0


class Ledger:
    """An open ledger, which no other process may have."""

    def __init__(self, path: str, identity: Mapping[str, object], seeds: range) -> None:
        self._path = path
        try:
            self._file = os.open(path, os.O_RDWR | os.O_CREAT | os.O_APPEND | os.O_CLOEXEC, 0o666)
        except OSError as why:
            raise Refused(f"--ledger: {path}: {why.strerror}") from why
        try:
            fcntl.flock(self._file, fcntl.LOCK_EX | fcntl.LOCK_NB)
        except BlockingIOError:
            raise self._refused("another tracehost-run has it") from None
        self.blocks: list[Block] = []
        """Those that it has, from the first seed on."""
        self._seeds, self._block = seeds, Block(seeds.start)
        self._head = json.dumps({_KIND: 2, **identity})
        kept = self._read(json.loads(self._head), seeds) if stat.S_ISREG(os.fstat(self._file).st_mode) else 0
        if kept == 0:
            self._write(self._head)

    def _read(self, identity: dict[str, object], seeds: range) -> int:
        """How many bytes of it are good: what comes behind them is cut off. A last line without an end is as a kill leaves it."""
        with open(self._path, "rb") as file:
            lines = file.read().split(b"\n")
        size, first = self._read_head(lines, identity), seeds.start
        for line in lines[1:-1]:
            try:
                block = block_of(line.decode(), first)
                if block.last not in seeds or not (_ends(block.last, seeds) or block.sums.failures):
                    raise ValueError(line)
            except ValueError:
                say(f"--ledger: {self._path}: line {len(self.blocks) + 2} is damaged: seeds are run again from {first} on")
                break
            self.blocks.append(block)
            first = block.last + 1
            size += len(line) + 1
        os.ftruncate(self._file, size)
        return size

    def _read_head(self, lines: list[bytes], identity: dict[str, object]) -> int:
        if len(lines) == 1 and self._head.encode().startswith(lines[0]):
            return 0  # empty, or its first line was cut
        try:
            found = json.loads(lines[0])
        except ValueError:
            found = None
        if not isinstance(found, dict) or _KIND not in found:
            raise self._refused("it is no ledger of tracehost-run")
        for name in [*identity, *found]:
            there, here = json.dumps(found.get(name)), json.dumps(identity.get(name))
            if there != here:
                raise self._refused(f"it is of another search: {name} is {there} there, and {here} here")
        return len(lines[0]) + 1

    def _refused(self, why: str) -> Refused:
        os.close(self._file)
        return Refused(f"--ledger: {self._path}: {why}")

    def add(self, seed: int, result: Result, new: bool, stops: bool) -> None:
        """The next run, and whether the search `stops` with it. A block is kept as soon as it ends."""
        if self._block.last < self._block.first:
            self._block = Block(seed)
        self._block.add(seed, result, new)
        if stops or _ends(seed, self._seeds):
            self.keep(self._block)
            self._block = Block(seed + 1)

    def keep(self, block: Block) -> None:
        """Keeps a block that has ended."""
        self._write(block.line())

    def _write(self, line: str) -> None:
        text = f"{line}\n".encode()
        try:
            while text:
                text = text[os.write(self._file, text) :]
        except OSError as why:
            raise OSError(f"--ledger: {self._path}: {why.strerror}") from why
