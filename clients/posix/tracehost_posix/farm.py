"""Work on other machines, over the workers of Dask distributed, which is imported only here: shares of it, answered in order.

A worker runs its own `tracehost-run` on some blocks of seeds, whose ledger is the answer: so the blocks are those of one
machine, byte for byte, once they are counted in their order. The program is sent once to each worker. A worker with another
model or broker is refused.
"""

from __future__ import annotations

import contextlib
import importlib
import ipaddress
import json
import logging
import site
import sys
from collections import deque
from collections.abc import Callable, Iterator, Sequence
from itertools import islice
from typing import Any, NamedTuple, NoReturn, TypeVar
from urllib.parse import urlsplit

from .ledger import BLOCK, Block, block_of
from .report import say
from .setting import Broken, Refused

_Share = TypeVar("_Share")
SHARE = 4 * BLOCK
"""Seeds that a worker is given at a time: at least a second of work."""
AHEAD = 1024
"""So many shares are given out at a time: two for each of 400 cores, and more."""
FIRST = 64
"""So many before the first is answered, since with a failure in it the others are in vain."""


class Order(NamedTuple):
    """What workers run, besides the seeds."""

    program: str
    arguments: Sequence[str]
    options: Sequence[str]
    identity: dict[str, object]
    """Of a ledger."""
    keeps_going: bool


class Said(NamedTuple):
    """What a worker answers."""

    worker: str
    status: int
    errors: str
    ledger: str


def run_share(program: bytes, name: str, words: Sequence[str], arguments: Sequence[str]) -> tuple[str, int, str, str]:
    """Runs on the worker, which needn't have this module: all that it needs is imported here."""
    import hashlib
    import os
    import shutil
    import socket
    import subprocess
    import tempfile

    command = shutil.which("tracehost-run")
    if command is None:
        return socket.gethostname(), -1, "there is no tracehost-run on the path", ""
    with tempfile.TemporaryDirectory(prefix="tracehost-") as room:
        folder = os.path.join(room, hashlib.sha256(program).hexdigest()[:16])
        os.mkdir(folder)
        path, ledger = os.path.join(folder, name), os.path.join(room, "ledger")
        with open(path, "wb") as file:
            file.write(program)
        os.chmod(path, 0o700)
        done = subprocess.run([command, *words, "--ledger", ledger, path, *arguments], capture_output=True, text=True)
        text = ""
        if os.path.exists(ledger):
            with open(ledger) as kept:
                text = kept.read()
    return socket.gethostname(), done.returncode, done.stderr[-500:], text


def run_text(module: str, name: str, *arguments: object) -> object:
    """Calls a function of a module on the worker, which needn't have it. Its classes can't be sent by their values."""
    names: dict[str, Any] = {"__name__": "sent"}
    exec(module, names)
    result: object = names[name](*arguments)
    return result


def _silence(*names: str) -> None:
    """Prints nothing of what these libraries log: a worker's death, say, after which another has its share."""
    for name in names:
        logger = logging.getLogger(name)
        logger.handlers, logger.propagate = [logging.NullHandler()], False


def open_to_others(address: str) -> bool:
    """Whether a scheduler asks for no certificate, and can be reached from elsewhere than this machine."""
    scheme, _, place = address.rpartition("://")
    host = urlsplit(f"//{place}").hostname or ""
    try:
        is_local = ipaddress.ip_address(host).is_loopback
    except ValueError:
        is_local = host == "localhost"
    return scheme not in ("tls", "wss") and not is_local


class Farm:
    """The workers of a scheduler."""

    def __init__(self, address: str) -> None:
        site.main()  # tracehost-run starts without it: installed modules are found now
        try:  # by their names, since mypy would read all of them
            pickle, distributed = (importlib.import_module(name) for name in ("cloudpickle", "distributed"))
        except ImportError as why:
            raise Refused(f"--workers: {why.name} isn't here: Debian's python3-distributed has it") from why
        pickle.register_pickle_by_value(sys.modules[__name__])
        _silence("distributed", "tornado", "asyncio")
        try:
            self._client: Any = distributed.Client(address, set_as_default=False)
        except (OSError, ValueError, TypeError) as why:
            raise Refused(f"--workers: {address}: {why}") from why
        if open_to_others(address):
            say(
                f"--workers: {address}: whoever reaches this scheduler can run anything on its workers; tls:// asks for a certificate"
            )

    def sent(self, data: bytes) -> Any:
        """Sends it to the workers, once to each: what a call is given for it."""
        return self._client.scatter(data, hash=True)

    def answers(
        self, shares: Iterator[_Share], words: Callable[[_Share], Sequence[Any]], ahead: int
    ) -> Iterator[tuple[_Share, Any]]:
        """Each share with its answer, in their order: that of a call, a function and what it is given.

        So many are given out at a time, and at first `FIRST`. A share of a worker that has died is made before later ones.
        """
        waiting: deque[tuple[_Share, Any]] = deque()
        numbered = enumerate(shares)
        try:
            while True:
                for place, share in islice(numbered, min(FIRST, ahead - len(waiting))):
                    waiting.append((share, self._client.submit(*words(share), pure=False, priority=-place)))
                if not waiting:
                    return
                share, future = waiting.popleft()
                yield share, _result(future)
        finally:
            self._client.cancel([future for _, future in waiting])

    def close(self) -> None:
        with contextlib.suppress(Exception):
            self._client.close(timeout=5)


def _result(future: Any) -> Any:
    try:
        return future.result()
    except Exception as why:  # of Dask: the workers have died
        raise Broken(f"--workers: {why}") from why


def blocks(farm: Farm, order: Order, seeds: range) -> Iterator[Block]:
    """The blocks of these seeds, in their order."""
    with open(order.program, "rb") as file:
        program = farm.sent(file.read())
    name = order.program.rpartition("/")[2]

    def words(share: range) -> Sequence[Any]:
        chosen = ["--seeds", f"{share.start}..{share.stop - 1}"] if share.start else ["--schedules", str(share.stop - 1)]
        return run_share, program, name, [*chosen, *order.options], list(order.arguments)

    for share, said in farm.answers(_shares(seeds), words, AHEAD):
        yield from _answer(order, share, Said(*said))


def _answer(order: Order, share: range, said: Said) -> Iterator[Block]:
    if said.status not in (0, 1, 4) or not said.ledger:
        raise Broken(f"--workers: {said.worker}: status {said.status}: {said.errors.strip()}")
    head, *lines = said.ledger.splitlines()
    first = share.start
    try:
        found = json.loads(head)
        if not isinstance(found, dict):
            raise ValueError(head)
        for name, here in order.identity.items():
            if name != "seeds" and found.get(name) != json.loads(json.dumps(here)):
                refuse(said.worker, name, json.dumps(found.get(name)), json.dumps(here))
        for line in lines:
            block = block_of(line, first)
            first = block.last + 1
            yield block
            if block.sums.failures and not order.keeps_going:
                return
    except (ValueError, RecursionError) as why:
        raise Broken(f"--workers: {said.worker}: its ledger is damaged") from why
    if first != share.stop:
        raise Broken(f"--workers: {said.worker}: it has only run the seeds up to {first - 1} of {share.stop - 1}")


def refuse(worker: str, name: str, there: str, here: str) -> NoReturn:
    raise Refused(f"--workers: {worker}: another {name}: {there} there, and {here} here")


def _shares(seeds: range) -> Iterator[range]:
    first = seeds.start
    while first < seeds.stop:
        end = min(seeds.stop, (first // SHARE + 1) * SHARE)
        yield range(first, end)
        first = end
