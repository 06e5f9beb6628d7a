#!/usr/bin/env python3
"""Makes steps by the client in Python, attach, wait4 and detach in turn, and prints how many nanoseconds a step took.

    steps.py client STEPS

bench/in_process.py runs it.
"""

from __future__ import annotations

import pathlib
import sys
import time

sys.path.insert(0, str(pathlib.Path(__file__).resolve().parents[2] / "clients/python"))
from tracehost import Host, Request


def run(host: Host, rounds: int) -> float:
    user = host.user(1001)
    debugger, target = user.process(user.spawn()), user.spawn().pid
    began = time.perf_counter()
    for _ in range(rounds):
        debugger.ptrace(Request.PT_ATTACH, target)
        if debugger.wait4(target).pid != target:
            sys.exit("steps: wait4")
        debugger.ptrace(Request.PT_DETACH, target)
    return time.perf_counter() - began


def main(way: str, steps: str) -> None:
    rounds = int(steps) // 3
    with Host() as host:
        print(f"{run(host, rounds) / (rounds * 3) * 1e9:.1f}")


if __name__ == "__main__":
    main(*sys.argv[1:])
