"""python3 -m reference [--json] [--user UID] [--threads] [--lines] [--kill-on-debugger-exit 0|1] [FILE]"""

import argparse
import sys

from . import names
from .reading import Fault
from .runs import run_lines, run_scenario


def arguments() -> argparse.Namespace:
    parser = argparse.ArgumentParser(prog="reference", description="A second model of the tracing machine.")
    parser.add_argument("--json", action="store_true")
    parser.add_argument("--user", type=int, choices=range(names.FIRST_USER, names.LAST_USER + 1), metavar="UID")
    parser.add_argument("--threads", action="store_true", help="print the lines user by user")
    parser.add_argument("--lines", action="store_true")
    parser.add_argument("--kill-on-debugger-exit", type=int, choices=(0, 1))
    parser.add_argument("file", nargs="?", default="-")
    chosen = parser.parse_args()
    if chosen.lines and (chosen.user or chosen.threads):
        parser.error("--lines goes with neither --user nor --threads")
    if not chosen.lines and chosen.kill_on_debugger_exit is not None:
        parser.error("--kill-on-debugger-exit needs --lines")
    return chosen


def main() -> int:
    chosen = arguments()
    try:
        source = sys.stdin.buffer if chosen.file == "-" else open(chosen.file, "rb")
        if chosen.lines:
            for line in run_lines(source, chosen.kill_on_debugger_exit != 0, chosen.json):
                print(line, flush=True)
            return 0
        data = source.read()
    except OSError:
        print("tracehost: cannot read", file=sys.stderr)
        return 3
    try:
        lines = run_scenario(data, chosen.json)
    except Fault as fault:
        print(f"tracehost: refused: {fault}", file=sys.stderr)
        return 1
    if chosen.threads:
        lines.sort(key=lambda line: line[0])
    sys.stdout.writelines(line + "\n" for user, line in lines if chosen.user in (None, user))
    return 0


sys.exit(main())
