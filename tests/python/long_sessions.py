"""Sessions that are too long to be written out: each repeats some lines, with other numbers."""

from __future__ import annotations

from sessions import Session, sessions_of

FIRST_PID, PIDS = 1000, 1000
FIRST_LWP, LWP_NUMBERS = 100000, 4000
PROCESSES, LWPS, HANDLERS = 250, 1000, 64
INSTALL = "install 1000 -> ok\n"


def spawns(count: int) -> str:
    return "".join(f"spawn -> new {1000 + n} {100000 + n}\n" for n in range(count))


def most_processes() -> str:
    return f"""# A user has 250 processes
{spawns(PROCESSES)}spawn -> error EAGAIN 35
1002: spawn -> new 2000 104000
"""


def lwps_run_out() -> str:
    """Process 1000 gets 1000 LWPs. The next one is refused, and so is another process."""
    births = "".join(
        f"turn 100000 enter thr_new -> ok\nturn 100000 leave -> new 1000 {tid}\n" for tid in range(100001, 100000 + LWPS)
    )
    return f"""{spawns(1)}{births}turn 100000 enter thr_new -> ok
turn 100000 leave -> error EAGAIN 35
spawn -> error EAGAIN 35
"""


def most_lwps() -> str:
    return f"""# A user has 1000 LWPs
{lwps_run_out()}1002: spawn -> new 2000 104000
1002: turn 104000 compute -> ok
"""


def most_handlers() -> str:
    return f"""# A user has 64 stop handlers
{spawns(1)}{INSTALL * HANDLERS}install 1000 -> error EAGAIN 35
1002: spawn -> new 2000 104000
1002: install 2000 -> ok
"""


def last_handler() -> str:
    return f"""# The last of 64 stop handlers is asked
{spawns(2)}{INSTALL * (HANDLERS - 1)}install 1000 SIGSTOP leave -> ok
install 1000 SIGSTOP kill -> error EAGAIN 35
ptrace 1000 PT_ATTACH 1001 -> ok
handle 1000 -> handled 1001 4479 at 100001 signal=17 flags=none child=0 code=0 by 63 leave
"""


def chain_ends(data: str = "", others: str = "") -> str:
    """Each process attaches to the next one, and continues it with this data. The first one ends, and so do all."""
    tracings = "".join(
        f"""ptrace {pid} PT_ATTACH {pid + 1} -> ok
wait4 {pid} -1 -> status {pid + 1} 4479
ptrace {pid} PT_CONTINUE {pid + 1}{data} -> ok
"""
        for pid in range(1000, 1000 + PROCESSES - 1)
    )
    return f"""{spawns(PROCESSES)}{others}{tracings}ptrace 1249 PT_ATTACH 1000 -> error EINVAL 22
turn 100000 enter exit 0 -> ok
turn 100000 leave -> ended 0
turn 100249 compute -> error ESRCH 3
spawn -> new 1250 100250
list 1250 -> pids 1250
"""


def chain() -> str:
    return f"# A long chain of debuggers ends with its first one\n{chain_ends()}"


def numbers_go_around() -> str:
    """Process 1000 with a handler ends. Once each number was used, another process has its number."""
    lives = "".join(
        f"""turn {100000 + n} enter exit 0 -> ok
turn {100000 + n} leave -> ended 0
spawn -> new {1000 + (n + 1) % PIDS} {100001 + n}
"""
        for n in range(PIDS)
    )
    return f"""# A handler doesn't outlive its debugger
{spawns(1)}install 1000 SIGSTOP kill -> ok
{lives}spawn -> new 1001 101001
ptrace 1000 PT_ATTACH 1001 -> ok
handle 1000 -> handled 1001 4479 at 101001 signal=17 flags=none child=0 code=0 by none decline
{INSTALL * HANDLERS}install 1000 -> error EAGAIN 35
"""


class Block:
    """The numbers of a user's processes or LWPs. A new one is the first that is free after the last new one."""

    def __init__(self, first: int, size: int) -> None:
        self.first, self.size, self.next = first, size, first
        self.used: list[int] = []
        """The used numbers, in order of birth."""

    def take(self) -> int:
        while self.next in self.used:
            self._step()
        number = self.next
        self.used.append(number)
        self._step()
        return number

    def _step(self) -> None:
        self.next = self.first + (self.next + 1 - self.first) % self.size


def is_spared(birth: int) -> bool:
    """Whether no older one ends after this birth: 21 in a row of each 500."""
    return birth % 500 <= 20


def process_numbers_go_around() -> str:
    """2500 births, and mostly the end of the oldest process after each."""
    pids, tids, lines = Block(FIRST_PID, PIDS), Block(FIRST_LWP, LWP_NUMBERS), ""
    for birth in range(2500):
        lines += f"spawn -> new {pids.take()} {tids.take()}\n"
        if not is_spared(birth):
            pids.used.pop(0)
            tid = tids.used.pop(0)
            lines += f"turn {tid} enter exit 0 -> ok\nturn {tid} leave -> ended 0\n"
    return f"""# Process numbers go around
{lines}list {pids.used[0]} -> pids {" ".join(map(str, sorted(pids.used)))}
"""


def lwp_numbers_go_around() -> str:
    """The oldest LWP makes another one, 5500 times, and mostly ends then."""
    tids = Block(FIRST_LWP, LWP_NUMBERS)
    lines = f"spawn -> new 1000 {tids.take()}\n"
    for birth in range(5500):
        oldest = tids.used[0]
        lines += f"turn {oldest} enter thr_new -> ok\nturn {oldest} leave -> new 1000 {tids.take()}\n"
        if not is_spared(birth):
            lines += f"turn {oldest} enter thr_exit -> ok\nturn {oldest} leave -> ok\n"
            tids.used.pop(0)
    count, lwps = len(tids.used), " ".join(map(str, tids.used))
    return f"""# LWP numbers go around
{lines}spawn -> new 1001 {tids.take()}
ptrace 1001 PT_ATTACH 1000 -> ok
wait4 1001 -1 -> status 1000 4479
ptrace 1001 PT_GETNUMLWPS 1000 -> number {count}
ptrace 1001 PT_GETLWPLIST 1000 1000 -> lwps {lwps}
"""


TEXTS = (
    most_processes,
    most_lwps,
    most_handlers,
    last_handler,
    chain,
    numbers_go_around,
    process_numbers_go_around,
    lwp_numbers_go_around,
)
LONG: dict[str, Session] = sessions_of("\n".join(text() for text in TEXTS), {})
