"""Steps that cost most: of a user with as many processes, LWPs, pending signals or handlers as one may have.

A case is a function from a size to a preparation, and to steps without end. A re-attach is a PT_DETACH, a PT_ATTACH and
the wait that is told of the stop.
"""

from __future__ import annotations

import itertools
from collections.abc import Callable, Iterable, Iterator

import scenarios
from scenarios import Numbers, Step

Case = tuple[list[Step], Iterator[Step]]  # a preparation, and steps without end
Make = Callable[[int], Case]

USER = 1001
DEBUGGER = scenarios.first_pid(USER)
TRACEE = DEBUGGER + 1
FIRST = Numbers(USER).lwp()
TRACED = FIRST + 1
PROCESSES, LWPS, HANDLERS, RULES = 250, 1000, 64, 16  # at most, of a user and of a policy
SIGTRAP, SIGURG, SIGSTOP, SIGTSTP, SIGCONT, SIGUSR1, SIGUSR2 = 5, 16, 17, 18, 19, 30, 31
STOP_FLAGS = ["SCE", "SCX", "EXEC", "FORKED", "CHILD", "BORN", "EXITED", "VFORKED", "VFORK_DONE"]


def spawns(count: int) -> list[Step]:
    return [scenarios.spawn(USER) for _ in range(count)]


def kill(which: int, signal: int) -> Step:
    return {"user": USER, "op": "kill", "caller": DEBUGGER, "which": which, "signal": signal}


def kill_all(*signals: int) -> Iterator[Step]:
    """A kill with -1 for each of the signals, again and again."""
    return itertools.cycle([kill(-1, signal) for signal in signals])


def sigaction(process: int, signal: int, action: str) -> Step:
    return {"user": USER, "op": "sigaction", "caller": process, "signal": signal, "action": action}


def ignore_and_catch(process: int) -> Iterator[Step]:
    return itertools.cycle([sigaction(process, SIGURG, "ignore"), sigaction(process, SIGURG, "catch")])


def turn(lwp: int, act: str = "compute", **more: object) -> Step:
    return {"user": USER, "op": "turn", "lwp": lwp, "act": act, **more}


def call(lwp: int, name: str, **more: object) -> Iterator[Step]:
    return scenarios.call(USER, lwp, name, **more)


def request(name: str, target: int, caller: int = DEBUGGER, **more: object) -> Step:
    return {**scenarios.ptrace(USER, caller, name, target), **more}


def wait(which: int = -1, caller: int = DEBUGGER) -> Step:
    return {**scenarios.wait(USER, caller), "which": which}


def births(lwp: int, lwps: int) -> Iterator[Step]:
    """The process of this LWP gets so many more."""
    return itertools.chain.from_iterable(call(lwp, "thr_new") for _ in range(lwps))


def threaded(processes: int, lwps: int) -> list[Step]:
    """Processes of so many LWPs each, which have the numbers from FIRST on."""
    made = spawns(processes)
    for oldest in range(FIRST, FIRST + processes):
        made += births(oldest, lwps - 1)
    return made


def tracee_of(lwps: int) -> list[Step]:
    """A debugger, and a process of so many LWPs that it may trace, which have the numbers from TRACED on."""
    return [*spawns(2), *births(TRACED, lwps - 1)]


def pending(lwps: Iterable[int]) -> list[Step]:
    """Each of these LWPs blocks SIGUSR1, which is pending."""
    return [step for lwp in lwps for step in (turn(lwp, "block", set=[SIGUSR1]), turn(lwp, "raise", signal=SIGUSR1))]


def attach(tracee: int, caller: int = DEBUGGER) -> list[Step]:
    """The attach, and the wait that is told of the stop."""
    return [request("PT_ATTACH", tracee, caller), wait(tracee, caller)]


def attached(tracees: int) -> list[Step]:
    """A debugger that was told of the stop of each of its tracees."""
    made = spawns(1 + tracees)
    for tracee in range(TRACEE, TRACEE + tracees):
        made += attach(tracee)
    return made


def running(tracees: int) -> list[Step]:
    """The same, and the tracees run again."""
    return attached(tracees) + [request("PT_CONTINUE", tracee) for tracee in range(TRACEE, TRACEE + tracees)]


def forked(children: int) -> list[Step]:
    """A process and its children, which have the numbers from TRACEE on, and their LWPs from TRACED on."""
    return spawns(1) + [step for _ in range(children) for step in call(FIRST, "fork")]


def zombies(count: int) -> list[Step]:
    """A process, and so many ended children."""
    return forked(count) + [step for lwp in range(TRACED, TRACED + count) for step in call(lwp, "exit", code=0)]


def handlers(count: int, rule: dict[str, object], caller: int = DEBUGGER) -> list[Step]:
    """Handlers whose rules are all this one."""
    return [{"user": USER, "op": "install", "caller": caller, "rules": [rule] * RULES}] * count


def numbers_after(processes: int, lwps: int) -> Numbers:
    """The numbers of what is made after processes and further LWPs."""
    numbers = Numbers(USER)
    for _ in range(processes):
        numbers.process()
    for _ in range(lwps):
        numbers.lwp()
    return numbers


# Waits and requests


def waits(tracees: int) -> Case:
    """The debugger waits, and no tracee has anything to tell."""
    return attached(tracees), itertools.repeat(wait())


def reattached(tracee: int, caller: int = DEBUGGER) -> Iterator[Step]:
    """The debugger detaches from its tracee, and attaches to it again."""
    return itertools.cycle([request("PT_DETACH", tracee, caller), *attach(tracee, caller)])


def reattached_last(tracees: int) -> Case:
    return attached(tracees), reattached(DEBUGGER + tracees)


def reattached_middle(tracees: int) -> Case:
    return attached(tracees), reattached(DEBUGGER + (tracees + 1) // 2)


def reattached_after_ends(ended: int) -> Case:
    """So many processes of the user have come and gone."""
    steps = scenarios.attaches_after_ends(USER, ended)
    kills = -(-ended // (PROCESSES - 1))
    return list(itertools.islice(steps, 2 + ended + kills)), steps


def reattached_beside_full_users(users: int) -> Case:
    """So many other users have all the processes that they may have."""
    return [*scenarios.full_users(scenarios.USERS[1 : 1 + users]), *attached(1)], reattached(TRACEE)


def reattached_lwps(lwps: int) -> Case:
    """The tracee has so many LWPs."""
    return [*tracee_of(lwps), *attach(TRACEE)], reattached(TRACEE)


def reattached_after_a_chain(links: int) -> Case:
    """The debugger is the last of a chain, each of which traces the next."""
    made = spawns(links + 1)
    for process in range(DEBUGGER, DEBUGGER + links - 1):
        made += [*attach(process + 1, process), request("PT_CONTINUE", process + 1, process)]
    last = DEBUGGER + links
    return made + attach(last, last - 1), reattached(last, last - 1)


def stepped(lwps: int) -> Case:
    """One of so many LWPs steps once, again and again."""
    return [*tracee_of(lwps), *attach(TRACEE)], itertools.cycle([request("PT_STEP", TRACEE), turn(TRACED), wait()])


def stopped(lwps: int) -> Case:
    """A process of so many LWPs is continued, and stopped by SIGSTOP."""
    steps = [request("PT_CONTINUE", TRACEE), kill(TRACEE, SIGSTOP), turn(TRACED), wait()]
    return [*tracee_of(lwps), *attach(TRACEE)], itertools.cycle(steps)


def of_the_last(names: list[str]) -> Make:
    """Requests about the last of so many LWPs of a tracee."""

    def make(lwps: int) -> Case:
        return [*tracee_of(lwps), *attach(TRACEE)], itertools.cycle([request(name, TRACED + lwps - 1) for name in names])

    return make


def counts_lwps(lwps: int) -> Case:
    return [*tracee_of(lwps), *attach(TRACEE)], itertools.repeat(request("PT_GETNUMLWPS", TRACEE))


def lists_lwps(lwps: int) -> Case:
    return [*tracee_of(lwps), *attach(TRACEE)], itertools.repeat(request("PT_GETLWPLIST", TRACEE, data=lwps))


def lists(made: list[Step]) -> Case:
    return made, itertools.repeat({"user": USER, "op": "list", "caller": DEBUGGER})


# Signals


def checks(processes: int) -> Case:
    """Signal 0 for all others: only whether there are any is looked at."""
    return spawns(processes), kill_all(0)


def discarded_signals(processes: int) -> Case:
    return spawns(processes), kill_all(SIGURG)


def discarded_beside_lwps(processes: int) -> Case:
    return threaded(processes, 4), kill_all(SIGURG)


def caught_signals(processes: int) -> Case:
    """All others catch SIGUSR1, and it is pending already."""
    made = threaded(processes, 4) + [sigaction(process, SIGUSR1, "catch") for process in range(DEBUGGER, DEBUGGER + processes)]
    return made, kill_all(SIGUSR1)


def stops_and_continues(processes: int) -> Case:
    """Each signal takes the other out of what is pending."""
    return threaded(processes, 4), kill_all(SIGTSTP, SIGCONT)


def stops_and_continues_all_pending(processes: int) -> Case:
    """The same, and each LWP has a pending signal."""
    return threaded(processes, 4) + pending(range(FIRST, FIRST + 4 * processes)), kill_all(SIGTSTP, SIGCONT)


def signals_to_stopped_tracees(tracees: int) -> Case:
    return attached(tracees), kill_all(SIGUSR1)


def signals_to_running_tracees(tracees: int) -> Case:
    return running(tracees), kill_all(SIGTSTP, SIGCONT, SIGSTOP)


def job_stops(children: int) -> Case:
    """Each child is job-stopped and continued, and its parent, of three LWPs for each, gets SIGCHLD."""
    rounds = [(kill(TRACEE + n, SIGTSTP), turn(TRACED + n), kill(TRACEE + n, SIGCONT)) for n in range(children)]
    return [*forked(children), *births(FIRST, 3 * children)], itertools.cycle(itertools.chain.from_iterable(rounds))


def stops_beside_pending(lwps: int) -> Case:
    """SIGTSTP and SIGCONT for a process with a pending signal for each of its LWPs."""
    made = tracee_of(lwps) + pending(range(TRACED, TRACED + lwps))
    return made, itertools.cycle([kill(TRACEE, SIGTSTP), kill(TRACEE, SIGCONT)])


def dispositions(lwps: int) -> Case:
    return threaded(1, lwps), ignore_and_catch(DEBUGGER)


def dispositions_beside_pending(lwps: int) -> Case:
    return threaded(1, lwps) + pending(range(FIRST, FIRST + lwps)), ignore_and_catch(DEBUGGER)


def raised(made: list[Step]) -> Case:
    """The oldest LWP raises a signal that its process catches, and handles it."""
    return [*made, sigaction(DEBUGGER, SIGUSR2, "catch")], itertools.cycle([turn(FIRST, "raise", signal=SIGUSR2), turn(FIRST)])


def raises(lwps: int) -> Case:
    return raised(threaded(1, lwps))


def raises_beside_pending(lwps: int) -> Case:
    return raised(threaded(1, lwps) + pending(range(FIRST, FIRST + lwps)))


# What begins and ends


def spawns_and_exits(processes: int) -> Case:
    """A process more, which exits at once, beside so many others."""
    numbers = numbers_after(processes, 0)

    def rounds() -> Iterator[Step]:
        while True:
            pid, tid = numbers.process()
            yield scenarios.spawn(USER)
            yield from call(tid, "exit", code=0)
            numbers.gone(pid, tid)

    return spawns(processes), rounds()


def vfork_rounds(numbers: Numbers, execs: bool) -> Iterator[Step]:
    """FIRST makes a vfork, and its child exits, if asked for after an exec."""
    while True:
        pid, tid = numbers.process()
        yield from call(FIRST, "vfork")
        if execs:
            yield from call(tid, "exec")
        yield from call(tid, "exit", code=0)
        yield wait()
        numbers.gone(pid, tid)


def vforks(lwps: int) -> Case:
    """One of so many LWPs makes a vfork, and its child exits."""
    return threaded(1, lwps), vfork_rounds(numbers_after(1, lwps - 1), execs=False)


def vforks_beside_waiters(waiters: int) -> Case:
    """One LWP makes a vfork, and its child does an exec, while so many others wait for theirs."""
    made = threaded(1, 1 + waiters)
    for lwp in range(TRACED, TRACED + waiters):
        made += call(lwp, "vfork")
    numbers = numbers_after(1, waiters)
    for _ in range(waiters):
        numbers.process()
    return made, vfork_rounds(numbers, execs=True)


def execs(lwps: int) -> Case:
    """A process gets so many LWPs, and does an exec, which removes all but one."""
    return spawns(1), itertools.cycle([*births(FIRST, lwps - 1), *call(FIRST, "exec")])


def births_and_ends(lwps: int) -> Case:
    """An LWP more, which ends at once, beside so many others."""
    numbers = numbers_after(1, lwps - 1)

    def rounds() -> Iterator[Step]:
        while True:
            tid = numbers.lwp()
            yield from call(FIRST, "thr_new")
            yield from call(tid, "thr_exit")
            numbers.lwp_gone(tid)

    return threaded(1, lwps), rounds()


# Handlers


def handled(rule: dict[str, object]) -> Make:
    """A tracee raises a signal, and so many handlers with this rule are asked; only the last one continues it."""

    def make(count: int) -> Case:
        last: Step = {"user": USER, "op": "install", "caller": DEBUGGER, "rules": [{"decision": "continue"}]}
        made = [*running(1), *handlers(count - 1, rule), last]
        steps = [turn(TRACED, "raise", signal=SIGUSR1), turn(TRACED), {"user": USER, "op": "handle", "caller": DEBUGGER}]
        return made, itertools.cycle(steps)

    return make


OTHER_SIGNAL: dict[str, object] = {"signal": SIGTRAP, "decision": "leave"}
OTHER_FLAGS: dict[str, object] = {
    "signal": SIGUSR1,
    "flags": [f"PL_FLAG_{flag}" for flag in STOP_FLAGS],
    "decision": "leave",
}


def refused_turns(count: int) -> Case:
    """A turn of no LWP, beside so many handlers."""
    return spawns(1) + handlers(count, OTHER_SIGNAL), itertools.repeat(turn(FIRST + LWPS))


# The case, what makes it, and how many processes, tracees, children, LWPs or handlers there are at most
CASES: list[tuple[str, Make, int]] = [
    ("wait for any, tracees with nothing to report", waits, PROCESSES - 1),
    ("re-attach, last of tracees", reattached_last, PROCESSES - 1),
    ("re-attach, middle of tracees", reattached_middle, PROCESSES - 1),
    ("re-attach, after a chain of debuggers", reattached_after_a_chain, PROCESSES - 1),
    ("re-attach, ended processes", reattached_after_ends, 8000),
    ("re-attach, full users", reattached_beside_full_users, len(scenarios.USERS) - 1),
    ("re-attach, LWPs", reattached_lwps, LWPS - 1),
    ("PT_STEP, turn, wait, LWPs", stepped, LWPS - 1),
    ("PT_CONTINUE, SIGSTOP, turn, wait, LWPs", stopped, LWPS - 1),
    ("PT_LWPINFO, last of LWPs", of_the_last(["PT_LWPINFO"]), LWPS - 1),
    ("PT_SUSPEND, PT_RESUME, last of LWPs", of_the_last(["PT_SUSPEND", "PT_RESUME"]), LWPS - 1),
    ("PT_GETNUMLWPS", counts_lwps, LWPS - 1),
    ("PT_GETLWPLIST", lists_lwps, LWPS - 1),
    ("list, processes", lambda processes: lists(spawns(processes)), PROCESSES),
    ("list, zombies", lambda count: lists(zombies(count)), PROCESSES - 1),
    ("kill -1 signal 0, processes", checks, PROCESSES),
    ("kill -1 SIGURG, processes", discarded_signals, PROCESSES),
    ("kill -1 SIGURG, processes of four LWPs", discarded_beside_lwps, PROCESSES),
    ("kill -1 SIGUSR1, caught, processes of four LWPs", caught_signals, PROCESSES),
    ("kill -1 SIGTSTP, SIGCONT, processes of four LWPs", stops_and_continues, PROCESSES),
    ("kill -1 SIGTSTP, SIGCONT, processes of four LWPs with pending signals", stops_and_continues_all_pending, PROCESSES),
    ("kill -1 SIGUSR1, stopped tracees", signals_to_stopped_tracees, PROCESSES - 1),
    ("kill -1 SIGTSTP, SIGCONT, SIGSTOP, running tracees", signals_to_running_tracees, PROCESSES - 1),
    ("SIGTSTP, turn, SIGCONT, children", job_stops, PROCESSES - 1),
    ("kill SIGTSTP, SIGCONT, LWPs with pending signals", stops_beside_pending, LWPS - 1),
    ("sigaction, LWPs", dispositions, LWPS),
    ("sigaction, LWPs with pending signals", dispositions_beside_pending, LWPS),
    ("raise, turn, LWPs", raises, LWPS),
    ("raise, turn, LWPs with pending signals", raises_beside_pending, LWPS),
    ("spawn, exit, processes", spawns_and_exits, PROCESSES - 1),
    ("vfork, exit, wait, LWPs", vforks, LWPS - 1),
    ("vfork, exec, exit, wait, LWPs that wait for theirs", vforks_beside_waiters, 200),
    ("thr_new of all, exec, LWPs", execs, 200),
    ("thr_new, thr_exit, LWPs", births_and_ends, LWPS - 1),
    ("raise, turn, handle, handlers of 16 signals", handled(OTHER_SIGNAL), HANDLERS),
    ("raise, turn, handle, handlers of 16 sets of flags", handled(OTHER_FLAGS), HANDLERS),
    ("a refused turn, handlers", refused_turns, HANDLERS),
]


# The same steps beside more and more that they don't name


def beside(made: list[Step]) -> Case:
    """A debugger detaches from its tracee, and attaches to it again."""
    return [*spawns(2), *attach(TRACEE), *made], reattached(TRACEE)


def beside_users(users: int) -> Case:
    """Each other user has a debugger with a tracee, and eight processes more."""
    made: list[Step] = []
    for user in scenarios.USERS[1:users]:
        made += [scenarios.spawn(user) for _ in range(10)]
        made += itertools.islice(scenarios.attaches(user, scenarios.first_pid(user), scenarios.first_pid(user) + 1), 2)
    return beside(made)


def beside_zombies(count: int) -> Case:
    """The third process has so many ended children."""
    parent, child = TRACED + 1, TRACED + 2
    forks = [step for _ in range(count) for step in call(parent, "fork")]
    exits = [step for lwp in range(child, child + count) for step in call(lwp, "exit", code=0)]
    return beside([*spawns(1), *forks, *exits])


def beside_tracees(tracees: int) -> Case:
    """The debugger has so many other tracees, which run."""
    others = range(TRACEE + 1, TRACEE + 1 + tracees)
    return beside(spawns(tracees) + [step for other in others for step in (*attach(other), request("PT_CONTINUE", other))])


def ends_beside_handlers(count: int) -> Case:
    """A process begins and ends, and another one has so many handlers."""
    made, rounds = spawns_and_exits(1)
    return made + handlers(count, OTHER_SIGNAL), rounds


# Those of the cases that are run at many sizes, too
SCALED: list[Make] = [
    waits,
    reattached_middle,
    reattached_after_a_chain,
    reattached_after_ends,
    reattached_beside_full_users,
    reattached_lwps,
    stepped,
    stopped,
    stops_beside_pending,
    raises_beside_pending,
    job_stops,
    vforks,
    vforks_beside_waiters,
    refused_turns,
]

# The case, what makes it, and the greatest size
SCALES: list[tuple[str, Make, int]] = [
    ("re-attach, users", beside_users, len(scenarios.USERS)),
    ("re-attach, processes", lambda count: beside(spawns(count)), PROCESSES - 2),
    ("re-attach, zombies", beside_zombies, PROCESSES - 3),
    ("re-attach, other tracees", beside_tracees, PROCESSES - 2),
    ("re-attach, LWPs of another process", lambda count: beside([*spawns(1), *births(TRACED + 1, count - 1)]), LWPS - 2),
    (
        "re-attach, handlers of another process",
        lambda count: beside(spawns(1) + handlers(count, OTHER_SIGNAL, TRACEE + 1)),
        HANDLERS,
    ),
    ("spawn, exit, handlers of another process", ends_beside_handlers, HANDLERS),
    ("raise, turn, handle, handlers that are asked", handled(OTHER_SIGNAL), HANDLERS),
    *[case for case in CASES if case[1] in SCALED],
]
