"""What signals, stops, resuming and ends do to the rows of a user."""

from collections.abc import Callable
from enum import Enum

from . import names
from .rows import (
    NO_NAMES,
    JobStop,
    Lwp,
    Process,
    Run,
    Signals,
    Stop,
    TraceStop,
    User,
    View,
    VforkWait,
    Zombie,
    find_process,
    put_lwp,
    put_process,
    the_lwp,
    the_process,
)


class Action(Enum):
    """What a signal does to an untraced process that meets it."""

    NOTHING = 0
    CATCH = 1
    STOP = 2
    END = 3


def action(process: Process, signal: int) -> Action:
    if signal in process.caught:
        return Action.CATCH
    if signal in process.ignored:
        return Action.NOTHING
    if signal in names.STOPPING:
        return Action.STOP
    return Action.NOTHING if signal in names.DISCARDED else Action.END


def settle(view: View, number: int) -> View:
    """Pending sets of an untraced process lose the signals whose action is nothing."""
    process = the_process(view, number)
    if process.tracer is not None:
        return view

    def kept(pending: Signals) -> Signals:
        return frozenset([signal for signal in pending if action(process, signal) is not Action.NOTHING])

    return map_pending(view, number, kept)


def map_pending(view: View, number: int, change: Callable[[Signals], Signals]) -> View:
    """Changes the pending sets of a process and of its LWPs."""
    processes = [
        row._replace(pending=change(row.pending)) if row.number == number and row.pending else row for row in view.processes
    ]
    lwps = [row._replace(pending=change(row.pending)) if row.process == number and row.pending else row for row in view.lwps]
    return view._replace(processes=tuple(processes), lwps=tuple(lwps))


def post(view: View, number: int, signal: int, lwp: int | None = None) -> View:
    """Posts a signal to a process, or to the LWP of it that raised the signal."""
    if signal == names.KILL:
        return end(view, number, names.KILL)
    if signal in names.STOPPING:
        view = map_pending(view, number, lambda pending: pending - {names.CONT})
    if signal == names.CONT:
        view = map_pending(view, number, lambda pending: pending - names.STOPPING)
        view = end_job_stop(view, number)
    if lwp is None:
        process = the_process(view, number)
        view = put_process(view, process._replace(pending=process.pending | {signal}))
    else:
        row = the_lwp(view, lwp)
        view = put_lwp(view, row._replace(pending=row.pending | {signal}))
    return settle(view, number)


def end_job_stop(view: View, number: int) -> View:
    process = the_process(view, number)
    if not isinstance(process.state, JobStop):
        return view
    view = put_process(view, process._replace(state=Run(), continued=True))
    return post_child(view, process.parent)


def post_child(view: View, receiver: int | None) -> View:
    """Posts SIGCHLD to a process with a row; process 1 has none."""
    if receiver is None or receiver == 1:
        return view
    return post(view, receiver, names.CHLD)


def job_stop(view: View, number: int, signal: int) -> View:
    process = the_process(view, number)
    stopped = process._replace(state=JobStop(signal, False), continued=False)
    return post_child(put_process(view, stopped), process.parent)


def trace(view: View, number: int, tracer: int) -> View:
    """The process is traced from now on, with the mask that tracing begins with."""
    process = the_process(view, number)
    return put_process(view, process._replace(tracer=tracer, mask=names.FIRST_MASK, continued=False))


def trace_stop(view: View, lwp: int, stop: Stop) -> View:
    """Puts the process of an LWP into this stop, which no wait has collected yet."""
    row = the_lwp(view, lwp)
    process = the_process(view, row.process)
    view = put_process(view, process._replace(state=TraceStop(lwp, stop.signal, False)))
    view = put_lwp(view, row._replace(flags=stop.flags, child=stop.child, code=stop.code))
    return post_child(view, process.tracer)


def run_again(view: View, number: int) -> View:
    """The process runs; the reporting LWP has nothing more to report, and is gone if it reported its exit."""
    process = the_process(view, number)
    if isinstance(process.state, TraceStop):
        row = the_lwp(view, process.state.lwp)
        if names.EXITED in row.flags:
            view = view._replace(lwps=tuple([other for other in view.lwps if other.number != row.number]))
        else:
            view = put_lwp(view, row._replace(flags=NO_NAMES, child=0, code=0))
    return put_process(view, process._replace(state=Run()))


def resume(view: View, number: int, signal: int) -> View:
    """Resumes a process with a signal, or with 0."""
    view = run_again(view, number)
    if signal and action(the_process(view, number), signal) is Action.END:
        return end(view, number, signal)
    return view


def carry_on(view: View, number: int, signal: int, stepping: int | None = None) -> View:
    """Resumes a process, in which at most this LWP then steps."""
    lwps = [row._replace(stepping=row.number == stepping) if row.process == number else row for row in view.lwps]
    return resume(view._replace(lwps=tuple(lwps)), number, signal)


def detach(view: View, number: int, signal: int) -> View:
    """Resumes a process, which is then traced no longer unless the signal has ended it."""
    view = resume(view, number, signal)
    process = find_process(view, number)
    if process is None or not process.live:
        return view
    view = put_process(view, process._replace(tracer=None, mask=NO_NAMES))
    lwps = [row._replace(stepping=False, suspended=False, due=None) if row.process == number else row for row in view.lwps]
    return settle(view._replace(lwps=tuple(lwps)), number)


def set_free(view: View, debugger: int) -> View:
    """Detaches all live tracees of a debugger that ends, if debuggers don't kill them."""
    for process in view.processes:
        if process.tracer == debugger and process.live:
            if isinstance(process.state, TraceStop):
                view = map_pending(view, process.number, lambda pending: pending - {names.TRAP})
            view = detach(view, process.number, 0)
    return view


def doomed_with(view: View, number: int) -> frozenset[int]:
    """The process and every live one from which a chain of tracers leads to it."""
    doomed = frozenset({number})
    while True:
        more = doomed.union([row.number for row in view.processes if row.tracer in doomed and row.live])
        if more == doomed:
            return doomed
        doomed = more


def end(view: View, number: int, word: int) -> View:
    """Ends a process with this word of its status."""
    if not view.kills_tracees:
        view = set_free(view, number)
    doomed = doomed_with(view, number)
    fates = [(row, after_end(row, doomed, word if row.number == number else names.KILL)) for row in view.processes]
    ended = view._replace(
        processes=tuple([row for _, row in fates if row is not None]),
        lwps=tuple([released(view, row, doomed) for row in view.lwps if row.process not in doomed]),
        handlers=tuple([handler for handler in view.handlers if handler.process not in doomed]),
    )
    for before, after in fates:
        if after is not None and not after.live and (before.live or before.tracer != after.tracer):
            ended = post_child(ended, after.tracer or after.parent)
    return ended


def after_end(row: Process, doomed: frozenset[int], word: int) -> Process | None:
    """What becomes of a row when these processes end; None is gone."""
    tracer = None if row.tracer in doomed else row.tracer
    parent = 1 if row.parent in doomed else row.parent
    state = Zombie(word) if row.number in doomed else row.state
    if isinstance(state, Zombie):
        return None if tracer is None and parent == 1 else Process(row.number, parent, tracer, state)
    return row._replace(parent=parent, tracer=tracer)


def released(view: View, row: Lwp, doomed: frozenset[int]) -> Lwp:
    """An LWP waits no longer for a process that has ended, or has done an exec."""
    if not isinstance(row.mode, VforkWait) or row.mode.child not in doomed:
        return row
    told = names.ON_VFORK in the_process(view, row.process).mask
    return row._replace(mode=User(), due=Stop(names.TRAP, frozenset({names.VFORK_DONE})) if told else row.due)
