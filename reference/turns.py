"""Turns of LWPs: stops that are due, signals that are met, acts, and the work of system calls."""

from . import names, rules
from .rows import (
    NO_NAMES,
    InCall,
    Lwp,
    Names,
    Process,
    Run,
    Stop,
    User,
    VforkWait,
    View,
    add_lwp,
    add_process,
    find_lwp,
    lwps_of,
    put_lwp,
    put_process,
    the_lwp,
    the_process,
)
from .steps import Caught, Ended, Error, Held, New, Ok, Refusal, Reply, Stopped, Turn, refuse_if


def need_room(view: View, process: bool) -> None:
    """Refuses a step that makes an LWP, or also a process, beyond the user's limits."""
    refuse_if(process and len(view.processes) >= names.MAX_PROCESSES, "EAGAIN")
    refuse_if(len(view.lwps) >= names.MAX_LWPS, "EAGAIN")


def turn(view: View, asked: Turn) -> tuple[View, Reply]:
    lwp = find_lwp(view, asked.lwp)
    if lwp is None:
        raise Refusal(Error("ESRCH"))
    process = the_process(view, lwp.process)
    if not isinstance(process.state, Run) or lwp.suspended or isinstance(lwp.mode, VforkWait):
        raise Refusal(Held())
    if lwp.due is not None:
        return stops(put_lwp(view, lwp._replace(due=None)), lwp, lwp.due)
    if isinstance(lwp.mode, User):
        met = (lwp.pending | process.pending) - lwp.blocked
        return meet(view, process, lwp, min(met)) if met else user_act(view, process, lwp, asked)
    refuse_if(asked.act != "leave", "EINVAL")
    assert isinstance(lwp.mode, InCall)
    return leave(view, process, lwp, lwp.mode)


def stops(view: View, lwp: Lwp, stop: Stop) -> tuple[View, Reply]:
    return rules.trace_stop(view, lwp.number, stop), Stopped(lwp.number, stop.signal, stop.flags)


def meet(view: View, process: Process, lwp: Lwp, signal: int) -> tuple[View, Reply]:
    """The LWP meets a pending signal, its own before one of its process."""
    if signal in lwp.pending:
        view = put_lwp(view, lwp._replace(pending=lwp.pending - {signal}))
    else:
        view = put_process(view, process._replace(pending=process.pending - {signal}))
    if process.tracer is not None:
        return stops(view, lwp, Stop(signal))
    match rules.action(process, signal):
        case rules.Action.CATCH:
            return view, Caught(signal)
        case rules.Action.STOP:
            return rules.job_stop(view, process.number, signal), Stopped(lwp.number, signal, NO_NAMES)
    return rules.end(view, process.number, signal), Ended(signal)


def user_act(view: View, process: Process, lwp: Lwp, asked: Turn) -> tuple[View, Reply]:
    match asked.act:
        case "compute":
            if lwp.stepping:
                return stops(put_lwp(view, lwp._replace(stepping=False)), lwp, Stop(names.TRAP))
            return view, Ok()
        case "raise":
            refuse_if(not 1 <= asked.signal <= names.LAST_SIGNAL, "EINVAL")
            view = rules.post(view, process.number, asked.signal, lwp.number)
            return view, Ended(names.KILL) if asked.signal == names.KILL else Ok()
        case "block":
            return put_lwp(view, lwp._replace(blocked=asked.blocked - names.UNBLOCKABLE)), Ok()
        case "enter":
            view = put_lwp(view, lwp._replace(mode=InCall(asked.call, asked.code)))
            if names.ON_ENTRY not in process.mask:
                return view, Ok()
            code = call_code(InCall(asked.call, asked.code))
            return stops(view, lwp, Stop(names.TRAP, frozenset({names.SCE}), 0, code))
    raise Refusal(Error("EINVAL"))


def call_code(mode: InCall) -> int:
    return names.CALL_CODES.get(mode.call, mode.code)


def leave(view: View, process: Process, lwp: Lwp, mode: InCall) -> tuple[View, Reply]:
    """Does the work of a call, and then stops at its exit if the tracer wants that."""
    match mode.call:
        case "exit":
            return rules.end(view, process.number, mode.code * 256), Ended(mode.code * 256)
        case "thr_exit":
            return leave_thr_exit(view, process, lwp)
        case "fork" | "vfork":
            return leave_fork(view, process, lwp, mode)
        case "thr_new":
            return leave_thr_new(view, process, lwp, mode)
        case "exec":
            view = execute(view, process, lwp)
            return exit_of_call(view, process, lwp, mode, names.ON_EXEC, frozenset({names.EXECED}))
    return exit_of_call(put_lwp(view, lwp._replace(mode=User())), process, lwp, mode)


def exit_of_call(
    view: View,
    process: Process,
    lwp: Lwp,
    mode: InCall,
    event: str = "",
    flags: Names = NO_NAMES,
    made: New | None = None,
) -> tuple[View, Reply]:
    """The stop of a call's exit, with its flags under its event, or under PTRACE_SCX; without one the call's answer."""
    child = 0
    if event in process.mask:
        child = 0 if made is None else made.pid
    elif names.ON_EXIT in process.mask:
        flags = NO_NAMES
    else:
        return view, Ok() if made is None else made
    return stops(view, lwp, Stop(names.TRAP, flags | {names.SCX}, child, call_code(mode)))


def leave_thr_exit(view: View, process: Process, lwp: Lwp) -> tuple[View, Reply]:
    if len(lwps_of(view, process.number)) == 1:
        return rules.end(view, process.number, 0), Ended(0)
    if names.ON_LWP in process.mask:
        return stops(view, lwp, Stop(names.TRAP, frozenset({names.EXITED})))
    return view._replace(lwps=tuple([row for row in view.lwps if row.number != lwp.number])), Ok()


def leave_thr_new(view: View, process: Process, lwp: Lwp, mode: InCall) -> tuple[View, Reply]:
    need_room(view, process=False)
    due = None
    if names.ON_LWP in process.mask:
        due = Stop(names.TRAP, frozenset({names.SCX, names.BORN}), 0, call_code(mode))
    elif names.ON_EXIT in process.mask:
        due = Stop(names.TRAP, frozenset({names.SCX}), 0, call_code(mode))
    view = put_lwp(view, lwp._replace(mode=User()))
    view, new = add_lwp(view, Lwp(0, process.number, blocked=lwp.blocked, due=due))
    return exit_of_call(view, process, lwp, mode, made=New(process.number, new.number))


def leave_fork(view: View, process: Process, lwp: Lwp, mode: InCall) -> tuple[View, Reply]:
    """Makes a child, which the tracer follows under PTRACE_FORK."""
    need_room(view, process=True)
    view, child, first = add_process(view, process.number, Lwp(0, 0, blocked=lwp.blocked))
    view = put_process(view, child._replace(ignored=process.ignored, caught=process.caught))
    if process.tracer is not None and names.ON_FORK in process.mask:
        view = rules.trace(view, child.number, process.tracer)
        flags = frozenset({names.SCX, names.CHILD})
        view = rules.trace_stop(view, first.number, Stop(names.STOP, flags, 0, call_code(mode)))
    is_vfork = mode.call == "vfork"
    view = put_lwp(view, lwp._replace(mode=VforkWait(child.number) if is_vfork else User()))
    forked = frozenset({names.FORKED, names.VFORKED}) if is_vfork else frozenset({names.FORKED})
    return exit_of_call(view, process, lwp, mode, names.ON_FORK, forked, New(child.number, first.number))


def execute(view: View, process: Process, lwp: Lwp) -> View:
    """The LWP's process does an exec: a vfork of its maker is over."""
    number = frozenset({process.number})
    lwps = [rules.released(view, row, number) for row in view.lwps if row.process != process.number or row.number == lwp.number]
    view = put_process(view._replace(lwps=tuple(lwps)), process._replace(caught=frozenset()))
    view = put_lwp(view, lwp._replace(mode=User()))
    return rules.settle(view, process.number)
