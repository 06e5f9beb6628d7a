"""Requests of ptrace(2)."""

from . import names, rules
from .rows import Lwp, Process, Stop, TraceStop, View, find_lwp, find_process, lwps_of, put_lwp, put_process
from .steps import Info, Lwps, Mask, Number, Ok, Ptrace, Reply, Refusal, Error, refuse_if

FROM_NOW_ON = {
    "PT_TO_SCE": frozenset({names.ON_ENTRY}),
    "PT_TO_SCX": frozenset({names.ON_EXIT}),
    "PT_SYSCALL": frozenset({names.ON_ENTRY, names.ON_EXIT}),
}
SWITCHED = {"PT_FOLLOW_FORK": names.ON_FORK, "PT_LWP_EVENTS": names.ON_LWP}


def ptrace(view: View, caller: Process, asked: Ptrace) -> tuple[View, Reply]:
    if asked.request == "PT_TRACE_ME":
        return trace_me(view, caller), Ok()
    target, named = find_target(view, asked.target)
    if asked.request == "PT_ATTACH":
        return attach(view, caller, target), Ok()
    refuse_if(target.tracer is None, "EPERM")
    refuse_if(target.tracer != caller.number, "EBUSY")
    if not isinstance(target.state, TraceStop) or not target.state.collected:
        raise Refusal(Error("EBUSY"))
    lwp = find_lwp(view, target.state.lwp) if named is None else named
    assert lwp is not None
    if asked.request in names.PASSING:
        refuse_if(asked.data > names.LAST_SIGNAL, "EINVAL")
        return pass_on(view, target, lwp, asked), Ok()
    if asked.request in ("PT_LWPINFO", "PT_GETNUMLWPS", "PT_GETLWPLIST", "PT_GET_EVENT_MASK"):
        return view, described(view, target, lwp, asked)
    return changed(view, target, lwp, asked), Ok()


def find_target(view: View, number: int) -> tuple[Process, Lwp | None]:
    """The live process that a number means, and its LWP if the number names one."""
    lwp = find_lwp(view, number) if number > names.LAST_PROCESS else None
    process = find_process(view, number if lwp is None else lwp.process)
    if process is None or not process.live:
        raise Refusal(Error("ESRCH"))
    return process, lwp


def traces(view: View, debugger: int, number: int) -> bool:
    """Whether a process traces another, directly or through others."""
    process = find_process(view, number)
    while process is not None and process.tracer is not None:
        if process.tracer == debugger:
            return True
        process = find_process(view, process.tracer)
    return False


def trace_me(view: View, caller: Process) -> View:
    refuse_if(caller.tracer is not None, "EBUSY")
    refuse_if(caller.parent == 1, "EPERM")
    refuse_if(traces(view, caller.number, caller.parent), "EINVAL")
    return rules.trace(view, caller.number, caller.parent)


def attach(view: View, caller: Process, target: Process) -> View:
    refuse_if(target.number == caller.number, "EINVAL")
    refuse_if(target.tracer is not None, "EBUSY")
    refuse_if(traces(view, target.number, caller.number), "EINVAL")
    view = rules.trace(view, target.number, caller.number)
    return rules.trace_stop(view, lwps_of(view, target.number)[0].number, Stop(names.STOP))


def pass_on(view: View, target: Process, lwp: Lwp, asked: Ptrace) -> View:
    if asked.request == "PT_DETACH":
        return rules.detach(view, target.number, asked.data)
    if asked.request in FROM_NOW_ON:
        view = put_process(view, target._replace(mask=target.mask | FROM_NOW_ON[asked.request]))
    return rules.carry_on(view, target.number, asked.data, lwp.number if asked.request == "PT_STEP" else None)


def described(view: View, target: Process, lwp: Lwp, asked: Ptrace) -> Reply:
    lwps = tuple([row.number for row in lwps_of(view, target.number)])
    match asked.request:
        case "PT_GET_EVENT_MASK":
            return Mask(target.mask)
        case "PT_GETNUMLWPS":
            return Number(len(lwps))
        case "PT_GETLWPLIST":
            refuse_if(asked.data == 0, "EINVAL")
            return Lwps(lwps[: asked.data])
    reports = isinstance(target.state, TraceStop) and target.state.lwp == lwp.number
    return Info(lwp.number, reports, lwp.flags, lwp.blocked, lwp.pending, lwp.child, lwp.code)


def changed(view: View, target: Process, lwp: Lwp, asked: Ptrace) -> View:
    match asked.request:
        case "PT_KILL":
            return rules.end(view, target.number, names.KILL)
        case "PT_SUSPEND":
            return put_lwp(view, lwp._replace(suspended=True))
        case "PT_RESUME":
            return put_lwp(view, lwp._replace(suspended=False))
        case "PT_SET_EVENT_MASK":
            return put_process(view, target._replace(mask=asked.mask))
    event = SWITCHED[asked.request]
    mask = target.mask | {event} if asked.data else target.mask - {event}
    return put_process(view, target._replace(mask=mask))
