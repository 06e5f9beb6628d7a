"""A step of a user: the calls of a process, and which part of the machine answers a step."""

from . import names, requests, rules, turns
from .rows import (
    Handler,
    JobStop,
    Lwp,
    Process,
    Rule,
    Run,
    Stop,
    TraceStop,
    View,
    Zombie,
    add_process,
    find_process,
    put_process,
    the_lwp,
    the_process,
)
from .steps import (
    Called,
    Error,
    Handle,
    Handled,
    Held,
    Install,
    Kill,
    List,
    New,
    Nothing,
    Ok,
    Pids,
    Ptrace,
    Refusal,
    Reply,
    Sigaction,
    Spawn,
    Status,
    Step,
    Turn,
    Wait,
    refuse_if,
)

CONTINUED_WORD = 19


def step(view: View, asked: Step) -> tuple[View, Reply]:
    """The view after a step, and its reply."""
    try:
        match asked:
            case Spawn():
                return spawn(view)
            case Turn():
                return turns.turn(view, asked)
            case _:
                return call(view, asked)
    except Refusal as refusal:
        return view, refusal.reply


def spawn(view: View) -> tuple[View, Reply]:
    turns.need_room(view, process=True)
    view, process, lwp = add_process(view, 1, Lwp(0, 0))
    return view, New(process.number, lwp.number)


def call(view: View, asked: Called) -> tuple[View, Reply]:
    caller = find_process(view, asked.caller)
    if caller is None or not caller.live:
        raise Refusal(Error("ESRCH"))
    if not isinstance(caller.state, Run):
        raise Refusal(Held())
    match asked:
        case Ptrace():
            return requests.ptrace(view, caller, asked)
        case Wait():
            refuse_if(asked.which == 0 or asked.which < -1, "EINVAL")
            view, found = collect(view, asked)
            return view, Nothing() if found is None else Status(found.number, word(found))
        case Kill():
            return kill(view, asked), Ok()
        case Sigaction():
            return sigaction(view, caller, asked), Ok()
        case List():
            return view, Pids(tuple([row.number for row in view.processes]))
        case Install():
            refuse_if(len(view.handlers) >= names.MAX_HANDLERS, "EAGAIN")
            return view._replace(handlers=(*view.handlers, Handler(caller.number, asked.rules))), Ok()
        case Handle():
            return handle(view, asked)


def kill(view: View, asked: Kill) -> View:
    refuse_if(asked.signal > names.LAST_SIGNAL or asked.which == 0 or asked.which < -1, "EINVAL")
    if asked.which == -1:
        reached = [row.number for row in view.processes if row.number != asked.caller]
    else:
        reached = [row.number for row in view.processes if row.number == asked.which]
    refuse_if(not reached, "ESRCH")
    for number in reached:
        process = find_process(view, number)
        if asked.signal and process is not None and process.live:
            view = rules.post(view, number, asked.signal)
    return view


def sigaction(view: View, caller: Process, asked: Sigaction) -> View:
    signal = asked.signal
    refuse_if(not 1 <= signal <= names.LAST_SIGNAL, "EINVAL")
    refuse_if(signal in names.UNBLOCKABLE and asked.action != "default", "EINVAL")
    ignored, caught = caller.ignored - {signal}, caller.caught - {signal}
    if asked.action == "ignore":
        ignored |= {signal}
    if asked.action == "catch":
        caught |= {signal}
    return rules.settle(put_process(view, caller._replace(ignored=ignored, caught=caught)), caller.number)


def word(process: Process) -> int:
    """The word of the status that a wait reports."""
    match process.state:
        case Zombie(ended):
            return ended
        case TraceStop(_, signal, _) | JobStop(signal, _):
            return signal * 256 + 127
        case Run():
            return CONTINUED_WORD


def reportable(process: Process, asked: Wait) -> bool:
    match process.state:
        case Zombie():
            return asked.caller == (process.tracer or process.parent)
        case TraceStop(_, _, collected):
            return not collected and process.tracer == asked.caller
        case JobStop(_, collected):
            return not collected and process.parent == asked.caller and "WUNTRACED" in asked.options
        case Run():
            return process.continued and process.parent == asked.caller and "WCONTINUED" in asked.options


def collect(view: View, asked: Wait) -> tuple[View, Process | None]:
    """The view after a wait, and the process that it reports, as it was before."""
    fitting = [row for row in view.processes if asked.caller in (row.tracer, row.parent) and asked.which in (-1, row.number)]
    refuse_if(not fitting, "ECHILD")
    found = next((row for row in fitting if reportable(row, asked)), None)
    return (view if found is None else collected(view, found, asked.caller)), found


def collected(view: View, found: Process, caller: int) -> View:
    match found.state:
        case Zombie():
            if found.tracer == caller and found.parent not in (1, caller):
                return rules.post_child(put_process(view, found._replace(tracer=None)), found.parent)
            return view._replace(processes=tuple([row for row in view.processes if row.number != found.number]))
        case TraceStop() | JobStop():
            return put_process(view, found._replace(state=found.state._replace(collected=True)))
        case Run():
            return put_process(view, found._replace(continued=False))


def handle(view: View, asked: Handle) -> tuple[View, Reply]:
    view, found = collect(view, Wait(asked.caller, -1, frozenset()))
    if found is None:
        return view, Nothing()
    if not isinstance(found.state, TraceStop):
        return view, Status(found.number, word(found))
    lwp = the_lwp(view, found.state.lwp)
    stop = Stop(found.state.signal, lwp.flags, lwp.child, lwp.code)
    index, decision, passed = decided(view, asked.caller, stop)
    reply = Handled(found.number, word(found), lwp.number, *stop, index, decision, passed)
    match decision:
        case "continue":
            view = rules.carry_on(view, found.number, passed)
        case "detach":
            view = rules.detach(view, found.number, passed)
        case "kill":
            view = rules.end(view, found.number, names.KILL)
    return view, reply


def decided(view: View, debugger: int, stop: Stop) -> tuple[int | None, str, int]:
    """The first decision of the debugger's handlers that isn't to decline, and the index of its handler."""
    policies = [handler.rules for handler in view.handlers if handler.process == debugger]
    decisions = [(index, *decide(policy, stop)) for index, policy in enumerate(policies)]
    return next((made for made in decisions if made[1] != "decline"), (None, "decline", 0))


def decide(policy: tuple[Rule, ...], stop: Stop) -> tuple[str, int]:
    for rule in policy:
        if rule.signal in (None, stop.signal) and rule.flags <= stop.flags:
            return rule.decision, rule.passed
    return "decline", 0
