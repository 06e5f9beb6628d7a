/** Why a step is refused: the conditions of each call, in order. `tools/format` writes them from format/refusals.toml. */

/**
 * A condition, and what is answered if it is the first that holds: an errno, or "held".
 *
 * @typedef {import("./refusals.mjs").Asked} Asked
 * @typedef {import("./refusals.mjs").KnownRows} KnownRows
 * @typedef {{answer: string, words: string, possible: (a: Asked) => boolean, holds: (a: Asked, r: KnownRows) => boolean}} Condition
 */

// tools/format numbers
export const REQUEST_NUMBERS = { PT_TRACE_ME: 0, PT_ATTACH: 10, PT_CONTINUE: 7, PT_STEP: 9, PT_TO_SCE: 20, PT_TO_SCX: 21, PT_SYSCALL: 22, PT_DETACH: 11, PT_KILL: 8, PT_SUSPEND: 18, PT_RESUME: 19, PT_SET_EVENT_MASK: 26, PT_GET_EVENT_MASK: 25, PT_FOLLOW_FORK: 23, PT_LWP_EVENTS: 24, PT_LWPINFO: 13, PT_GETNUMLWPS: 14, PT_GETLWPLIST: 15 };
export const ACT_NUMBERS = { compute: 0, raise: 1, block: 2, enter: 3, leave: 4 };
export const CALL_NUMBERS = { exit: 5, fork: 0, vfork: 1, exec: 2, thr_new: 3, thr_exit: 4, other: 6 };
export const ACTION_NUMBERS = { default: 0, ignore: 1, catch: 2 };
export const SIGNAL_REQUESTS = [7, 9, 20, 21, 22, 11];
export const DATA_REQUESTS = [7, 9, 20, 21, 22, 11, 23, 24, 15];
// end

/** @type {Object<string, Condition>} */
// tools/format conditions
export const CONDITIONS = {
  caller_gone: { answer: "ESRCH", words: "{caller} isn't a live process of user {user}",
    possible: () => true, holds: (a, r) => !r.is_live(a.caller) },
  caller_in_trace_stop: { answer: "held", words: "{caller} is in a trace stop",
    possible: () => true, holds: (a, r) => r.state(a.caller) === 1 },
  caller_in_job_stop: { answer: "held", words: "a stop signal has stopped {caller}",
    possible: () => true, holds: (a, r) => r.state(a.caller) === 2 },
  no_number_of_lwp: { answer: "ESRCH", words: "{lwp} is no LWP, whose numbers begin at 100000",
    possible: (a) => a.lwp <= 99999, holds: () => true },
  lwp_gone: { answer: "ESRCH", words: "user {user} has no LWP {lwp}",
    possible: (a) => a.lwp > 99999, holds: (a, r) => r.owner(a.lwp) === 0 },
  lwp_in_trace_stop: { answer: "held", words: "the process of LWP {lwp} is in a trace stop",
    possible: () => true, holds: (a, r) => r.state(r.owner(a.lwp)) === 1 },
  lwp_in_job_stop: { answer: "held", words: "a stop signal has stopped the process of LWP {lwp}",
    possible: () => true, holds: (a, r) => r.state(r.owner(a.lwp)) === 2 },
  lwp_suspended: { answer: "held", words: "PT_SUSPEND holds LWP {lwp}",
    possible: () => true, holds: (a, r) => r.is_suspended(a.lwp) },
  lwp_waits: { answer: "held", words: "LWP {lwp} waits for the child of its vfork",
    possible: () => true, holds: (a, r) => r.mode(a.lwp) === 2 },
  no_groups: { answer: "EINVAL", words: "which is {which}, and there are no process groups",
    possible: (a) => a.which === 0 || a.which < -1, holds: () => true },
  no_child: { answer: "ECHILD", words: "{caller} has no child and traces no process",
    possible: (a) => a.which === -1, holds: (a, r) => !r.has_child(a.caller, -1) },
  no_child_of_number: { answer: "ECHILD", words: "{which} is neither a child of {caller} nor traced by it",
    possible: (a) => a.which !== -1, holds: (a, r) => !r.has_child(a.caller, a.which) },
  no_signal_to_post: { answer: "EINVAL", words: "{signal} is no signal",
    possible: (a) => !(0 <= a.signal && a.signal <= 31), holds: () => true },
  no_other_process: { answer: "ESRCH", words: "user {user} has no process except {caller}",
    possible: (a) => a.which === -1, holds: (_, r) => r.processes() === 1 },
  process_gone: { answer: "ESRCH", words: "user {user} has no process {which}",
    possible: (a) => a.which !== -1, holds: (a, r) => a.which > 99999 || r.process_of(a.which) === 0 },
  no_signal: { answer: "EINVAL", words: "{signal} is no signal",
    possible: (a) => !(1 <= a.signal && a.signal <= 31), holds: () => true },
  fixed_signal: { answer: "EINVAL", words: "{signal} can be neither caught nor ignored",
    possible: (a) => (a.signal === 9 || a.signal === 17) && a.action !== 0, holds: () => true },
  most_handlers: { answer: "EAGAIN", words: "user {user} has 64 stop handlers",
    possible: () => true, holds: () => true },
  in_no_call: { answer: "EINVAL", words: "LWP {lwp} is in no system call",
    possible: (a) => a.act === 4, holds: (a, r) => r.mode(a.lwp) !== 1 },
  in_a_call: { answer: "EINVAL", words: "LWP {lwp} is in a system call, which it has to leave first",
    possible: (a) => a.act !== 4, holds: (a, r) => r.mode(a.lwp) === 1 },
  no_signal_to_raise: { answer: "EINVAL", words: "{signal} is no signal",
    possible: (a) => a.act === 1 && !(1 <= a.signal && a.signal <= 31), holds: () => true },
  most_processes: { answer: "EAGAIN", words: "user {user} has 250 processes",
    possible: (a) => a.lwp === 0 || a.act === 4, holds: (a, r) => r.processes() >= 250 && (a.lwp === 0 || r.call_of(a.lwp) === 0 || r.call_of(a.lwp) === 1) },
  most_lwps: { answer: "EAGAIN", words: "user {user} has 1000 LWPs",
    possible: (a) => a.lwp === 0 || a.act === 4, holds: (a, r) => r.lwps() >= 1000 && (a.lwp === 0 || r.call_of(a.lwp) === 0 || r.call_of(a.lwp) === 1 || r.call_of(a.lwp) === 3) },
  no_memory: { answer: "ENOMEM", words: "no memory is left",
    possible: () => true, holds: () => true },
  caller_traced: { answer: "EBUSY", words: "{caller} is traced already",
    possible: () => true, holds: (a, r) => r.tracer(a.caller) !== 0 },
  parent_is_1: { answer: "EPERM", words: "the parent of {caller} is process 1",
    possible: () => true, holds: (a, r) => r.parent(a.caller) === 1 },
  traces_its_parent: { answer: "EINVAL", words: "{caller} traces its parent, directly or through others",
    possible: () => true, holds: (a, r) => r.traces(a.caller, r.parent(a.caller)) },
  target_is_0: { answer: "ESRCH", words: "the target is 0, which is no process",
    possible: (a) => a.target === 0, holds: () => true },
  target_process_gone: { answer: "ESRCH", words: "user {user} has no process {target}",
    possible: (a) => a.target !== 0 && a.target <= 99999, holds: (a, r) => r.process_of(a.target) === 0 },
  target_lwp_gone: { answer: "ESRCH", words: "user {user} has no LWP {target}",
    possible: (a) => a.target > 99999, holds: (a, r) => r.process_of(a.target) === 0 },
  target_ended: { answer: "ESRCH", words: "{target} has ended",
    possible: () => true, holds: (a, r) => r.state(r.process_of(a.target)) === 3 },
  traces_itself: { answer: "EINVAL", words: "a process can't trace itself",
    possible: () => true, holds: (a, r) => r.process_of(a.target) === a.caller },
  traced_already: { answer: "EBUSY", words: "{target} is traced already",
    possible: () => true, holds: (a, r) => r.tracer(r.process_of(a.target)) !== 0 },
  traces_the_caller: { answer: "EINVAL", words: "{target} traces {caller}, directly or through others",
    possible: () => true, holds: (a, r) => r.traces(r.process_of(a.target), a.caller) },
  not_traced: { answer: "EPERM", words: "{target} isn't traced",
    possible: () => true, holds: (a, r) => r.tracer(r.process_of(a.target)) === 0 },
  traced_by_another: { answer: "EBUSY", words: "another process traces {target}",
    possible: () => true, holds: (a, r) => r.tracer(r.process_of(a.target)) !== a.caller },
  in_no_stop: { answer: "EBUSY", words: "{target} is in no trace stop",
    possible: () => true, holds: (a, r) => r.state(r.process_of(a.target)) !== 1 },
  stop_not_told: { answer: "EBUSY", words: "no wait has reported the stop of {target}",
    possible: () => true, holds: (a, r) => !r.was_told(r.process_of(a.target)) },
  no_signal_to_pass: { answer: "EINVAL", words: "{signal} is no signal",
    possible: (a) => (a.request === 7 || a.request === 9 || a.request === 20 || a.request === 21 || a.request === 22 || a.request === 11) && !(0 <= a.data && a.data <= 31), holds: () => true },
  no_count: { answer: "EINVAL", words: "data is 0, and has to be how many LWPs to list",
    possible: (a) => a.request === 15 && a.data === 0, holds: () => true },
  unnamed_events: { answer: "EINVAL", words: "the mask's {unnamed} is no event",
    possible: (a) => a.request === 26 && a.unnamed !== 0, holds: () => true },
};
// end

// tools/format calls
export const ASKED_CALLS = [
  { op: "spawn", request: -1, order: ["most_processes", "most_lwps", "no_memory"] },
  { op: "list", request: -1, order: ["caller_gone", "caller_in_trace_stop", "caller_in_job_stop", "no_memory"] },
  { op: "wait4", request: -1, order: ["caller_gone", "caller_in_trace_stop", "caller_in_job_stop", "no_groups", "no_child", "no_child_of_number"] },
  { op: "handle", request: -1, order: ["caller_gone", "caller_in_trace_stop", "caller_in_job_stop", "no_child"] },
  { op: "kill", request: -1, order: ["caller_gone", "caller_in_trace_stop", "caller_in_job_stop", "no_signal_to_post", "no_groups", "no_other_process", "process_gone"] },
  { op: "sigaction", request: -1, order: ["caller_gone", "caller_in_trace_stop", "caller_in_job_stop", "no_signal", "fixed_signal"] },
  { op: "install", request: -1, order: ["caller_gone", "caller_in_trace_stop", "caller_in_job_stop", "most_handlers", "no_memory"] },
  { op: "turn", request: -1, order: ["no_number_of_lwp", "lwp_gone", "lwp_in_trace_stop", "lwp_in_job_stop", "lwp_suspended", "lwp_waits", "in_no_call", "in_a_call", "no_signal_to_raise", "most_processes", "most_lwps", "no_memory"] },
  { op: "ptrace", request: 0, order: ["caller_gone", "caller_in_trace_stop", "caller_in_job_stop", "caller_traced", "parent_is_1", "traces_its_parent"] },
  { op: "ptrace", request: 10, order: ["caller_gone", "caller_in_trace_stop", "caller_in_job_stop", "target_is_0", "target_process_gone", "target_lwp_gone", "target_ended", "traces_itself", "traced_already", "traces_the_caller"] },
  { op: "ptrace", request: -1, order: ["caller_gone", "caller_in_trace_stop", "caller_in_job_stop", "target_is_0", "target_process_gone", "target_lwp_gone", "target_ended", "not_traced", "traced_by_another", "in_no_stop", "stop_not_told", "no_signal_to_pass", "no_count", "unnamed_events", "no_memory"] },
];
// end
