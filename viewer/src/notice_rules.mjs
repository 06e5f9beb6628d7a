/** What an author of a debugger may want to look at: rules. `tools/format` writes them from format/notices.toml. */

/**
 * A rule, and what it says if it holds: `open` is what a debugger may still do after the end. `at` is
 * the fact that is the step to look at, "" for the step that it is asked of.
 *
 * @typedef {{name: string, kind: "wrong" | "open", of: string, at: string, words: string, holds: (facts: any) => any}} Rule
 */

/** @type {Rule[]} */
// tools/format rules
export const RULES = [
  { name: "signal_dropped", kind: "wrong", of: "go_on", at: "", words: "{request} of {pid} drops its {stop_signal}",
    holds: (f) => f.stop_signal !== 0 && f.passed_signal === 0 && f.stop_signal !== 17 && f.stop_signal !== 5 },
  { name: "signal_replaced", kind: "wrong", of: "go_on", at: "", words: "{request} of {pid} passes {passed_signal} for its {stop_signal}",
    holds: (f) => f.stop_signal !== 0 && f.passed_signal !== 0 && f.passed_signal !== f.stop_signal },
  { name: "trap_left", kind: "wrong", of: "go_on", at: "", words: "{pid} is detached with a pending SIGTRAP",
    holds: (f) => f.is_detach && f.has_trap },
  { name: "all_suspended", kind: "wrong", of: "go_on", at: "", words: "{request} of {pid} lets nothing run: all its LWPs are suspended",
    holds: (f) => !f.is_detach && f.state === 0 && f.running === 0 },
  { name: "after_the_end", kind: "wrong", of: "refusal", at: "", words: "{request} of {pid}, whose end step {ended_at} has reported",
    holds: (f) => f.ended_at !== 0 && !f.is_wait && !f.is_attach },
  { name: "attach_failed", kind: "wrong", of: "refusal", at: "", words: "{request} of {pid}, to which {caller} hasn't attached: step {failed_at} failed",
    holds: (f) => f.failed_at !== 0 && !f.is_attach && !f.is_kill },
  { name: "of_another_user", kind: "wrong", of: "refusal", at: "", words: "{request} of {pid}, which is a number of user {owner}",
    holds: (f) => f.owner !== 0 },
  { name: "before_the_wait", kind: "wrong", of: "refusal", at: "", words: "{request} of {pid} comes before the wait that reports its {stop_signal}",
    holds: (f) => f.is_tracee && !f.is_wait && !f.is_kill && !f.is_attach && f.state === 1 && !f.is_reported },
  { name: "while_it_runs", kind: "wrong", of: "refusal", at: "", words: "{request} of {pid}, which runs since step {went_on_at}",
    holds: (f) => f.is_tracee && !f.is_wait && !f.is_kill && !f.is_attach && f.state === 0 && !f.has_kill && f.went_on_at !== 0 },
  { name: "debugger_ends", kind: "wrong", of: "debugger", at: "", words: "{pid} ends while it traces {tracee}",
    holds: (f) => f.tracee !== 0 },
  { name: "vfork_deadlock", kind: "wrong", of: "process", at: "missed_at", words: "{waiter} waits only for {parent}, which waits for its vfork's child {pid}, and no wait reports the {stop_signal} of {pid}",
    holds: (f) => f.state === 1 && !f.is_reported && f.missed_at !== 0 },
  { name: "stop_not_reported", kind: "open", of: "process", at: "since", words: "no wait of {waiter} reports this {stop_signal} of {pid}",
    holds: (f) => f.is_tracee && f.state === 1 && !f.is_reported && f.missed_at === 0 && !f.is_new },
  { name: "stop_lost", kind: "open", of: "process", at: "vain_at", words: "{waiter} waits, but {pid} is still in the stop that it reported",
    holds: (f) => f.state === 1 && f.is_reported && f.vain_at !== 0 },
  { name: "stop_not_left", kind: "open", of: "process", at: "reported_at", words: "{waiter} hasn't let {pid} go on from this {stop_signal}",
    holds: (f) => f.is_tracee && f.state === 1 && f.is_reported && f.vain_at === 0 && !f.is_new },
  { name: "end_not_reported", kind: "open", of: "process", at: "since", words: "no wait of {waiter} reports the end of {pid}",
    holds: (f) => f.state === 3 && f.waiter !== 0 && !f.is_new },
  { name: "step_of_the_process", kind: "open", of: "process", at: "stepped_at", words: "PT_STEP of {pid} steps LWP {stepping}, which had reported the stop; its other LWPs run freely",
    holds: (f) => f.stepped_at !== 0 && f.state !== 3 },
  { name: "vfork_waits", kind: "open", of: "lwp", at: "since", words: "LWP {lwp} waits for its vfork's child {child}, which is in a stop: {tracer} has to let it go on",
    holds: (f) => f.child !== 0 && f.child_state === 1 },
  { name: "lwp_suspended", kind: "open", of: "lwp", at: "suspended_at", words: "LWP {lwp} is still suspended while others of {pid} run",
    holds: (f) => f.suspended_at !== 0 },
];
// end
