/** What an author of a debugger may want to look at in a session: the rules of notice_rules.mjs, asked of its steps and rows. */

import { FIRST_LWP, FIRST_PROCESS, FIRST_USER, LAST_PROCESS, LWP_NUMBERS, PROCESS_NUMBERS, RESUMES, signalName, SIGNALS } from "./names.mjs";
import { RULES } from "./notice_rules.mjs";
import { change, noRows } from "./state.mjs";

/**
 * The index of an entry, and what to look at there; what is `open` is so at the end of the session.
 *
 * @typedef {{at: number, user: number, kind: "wrong" | "open", text: string}} Notice
 * @typedef {import("./state.mjs").ProcessRow} ProcessRow
 * @typedef {import("./lanes.mjs").Entry} Entry
 */

const NUMBERED_STATES = ["runs", "trace_stop", "job_stop", "zombie"];
const DECISIONS = { continue: "PT_CONTINUE", detach: "PT_DETACH" };
/** What isn't known of a process, and a process that isn't there. */
const UNTOLD = { since: 0, reportedAt: 0, wentOnAt: 0, vainAt: 0, missedAt: 0, steppedAt: 0, waitsMissed: 0, missedFor: 0,
  stepping: 0, haveOthersGoneOn: false };
/** @type {any[]} */
const NONE = [];
const NO_PROCESS = { state: "runs", pending: [], reported: false, tracer: undefined, stop_signal: undefined, stop_lwp: 0 };

const isZombie = ({ state }) => state === "zombie";
/** @param {ProcessRow} row */
const isReportedStop = ({ state, reported }) => state === "trace_stop" && Boolean(reported);
const signalNumber = (signal) => (signal ? SIGNALS.indexOf(signal) : 0);
const factText = (name, value) => (name.endsWith("signal") ? signalName(value) : String(value));

/** The process or LWP that a call names, or 0; it is negative if it names several. */
const namedBy = ({ op, target = 0, which = 0 }) => (op === "ptrace" ? target : op === "kill" || op === "wait4" ? which : 0);
const failureKey = (asked) => `${asked.caller} ${namedBy(asked)}`;

/** The other user of the session whose number it is, or 0. */
function ownerOf(number, user, users) {
  const owner = number <= LAST_PROCESS ? FIRST_USER + Math.floor((number - FIRST_PROCESS) / PROCESS_NUMBERS)
    : FIRST_USER + Math.floor((number - FIRST_LWP) / LWP_NUMBERS);
  return owner !== user && users.has(owner) ? owner : 0;
}

/** A user's rows, and what the steps have told of them. Steps are counted from 1. */
class UserNotices {
  /**
   * @param {number} user
   * @param {Set<number>} users  of the session
   */
  constructor(user, users) {
    this.user = user;
    this.users = users;
    /** @type {Notice[]} */
    this.found = [];
    this.rows = noRows();
    /** @type {Map<number, typeof UNTOLD>} */
    this.told = new Map();
    this.endedAt = new Map();
    this.suspendedAt = new Map();
    this.failedAt = new Map(); // by caller and target
    this.withNews = new Set(); // those to whom a stop was reported since they let a process go on
    this.missed = new Set(); // the processes that waits have missed
    this.last = 0;
  }

  /** @param {Entry} entry  the user's next one */
  read(entry) {
    const { asked, reply: { reply: word, rows } } = entry;
    const at = entry.index + 1;
    this.last = at;
    const refusal = word === "error" ? this.refusal(entry, at) : null;
    if (refusal) this.ask("refusal", at, refusal);
    if (word === "ok" && this.failedAt.size) this.failedAt.delete(failureKey(asked));
    const goneOn = this.goneOn(entry);
    const debuggers = this.ended(rows).map((pid) => ({ pid, tracee: this.firstTracee(pid) }));
    this.noteRows(at, rows);
    change(this.rows, rows);
    for (const pid of rows.removed_processes ?? []) this.told.delete(pid);
    if (asked.op === "wait4" || asked.op === "handle") this.noteAnswer(entry, at);
    if (goneOn) this.ask("go_on", at, this.letOn(entry, at, goneOn));
    for (const facts of debuggers) this.ask("debugger", at, facts);
  }

  /** The session ends. */
  end() {
    for (const row of this.rows.processes.values()) this.ask("process", this.last, this.factsOfProcess(row));
    for (const row of this.rows.lwps.values()) this.ask("lwp", this.last, this.factsOfLwp(row));
  }

  ask(of, at, facts) {
    for (const rule of RULES) {
      if (rule.of !== of || !rule.holds(facts)) continue;
      const text = rule.words.replace(/\{(\w+)\}/g, (_, name) => factText(name, facts[name]));
      this.found.push({ at: (rule.at ? facts[rule.at] : at) - 1, user: this.user, kind: rule.kind, text });
    }
  }

  // ---- what a step asks and answers

  process(pid) {
    return this.rows.processes.get(pid) ?? NO_PROCESS;
  }

  toldOf(pid) {
    if (!this.told.has(pid)) this.told.set(pid, { ...UNTOLD });
    return this.told.get(pid);
  }

  lwpsOf(pid) {
    const found = [];
    for (const lwp of this.rows.lwps.values()) if (lwp.pid === pid) found.push(lwp);
    return found;
  }

  /** The facts of a process that goes on, before the step; null if none does. */
  goneOn({ asked, reply }) {
    const isDecided = reply.reply === "handled" && DECISIONS[reply.decision];
    if (!isDecided && (asked.op !== "ptrace" || reply.reply !== "ok" || !RESUMES.includes(asked.request))) return null;
    const pid = isDecided ? reply.pid : this.rows.lwps.get(asked.target)?.pid ?? asked.target;
    const request = isDecided ? DECISIONS[reply.decision] : asked.request;
    const { stop_signal: stop, stop_lwp: by = 0, pending = [] } = this.process(pid);
    const lwps = this.lwpsOf(pid);
    return {
      request, pid, stop_signal: signalNumber(isDecided ? reply.stopped : stop),
      passed_signal: isDecided ? reply.pass?.number ?? 0 : asked.data ?? 0,
      has_trap: [pending, ...lwps.map((lwp) => lwp.pending ?? [])].some((signals) => signals.includes("SIGTRAP")),
      is_detach: request === "PT_DETACH",
      stepping: request === "PT_STEP" && asked.target === pid && lwps.length > 1 ? by : 0,
    };
  }

  /** The same with what is so afterwards. */
  letOn({ asked }, at, facts) {
    const told = this.toldOf(facts.pid);
    Object.assign(told, { steppedAt: facts.stepping ? at : 0, stepping: facts.stepping });
    this.withNews.delete(asked.caller);
    for (const row of this.rows.processes.values()) {
      if (row.pid !== facts.pid && row.tracer === asked.caller && isReportedStop(row)) this.toldOf(row.pid).haveOthersGoneOn = true;
    }
    return {
      ...facts, state: NUMBERED_STATES.indexOf(this.rows.processes.get(facts.pid)?.state ?? "zombie"),
      running: this.lwpsOf(facts.pid).filter(({ suspended }) => !suspended).length,
    };
  }

  /** The facts of an errno that answers what names a process; null if it is none. */
  refusal({ asked }, at) {
    const number = namedBy(asked);
    if (number <= 0) return null;
    const key = failureKey(asked);
    const request = asked.request ?? asked.op;
    const pid = this.rows.lwps.get(number)?.pid ?? number;
    const row = this.process(pid);
    const facts = {
      request, caller: asked.caller, pid: number, is_wait: request === "wait4", is_kill: request === "kill",
      is_attach: request === "PT_ATTACH", ended_at: this.endedAt.get(number) ?? 0, failed_at: this.failedAt.get(key) ?? 0,
      owner: ownerOf(number, this.user, this.users), is_tracee: row.tracer === asked.caller, state: NUMBERED_STATES.indexOf(row.state),
      is_reported: Boolean(row.reported), stop_signal: signalNumber(row.stop_signal), went_on_at: (this.told.get(pid) ?? UNTOLD).wentOnAt,
      has_kill: (row.pending ?? []).includes("SIGKILL"),
    };
    if (facts.is_attach && !facts.is_tracee) this.failedAt.set(key, at);
    return facts;
  }

  noteAnswer({ asked, reply }, at) {
    const { caller, which = -1 } = asked;
    if (reply.stopped !== undefined) this.withNews.add(caller);
    else if (reply.pid !== undefined && reply.continued === undefined) this.endedAt.set(reply.pid, at);
    for (const pid of this.missed) {
      if (which !== -1 && which !== pid || this.process(pid).tracer !== caller) continue;
      this.toldOf(pid).waitsMissed = 0;
      this.missed.delete(pid);
    }
    if (reply.reply === "nothing") this.noteVainWait(at, caller, which);
  }

  noteVainWait(at, caller, which) {
    /** @param {ProcessRow} row */
    const isOwn = ({ tracer, parent }) => (tracer ?? parent) === caller;
    if (which === -1 && !this.withNews.has(caller)) {
      const own = [...this.rows.processes.values()].filter(isOwn);
      if (own.every(isReportedStop)) for (const { pid } of own) if (this.toldOf(pid).haveOthersGoneOn) this.toldOf(pid).vainAt ||= at;
    }
    if (which === -1) return;
    for (const { pid, vfork_child: child } of this.rows.lwps.values()) {
      if (pid !== which || child === undefined) continue;
      const row = this.rows.processes.get(child);
      if (row?.state !== "trace_stop" || row.reported || !isOwn(row)) continue;
      const told = this.toldOf(child);
      Object.assign(told, { waitsMissed: told.waitsMissed + 1, missedFor: which });
      this.missed.add(child);
      if (told.waitsMissed === 2) told.missedAt ||= at;
    }
  }

  // ---- rows

  /** The processes that end with these changes. */
  ended({ processes = NONE, removed_processes: gone = NONE }) {
    if (gone === NONE && !processes.some(isZombie)) return NONE;
    const zombies = processes.filter(isZombie).map(({ pid }) => pid);
    return [...zombies, ...gone].filter((pid) => (this.rows.processes.get(pid)?.state ?? "zombie") !== "zombie");
  }

  /** The process of the least number that one traces; 0 if it traces none. */
  firstTracee(pid) {
    const traced = [...this.rows.processes.values()].filter(({ tracer, state }) => tracer === pid && state !== "zombie");
    return traced.length ? Math.min(...traced.map((row) => row.pid)) : 0;
  }

  /** What changes is told of, before the rows change. */
  noteRows(at, { processes = NONE, lwps = NONE }) {
    for (const row of processes) this.noteProcess(at, row);
    for (const { lwp, suspended } of lwps) {
      if (suspended && !this.rows.lwps.get(lwp)?.suspended) this.suspendedAt.set(lwp, at);
    }
  }

  /** When a stop begins, is reported and ends, and when a process ends. */
  noteProcess(at, row) {
    const before = this.rows.processes.get(row.pid);
    if (!before) {
      this.told.delete(row.pid);
      this.endedAt.delete(row.pid);
    }
    const told = this.toldOf(row.pid);
    const { state: was, reported: wasReported } = before ?? NO_PROCESS;
    const isNewStop = row.state === "trace_stop" && (was !== row.state || (wasReported && !row.reported));
    if (isNewStop || (row.state === "zombie" && was !== "zombie")) Object.assign(told, { since: at, waitsMissed: 0, missedAt: 0 });
    if (isReportedStop(row) && (isNewStop || !wasReported)) {
      Object.assign(told, { reportedAt: at, vainAt: 0, haveOthersGoneOn: false });
    }
    if (was === "trace_stop" && row.state === "runs") told.wentOnAt = at;
  }

  // ---- the end

  /** @param {ProcessRow} row */
  factsOfProcess(row) {
    const told = this.toldOf(row.pid);
    const waiter = row.tracer ?? row.parent;
    const isThere = (this.rows.processes.get(waiter)?.state ?? "zombie") !== "zombie";
    return {
      pid: row.pid, waiter: isThere ? waiter : 0, is_tracee: row.tracer !== undefined, state: NUMBERED_STATES.indexOf(row.state),
      is_reported: Boolean(row.reported), stop_signal: signalNumber(row.stop_signal), since: told.since, reported_at: told.reportedAt,
      is_new: Math.max(told.since, told.reportedAt) === this.last, vain_at: told.vainAt, parent: told.missedFor, missed_at: told.missedAt,
      stepped_at: told.steppedAt, stepping: told.stepping,
    };
  }

  /** @param {import("./state.mjs").LwpRow} row */
  factsOfLwp({ lwp, pid, vfork_child: child = 0, suspended }) {
    const isLeft = suspended && this.process(pid).state === "runs" && this.lwpsOf(pid).some((one) => one.lwp !== lwp && !one.suspended);
    const { tracer = 0, state } = this.process(child);
    return {
      lwp, pid, child, tracer, child_state: NUMBERED_STATES.indexOf(state), since: this.told.get(child)?.since ?? 0,
      suspended_at: isLeft ? this.suspendedAt.get(lwp) ?? 0 : 0,
    };
  }
}

/**
 * @param {Entry[]} entries  each with rows
 * @returns {Notice[]} by their entries
 */
export function noticesOf(entries) {
  const users = new Set(entries.map(({ reply }) => reply.user));
  const readers = new Map([...users].sort((one, other) => one - other).map((user) => [user, new UserNotices(user, users)]));
  for (const entry of entries) readers.get(entry.reply.user).read(entry);
  for (const reader of readers.values()) reader.end();
  return [...readers.values()].flatMap(({ found }) => found).sort((one, other) => one.at - other.at);
}

/**
 * Equal ones once, with how many there are: the user's first, then what may be wrong, then what is nearest before an entry.
 *
 * @param {Notice[]} notices
 * @param {number} at  the index of the entry
 * @param {number | undefined} user
 * @returns {(Notice & {count: number})[]}
 */
export function nearestFirst(notices, at, user) {
  const rank = (one) => [one.user !== user, one.kind !== "wrong", one.at > at, Math.abs(at - one.at)].map(Number);
  const order = (one, other) => {
    const ranks = [rank(one), rank(other)];
    return ranks[0].map((value, place) => value - ranks[1][place]).find((difference) => difference !== 0) ?? 0;
  };
  const found = new Map();
  notices.forEach((notice, place) => {
    const key = `${notice.user} ${notice.kind} ${notice.text}`;
    const known = found.get(key);
    if (!known || order(notice, known.notice) < 0) found.set(key, { notice, place, count: (known?.count ?? 0) + 1 });
    else known.count += 1;
  });
  return [...found.values()].sort((one, other) => order(one.notice, other.notice) || one.place - other.place)
    .map(({ notice, count }) => ({ ...notice, count }));
}
