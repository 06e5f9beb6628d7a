/** The session: what the steps of a run ask and their replies say, as marks on lanes, with links between them. */

import { Lane } from "./lanes.mjs";
import { LAST_PROCESS, RESUMES, signalName } from "./names.mjs";
import { action, callText, decisionText, objectText, statusText, stopText } from "./words.mjs";

/** @typedef {import("./lanes.mjs").Entry} Entry */

/**
 * Lanes, marks, links and spans of tracing. How long processes, stops and calls last is for its subclasses to say: by
 * what the lines tell of the rows (known.mjs), or by what follows from the replies (concluded.mjs).
 */
export class Session {
  /** @param {Entry[]} entries */
  constructor(entries) {
    this.entries = entries;
    this.lanes = [];
    this.marks = [];
    this.links = [];
    this.spans = [];
    this.current = { process: new Map(), lwp: new Map() }; // the lane of a number, as it is used now
    this.users = new Map();
    this.input = null;
    /** @type {Map<number, import("./state.mjs").History>} what each user sees, if the lines say it */
    this.histories = new Map();
    /** @type {import("./notices.mjs").Notice[]} what to look at, if the lines say it */
    this.notices = [];
  }

  /** Reads all steps. */
  readAll() {
    for (const entry of this.entries) {
      this.now = entry.index;
      this.entry = entry;
      if (entry.reply.refused) this.mark("refused", this.inputLane(), entry.reply.refused);
      else {
        this.prepare(entry);
        const home = this.home(entry);
        this.place(home, entry);
        this.follow(entry, home);
      }
    }
    for (const lane of this.lanes) lane.marks.sort((one, other) => one.at - other.at);
  }

  /**
   * What has to be there before the step's mark is made: lanes of what it has made.
   *
   * @param {Entry} _entry
   */
  prepare(_entry) {}

  /**
   * What begins and ends with the step.
   *
   * @param {Entry} _entry
   * @param {Lane} _home
   */
  follow(_entry, _home) {}

  /** The lane of the caller or the LWP that makes the step, or of the user if neither is known. */
  home({ asked }) {
    if (!asked || asked.op === "spawn") return this.user();
    const lane = asked.op === "turn" ? this.known("lwp", asked.lwp) : this.known("process", asked.caller);
    return lane ?? this.user();
  }

  // ---- marks, links, lanes

  mark(kind, lane, label, { at = this.now, primary = true } = {}) {
    const mark = { kind, lane, label, at, primary, entry: this.entries[at], source: this.entry,
      column: 0, shift: 0, x: 0 };
    lane.marks.push(mark);
    this.marks.push(mark);
    return mark;
  }

  echo(kind, lane, label, at = this.now) {
    return this.mark(kind, lane, label, { at, primary: false });
  }

  link(kind, from, to, at = this.now) {
    if (from && to && from !== to) this.links.push({ kind, from, to, at });
  }

  add(lane) {
    this.lanes.push(lane);
    return lane;
  }

  user(number = this.entry.reply.user) {
    if (!this.users.has(number)) this.users.set(number, this.add(new Lane("user", number, number, 0)));
    return this.users.get(number);
  }

  userNumbers() {
    return [...this.users.keys()].sort((one, other) => one - other);
  }

  inputLane() {
    this.input ??= this.add(new Lane("input", 0, 0, 0));
    return this.input;
  }

  /** The user's process or LWP of the number, or undefined. */
  known(kind, number) {
    const lane = this.current[kind].get(number);
    return lane && lane.user === this.entry.reply.user ? lane : undefined;
  }

  addProcess(pid, from) {
    const lane = this.add(new Lane("process", pid, this.entry.reply.user, from));
    this.current.process.set(pid, lane);
    this.user().live.add(lane);
    return lane;
  }

  addLwp(number, owner, from) {
    const before = this.current.lwp.get(number);
    if (before && before.to === null) before.to = from;
    const lane = this.add(new Lane("lwp", number, this.entry.reply.user, from, owner));
    this.current.lwp.set(number, lane);
    this.user();
    owner?.lwps.push(lane);
    return lane;
  }

  /** The lane of a process that a step or a reply names; one that nothing before it names is first seen here. */
  process(pid) {
    const lane = this.known("process", pid);
    if (lane) return lane;
    const seen = this.addProcess(pid, this.now);
    this.echo("seen", seen, "first seen");
    return seen;
  }

  lwp(number) {
    return this.known("lwp", number) ?? this.addLwp(number, null, this.now);
  }

  /** The process that a request's target means. */
  target(number) {
    if (number === undefined) return null;
    return number <= LAST_PROCESS ? this.process(number) : this.lwp(number).owner;
  }

  /** The processes that a kill(2) of a caller means. */
  targets(caller, which) {
    return which === -1 ? [...this.user().live].filter((lane) => lane !== caller) : [this.process(which)];
  }

  // ---- stretches: stops, tracing, calls, suspensions, waits after vfork

  openStop(process, lwp, label, at = this.now) {
    this.closeStop(process, at);
    process.stop = { kind: "stopped", from: at, to: null, reported: null, label, lwp };
    process.bands.push(process.stop);
  }

  closeStop(process, at = this.now) {
    if (process.stop) process.stop.to = at;
    process.stop = null;
  }

  trace(tracer, tracee, at = this.now) {
    this.untrace(tracee, at);
    tracee.tracer = tracer;
    if (tracer?.tracees.size === 0) tracer.tracees = new Set();
    tracer?.tracees.add(tracee);
    tracee.span = { tracer, tracee, from: at, to: null };
    this.spans.push(tracee.span);
  }

  untrace(tracee, at = this.now) {
    if (tracee.span) tracee.span.to = at;
    tracee.tracer?.tracees.delete(tracee);
    tracee.span = null;
    tracee.tracer = null;
  }

  suspend(lwp) {
    if (lwp.suspended) return;
    lwp.suspended = { kind: "suspended", from: this.now, to: null };
    lwp.bands.push(lwp.suspended);
  }

  unsuspend(lwp, at = this.now) {
    if (lwp.suspended) lwp.suspended.to = at;
    lwp.suspended = null;
  }

  openCall(lwp, name) {
    this.endCall(lwp);
    lwp.call = { kind: "call", from: this.now, to: null, name };
    lwp.bands.push(lwp.call);
  }

  endCall(lwp, at = this.now) {
    if (lwp.call) lwp.call.to = at;
    lwp.call = null;
  }

  /** The LWP's vfork has made the child: the LWP runs again when the child has done an exec, or has ended. */
  waitForChild(lwp, child) {
    lwp.waiting = { kind: "waiting", from: this.now, to: null, child };
    lwp.bands.push(lwp.waiting);
  }

  endWaiting(lwp, at = this.now) {
    if (lwp.waiting) lwp.waiting.to = at;
    lwp.waiting = null;
  }

  endLwp(lwp, at = this.now) {
    lwp.to = at;
    this.unsuspend(lwp, at);
    this.endWaiting(lwp, at);
    this.endCall(lwp, at);
  }

  // ---- marks of steps with their replies

  place(home, { reply, asked }) {
    if (reply.reply === "error") return this.mark("error", home, `${action(asked)} ${reply.errno}`.trim());
    if (reply.reply === "held") return this.mark("held", home, "held");
    if (!asked) return this.placeReply(home, reply);
    switch (asked.op) {
      case "spawn": return this.placeBirth(null);
      case "turn": return this.placeTurn(home, reply, asked);
      case "ptrace": return this.placeRequest(home, reply, asked);
      case "wait4": case "handle": return this.placeWait(home, reply);
      case "kill": return this.placeKill(home, asked);
      default: return this.mark("request", home, action(asked) + (asked.op === "sigaction" ? objectText(asked) : ""));
    }
  }

  /** A reply without its step: it is drawn where its own numbers say. */
  placeReply(home, reply) {
    switch (reply.reply) {
      case "new": return this.placeBirth(null);
      case "stopped": return this.placeStop(this.lwp(reply.lwp), reply, null);
      case "status": case "handled": return this.placeWait(this.process(reply.pid), reply);
      case "info": return this.mark("request", this.lwp(reply.lwp), "info");
      case "ended": return this.mark("end", home, statusText(reply));
      case "caught": return this.mark("caught", home, reply.signal);
      case "nothing": return this.mark("nothing", home, "nothing");
      case "ok": return this.mark("ok", home, "");
      default: return this.mark("request", home, reply.reply);
    }
  }

  /** A new process, or a new LWP of a process; the maker is the LWP whose call made it, if that is known. */
  placeBirth(maker) {
    const { pid, lwp } = this.entry.reply;
    const [process, lane] = [this.process(pid), this.lwp(lwp)];
    if (process.lwps[0] !== lane) {
      this.link("birth", maker, lane);
      return this.mark("lwp-birth", lane, "thr_new");
    }
    this.link("birth", maker, process);
    const origin = maker && `${maker.call?.name ?? "child"} of ${maker.owner?.number ?? maker.name}`;
    return this.mark("birth", process, origin ?? (this.entry.asked ? "spawn" : "new"));
  }

  placeTurn(lwp, reply, asked) {
    switch (reply.reply) {
      case "stopped": return this.placeStop(lwp, reply, asked);
      case "caught": return this.mark("caught", lwp, reply.signal);
      case "ended": return this.mark("end", lwp.owner ?? lwp, statusText(reply));
      case "new": return this.placeBirth(lwp);
      default: return this.placeAct(lwp, asked);
    }
  }

  placeAct(lwp, asked) {
    switch (asked.act) {
      case "raise": return this.mark("post", lwp, signalName(asked.signal));
      case "enter": return this.mark("call", lwp, callText(asked));
      case "leave": return this.mark("leave", lwp, lwp.call ? `leave ${lwp.call.name}` : "leave");
      default: return this.mark("run", lwp, asked.act === "block" ? `block${objectText(asked)}` : "");
    }
  }

  placeStop(lwp, reply, asked) {
    const call = asked?.act === "enter" ? callText(asked) : lwp.call?.name;
    const isEntry = call && reply.flags.includes("PL_FLAG_SCE");
    return this.mark("stop", lwp, isEntry ? `${stopText(reply)} ${call}` : stopText(reply));
  }

  placeWait(home, reply) {
    if (reply.reply === "nothing") return this.mark("nothing", home, "nothing");
    this.link("reported", this.process(reply.pid), home);
    if (reply.reply === "status") return this.mark("wait", home, `${reply.pid} ${statusText(reply)}`);
    return this.mark("handled", home, `${reply.pid} ${stopText(reply.at)}: ${decisionText(reply)}`);
  }

  placeKill(home, { which, signal }) {
    if (signal === 0) return this.mark("request", home, "kill 0");
    const targets = this.targets(home, which);
    if (targets.length === 0) return this.mark("post", home, `${signalName(signal)} to all others`);
    targets.forEach((target, place) => {
      this.mark("post", target, signalName(signal), { primary: place === 0 });
      this.link("post", home, target);
    });
    return undefined;
  }

  placeRequest(home, reply, asked) {
    const { request, data } = asked;
    const target = this.target(asked.target);
    const kind = { PT_ATTACH: "attach", PT_TRACE_ME: "attach", PT_DETACH: "detach", PT_KILL: "kill" }[request]
      ?? (RESUMES.includes(request) ? "resume" : "request");
    this.mark(kind, home, RESUMES.includes(request) && data ? `${request} ${signalName(data)}` : request);
    if (request === "PT_TRACE_ME") this.link("attach", home.parent, home);
    this.link(kind, home, reply.reply === "info" ? this.lwp(reply.lwp) : target);
  }
}
