/** A session of lines without rows: how long everything lasts follows from the steps and their replies. */

import { Hints } from "./lanes.mjs";
import { LAST_PROCESS, RESUMES, SIGCONT, SIGKILL, signalName } from "./names.mjs";
import { Session } from "./session.mjs";
import { histories } from "./state.mjs";
import { callText, statusText, stopText } from "./words.mjs";

export class ConcludedSession extends Session {
  /**
   * @param {import("./lanes.mjs").Entry[]} entries
   * @param {boolean} killsTracees  whether the end of a debugger kills what it traces
   */
  constructor(entries, killsTracees) {
    super(entries);
    this.killsTracees = killsTracees;
    this.forks = []; // followed forks without a reply that names the child
    this.hints = new Hints(entries);
    this.histories = histories(entries);
    this.readAll();
    for (const lane of this.lanes) if (lane.kind === "lwp" && !lane.owner && lane.to === null) this.endUnowned(lane);
  }

  // ---- lanes

  addProcess(pid, from) {
    const before = this.current.process.get(pid);
    if (before && before.to === null) this.end(before, from, true);
    return super.addProcess(pid, from);
  }

  /** The lane of a process that a step or a reply names; one without a `new` is first seen here, or a child. */
  process(pid) {
    if (this.known("process", pid)) return super.process(pid);
    const forks = this.forks.filter((fork) => fork.lane.user === this.entry.reply.user);
    return forks.length === 1 ? this.followed(pid, forks[0]) : super.process(pid);
  }

  /** The lane of an LWP. Its process is the one of later replies, else the only one without a known LWP. */
  lwp(number) {
    const lane = this.known("lwp", number);
    if (lane) return lane;
    const pid = this.hints.owner(number, this.now);
    const owner = pid === undefined ? this.onlyWithoutLwp() : this.process(pid);
    return this.addLwp(number, owner, owner && owner.lwps.length === 0 ? owner.from : this.now);
  }

  onlyWithoutLwp() {
    const lanes = [...this.user().live].filter((lane) => lane.lwps.length === 0);
    return lanes.length === 1 ? lanes[0] : null;
  }

  /** The lanes of what a reply `new` tells of. */
  prepare({ reply, asked }) {
    if (reply.reply !== "new") return;
    const maker = asked?.op === "turn" ? this.lwp(asked.lwp) : null;
    const process = this.known("process", reply.pid);
    const isThread = maker ? maker.owner === process && process : !asked && process?.to === null;
    if (maker) this.endWaiting(maker);
    if (isThread) {
      this.addLwp(reply.lwp, process, this.now);
      return;
    }
    const lane = this.addProcess(reply.pid, this.now);
    Object.assign(lane, { parent: maker?.owner ?? null, maker });
    this.addLwp(reply.lwp, lane, this.now);
    if (maker?.call?.name === "vfork") this.waitForChild(maker, lane);
  }

  home({ reply, asked }) {
    if (!asked || asked.op === "spawn") return this.user();
    const [kind, number] = asked.op === "turn" ? ["lwp", asked.lwp] : ["process", asked.caller];
    if (reply.reply === "error" && reply.errno === "ESRCH") return this.absent(kind, number);
    const lane = this[kind](number);
    this.lives(lane.owner ?? lane);
    return lane;
  }

  /** The lane that ESRCH is about: of a turn its LWP, of a call its caller or target; else the user's. */
  absent(kind, number) {
    const lane = this.known(kind, number);
    if (kind === "lwp" && lane?.to === null) {
      const { passed } = lane.owner ?? lane;
      if (passed) this.gone(lane.owner, passed.at, `ended by ${signalName(passed.signal)}`);
      else this.endLwp(lane, this.now);
    }
    return lane ?? this.user();
  }

  // ---- ends

  untrace(tracee, at = this.now) {
    for (const lwp of tracee.lwps) this.unsuspend(lwp, at);
    super.untrace(tracee, at);
  }

  /** The process goes on, with the signal or with 0. */
  resume(process, signal) {
    this.closeStop(process);
    process.passed = signal ? { signal, at: this.now } : null;
    for (const lwp of process.lwps) if (lwp.exiting && lwp.to === null) this.endLwp(lwp, this.now);
  }

  /** An LWP whose process isn't known: nothing shows its end, so its lane ends with its last mark. */
  endUnowned(lwp) {
    if (lwp.marks.length) this.endLwp(lwp, lwp.marks.at(-1).at);
  }

  /** The end of a process, with what follows for those that it traces. */
  end(process, at, concluded) {
    Object.assign(process, { to: at, seenTo: at, concluded });
    this.user(process.user).live.delete(process);
    this.closeStop(process, at);
    this.untrace(process, at);
    this.release(process, at);
    for (const lwp of process.lwps) if (lwp.to === null) this.endLwp(lwp, at);
    for (const tracee of process.tracees) {
      if (this.killsTracees) this.gone(tracee, at, "killed with its debugger");
      this.closeStop(tracee, at);
      this.untrace(tracee, at);
    }
  }

  /** An end without `ended`. */
  gone(process, at, label) {
    if (process.to !== null) return;
    this.echo("gone", process, label, at);
    this.end(process, at, true);
  }

  /** The process makes a step: a concluded end didn't happen, and the last signal passed on didn't end it. */
  lives(process) {
    process.passed = null;
    if (!process.concluded) return;
    const isGone = (mark) => mark.kind === "gone" && mark.lane === process && mark.at === process.to;
    this.marks = this.marks.filter((mark) => !isGone(mark));
    process.marks = process.marks.filter((mark) => !isGone(mark));
    for (const lwp of process.lwps) if (lwp.to === process.to) lwp.to = null;
    Object.assign(process, { to: null, seenTo: null, concluded: false });
    this.user(process.user).live.add(process);
  }

  /** The child of a followed fork, which is traced and in its first stop from the fork on. */
  followed(pid, { lane, at, tracer }) {
    this.forks = this.forks.filter((fork) => fork.lane !== lane || fork.at !== at);
    const child = this.addProcess(pid, at);
    Object.assign(child, { parent: lane.owner, maker: lane });
    if (lane.waiting) lane.waiting.child ??= child;
    this.echo("followed", child, `child of ${lane.owner?.number ?? lane.name}`, at);
    this.link("birth", lane, child, at);
    if (tracer) this.trace(tracer, child, at);
    this.openStop(child, null, "SIGSTOP SCX CHILD", at);
    return child;
  }

  /** The child has done an exec, or has ended. */
  release(child, at = this.now) {
    if (child.maker?.waiting?.child === child) this.endWaiting(child.maker, at);
  }

  // ---- what follows from a step and its reply

  follow({ reply, asked }, home) {
    if (reply.reply === "error" || reply.reply === "held" || reply.reply === "nothing") return;
    if (reply.reply === "pids") this.listed(reply.pids);
    if (!asked && reply.reply === "stopped") this.stopped(this.lwp(reply.lwp), reply, null);
    if (reply.reply === "status" || reply.reply === "handled") this.waited(this.process(reply.pid), reply);
    if (asked?.op === "turn") this.turned(home, reply, asked);
    if (asked?.op === "ptrace") this.requested(home, reply, asked);
    if (asked?.op === "kill" && asked.signal) this.killed(this.targets(home, asked.which), asked.signal);
  }

  turned(lwp, reply, asked) {
    if (reply.reply === "new") {
      this.endCall(lwp);
      return;
    }
    this.endWaiting(lwp);
    if (reply.reply === "stopped") this.stopped(lwp, reply, asked);
    else if (reply.reply === "ended") {
      if (lwp.owner) this.end(lwp.owner, this.now, false);
      else this.endLwp(lwp, this.now);
    } else if (reply.reply === "ok" && asked.act === "enter") this.openCall(lwp, callText(asked));
    else if (reply.reply === "ok" && asked.act === "leave") this.leave(lwp, "ok");
  }

  /** The call has done its work. */
  leave(lwp, answer) {
    const name = lwp.call?.name;
    this.endCall(lwp);
    if (name === "vfork") this.waitForChild(lwp, null);
    if (name === "exec" && lwp.owner) {
      for (const other of lwp.owner.lwps) if (other !== lwp && other.to === null) this.endLwp(other, this.now);
      this.release(lwp.owner);
    }
    if (name === "thr_exit" && answer === "ok") this.endLwp(lwp, this.now);
  }

  stopped(lwp, reply, asked) {
    const has = (flag) => reply.flags.includes("PL_FLAG_" + flag);
    if (asked?.act === "enter" && has("SCE")) this.openCall(lwp, callText(asked));
    if (asked?.act === "leave" && (has("SCX") || has("EXITED"))) this.leave(lwp, "stopped");
    if (has("EXITED")) lwp.exiting = true;
    if (lwp.owner) this.openStop(lwp.owner, lwp, stopText(reply));
    if (!has("FORKED")) return;
    const fork = { lane: lwp, at: this.now, tracer: lwp.owner?.tracer ?? null };
    const child = this.hints.child(lwp.number, this.now);
    if (child === undefined) this.forks.push(fork);
    else this.followed(child, fork);
  }

  waited(process, reply) {
    this.reported(process, reply);
    if (reply.reply === "status") return;
    this.lwp(reply.at.lwp);
    if (reply.decision === "kill") this.gone(process, this.now, "SIGKILL");
    if (["continue", "detach"].includes(reply.decision)) this.resume(process, reply.pass?.number);
    if (reply.decision === "detach") this.untrace(process);
  }

  /** What a wait reports of a process. */
  reported(process, reply) {
    if (reply.continued) return this.closeStop(process);
    if (reply.stopped !== undefined) return this.stopReported(process, reply);
    const { passed } = process;
    const at = passed && reply.signaled === signalName(passed.signal) ? passed.at : this.now;
    this.gone(process, at, statusText(reply));
    process.seenTo = this.now;
    return undefined;
  }

  /** The end of a reported stop is known only if the steps are given. */
  stopReported(process, reply) {
    if (!this.entry.asked) return this.closeStop(process);
    if (!process.stop) this.openStop(process, null, reply.stopped);
    process.stop.reported ??= this.now;
    return undefined;
  }

  killed(targets, signal) {
    for (const target of targets) {
      if (signal === SIGCONT && !target.span) this.closeStop(target);
      if (signal === SIGKILL) this.gone(target, this.now, "");
    }
  }

  requested(home, reply, asked) {
    if (asked.request === "PT_TRACE_ME") this.trace(home.parent, home);
    if (reply.reply === "lwps") reply.lwps.forEach((lwp) => this.lwp(lwp));
    const target = this.target(asked.target);
    if (target) this.commanded(target, home, asked);
  }

  /** What an accepted request does to its target. */
  commanded(target, tracer, { request, data, target: number }) {
    if (request === "PT_ATTACH") {
      this.trace(tracer, target);
      this.openStop(target, target.lwps.find((lwp) => lwp.to === null) ?? null, "SIGSTOP");
    }
    if (RESUMES.includes(request)) this.resume(target, data);
    if (request === "PT_DETACH") this.untrace(target);
    if (request === "PT_KILL") this.gone(target, this.now, "SIGKILL");
    const lwp = number > LAST_PROCESS ? this.lwp(number) : target.stop?.lwp;
    if (lwp && request === "PT_SUSPEND") this.suspend(lwp);
    if (lwp && request === "PT_RESUME") this.unsuspend(lwp);
  }

  /** All processes of the user, zombies too: others have ended. */
  listed(pids) {
    const unknown = pids.filter((pid) => !this.known("process", pid));
    if (unknown.length > 1) this.forks = this.forks.filter((fork) => fork.lane.user !== this.entry.reply.user);
    for (const pid of pids) {
      const lane = this.process(pid);
      if (lane.to !== null) lane.seenTo = this.now;
    }
    for (const lane of this.user().live) if (!pids.includes(lane.number)) this.gone(lane, this.now, "not listed");
  }
}
