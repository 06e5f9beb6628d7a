/** A session of lines with rows: everything lasts as the rows say, and nothing follows from replies. */

import { ConcludedSession } from "./concluded.mjs";
import { endText } from "./facts.mjs";
import { noticesOf } from "./notices.mjs";
import { whyRefused } from "./refusals.mjs";
import { Session } from "./session.mjs";
import { History } from "./state.mjs";
import { bare, callText } from "./words.mjs";

/** @typedef {import("./lanes.mjs").Entry} Entry */
/** @typedef {import("./state.mjs").ProcessRow} ProcessRow */

const isStopped = ({ state }) => state === "trace_stop" || state === "job_stop";

/** Whether a process is still in the stop that it was in. */
const isSameStop = (before, row) => before.state === row.state && before.stop_signal === row.stop_signal
  && before.stop_lwp === row.stop_lwp && !(before.reported && !row.reported);

export class KnownSession extends Session {
  /** @param {Entry[]} entries */
  constructor(entries) {
    super(entries);
    this.readAll();
    this.notices = noticesOf(entries);
    const last = entries.length - 1;
    for (const lane of this.lanes) if (lane.isZombie) lane.seenTo = last;
  }

  /** What the user sees before this step. */
  rowsOf(user) {
    if (!this.histories.has(user)) this.histories.set(user, new History(user));
    return this.histories.get(user).last;
  }

  /** The lanes of new processes and LWPs. */
  prepare({ reply, asked }) {
    const rows = this.rowsOf(reply.user);
    if (asked && (reply.reply === "error" || reply.reply === "held")) {
      const history = this.histories.get(reply.user);
      const made = history.steps.length;
      this.entry.why = () => whyRefused({ user: reply.user, ...asked }, reply.errno ?? "held", history.shownAfter(made));
    }
    for (const row of reply.rows.processes ?? []) {
      if (!rows.processes.has(row.pid)) this.born(row, reply, asked?.op === "turn" ? this.lwp(asked.lwp) : null);
    }
    for (const { lwp, pid } of reply.rows.lwps ?? []) {
      if (!rows.lwps.has(lwp)) this.addLwp(lwp, this.known("process", pid) ?? null, this.now);
    }
  }

  born({ pid, parent }, reply, maker) {
    const lane = this.addProcess(pid, this.now);
    Object.assign(lane, { parent: this.known("process", parent) ?? null, maker });
    if (reply.reply === "new") return;
    this.echo("followed", lane, `child of ${parent}`);
    this.link("birth", maker, lane);
  }

  // ---- what a step changed

  follow({ reply }) {
    const rows = this.rowsOf(reply.user);
    const { processes = [], lwps = [], removed_processes: gone = [], removed_lwps: goneLwps = [] } = reply.rows;
    for (const number of goneLwps) if (this.known("lwp", number)) this.endLwp(this.known("lwp", number));
    for (const row of lwps) this.lwpChanged(this.known("lwp", row.lwp), row);
    for (const row of processes) this.processChanged(this.known("process", row.pid), row, rows.processes.get(row.pid));
    for (const pid of gone) if (this.known("process", pid)) this.collected(this.known("process", pid));
    this.histories.get(reply.user).add(this.entry);
  }

  processChanged(lane, row, before) {
    lane.parent = this.known("process", row.parent) ?? null;
    if (row.tracer !== before?.tracer) {
      if (row.tracer === undefined) this.untrace(lane);
      else this.trace(this.known("process", row.tracer) ?? null, lane);
    }
    if (lane.stop && !(before && isSameStop(before, row))) this.closeStop(lane);
    if (isStopped(row)) this.stopped(lane, row);
    if (row.state === "zombie" && lane.to === null) this.end(lane, endText(row.status ?? 0));
    lane.isZombie = row.state === "zombie";
  }

  stopped(lane, row) {
    if (!lane.stop) {
      const shown = this.entry.reply.rows.lwps?.find((one) => one.lwp === row.stop_lwp)?.flags ?? [];
      this.openStop(lane, this.known("lwp", row.stop_lwp) ?? null, [row.stop_signal, ...shown.map(bare)].join(" "));
    }
    if (row.reported) lane.stop.reported ??= this.now;
  }

  /** A process has ended. The step's own mark may say so. */
  end(lane, text) {
    const isMarked = lane.marks.at(-1)?.at === this.now && lane.marks.at(-1).kind === "end";
    if (!isMarked) this.echo("end", lane, text);
    Object.assign(lane, { to: this.now, seenTo: this.now });
    this.user().live.delete(lane);
    this.closeStop(lane);
    this.untrace(lane);
  }

  /** Nobody sees the process any longer. */
  collected(lane) {
    if (lane.to === null) this.end(lane, "ended");
    Object.assign(lane, { seenTo: this.now, isZombie: false });
  }

  lwpChanged(lane, row) {
    const name = row.mode === "in_call" ? callText({ call: row.call, code: codeOf(row) }) : null;
    if (lane.call && lane.call.name !== name) this.endCall(lane);
    if (name !== null && !lane.call) this.openCall(lane, name);
    const waits = row.mode === "waits_for_vfork";
    if (!waits) this.endWaiting(lane);
    else if (!lane.waiting) this.waitForChild(lane, this.known("process", row.vfork_child) ?? null);
    if (row.suspended) this.suspend(lane);
    else this.unsuspend(lane);
  }
}

/** The code of a call that has one; a row leaves out 0. */
const codeOf = ({ call, argument }) => (call === "exit" || call === "other" ? argument ?? 0 : argument);

/** Whether each line has rows, and none of a user's is missing. */
function areKnown(entries) {
  const counts = new Map();
  return entries.length > 0 && entries.every(({ reply: { user, step, rows } }) => {
    counts.set(user, (counts.get(user) ?? 0) + 1);
    return rows !== undefined && step === counts.get(user);
  });
}

/**
 * The session of these lines: by their rows, if they are known.
 *
 * @param {Entry[]} entries
 * @param {boolean} killsTracees  whether the end of a debugger kills what it traces, if the rows don't say
 */
export const sessionOf = (entries, killsTracees) => (areKnown(entries) ? new KnownSession(entries)
  : new ConcludedSession(entries, killsTracees));
