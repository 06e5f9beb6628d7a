/** The rows that a user sees at each step, from what the lines of `--json=trace+rows` say that each step changed. */

import { firstFrom } from "./sorted.mjs";

/**
 * A process and an LWP, as docs/FORMAT.md has them; a member that is false, 0, empty or none is missing.
 *
 * @typedef {{pid: number, parent: number, tracer?: number, state: string, stop_signal?: string, reported?: boolean,
 *   stop_lwp?: number, status?: number, continued?: boolean, events?: string[], pending?: string[], ignore?: string[],
 *   catch?: string[]}} ProcessRow
 * @typedef {{lwp: number, pid: number, mode: string, call?: string, argument?: number, vfork_child?: number,
 *   suspended?: boolean, stepping?: boolean, blocked?: string[], pending?: string[], due?: string, flags?: string[],
 *   child?: number, code?: number}} LwpRow
 *
 * What a user sees: processes by their numbers, and LWPs by theirs, in order of birth.
 *
 * @typedef {{processes: Map<number, ProcessRow>, lwps: Map<number, LwpRow>}} Rows
 *
 * What a step changed.
 *
 * @typedef {{processes?: ProcessRow[], lwps?: LwpRow[], removed_processes?: number[], removed_lwps?: number[]}} Changes
 *
 * A process in the tree: below its tracer (`by` is "tracer"), below its parent ("parent"), or a root (null).
 *
 * @typedef {{process: ProcessRow, lwps: LwpRow[], below: Branch[], by: "tracer" | "parent" | null}} Branch
 */

/** So many steps are made again at most, to have the rows at one. */
const CHECKPOINT_EVERY = 256;

/** @returns {Rows} */
export const noRows = () => ({ processes: new Map(), lwps: new Map() });

const copyOf = ({ processes, lwps }) => ({ processes: new Map(processes), lwps: new Map(lwps) });

/**
 * Changes the rows as a step does.
 *
 * @param {Rows} rows
 * @param {Changes} changes
 */
export function change(rows, changes) {
  for (const pid of changes.removed_processes ?? []) rows.processes.delete(pid);
  for (const lwp of changes.removed_lwps ?? []) rows.lwps.delete(lwp);
  for (const row of changes.processes ?? []) rows.processes.set(row.pid, row);
  for (const row of changes.lwps ?? []) rows.lwps.set(row.lwp, row);
}

/** What one user sees after each step of theirs. Only lines of this user are read. */
export class History {
  /** @param {number} user */
  constructor(user) {
    this.user = user;
    /** @type {import("./lanes.mjs").Entry[]} the user's steps whose rows are known */
    this.steps = [];
    /** Whether a line is missing: what the user sees from there on isn't known. */
    this.isBroken = false;
    this.last = noRows();
    this.checkpoints = [noRows()];
    this.shown = { count: 0, rows: noRows() };
  }

  /** @param {import("./lanes.mjs").Entry} entry  the user's next step */
  add(entry) {
    const { rows, step } = entry.reply;
    if (!rows || step !== this.steps.length + 1) this.isBroken = true;
    if (this.isBroken) return;
    this.steps.push(entry);
    change(this.last, rows);
    if (this.steps.length % CHECKPOINT_EVERY === 0) this.checkpoints.push(copyOf(this.last));
  }

  /** How many of the user's steps are made up to an entry, and with it; null if what they changed isn't known. */
  countAt(index) {
    const count = firstFrom(this.steps, (entry) => entry.index, index + 1);
    return this.isBroken && count === this.steps.length && this.steps.at(-1)?.index !== index ? null : count;
  }

  /**
   * What the user sees after so many steps. The rows are the caller's own.
   *
   * @param {number} count
   * @returns {Rows}
   */
  after(count) {
    return copyOf(this.shownAfter(count));
  }

  /** The same rows to look at until the next call. One after the other is fast. */
  shownAfter(count) {
    const checkpoint = Math.floor(count / CHECKPOINT_EVERY);
    if (count < this.shown.count || checkpoint * CHECKPOINT_EVERY > this.shown.count) {
      this.shown = { count: checkpoint * CHECKPOINT_EVERY, rows: copyOf(this.checkpoints[checkpoint]) };
    }
    const { shown } = this;
    for (; shown.count < count; shown.count++) change(shown.rows, this.steps[shown.count].reply.rows);
    return shown.rows;
  }
}

/**
 * The histories of all users, by their numbers; none if no line has rows.
 *
 * @param {import("./lanes.mjs").Entry[]} entries
 * @returns {Map<number, History>}
 */
export function histories(entries) {
  const found = new Map();
  if (!entries.some(({ reply }) => reply.rows)) return found;
  for (const entry of entries) {
    const { user } = entry.reply;
    if (user === undefined) continue;
    if (!found.has(user)) found.set(user, new History(user));
    found.get(user).add(entry);
  }
  return found;
}

/** The process that another one is below in the tree. */
const above = (rows, { tracer, parent }) => rows.processes.get(tracer ?? parent);

/** Whether a process would be below itself: its tracer is one that it has made, directly or through others. */
function isInCircle(rows, process) {
  let other = above(rows, process);
  for (let left = rows.processes.size; other && other !== process && left > 0; left--) other = above(rows, other);
  return other === process;
}

/**
 * The processes as trees, by rising numbers: a traced process is below its tracer, another one below its parent.
 *
 * @param {Rows} rows
 * @returns {Branch[]} the roots
 */
export function forest(rows) {
  /** @type {Map<number, Branch>} */
  const branches = new Map();
  const processes = [...rows.processes.values()].sort((one, other) => one.pid - other.pid);
  for (const process of processes) branches.set(process.pid, { process, lwps: [], below: [], by: null });
  for (const lwp of rows.lwps.values()) branches.get(lwp.pid)?.lwps.push(lwp);
  const roots = [];
  for (const branch of branches.values()) {
    const { process } = branch;
    const upper = branches.get(process.tracer ?? process.parent);
    if (!upper || (process.tracer === undefined && isInCircle(rows, process))) roots.push(branch);
    else {
      branch.by = process.tracer === undefined ? "parent" : "tracer";
      upper.below.push(branch);
    }
  }
  return roots;
}
