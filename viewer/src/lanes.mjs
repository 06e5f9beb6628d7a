/** Lanes, and what later replies tell about LWPs. */

import { LAST_PROCESS } from "./names.mjs";
import { firstFrom } from "./sorted.mjs";

/**
 * A mark: what a step did, on the lane where it did it. A step has one primary mark, and may have more.
 *
 * @typedef {object} Mark
 * @property {string} kind
 * @property {Lane} lane
 * @property {string} label
 * @property {number} at  the index of its entry
 * @property {boolean} primary
 * @property {Entry} entry
 * @property {Entry} source
 * @property {number} column  by the plan, as the next two
 * @property {number} shift
 * @property {number} x
 *
 * A reply with the step that it answers, and what says why this was refused or held, if it was and the rows say it.
 *
 * @typedef {{index: number, reply: object, asked: object | null, why?: () => string}} Entry
 *
 * A stretch of a lane between two entries: a stop, a system call, a suspension, a wait for a child of vfork.
 *
 * @typedef {{kind: string, from: number, to: number | null, reported?: number | null}} Band
 */

// there are many lanes, so those without any share these, which stay empty
/** @type {Set<any>} */
const NO_LANES = new Set();
/** @type {any[]} */
const NOTHING = [];

/** A row of the picture: a user, a process, an LWP, or the lines that were no step. */
export class Lane {
  constructor(kind, number, user, from, owner = null) {
    this.kind = kind;
    this.number = number;
    this.user = user;
    this.from = from;
    this.owner = owner;
    this.to = null; // the entry where its life ends, null if no reply says so
    this.seenTo = null; // the last entry that reports it as a zombie
    this.concluded = false; // whether its end follows from a step, without `ended`
    this.marks = [];
    this.bands = [];
    /** @type {Set<Lane>} of a user: the processes that haven't ended */
    this.live = kind === "user" ? new Set() : NO_LANES;
    this.lwps = []; // of a process
    /** @type {Set<Lane>} */
    this.tracees = NO_LANES; // a set of its own from the first one on
    this.parent = null;
    this.tracer = null;
    this.span = null; // the span in which it is traced now
    this.stop = null; // the band of the stop that it is in
    this.passed = null; // the signal that it was last let go on with
    this.call = null; // the system call that an LWP is in
    this.suspended = null;
    this.waiting = null; // the wait of an LWP for the child of its vfork
    this.maker = null; // the LWP whose fork or vfork made a process
    this.exiting = false;
    this.isZombie = false;
    // by the plan
    /** @type {Mark[]} those on it that are shown */
    this.seen = NOTHING;
    /** @type {Band[][] | null} of each kind those on it, once they are drawn */
    this.bandsOn = null;
    this.spans = NOTHING;
    /** @type {Map<number, import("./labels.mjs").Placed[]> | null} */
    this.labels = null;
    /** @type {Lane} the lane that its marks are on */
    this.on = this;
    /** @type {Lane[]} the lanes whose marks are on it too */
    this.others = NOTHING;
    this.depth = 0;
    this.isFolded = false;
    this.canFold = false;
    this.isShown = false;
    this.top = this.height = this.base = 0;
  }

  get name() {
    if (this.kind === "input") return "no step";
    return `${this.kind === "lwp" ? "LWP" : this.kind} ${this.number}`;
  }
}

/** What later replies show of LWPs: whose they are, and which child a followed fork has made. */
export class Hints {
  constructor(entries) {
    this.owners = new Map();
    this.children = new Map();
    for (const { index, reply, asked } of entries) this.read(index, reply, asked);
  }

  read(index, reply, asked) {
    const process = asked && asked.target <= LAST_PROCESS ? asked.target : undefined;
    const add = (map, lwp, fact) => {
      if (!map.has(lwp)) map.set(lwp, []);
      map.get(lwp).push({ index, ...fact });
    };
    if (reply.reply === "new") add(this.owners, reply.lwp, { isNew: true });
    if (reply.reply === "stopped") add(this.children, reply.lwp, { isStop: true });
    if (reply.reply === "handled") add(this.owners, reply.at.lwp, { pid: reply.pid });
    if (reply.reply === "info" && process) add(this.owners, reply.lwp, { pid: process });
    if (reply.reply === "lwps" && process) reply.lwps.forEach((lwp) => add(this.owners, lwp, { pid: process }));
    const shown = reply.reply === "handled" ? reply.at : reply;
    if (shown.child) add(this.children, shown.lwp, { child: shown.child });
  }

  /** The process that the LWP belongs to by a reply from the entry on, before the number is given anew. */
  owner(lwp, index) {
    return Hints.next(this.owners.get(lwp), index)?.pid;
  }

  /** The child that a later reply shows for the LWP's stop at the entry. */
  child(lwp, index) {
    return Hints.next(this.children.get(lwp), index + 1)?.child;
  }

  /** The first of the facts, which rise by their entries, from the entry on. */
  static next(facts, index) {
    return facts && facts[firstFrom(facts, (fact) => fact.index, index)];
  }
}
