/** Where everything is in the picture, without drawing it. */

import { placeLabels } from "./labels.mjs";
import { SIGNS } from "./signs.mjs";
import { firstFrom, merged } from "./sorted.mjs";

/** Narrower steps are drawn as bars, see density.mjs. */
export const NARROWEST_MARK = 4;
export const RIGHT_ROOM = 20;
const SPAN_LABEL_EVERY = 1400; // pixels
/** Labels are placed in pieces of so many pixels, once they are drawn; those of so many around a piece come into it. */
const PIECE = 4000;
const AROUND_PIECE = 1000;
const BASE = 22; // the middle of a lane's marks, from its top
const HEIGHTS = { process: 47, lwp: 34, user: 47, input: 34 };
const QUIET_HEIGHTS = { lwp: 18, user: 26 };
const DENSE_HEIGHTS = { process: 26, lwp: 20, user: 26, input: 20 };
const WIDTH_OF_FULL_SIGNS = 13;

/** @typedef {import("./lanes.mjs").Lane} Lane */

/**
 * What is shown, and how.
 *
 * @typedef {object} View
 * @property {number | null} [user]  only this user
 * @property {number} step  the width of a step
 * @property {Set<string>} [hidden]  the replies whose steps are left out: `held`, `error`, `nothing`
 * @property {Set<number> | null} [only]  the indices of the only entries that are shown
 * @property {boolean} [allLwps]  whether the only LWP of a process has a lane too
 * @property {Set<Lane>} [folded]  lanes without those below them
 * @property {number} [room]  the width of the window
 * @property {number} [letter]  the width of a letter
 */

/** The lanes that are right below each lane. */
function childrenOf({ lanes, users }) {
  const found = new Map();
  for (const lane of lanes) {
    const owner = lane.kind === "process" ? lane.maker?.owner : lane.owner;
    const upper = owner ?? users.get(lane.user);
    if (upper === undefined || upper === lane) continue;
    if (!found.has(upper)) found.set(upper, []);
    found.get(upper).push(lane);
  }
  return found;
}

/** The bands of each kind, which begin and end one after the other. */
function byKind(bands) {
  const found = new Map();
  for (const band of bands) {
    if (!found.has(band.kind)) found.set(band.kind, []);
    found.get(band.kind).push(band);
  }
  return found;
}

/** Where the lanes, marks, labels and links of a session are, in a view. */
export class Plan {
  /**
   * @param {import("./session.mjs").Session} session
   * @param {View} view
   */
  constructor(session, { user = null, step, hidden = new Set(), only = null, allLwps = true, folded = new Set(),
    room = 0, letter = 6.6 }) {
    this.session = session;
    this.user = user;
    this.step = step;
    this.hidden = hidden;
    this.only = only;
    this.allLwps = allLwps;
    this.folded = folded;
    this.room = room;
    this.letter = letter;
    this.children = childrenOf(session);
    this.isDense = step < NARROWEST_MARK;
    this.scale = Math.min(1, Math.max(0.4, step / WIDTH_OF_FULL_SIGNS));
    this.all = session.entries.filter(({ reply }) => user === null || reply.user === user);
    this.count();
    const isOf = (lane) => user === null || lane.user === user;
    /** @type {Lane[]} */
    this.order = [];
    for (const lane of this.roots()) this.addTree(lane, null, 0);
    for (const lane of this.order) this.place(lane);
    this.arrange(this.order);
    this.links = session.links.filter(({ from }) => isOf(from)).sort((one, other) => one.at - other.at);
    for (const span of session.spans) {
      const { tracee } = span;
      if (isOf(tracee) && tracee.on === tracee) tracee.spans.push(span);
    }
    this.steps = session.marks.filter(({ primary, at, lane }) => primary && isOf(lane) && this.isVisible[at])
      .sort((one, other) => one.at - other.at);
  }

  /** Gives each entry its number, which the user sees, and its column; what is left out has the next one's column. */
  count() {
    const { session, all, hidden, only } = this;
    this.entries = all.filter(({ reply, index }) => !hidden.has(reply.reply) && (!only || only.has(index)));
    this.columns = this.entries.length;
    const { length } = session.entries;
    this.numberOf = new Int32Array(length);
    all.forEach((entry, place) => { this.numberOf[entry.index] = place + 1; });
    this.columnOf = new Int32Array(length);
    this.isVisible = new Uint8Array(length);
    let column = 0;
    for (let index = 0; index < length; index++) {
      this.columnOf[index] = Math.min(column, Math.max(0, this.columns - 1));
      if (this.entries[column]?.index !== index) continue;
      this.isVisible[index] = 1;
      column++;
    }
  }

  get width() {
    return this.columns * this.step + RIGHT_ROOM;
  }

  /** The middle of a column. */
  x(column) {
    return (column + 0.5) * this.step;
  }

  /** Where an entry is; null is the end of all. */
  at(index) {
    return index === null ? this.columns * this.step : this.x(this.columnOf[index]);
  }

  /** The mark of the step with a number, or undefined. */
  stepOf(number) {
    const entry = this.all[number - 1];
    const mark = entry && this.steps[firstFrom(this.steps, ({ at }) => at, entry.index)];
    return mark?.entry === entry ? mark : undefined;
  }

  /** The lanes of the first level: users by number, before them the lines that were no step. */
  roots() {
    const { session, user } = this;
    const users = session.userNumbers().filter((number) => user === null || number === user);
    const input = session.input && user === null ? [session.input] : [];
    return [...input, ...users.map((number) => session.users.get(number))];
  }

  /** The lanes right below a lane: LWPs by birth, then processes, below those that have made them. */
  below(lane) {
    const byBirth = (one, other) => one.from - other.from || one.number - other.number;
    const children = this.children.get(lane) ?? [];
    const of = (kind) => children.filter((one) => one.kind === kind).sort(byBirth);
    return [...of("lwp"), ...of("process")];
  }

  /** Whether the marks of an LWP are on the lane of its process. */
  isMerged({ kind, owner }) {
    return kind === "lwp" && !this.allLwps && owner !== null && owner.lwps.length === 1;
  }

  /**
   * Adds a lane and those below it. In a folded lane they are on that lane, as the only LWP of a process is.
   *
   * @param {Lane} lane
   * @param {Lane | null} fold  the folded lane that it is in
   * @param {number} depth
   */
  addTree(lane, fold, depth) {
    const isMerged = this.isMerged(lane);
    const below = this.below(lane);
    const canFold = !isMerged && below.some((one) => !this.isMerged(one));
    const isFolded = canFold && !fold && this.folded.has(lane);
    const on = fold ?? (isMerged ? lane.owner : lane);
    Object.assign(lane, { on, others: [], spans: [], labels: null, depth, canFold, isFolded });
    if (lane.on === lane) this.order.push(lane);
    else lane.on.others.push(lane);
    const inside = fold ?? (lane.isFolded ? lane : null);
    for (const one of below) this.addTree(one, inside, depth + 1);
  }

  /** Puts these lanes one under the other, and shows no others. */
  arrange(lanes) {
    this.lanes = lanes;
    this.height = 0;
    for (const lane of this.order) lane.isShown = false;
    for (const lane of lanes) {
      const isQuiet = lane.seen.length === 0 && this.withBands(lane).every(({ bands }) => bands.length === 0);
      lane.isShown = true;
      lane.height = (isQuiet && QUIET_HEIGHTS[lane.kind]) || (this.isDense ? DENSE_HEIGHTS : HEIGHTS)[lane.kind];
      lane.top = this.height;
      lane.base = lane.top + (isQuiet || this.isDense ? Math.floor(lane.height / 2) : BASE);
      this.height += lane.height;
    }
  }

  /** The lanes that live, or have a mark, in some columns, and their users. If only some steps are shown, by marks. */
  lanesIn(first, last) {
    const isIn = (lane) => {
      if (this.only && lane.seen.length === 0) return false;
      const isLife = lane.kind === "process" || lane.kind === "lwp";
      const end = lane.to === null ? this.columns : this.columnOf[Math.max(lane.to, lane.seenTo ?? 0)];
      if (isLife && this.columnOf[lane.from] <= last && end >= first) return true;
      return lane.seen[firstFrom(lane.seen, (mark) => mark.column, first)]?.column <= last;
    };
    const kept = new Set(this.order.filter(isIn));
    const users = new Set([...kept].map(({ user }) => user));
    return this.order.filter((lane) => kept.has(lane) || (lane.kind === "user" && users.has(lane.user)));
  }

  /** Where the marks on a lane are. Those of one step are next to each other. */
  place(lane) {
    const own = [lane, ...lane.others].map((one) => this.visible(one.marks));
    lane.seen = own.length < 3 ? own.reduce((one, other) => merged(one, other, ({ at }) => at))
      : own.flat().sort((one, other) => one.at - other.at);
    lane.bandsOn = null;
    let before = null;
    for (const mark of lane.seen) {
      mark.column = this.columnOf[mark.at];
      mark.shift = before && before.column === mark.column && !this.isDense ? before.shift + 12 * this.scale : 0;
      mark.x = this.x(mark.column) + mark.shift;
      before = mark;
    }
  }

  /** The lanes whose bands are on a lane: itself, and an LWP without a lane of its own. */
  withBands(lane) {
    return [lane, ...lane.others.filter((one) => this.isMerged(one) && one.owner === lane)];
  }

  /** The bands on a lane, of each kind one after the other. */
  bandsOf(lane) {
    lane.bandsOn ??= this.withBands(lane).flatMap(({ bands }) => [...byKind(bands).values()]);
    return lane.bandsOn;
  }

  /** The marks whose steps aren't left out; what else such a step did is shown, unless only some steps are. */
  visible(marks) {
    if (this.columns === this.all.length) return marks;
    return marks.filter(({ primary, at }) => this.isVisible[at] || (!primary && !this.only));
  }

  /** Whether a lane is drawn as bars. */
  isInBars(lane) {
    return this.isDense || lane.isFolded;
  }

  /** The labels of a lane that have room between two places, or a bit before. */
  labels(lane, left = 0, right = Math.max(this.width, this.room)) {
    lane.labels ??= new Map();
    const ends = [-Infinity, -Infinity];
    const found = [];
    for (let piece = Math.max(0, Math.floor((left - AROUND_PIECE) / PIECE)); piece * PIECE <= right; piece++) {
      if (!lane.labels.has(piece)) lane.labels.set(piece, this.labelsOfPiece(lane, piece * PIECE));
      for (const label of lane.labels.get(piece)) {
        if (label.x < ends[label.row]) continue;
        ends[label.row] = label.end;
        found.push(label);
      }
    }
    return found;
  }

  /** The labels that begin in a piece of a lane. */
  labelsOfPiece(lane, left) {
    const wanted = this.wanted(lane, left - AROUND_PIECE, left + PIECE + AROUND_PIECE);
    const placed = placeLabels(wanted, { rows: lane.kind === "lwp" || lane.kind === "input" ? 1 : 2, letter: this.letter,
      limit: Math.max(this.width, this.room) });
    return placed.filter(({ x }) => x >= left && x < left + PIECE);
  }

  /** The labels that the marks and spans of a lane would have between two places. */
  wanted(lane, left, right) {
    const lowest = this.isInBars(lane) ? 0 : this.step < 12 ? 1 : this.step < 20 ? 2 : 3;
    const wanted = [];
    for (let place = lowest ? firstFrom(lane.seen, ({ x }) => x, left) : Infinity; lane.seen[place]?.x < right; place++) {
      const { kind, x, label } = lane.seen[place];
      const { rank, classes } = SIGNS.get(kind);
      if (label && rank <= lowest) wanted.push({ x: x + 4, text: label, rank, pale: classes === "pale" });
    }
    if (!this.isDense) for (const span of lane.spans) wanted.push(...this.spanLabels(span, left, right));
    return wanted;
  }

  /** The name of who traces between two places, at the span's begin and again along a long one. */
  spanLabels(span, left, right) {
    const labels = [];
    const [begin, end] = [this.at(span.from) + 4, Math.min(right, this.at(span.to))];
    const text = span.tracer ? `traced by ${span.tracer.number}` : "traced by its parent";
    const first = begin + SPAN_LABEL_EVERY * Math.max(0, Math.ceil((left - begin) / SPAN_LABEL_EVERY));
    for (let x = first; x < end; x += SPAN_LABEL_EVERY) labels.push({ x, text, rank: 0, pale: false });
    return labels;
  }

  /** The lanes between two heights. */
  lanesBetween(top, bottom) {
    const first = firstFrom(this.lanes, (lane) => lane.top + lane.height, top);
    const last = firstFrom(this.lanes, (lane) => lane.top, bottom);
    return this.lanes.slice(first, last);
  }

  /** The mark of a lane that is nearest to a place. */
  nearest(lane, x) {
    const after = firstFrom(lane.seen, (mark) => mark.x, x);
    const near = [lane.seen[after - 1], lane.seen[after]].filter(Boolean);
    return near.sort((one, other) => Math.abs(one.x - x) - Math.abs(other.x - x))[0];
  }
}
