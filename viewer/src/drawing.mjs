/** The shapes of a part of a plan. */

import { barPaths, densityText } from "./density.mjs";
import { LETTER, shape, tip } from "./dom.mjs";
import { sentence } from "./sentences.mjs";
import { colourOf, SIGNS } from "./signs.mjs";
import { firstFrom } from "./sorted.mjs";

/** The marks that are drawn in density too. */
const ENDS = new Set(["end", "gone"]);

/**
 * A part of a plan, in pixels of the picture.
 *
 * @typedef {{left: number, right: number, top: number, bottom: number}} Part
 */

/** The columns that are at least partly between two places. */
export function columnsBetween({ step, columns }, { left, right }) {
  return [Math.max(0, Math.floor(left / step)), Math.min(columns, Math.ceil(right / step)) - 1];
}

/** Makes the shapes of a part of a plan. */
export class Drawing {
  /**
   * @param {import("./plan.mjs").Plan} plan
   * @param {Part} part
   * @param {{failedAt: number | null, noticed: Map<number, string>}} marked  the indices of the entry that a test
   *   failed after, and of those to look at
   */
  constructor(plan, part, { failedAt, noticed } = { failedAt: null, noticed: new Map() }) {
    this.plan = plan;
    this.part = part;
    this.failedAt = failedAt;
    this.noticed = noticed;
    const [first, last] = columnsBetween(plan, part);
    this.first = Math.max(0, first - 1);
    this.last = Math.min(plan.columns - 1, last + 1);
    this.lanes = plan.lanesBetween(part.top, part.bottom);
    this.elements = new Map(); // of each mark
  }

  shapes() {
    return [
      shape("g", {}, ...this.ground()),
      shape("g", {}, ...(this.plan.isDense ? [] : this.links())),
      ...this.lanes.map((lane) => this.lane(lane)),
    ];
  }

  // ---- the frame

  /** Every how many steps a number has room. */
  every() {
    const { plan } = this;
    const least = (String(plan.all.length).length * LETTER + 10) / plan.step;
    const ten = 10 ** Math.floor(Math.log10(Math.max(1, least)));
    return [1, 2, 5, 10].map((part) => part * ten).find((count) => count >= least);
  }

  /**
   * The places of the numbers that are multiples of so many: in the middle of their steps' columns, or where the step
   * would be if it is left out. The first one that is shown has a place too.
   */
  *roundNumbers(every, withFirst) {
    const { plan } = this;
    const { entries, numberOf } = plan;
    if (plan.columns === 0) return;
    const numberIn = (column) => numberOf[entries[column].index];
    const least = numberIn(this.first);
    const first = Math.ceil(least / every) * every;
    if (withFirst && this.first === 0 && first > least) yield { number: least, x: plan.x(0) };
    for (let number = first; number <= numberIn(this.last); number += every) {
      const column = firstFrom(entries, ({ index }) => numberOf[index], number);
      yield { number, x: numberIn(column) === number ? plan.x(column) : column * plan.step };
    }
  }

  ticks() {
    const { plan } = this;
    const failed = this.failedAt === null ? -1 : plan.numberOf[this.failedAt];
    let end = -Infinity;
    return [...this.roundNumbers(this.every(), true)].flatMap(({ number, x }) => {
      const half = String(number).length * LETTER / 2 + 2;
      const middle = Math.max(x, half);
      if (middle - half < end) return [];
      end = middle + half;
      const text = shape("text", { ...(number === failed ? { class: "failed" } : {}), x: middle, y: 16 });
      text.textContent = String(number);
      return [text];
    });
  }

  ground() {
    const { plan, part, lanes } = this;
    const shapes = [];
    const [x1, x2] = [part.left, part.right];
    for (const { kind, top, height } of lanes) {
      const y = top + height - 0.5;
      if (kind === "user") shapes.push(shape("rect", { class: "user-row", x: x1, y: top, width: x2 - x1, height }));
      shapes.push(shape("line", { class: "separator", x1, x2, y1: y, y2: y }));
    }
    const every = Math.max(this.every(), plan.step < 20 ? 10 : 5);
    for (const { x } of this.roundNumbers(every, false)) {
      shapes.push(shape("line", { class: "gridline", x1: x, x2: x, y1: part.top, y2: part.bottom }));
    }
    if (this.failedAt !== null && this.failedAt < plan.columnOf.length) shapes.push(...this.failed());
    shapes.push(shape("rect", { class: "column", id: "column", x: 0, y: 0, width: 0, height: plan.height }));
    return shapes;
  }

  /** The column of the step that a test failed after. */
  failed() {
    const { plan, part } = this;
    const width = Math.max(3, plan.step);
    const x = plan.at(this.failedAt);
    return [shape("rect", { class: "failed", x: x - width / 2, y: part.top, width, height: part.bottom - part.top })];
  }

  // ---- lanes

  lane(lane) {
    const { plan, part } = this;
    const data = { "data-lane": lane.kind, "data-number": lane.number, "data-user": lane.user };
    const group = shape("g", { class: `lane ${lane.kind}`, ...data });
    group.style.setProperty("--user", colourOf(lane.user));
    if (lane.kind === "process" || lane.kind === "lwp") group.append(...this.life(lane));
    if (plan.isDense) group.append(...this.denseBands(lane));
    else for (const band of this.bandsIn(lane)) group.append(...this.band(band, lane));
    for (const span of lane.spans) group.append(...this.span(span, lane));
    group.append(...(plan.isInBars(lane) ? this.dense(lane) : this.marks(lane)));
    for (const label of plan.labels(lane, part.left, part.right)) {
      if (label.end >= part.left && label.x <= part.right) group.append(this.label(label, lane));
    }
    return group;
  }

  marks({ seen }) {
    const begin = firstFrom(seen, (mark) => mark.column, this.first);
    const end = firstFrom(seen, (mark) => mark.column, this.last + 1);
    return seen.slice(begin, end).map((mark) => this.mark(mark));
  }

  /** A lane's marks as bars, with words for all of them; its end is drawn as a mark. */
  dense(lane) {
    const { first, last, plan: { step } } = this;
    if (lane.seen.length === 0) return [];
    const [all, own, stops] = barPaths(lane.seen, { step, first, last });
    const paths = [["pale", all], ["own", own], ["stop", stops]].filter(([, path]) => path)
      .map(([name, d]) => shape("path", { class: `bars ${name}`, d }));
    const bars = shape("g", { class: "density", role: "img", "aria-label": densityText(lane),
      transform: `translate(0 ${lane.base})` }, ...paths);
    return [bars, ...this.marks({ seen: lane.seen.filter(({ kind }) => ENDS.has(kind)) })];
  }

  /** The part of a stretch between two entries that is drawn, or null. */
  stretch(from, to) {
    const { plan, part } = this;
    const [begin, end] = [plan.at(from), plan.at(to)];
    if (end < part.left || begin > part.right) return null;
    return { begin: Math.max(begin, part.left - 20), end: Math.min(end, part.right + 20) };
  }

  life(lane) {
    const line = (name, from, to) => {
      const stretch = this.stretch(from, to);
      if (!stretch) return [];
      const place = { x1: stretch.begin, x2: stretch.end, y1: lane.base, y2: lane.base };
      return [shape("line", { class: name, "data-from": this.number(from), "data-to": this.number(to), ...place })];
    };
    const isZombie = lane.to !== null && lane.seenTo > lane.to;
    return [...line("life", lane.from, lane.to), ...(isZombie ? line("zombie", lane.to, lane.seenTo) : [])];
  }

  /** The pieces of a band, each with its class: a stop has one before a wait reports it, and one after. */
  pieces({ kind, from, to, reported }) {
    if (kind !== "stopped" || reported === null) return [[kind, from, to]];
    return [["stopped", from, reported], ["reported", reported, to]];
  }

  /** The bands of a lane that are at least partly in what is drawn. */
  *bandsIn(lane) {
    const { entries, columns } = this.plan;
    if (columns === 0) return;
    const [first, last] = [entries[this.first].index, this.last === columns - 1 ? Infinity : entries[this.last].index];
    for (const bands of this.plan.bandsOf(lane)) {
      let place = firstFrom(bands, ({ to }) => to ?? Infinity, this.first === 0 ? 0 : first);
      for (; place < bands.length && bands[place].from <= last; place++) yield bands[place];
    }
  }

  band(band, lane) {
    const half = band.kind === "stopped" ? 6 : 4;
    return this.pieces(band).flatMap(([name, from, to]) => {
      const stretch = this.stretch(from, to);
      if (!stretch) return [];
      const made = shape("rect", { class: `band ${name}`, "data-band": name, x: stretch.begin, y: lane.base - half,
        width: Math.max(1, stretch.end - stretch.begin), height: 2 * half, rx: 2 });
      made.append(tip(this.bandText(band)));
      return [made];
    });
  }

  /** The bands of a lane as one path for each class. */
  denseBands(lane) {
    const paths = new Map();
    for (const band of this.bandsIn(lane)) {
      const half = band.kind === "stopped" ? 6 : 4;
      for (const [name, from, to] of this.pieces(band)) {
        const stretch = this.stretch(from, to);
        if (!stretch || stretch.end - stretch.begin < 1) continue;
        const width = (stretch.end - stretch.begin).toFixed(1);
        const path = `M${stretch.begin.toFixed(1)} ${lane.base - half}h${width}v${2 * half}h${-width}z`;
        paths.set(name, (paths.get(name) ?? "") + path);
      }
    }
    return [...paths].map(([name, d]) => shape("path", { class: `band ${name}`, d }));
  }

  /** The number of an entry among those that are shown, as the top row has it. */
  number(index) {
    return index === null ? "" : this.plan.numberOf[index];
  }

  bandText({ kind, from, to, reported, label, name, child }) {
    const waiting = `waits for the child of its vfork${child ? `, ${child.number}` : ""}`;
    const what = { call: `in ${name}`, stopped: `stopped: ${label}`, waiting }[kind] ?? kind;
    const until = to === null ? "on" : `to ${this.number(to)}`;
    const then = reported ? `, reported at ${this.number(reported)}` : "";
    return `${what}, from step ${this.number(from)} ${until}${then}`;
  }

  /** The bracket under a process while it is traced. */
  span({ tracer, tracee, from, to }, lane) {
    const stretch = this.stretch(from, to);
    if (!stretch) return [];
    const [low, high] = [lane.base + 10, lane.base + 6];
    const data = { "data-trace": `${tracer?.number ?? "parent"} ${tracee.number}`, "data-from": this.number(from),
      "data-to": this.number(to) };
    const path = `M${stretch.begin} ${high}V${low}H${stretch.end}${to === null ? "" : `V${high}`}`;
    return [shape("path", { class: "span", ...data, d: path })];
  }

  mark(mark) {
    const { path, classes } = SIGNS.get(mark.kind);
    const { plan } = this;
    const { entry, lane: { on: lane } } = mark;
    const data = { "aria-label": sentence(mark), "data-mark": mark.kind, "data-line": entry.index + 1 };
    if (!mark.primary) data["data-more"] = "";
    if (entry.reply.user) Object.assign(data, { "data-user": entry.reply.user, "data-step": entry.reply.step });
    const width = Math.max(8, Math.min(plan.step, 26));
    const tall = Math.min(lane.height - 4, 20);
    const kind = this.noticed.get(entry.index);
    const name = kind ? `mark noticed ${kind}` : "mark";
    const made = shape("g", { class: name, role: "img", ...data, transform: `translate(${mark.x} ${lane.base})` },
      shape("rect", { class: "hit", x: -width / 2, y: -tall / 2, width, height: tall, rx: 3 }),
      shape("path", { class: `shape ${classes}`, d: path, "fill-rule": "evenodd",
        ...(plan.scale < 1 ? { transform: `scale(${plan.scale})` } : {}) }));
    made.mark = mark;
    this.elements.set(mark, made);
    return made;
  }

  label(label, lane) {
    const name = label.rank === 0 ? "label span-name" : label.pale ? "label pale" : "label";
    const made = shape("text", { class: name, x: label.x, y: label.row === 0 ? lane.base - 10 : lane.base + 22 });
    made.textContent = label.text;
    return made;
  }

  // ---- links between lanes

  links() {
    const { links, columnOf } = this.plan;
    const shapes = [];
    const first = firstFrom(links, ({ at }) => columnOf[at], this.first);
    for (let place = first; place < links.length && columnOf[links[place].at] <= this.last; place++) {
      shapes.push(...this.link(links[place], columnOf[links[place].at]));
    }
    return shapes;
  }

  /** A line from the lane of who acts to that of who is meant, with a head there. */
  link({ kind, from: { on: from }, to: { on: to } }, column) {
    const { part } = this;
    if (!from.isShown || !to.isShown || from === to) return [];
    const x = this.plan.x(column);
    const down = to.base > from.base;
    const [begin, end] = [from.base, to.base + (down ? -6 : 6)];
    if (Math.max(begin, end) < part.top || Math.min(begin, end) > part.bottom) return [];
    const back = down ? -7 : 7;
    const place = { x1: x, x2: x, y1: begin, y2: end + back / 2 };
    const line = shape("line", { class: `link ${kind}`, "data-link": kind, ...place });
    const head = shape("path", { class: "head", d: `M${x} ${end}l-3.5 ${back}h7Z` });
    for (const made of [line, head]) made.style.setProperty("--user", colourOf(to.user));
    return [line, head];
  }
}
