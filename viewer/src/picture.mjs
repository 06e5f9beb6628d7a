/** The window over the picture: what of it is drawn, and which mark is the current one. */

import { element, tag } from "./dom.mjs";
import { columnsBetween, Drawing } from "./drawing.mjs";
import { colourOf } from "./signs.mjs";
import { firstFrom } from "./sorted.mjs";

const TOP_HEIGHT = 25;
const BOTTOM_ROOM = 12;
/** The part that is drawn around the window, of its size; less while other lanes come with each scroll. */
const AROUND = 0.6;
const AROUND_CHANGING = 0.12;
/** How far a pointer may be from a mark that is drawn as a bar, in pixels. */
const NEAR = 8;
const MOST_DEPTH = 6; // deeper lanes are indented no more
const MOST_DEPTH_WITH_WORDS = 2; // deeper ones have only their numbers

/** @typedef {import("./lanes.mjs").Mark} Mark */

const isSame = (one, other) => one.length === other.length && one.every((item, place) => item === other[place]);

/** Draws what can be seen of a plan, and a part around it, again whenever the window leaves that part. */
export class Picture {
  /**
   * @param {{drawsAll: boolean, onUser: (user: number) => void, onMark: (mark: Mark) => void,
   *   onFold: (lane: import("./lanes.mjs").Lane) => void, onMoved: () => void}} how
   */
  constructor({ drawsAll, onUser, onMark, onFold, onMoved }) {
    this.drawsAll = drawsAll;
    this.onUser = onUser;
    this.onMark = onMark;
    this.onFold = onFold;
    this.onMoved = onMoved;
    /** @type {Map<number, string>} the indices of entries to look at, with the kind of what is there */
    this.noticed = new Map();
    this.hidesOthers = false; // whether lanes without anything in the window are left out
    this.plan = null;
    /** @type {number | null} */
    this.failedAt = null; // the index of the entry that a test failed after
    /** @type {Mark | null} */
    this.current = null;
    this.isChanging = false; // whether other lanes have come since the last drawing
    this.drawn = null; // the part that is drawn
    this.drawing = null;
    this.extra = null; // the current mark's shape if its lane is drawn as bars
    this.scroller = element("scroller");
    this.svg = element("picture");
    this.scroller.addEventListener("scroll", () => {
      this.refresh();
      this.onMoved();
    });
  }

  /** The width of the window's part for the picture. */
  get room() {
    return this.scroller.clientWidth - element("corner").offsetWidth;
  }

  show(plan) {
    this.plan = plan;
    const { notices } = plan.session;
    const ofKind = (wanted) => notices.filter(({ kind }) => kind === wanted).map(({ at }) => [at, wanted]);
    this.noticed = new Map([...ofKind("open"), ...ofKind("wrong")]);
    if (!plan.steps.includes(this.current)) this.current = null;
    this.drawn = null;
    this.resize();
    this.refresh();
  }

  resize() {
    const { plan, scroller } = this;
    this.size = { wide: this.room, tall: scroller.clientHeight, names: element("corner").offsetWidth };
    const [width, height] = [Math.max(plan.width, this.size.wide), plan.height + BOTTOM_ROOM];
    element("sheet").style.width = `${width + this.size.names}px`;
    element("names").style.height = `${height}px`;
    for (const [id, tall] of [["axis", TOP_HEIGHT - 1], ["picture", height]]) {
      element(id).setAttribute("width", width);
      element(id).setAttribute("height", tall);
    }
  }

  /** What the window shows, in pixels of the picture. */
  window() {
    const { plan, size, scroller } = this;
    if (this.drawsAll) return { left: 0, right: Math.max(plan.width, size.wide), top: 0, bottom: plan.height };
    const { scrollLeft, scrollTop } = scroller;
    return { left: scrollLeft, right: scrollLeft + size.wide, top: scrollTop, bottom: scrollTop + size.tall };
  }

  refresh() {
    if (!this.plan) return;
    this.hideOthers();
    const seen = this.window();
    if (this.isDrawn(seen)) return;
    const { width, height } = this.plan;
    const around = this.isChanging ? AROUND_CHANGING : AROUND;
    this.isChanging = false;
    const wide = (seen.right - seen.left) * around;
    const tall = (seen.bottom - seen.top) * around;
    this.drawn = { left: Math.max(0, seen.left - wide), right: Math.min(Math.max(width, seen.right), seen.right + wide),
      top: Math.max(0, seen.top - tall), bottom: Math.min(height, seen.bottom + tall) };
    this.draw(this.drawn);
  }

  /** Leaves out the lanes that have nothing in the window; the uppermost that stays keeps its place in the window. */
  hideOthers() {
    const { plan, scroller } = this;
    const lanes = this.hidesOthers ? plan.lanesIn(...columnsBetween(plan, this.window())) : plan.order;
    if (isSame(lanes, plan.lanes)) return;
    const kept = new Set(lanes);
    const { scrollTop } = scroller;
    const anchor = plan.lanesBetween(scrollTop, Infinity).find((lane) => kept.has(lane));
    const offset = anchor ? anchor.top - scrollTop : 0;
    plan.arrange(lanes);
    this.isChanging = true;
    this.resize();
    if (anchor && scrollTop > 0) scroller.scrollTop = anchor.top - offset;
    this.drawn = null;
  }

  isDrawn(seen) {
    const { drawn, plan } = this;
    return drawn && seen.left >= drawn.left && seen.top >= drawn.top
      && Math.min(seen.right, plan.width) <= drawn.right && Math.min(seen.bottom, plan.height) <= drawn.bottom;
  }

  draw(part) {
    this.drawing = new Drawing(this.plan, part, this);
    this.extra = null;
    element("axis").replaceChildren(...this.drawing.ticks());
    element("names").replaceChildren(...this.drawing.lanes.map((lane) => this.laneName(lane)));
    this.svg.replaceChildren(...this.drawing.shapes());
    this.activate(this.current);
  }

  laneName(lane) {
    const row = tag("div", { className: lane.depth > MOST_DEPTH_WITH_WORDS ? `${lane.kind} deep` : lane.kind });
    const below = lane.isFolded ? ` and ${lane.others.length} lanes below it` : "";
    row.title = (lane.owner ? `${lane.name} of process ${lane.owner.number}` : lane.name) + below;
    Object.assign(row.style, { top: `${lane.top}px`, height: `${lane.height}px` });
    row.style.setProperty("--user", colourOf(lane.user));
    row.style.setProperty("--depth", String(Math.min(lane.depth, MOST_DEPTH)));
    if (lane.canFold) row.append(this.foldButton(lane));
    const words = lane.number ? [tag("span", { className: "word" }, `${lane.kind === "lwp" ? "LWP" : lane.kind} `),
      String(lane.number)] : [lane.name];
    if (lane.kind !== "user") {
      row.append(tag("span", {}, ...words));
      row.addEventListener("click", () => lane.seen.length && this.onMark(lane.seen[0]));
      return row;
    }
    const alone = this.plan.user === lane.user;
    const button = tag("button", { type: "button", title: alone ? "all users again" : "only this user" }, ...words);
    button.addEventListener("click", () => this.onUser(alone ? null : lane.user));
    row.append(button);
    return row;
  }

  foldButton(lane) {
    const button = tag("button", { type: "button", className: "fold", textContent: lane.isFolded ? "▸" : "▾",
      title: lane.isFolded ? "show the lanes below" : "fold the lanes below" });
    button.setAttribute("aria-expanded", String(!lane.isFolded));
    button.setAttribute("aria-label", `lanes below ${lane.name}`);
    button.addEventListener("click", (event) => {
      event.stopPropagation();
      this.onFold(lane);
    });
    return button;
  }

  // ---- the current mark

  /** The shape of a mark, if it is drawn. */
  shapeOf(mark) {
    return this.drawing?.elements.get(mark);
  }

  /** Makes a mark the current one. If its lane is drawn as bars, it is drawn on them. */
  activate(mark) {
    this.current = mark;
    this.svg.removeAttribute("aria-activedescendant");
    element("active")?.removeAttribute("id");
    if (this.extra) {
      this.extra.remove();
      this.drawing.elements.delete(this.extra.mark);
      this.extra = null;
    }
    if (!mark || !this.drawing) return;
    const { on } = mark.lane;
    if (this.plan.isInBars(on) && !this.shapeOf(mark) && on.isShown) this.extra = this.drawExtra(mark);
    const made = this.shapeOf(mark);
    this.showColumn(mark);
    if (!made) return;
    made.id = "active";
    this.svg.setAttribute("aria-activedescendant", "active");
  }

  drawExtra(mark) {
    const made = this.drawing.mark(mark);
    made.style.setProperty("--user", colourOf(mark.lane.user));
    this.svg.append(made);
    return made;
  }

  /** Shades the column of a mark, or none. */
  showColumn(mark) {
    const column = element("column");
    const width = mark ? Math.max(2, this.plan.step) : 0;
    column?.setAttribute("x", mark ? this.plan.x(mark.column) - width / 2 : 0);
    column?.setAttribute("width", width);
  }

  /** Makes a mark the current one, and brings it into the window. */
  go(mark) {
    const { scroller } = this;
    const seen = this.window();
    const { x } = mark;
    if (x < seen.left + 40 || x > seen.right - 60) scroller.scrollLeft = x - (seen.right - seen.left) / 2;
    this.refresh();
    const y = mark.lane.on.base;
    const { top, bottom } = this.window();
    if (y < top + 30 || y > bottom - 50) scroller.scrollTop = y - (bottom - top) / 2;
    this.current = mark;
    this.refresh();
    this.activate(mark);
  }

  /** The mark that an arrow key leads to. */
  next(key) {
    const { plan, current } = this;
    const { steps } = plan;
    if (key === "Home" || key === "End") return steps.at(key === "Home" ? 0 : -1);
    if (!current) return steps[Math.min(steps.length - 1, firstFrom(steps, (mark) => mark.x, this.window().left))];
    if (key === "ArrowRight") return steps[firstFrom(steps, (mark) => mark.at, current.at + 1)];
    if (key === "ArrowLeft") return steps[firstFrom(steps, (mark) => mark.at, current.at) - 1];
    const way = key === "ArrowDown" ? 1 : -1;
    let place = plan.lanes.indexOf(current.lane.on) + way;
    while (plan.lanes[place]?.seen.length === 0) place += way;
    return plan.lanes[place] && plan.nearest(plan.lanes[place], current.x);
  }

  /** The mark under the pointer, or the nearest one if lanes are drawn as bars. */
  markAt(event) {
    const made = event.target.closest?.(".mark")?.mark;
    if (made || !this.plan) return made;
    const box = this.svg.getBoundingClientRect();
    const [x, y] = [event.clientX - box.left, event.clientY - box.top];
    const lane = this.plan.lanesBetween(y, y + 1)[0];
    const isNear = lane && this.plan.isInBars(lane) && Math.abs(lane.base - y) < 12;
    const mark = isNear ? this.plan.nearest(lane, x) : undefined;
    return mark && Math.abs(mark.x - x) <= NEAR ? mark : undefined;
  }

  /** Where a mark is in the browser's window. */
  boxOf(mark) {
    const box = this.svg.getBoundingClientRect();
    const [x, y] = [box.left + mark.x, box.top + mark.lane.on.base];
    return { left: x, right: x, top: y - 8, bottom: y + 8 };
  }

  /** Whether the window shows a mark. */
  shows(mark) {
    const seen = this.window();
    const { x, lane: { on: { base, isShown } } } = mark;
    return isShown && x >= seen.left && x <= seen.right && base >= seen.top && base <= seen.bottom - TOP_HEIGHT;
  }
}
