/** The list of the steps: of its rows those in the window are made, and some around them. */

import { element, tag } from "./dom.mjs";
import { meaningText, whoText } from "./sentences.mjs";
import { colourOf } from "./signs.mjs";
import { firstFrom } from "./sorted.mjs";
import { action, objectText, plainText } from "./words.mjs";

const ROW_HEIGHT = 20;
const ROWS_AROUND = 8; // rows

/** @typedef {import("./lanes.mjs").Mark} Mark */

export class StepList {
  /** @param {{onMark: (mark: Mark) => void}} how */
  constructor({ onMark }) {
    this.element = element("list");
    this.rows = element("rows");
    this.plan = null;
    /** @type {Mark[]} */
    this.steps = [];
    /** @type {Mark | null} */
    this.current = null;
    this.failedAt = null; // the index of the entry that a test failed after
    this.found = new Set(); // the marks that a search has found
    this.drawn = ""; // the rows that are made
    this.element.addEventListener("scroll", () => this.refresh());
    this.rows.addEventListener("click", (event) => {
      const { mark } = event.target.closest(".row") ?? {};
      if (mark && getSelection().isCollapsed) onMark(mark);
    });
  }

  /**
   * @param {import("./plan.mjs").Plan} plan
   * @param {Mark[]} steps  the marks of those steps that are listed
   */
  show(plan, steps) {
    Object.assign(this, { plan, steps });
    this.rows.style.height = `${steps.length * ROW_HEIGHT}px`;
    this.again();
  }

  /** Makes the rows again. */
  again() {
    this.drawn = "";
    this.refresh();
  }

  refresh() {
    if (!this.plan || this.element.hidden) return;
    const { scrollTop, clientHeight } = this.element;
    const { steps } = this;
    const first = Math.max(0, Math.floor(scrollTop / ROW_HEIGHT) - ROWS_AROUND);
    const last = Math.min(steps.length, Math.ceil((scrollTop + clientHeight) / ROW_HEIGHT) + ROWS_AROUND);
    if (this.drawn === `${first} ${last}`) return;
    this.drawn = `${first} ${last}`;
    this.rows.replaceChildren(...steps.slice(first, last).map((mark, place) => this.row(mark, first + place)));
    this.mark();
  }

  row(mark, place) {
    const { entry } = mark;
    const { reply, asked } = entry;
    const cell = (className, text) => tag("span", { className, textContent: text, title: text });
    const more = `${this.found.has(mark) ? " found" : ""}${entry.index === this.failedAt ? " failed" : ""}`;
    const row = tag("div", { className: `row ${mark.kind}${more}` },
      cell("number", this.plan.numberOf[entry.index]), cell("user", reply.user ? `${reply.user} ${reply.step}` : ""),
      this.who(whoText(mark)), cell("asked", asked ? action(asked) + objectText(asked) : ""),
      cell("reply", plainText(reply)), cell("meaning", meaningText(entry)));
    row.mark = mark;
    row.style.top = `${place * ROW_HEIGHT}px`;
    row.style.setProperty("--user", colourOf(reply.user));
    for (const [name, value] of [["role", "option"], ["aria-posinset", place + 1], ["data-line", entry.index + 1],
      ["aria-setsize", this.steps.length]]) row.setAttribute(name, value);
    return row;
  }

  /** Who made a step; without the words if there is little room. */
  who(text) {
    const [, word, number, rest] = text.match(/^(\D*)(\d*)(.*)$/);
    const words = (part) => tag("span", { className: "word" }, part);
    return tag("span", { className: "who", title: text }, words(word), number, words(rest));
  }

  /** Shows which row is the current one. */
  mark() {
    this.element.removeAttribute("aria-activedescendant");
    for (const row of this.rows.children) {
      const isCurrent = this.current !== null && row.mark.entry === this.current.entry;
      row.setAttribute("aria-selected", isCurrent);
      row.id = isCurrent ? "chosen" : "";
      if (isCurrent) this.element.setAttribute("aria-activedescendant", "chosen");
    }
  }

  /** Makes the row of a mark's step the current one, and brings it into the list's window. */
  select(mark) {
    this.current = mark;
    if (!this.plan || this.element.hidden) return;
    if (mark) this.reveal(firstFrom(this.steps, ({ at }) => at, mark.entry.index) * ROW_HEIGHT);
    this.refresh();
    this.mark();
  }

  reveal(top) {
    const list = this.element;
    const { scrollTop, clientHeight } = list;
    if (top < scrollTop || top + ROW_HEIGHT > scrollTop + clientHeight) list.scrollTop = top - clientHeight / 2;
  }
}
