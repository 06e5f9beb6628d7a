/** The list of the steps of two runs: of its rows those in the window are made, and some around them. */

import { element, shape, tag } from "./dom.mjs";
import { colourOf } from "./signs.mjs";
import { firstFrom } from "./sorted.mjs";
import { askedText, plainText } from "./words.mjs";

const LINE_HEIGHT = 20;
const LINES_AROUND = 10;
const MAP_WIDTH = 12;
const LETTERS_OF_NARROW = 46; // of a note, in a line of a narrow window
/** Signs and words of the kinds of pairs. */
export const KINDS = {
  same: ["", "equal"], reply: ["≠", "another reply"], step: ["≠", "another step"], rows: ["≠", "another state"],
  left: ["−", "only on the left"], right: ["+", "only on the right"],
};

/** @typedef {import("./compare_runs.mjs").Pair} Pair */

export class PairList {
  /** @param {{onPair: (row: Pair) => void}} how */
  constructor({ onPair }) {
    this.element = element("pairs");
    this.box = element("rows");
    this.map = element("map");
    /** @type {Pair[]} */
    this.rows = [];
    this.tops = [0]; // of the rows, and the end of the last one
    /** @type {Pair | null} */
    this.current = null;
    this.drawn = "";
    this.isNarrow = false;
    this.element.addEventListener("scroll", () => this.refresh());
    this.box.addEventListener("click", (event) => {
      const { row } = event.target.closest(".pair") ?? {};
      if (row && getSelection().isCollapsed) onPair(row);
    });
    this.map.addEventListener("click", (event) => {
      const { top, height } = this.map.getBoundingClientRect();
      this.element.scrollTop = (event.clientY - top) / height * this.height - this.element.clientHeight / 2;
    });
  }

  get height() {
    return this.tops[this.rows.length];
  }

  /**
   * @param {Pair[]} rows
   * @param {boolean} isNarrow  whether a row that differs has a line for each side
   */
  show(rows, isNarrow) {
    this.rows = rows;
    this.isNarrow = isNarrow;
    this.tops = [0];
    for (const row of rows) {
      const isHigh = isNarrow && row.kind !== "same" && row.left && row.right;
      const lines = (row.notes ?? []).reduce((sum, note) => sum + this.linesOf(note), isHigh ? 2 : 1);
      this.tops.push(this.tops.at(-1) + lines * LINE_HEIGHT);
    }
    this.box.style.height = `${this.height}px`;
    this.drawMap();
    this.drawn = "";
    this.refresh();
  }

  linesOf(note) {
    return this.isNarrow ? Math.ceil(note.length / LETTERS_OF_NARROW) : 1;
  }

  placeOf(row) {
    return firstFrom(this.rows, ({ number }) => number, row.number);
  }

  /** The place of the row at a height. */
  placeAt(height) {
    return Math.min(this.rows.length, Math.max(0, firstFrom(this.tops, (top) => top, height + 1) - 1));
  }

  refresh() {
    const { scrollTop, clientHeight } = this.element;
    const around = LINES_AROUND * LINE_HEIGHT;
    const first = this.placeAt(Math.max(0, scrollTop - around));
    const last = Math.min(this.rows.length, this.placeAt(scrollTop + clientHeight + around) + 1);
    if (this.drawn === `${first} ${last}`) return;
    this.drawn = `${first} ${last}`;
    const made = [];
    for (let place = first; place < last; place++) made.push(this.made(this.rows[place], place));
    this.box.replaceChildren(...made);
    this.mark();
  }

  made(row, place) {
    const [sign, words] = KINDS[row.kind];
    const notes = (row.notes ?? []).map((text) => {
      const note = tag("span", { className: "note", textContent: text, title: text });
      note.style.gridRow = `span ${this.linesOf(text)}`;
      return note;
    });
    const made = tag("div", { className: `pair ${row.kind}${row.isFirst ? " first" : ""}` }, ...notes,
      ...this.side(row.left, "on-left"), tag("span", { className: "sign", textContent: sign, title: words }),
      ...this.side(row.right, "on-right"));
    made.row = row;
    made.style.top = `${this.tops[place]}px`;
    made.style.height = `${this.tops[place + 1] - this.tops[place]}px`;
    made.style.setProperty("--user", colourOf(row.user));
    made.style.setProperty("--notes", String((row.notes ?? []).reduce((sum, note) => sum + this.linesOf(note), 0)));
    for (const [name, value] of [["role", "option"], ["aria-posinset", place + 1], ["data-row", row.number],
      ["aria-setsize", this.rows.length]]) made.setAttribute(name, value);
    return made;
  }

  /** A step in one of the runs: its number, what was asked, and the reply. */
  side(entry, name) {
    const cell = (part, word, text) => tag("span", { className: `${part} ${name}`, title: word + text },
      ...(word ? [tag("span", { className: "word" }, word)] : []), text);
    if (!entry) return [cell("number", "", ""), cell("asked", "", ""), cell("reply", "", "")];
    const { user, step, reply, asked } = entry;
    const [, word, rest] = askedText(asked).match(/^(process |LWP )?(.*)$/s);
    return [cell("number", `${user} `, String(step)), cell("asked", word ?? "", rest),
      cell("reply", "", plainText(reply))];
  }

  /** Shows which row is the current one. */
  mark() {
    this.element.removeAttribute("aria-activedescendant");
    for (const made of this.box.children) {
      const isCurrent = made.row === this.current;
      made.setAttribute("aria-selected", isCurrent);
      made.id = isCurrent ? "chosen" : "";
      if (isCurrent) this.element.setAttribute("aria-activedescendant", "chosen");
    }
  }

  /** Makes a row the current one, and brings it into the window: into its middle if it isn't there. */
  select(row) {
    this.current = row;
    const place = this.placeOf(row);
    const [top, end] = [this.tops[place], this.tops[place + 1]];
    const { scrollTop, clientHeight } = this.element;
    if (top < scrollTop || end > scrollTop + clientHeight) this.middle(row);
    this.refresh();
    this.mark();
  }

  /** Brings a row into the middle of the window. */
  middle(row) {
    const place = this.placeOf(row);
    this.element.scrollTop = (this.tops[place] + this.tops[place + 1] - this.element.clientHeight) / 2;
    this.refresh();
  }

  /** Beside the list: where in it the differences are. */
  drawMap() {
    const height = this.map.clientHeight;
    const lines = new Set();
    this.rows.forEach((row, place) => {
      if (row.kind !== "same") lines.add(Math.round(this.tops[place] / Math.max(this.height, 1) * (height - 2)));
    });
    this.map.setAttribute("width", MAP_WIDTH);
    const path = [...lines].map((top) => `M0 ${top}h${MAP_WIDTH}v2h-${MAP_WIDTH}Z`).join("");
    this.map.replaceChildren(shape("path", { d: path, class: "differs" }));
  }
}
