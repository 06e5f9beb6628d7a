/** The panel beside the picture: what a user sees after the chosen step, with what that step has changed. */

import { element, tag } from "./dom.mjs";
import { colourOf } from "./signs.mjs";
import { noRows } from "./state.mjs";
import { stateTree } from "./tree.mjs";
import { action, objectText } from "./words.mjs";

const NOT_KNOWN = "A line before this step is missing, so what the user sees isn't known.";
const NO_ROWS = "These lines don't contain what the host is after each step: make them with --json=trace+rows.";

/** @typedef {import("./lanes.mjs").Entry} Entry */

export class StatePanel {
  /** @param {{onProcess: (user: number, pid: number, index: number) => void}} how */
  constructor({ onProcess }) {
    this.element = element("state");
    this.head = element("state-head");
    this.tree = element("state-rows");
    this.onProcess = onProcess;
    this.folded = new Set();
    this.active = 0; // the row that the keys are on
    this.shown = null;
    this.tree.addEventListener("click", (event) => {
      const row = event.target.closest("[role=treeitem]");
      if (!row || !getSelection().isCollapsed) return;
      this.activate([...this.tree.children].indexOf(row));
      if (event.target.closest(".name") && row.hasAttribute("aria-expanded")) this.fold(row, !this.isFolded(row));
      else this.enter(row);
    });
    this.tree.addEventListener("keydown", (event) => this.key(event));
  }

  /**
   * Shows the rows of a user after their last step up to an entry.
   *
   * @param {import("./state.mjs").History | undefined} history  of the user; undefined if the lines have no rows
   * @param {number} index  the entry's
   */
  show(history, index) {
    this.shown = history ? { history, index } : null;
    const count = history?.countAt(index) ?? null;
    this.element.style.setProperty("--user", colourOf(history?.user));
    if (!history || count === null) {
      this.head.replaceChildren(tag("p", { textContent: history ? NOT_KNOWN : NO_ROWS }));
      this.tree.replaceChildren();
      return;
    }
    const rows = history.after(count);
    const before = count > 0 ? history.after(count - 1) : noRows();
    const entry = history.steps[count - 1];
    this.head.replaceChildren(...headOf(history, count, entry, rows));
    this.tree.replaceChildren(...stateTree(rows, { before, folded: this.folded }));
    this.activate(Math.min(this.active, this.tree.children.length - 1));
    this.reveal();
  }

  /** Brings what the step has changed into the panel's window. */
  reveal() {
    const { tree } = this;
    const changed = tree.querySelector(".changed, .new, .gone");
    if (!changed) return;
    const [box, window] = [changed.getBoundingClientRect(), tree.getBoundingClientRect()];
    if (box.top < window.top || box.bottom > window.bottom) tree.scrollTop += box.top - window.top - window.height / 3;
  }

  /** What is printed of it: a copy, if it is shown. */
  printed() {
    if (this.element.hidden || !this.shown) return [];
    const copy = tag("div", { className: "state" }, ...[this.head, this.tree].map((part) => part.cloneNode(true)));
    copy.style.setProperty("--user", colourOf(this.shown.history.user));
    for (const part of copy.querySelectorAll("[id]")) part.removeAttribute("id");
    return [copy];
  }

  // ---- by hand

  activate(place) {
    this.active = Math.max(0, place);
    const { tree } = this;
    tree.querySelector("#state-active")?.removeAttribute("id");
    tree.removeAttribute("aria-activedescendant");
    const row = tree.children[this.active];
    if (!row) return;
    row.id = "state-active";
    tree.setAttribute("aria-activedescendant", row.id);
  }

  isFolded(row) {
    return this.folded.has(Number(row.dataset.pid));
  }

  fold(row, isFolded) {
    const pid = Number(row.dataset.pid);
    if (isFolded) this.folded.add(pid);
    else this.folded.delete(pid);
    if (this.shown) this.show(this.shown.history, this.shown.index);
  }

  enter(row) {
    if (this.shown) this.onProcess(this.shown.history.user, Number(row.dataset.pid), this.shown.index);
  }

  key(event) {
    const row = this.tree.children[this.active];
    const way = { ArrowDown: 1, ArrowUp: -1, Home: -Infinity, End: Infinity }[event.key];
    if (!row || event.altKey || event.ctrlKey || event.metaKey) return;
    if (way !== undefined) {
      this.activate(Math.max(0, Math.min(this.tree.children.length - 1, this.active + way)));
      this.tree.children[this.active].scrollIntoView({ block: "nearest" });
    } else if (event.key === "ArrowLeft" || event.key === "ArrowRight") {
      if (row.hasAttribute("aria-expanded")) this.fold(row, event.key === "ArrowLeft");
    } else if (event.key === "Enter") this.enter(row);
    else return;
    event.preventDefault();
    event.stopPropagation();
  }
}

/** Whose rows these are, and after which step. */
function headOf({ user, steps }, count, entry, { processes, lwps }) {
  const when = count === 0 ? " before the first step" : ` after step ${count}`;
  const of = [tag("strong", { textContent: `user ${user}` }), when, ` of ${steps.length}`];
  const asked = entry?.asked ? `${action(entry.asked)}${objectText(entry.asked)}` : "";
  const said = `${processes.size} ${processes.size === 1 ? "process" : "processes"}, `
    + `${lwps.size} ${lwps.size === 1 ? "LWP" : "LWPs"}`;
  return [tag("p", {}, ...of), tag("p", { className: "pale", textContent: asked ? `${asked} · ${said}` : said })];
}
