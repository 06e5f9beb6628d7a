/** What a user sees in two runs, beside each other. */

import { linesByUser } from "./compare_lines.mjs";
import { element, tag } from "./dom.mjs";
import { History, noRows } from "./state.mjs";
import { stateTree } from "./tree.mjs";
import { askedText, meaning, plainText } from "./words.mjs";

const NO_ROWS = "This trace doesn't contain what the host is after each step: make it with --json=trace+rows.";
const NOT_KNOWN = "A line before this step is missing, so what the user sees isn't known.";

/** @typedef {import("./compare_runs.mjs").Pair} Pair */
/** @typedef {import("./compare_lines.mjs").Line} Line */

/** What the users of a run see after each step. Lines are read as far as they are asked for. */
class Seen {
  /** @param {Line[]} lines */
  constructor(lines) {
    this.hasRows = lines.some((line) => line.hasRows);
    this.lines = linesByUser(lines);
    /** @type {Map<number, History>} */
    this.histories = new Map();
  }

  /** The rows after so many steps of a user; null if they aren't known. */
  after(user, count) {
    if (count === 0) return noRows();
    if (!this.hasRows) return null;
    if (!this.histories.has(user)) this.histories.set(user, new History(user));
    const history = this.histories.get(user);
    for (const line of this.lines.get(user).slice(history.steps.length, count)) history.add(line);
    return count <= history.steps.length ? history.after(count) : null;
  }
}

/** The step that a state is behind, in words. */
function headOf(entry, count, user) {
  if (!entry) {
    const behind = count === 0 ? "before its first step" : `still after step ${count}`;
    return [tag("p", {}, tag("b", { textContent: `user ${user}` }), ` ${behind}`)];
  }
  const { step, reply, asked, index } = entry;
  const ofAll = step === index + 1 ? "" : ` (step ${index + 1} of all)`;
  return [tag("p", {}, tag("b", { textContent: `user ${user}` }), ` after step ${step}${ofAll}`),
    tag("p", { className: "raw", textContent: askedText(asked) }),
    tag("p", { className: "raw", textContent: `→ ${plainText(reply)}` }),
    ...(meaning(reply) ? [tag("p", { className: "pale", textContent: meaning(reply) })] : [])];
}

/** The rows of one run as a tree. What differs from the other run's is marked; what only that has isn't shown here. */
function treeOf(rows, others) {
  const made = stateTree(rows, { before: others }).filter((row) => !row.classList.contains("gone"));
  for (const row of made) {
    row.removeAttribute("aria-expanded"); // nothing folds here
    for (const fact of row.querySelectorAll("del")) fact.remove();
    for (const fact of row.querySelectorAll(".fact")) {
      if (!fact.textContent.trim()) fact.remove();
      else if (fact.classList.contains("changed")) fact.textContent = fact.textContent.trim();
    }
    for (const label of row.querySelectorAll(".note")) label.textContent = "only here";
  }
  return made;
}

export class States {
  /** @param {{left: Line[], right: Line[]}} lines */
  constructor({ left, right }) {
    this.seen = { left: new Seen(left), right: new Seen(right) };
  }

  /** Shows what the user of a pair sees after it, in both runs. @param {Pair} pair */
  show(pair) {
    const { user } = pair;
    const counts = { left: pair.onLeft, right: pair.onRight };
    const rows = { left: this.seen.left.after(user, counts.left), right: this.seen.right.after(user, counts.right) };
    for (const [side, other] of [["left", "right"], ["right", "left"]]) {
      const tree = tag("div", { className: "tree", tabIndex: 0 });
      tree.setAttribute("role", "tree");
      tree.setAttribute("aria-label", `processes and LWPs of the ${side} run`);
      if (rows[side]) tree.append(...treeOf(rows[side], rows[other] ?? rows[side]));
      else tree.append(tag("p", { className: "pale", textContent: this.seen[side].hasRows ? NOT_KNOWN : NO_ROWS }));
      const head = tag("div", { className: "head" }, ...headOf(pair[side], counts[side], user));
      element(side).replaceChildren(head, tree);
      reveal(tree);
    }
  }
}

/** Brings what differs into the window. */
function reveal(tree) {
  const changed = tree.querySelector(".changed, .new");
  if (!changed) return;
  const [box, window] = [changed.getBoundingClientRect(), tree.getBoundingClientRect()];
  if (box.bottom > window.bottom) tree.scrollTop += box.top - window.top - window.height / 3;
}
