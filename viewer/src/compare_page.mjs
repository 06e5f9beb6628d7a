/** The page of two runs: what is shown of them, and what its address says. */

import { Line } from "./compare_lines.mjs";
import { PairList } from "./compare_list.mjs";
import { compareRuns } from "./compare_runs.mjs";
import { States } from "./compare_states.mjs";
import { element, tag } from "./dom.mjs";
import { colourOf } from "./signs.mjs";

const AROUND = 3; // equal steps beside a difference
const REMEMBER_AFTER = 300; // milliseconds
const NARROW = matchMedia("(max-width: 700px)");

/** @typedef {import("./compare_runs.mjs").Pair} Pair */
/** @typedef {{name: string, rows: import("./compare_lines.mjs").Row[]}} File */
/** @typedef {[user: number, left: number, right: number]} Name  a process or an LWP with other numbers in the runs */
/** @typedef {{step: number, text: string}} Note  of the step of the right run with this number, over all users */

/** Which processes and LWPs have other numbers in the right run. @param {Name[]} names */
function renamedText(names) {
  if (names.length === 0) return "";
  const [user, left, right] = names[0];
  const more = names.length > 1 ? `, and ${counted(names.length - 1, "more number")} are others` : "";
  return `${left} of user ${user} is ${right} in the right run${more}: they are compared as the same.`;
}

const counted = (number, word) => `${number} ${word}${number === 1 ? "" : "s"}`;

export class ComparePage {
  /** @param {{files: File[], values: any[], faults: string[], notes: Note[], names: Name[]}} data */
  constructor({ files, values, faults, notes, names }) {
    const [left, right] = files.map(({ rows }) => rows.map((row, index) => new Line(row, values, index)));
    element("faults").replaceChildren(...faults.map((fault) => tag("li", { textContent: fault })));
    this.isDamaged = faults.length > 0;
    this.all = compareRuns(left, right);
    this.addNotes(right, notes);
    this.users = [...new Set(this.all.map(({ user }) => user))].sort((one, other) => one - other);
    this.states = new States({ left, right });
    this.list = new PairList({ onPair: (row) => this.go(row) });
    this.showsEqual = true;
    element("left-name").append(...nameOf("left", files[0].name, left.length));
    element("right-name").append(...nameOf("right", files[1].name, right.length));
    element("renamed").textContent = renamedText(names);
  }

  /** Notes are on the row of their step; those behind the last step on that of the last one. */
  addNotes(right, notes) {
    if (notes.length === 0) return;
    const rows = new Map(this.all.filter((row) => row.right).map((row) => [row.right, row]));
    for (const { step, text } of notes) {
      const row = rows.get(right[Math.min(step, right.length) - 1]);
      if (row) row.notes = [...row.notes ?? [], text];
    }
  }

  // ---- the address

  address() {
    return new URLSearchParams(location.hash.slice(1));
  }

  /** The only user that is shown, or null. */
  get user() {
    const user = Number(this.address().get("user"));
    return this.users.includes(user) ? user : null;
  }

  choose(user) {
    const wanted = this.address();
    if (user === null) wanted.delete("user");
    else wanted.set("user", user);
    wanted.delete("row");
    location.hash = wanted.toString();
  }

  /** The address gets the current row once no other one has been chosen for a moment. */
  remember(row) {
    clearTimeout(this.remembering);
    this.remembering = setTimeout(() => {
      const wanted = this.address();
      wanted.set("row", String(row.number));
      history.replaceState(null, "", `#${wanted}`);
    }, REMEMBER_AFTER);
  }

  // ---- what is shown

  /** Shows the rows of the chosen user, and goes to the row that the address names, or to the first difference. */
  open() {
    this.show();
    const wanted = Number(this.address().get("row"));
    const named = this.list.rows.find(({ number }) => number === wanted);
    const row = named ?? this.differences[0] ?? this.list.rows[0];
    if (!row) return;
    this.go(row);
    this.list.middle(row);
  }

  show() {
    const { user } = this;
    const own = this.all.filter((row) => user === null || row.user === user);
    this.differences = own.filter(({ isFirst }) => isFirst);
    this.list.show(this.showsEqual ? own : beside(own), NARROW.matches);
    this.showUsers(user);
    this.showVerdict(own);
    const equal = own.filter(({ kind }) => kind === "same").length;
    element("equal").textContent = `equal ${equal}`;
    element("equal").setAttribute("aria-pressed", this.showsEqual);
    for (const id of ["before", "next"]) element(id).disabled = this.differences.length === 0;
    Object.assign(document.body.dataset, { rows: own.length, differences: this.differences.length });
  }

  showVerdict(own) {
    const [first] = this.differences;
    const count = this.differences.length;
    const of = this.user === null ? "The runs" : `For user ${this.user} the runs`;
    element("verdict").textContent = first
      ? `${of} differ in ${count === 1 ? "one place" : `${count} places, first`} at ${firstText(first)}.`
      : `${of} are equal${this.isDamaged ? ", as far as they can be read" : ""}: ${counted(own.length, "step")}.`;
    element("verdict").className = first ? "differs" : "equal";
  }

  showUsers(chosen) {
    const choice = (user, words) => {
      const button = tag("button", { type: "button", textContent: words });
      button.setAttribute("aria-pressed", user === chosen);
      button.style.setProperty("--user", colourOf(user ?? 0));
      if (user !== null) button.prepend(tag("span", { className: "dot" }));
      button.addEventListener("click", () => this.choose(user));
      return button;
    };
    const users = this.users.map((user) => choice(user, String(user)));
    element("users").replaceChildren(...(users.length > 1 ? [choice(null, "all users"), ...users] : users));
  }

  toggleEqual() {
    this.showsEqual = !this.showsEqual;
    const { current } = this.list;
    this.show();
    const row = this.list.rows.includes(current) ? current : this.differences[0] ?? this.list.rows[0];
    if (!row) return;
    this.go(row);
    this.list.middle(row);
  }

  // ---- going to steps

  /** Makes a row the current one. @param {Pair} row */
  go(row) {
    this.list.select(row);
    this.states.show(row);
    this.remember(row);
    const place = this.differences.indexOf(row);
    element("said").textContent = place < 0 ? "" : `difference ${place + 1} of ${this.differences.length}`;
  }

  /** Goes to the next difference, or to the one before. @param {1 | -1} way */
  goToDifference(way) {
    const at = this.list.current?.number ?? 0;
    const row = way > 0 ? this.differences.find(({ number }) => number > at)
      : this.differences.filter(({ number }) => number < at).at(-1);
    if (row) {
      this.go(row);
      this.list.middle(row);
    } else element("said").textContent = `no ${way > 0 ? "later" : "earlier"} difference`;
  }

  /** Goes to a step of the right run. */
  goToRight(index) {
    const row = this.list.rows.find(({ right }) => right?.index === index);
    if (row) this.go(row);
  }

  /** Goes so many rows down. */
  move(count) {
    const { rows, current } = this.list;
    const place = current ? this.list.placeOf(current) : 0;
    const row = rows[Math.min(rows.length - 1, Math.max(0, place + count))];
    if (row) this.go(row);
  }
}

/** Where the first difference of a user is, and what it is. @param {Pair} row */
function firstText({ user, kind, left, right }) {
  const what = { same: "", reply: "with another reply", step: "where another step is made", rows: "with another state behind it",
    left: "which only the left one makes", right: "which only the right one makes" }[kind];
  return `step ${(left ?? right).step} of user ${user}, ${what}`;
}

/** The name of a run and its steps. */
function nameOf(side, name, count) {
  return [tag("b", { textContent: name, title: name }), ` ${counted(count, "step")}, on the ${side}`];
}

/** The rows that differ, and those of the same user beside them. */
function beside(rows) {
  const kept = new Set();
  const lists = new Map();
  for (const row of rows) {
    if (!lists.has(row.user)) lists.set(row.user, []);
    lists.get(row.user).push(row);
  }
  for (const own of lists.values()) {
    own.forEach((row, place) => {
      if (row.kind === "same" && !row.notes) return;
      for (const near of own.slice(Math.max(0, place - AROUND), place + AROUND + 1)) kept.add(near);
    });
  }
  return rows.filter((row) => kept.has(row));
}
