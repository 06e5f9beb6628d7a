/** Two runs step by step: which steps of a user belong together, and where they differ. */

import { commonRuns } from "./compare_align.mjs";
import { linesByUser } from "./compare_lines.mjs";
import { firstFrom } from "./sorted.mjs";

/** @typedef {import("./compare_lines.mjs").Line} Line */

/**
 * A step of a user in both runs, or in only one of them: `same`; with another `reply`; another `step` in its place; with
 * another state behind it (`rows`); only in the left run, or in the `right` one.
 *
 * @typedef {"same" | "reply" | "step" | "rows" | "left" | "right"} Kind
 */
export class Pair {
  /**
   * @param {Line | null} left
   * @param {Line | null} right
   * @param {Kind} kind
   */
  constructor(left, right, kind) {
    this.left = left;
    this.right = right;
    this.kind = kind;
    this.user = (left ?? right).user;
    this.isFirst = false; // whether it is the first one of a difference
    this.onLeft = 0; // how many steps the user has made in the left run up to it, and in the right one
    this.onRight = 0;
    this.at = -1; // its place among the lines of the left run
    this.number = 0; // its place among all pairs, from 1
    /** @type {string[] | null} */
    this.notes = null;
  }
}

/** Numbers of lines from 0: two that are the same have the same number. */
function numbering() {
  /** @type {Map<string, number>} */
  const numbers = new Map();
  return ({ keys: { asked, said } }) => {
    const key = `${asked} ${said}`;
    if (!numbers.has(key)) numbers.set(key, numbers.size);
    return numbers.get(key);
  };
}

/**
 * The steps of one user: those that belong together, and what is between them in order. What both runs begin and end with
 * is left out first: most runs differ in few places.
 *
 * @param {Line[]} left
 * @param {Line[]} right
 * @returns {Pair[]}
 */
export function pairsOfUser(left, right) {
  const most = Math.min(left.length, right.length);
  let begin = 0;
  while (begin < most && left[begin].isSameAs(right[begin])) begin++;
  let end = 0;
  while (end < most - begin && left[left.length - 1 - end].isSameAs(right[right.length - 1 - end])) end++;
  const same = (from, to, shift) => left.slice(from, to)
    .map((line, place) => new Pair(line, right[from + place + shift], "same"));
  return [...same(0, begin, 0),
    ...pairsBetween(left.slice(begin, left.length - end), right.slice(begin, right.length - end)),
    ...same(left.length - end, left.length, right.length - left.length)];
}

/**
 * The pairs of a user's steps between those that both runs begin with and end with.
 *
 * @param {Line[]} left
 * @param {Line[]} right
 */
function pairsBetween(left, right) {
  const number = numbering();
  const [lefts, rights] = [left, right].map((lines) => ({
    asked: Int32Array.from(lines.map(({ keys }) => keys.asked)), whole: Int32Array.from(lines.map(number)),
  }));
  /** @type {Pair[]} */
  const pairs = [];
  let [onLeft, onRight] = [0, 0];
  for (const run of [...commonRuns(lefts, rights), { left: left.length, right: right.length, length: 0 }]) {
    while (onLeft < run.left || onRight < run.right) {
      const one = onLeft < run.left ? left[onLeft++] : null;
      const other = onRight < run.right ? right[onRight++] : null;
      pairs.push(new Pair(one, other, !one ? "right" : !other ? "left" : "step"));
    }
    for (let count = run.length; count > 0; count--, onLeft++, onRight++) {
      const kind = left[onLeft].isSameAs(right[onRight]) ? "same" : "reply";
      pairs.push(new Pair(left[onLeft], right[onRight], kind));
    }
  }
  return pairs;
}

/** The first pair whose steps leave other rows behind, if nothing differs before it: it isn't the same. */
function markRows(pairs) {
  for (const pair of pairs) {
    if (pair.kind !== "same") return;
    const { left, right } = pair;
    if (!left.hasRows || !right.hasRows || left.keys.rows === right.keys.rows) continue;
    pair.kind = "rows";
    return;
  }
}

/**
 * Two runs: each user's steps in the user's order, and those of several users in the order of the left run; a step that
 * only the right one has comes behind those that are before it there.
 *
 * @param {Line[]} left
 * @param {Line[]} right
 * @returns {Pair[]}
 */
export function compareRuns(left, right) {
  const [lefts, rights] = [linesByUser(left), linesByUser(right)];
  /** @type {Pair[][]} */
  const users = [];
  for (const user of new Set([...lefts.keys(), ...rights.keys()])) {
    const own = pairsOfUser(lefts.get(user) ?? [], rights.get(user) ?? []);
    markRows(own);
    count(own);
    users.push(own);
  }
  const pairs = users.flat();
  placeInOrder(pairs);
  const order = (pair) => pair.right?.index ?? 0;
  pairs.sort((one, other) => one.at - other.at || Number(!one.left) - Number(!other.left) || order(one) - order(other));
  for (let place = 0; place < pairs.length; place++) pairs[place].number = place + 1;
  return pairs;
}

/** Counts the steps of a user's pairs on both sides, and marks the first ones of differences. */
function count(pairs) {
  let [onLeft, onRight, before] = [0, 0, "same"];
  for (const pair of pairs) {
    if (pair.left) onLeft++;
    if (pair.right) onRight++;
    pair.onLeft = onLeft;
    pair.onRight = onRight;
    pair.isFirst = pair.kind !== "same" && before === "same";
    before = pair.kind;
  }
}

/** Gives each pair its place: that of its left line, or of one before it. */
function placeInOrder(pairs) {
  const matched = pairs.filter(({ left, right }) => left && right).sort((one, other) => one.right.index - other.right.index);
  const before = latestLeft(matched);
  /** @type {Map<number, number>} the place of each user's last pair with a left line */
  const last = new Map();
  const next = nextLeft(pairs);
  pairs.forEach((pair, place) => {
    if (pair.left) last.set(pair.user, pair.left.index);
    const least = last.get(pair.user) ?? -1;
    pair.at = pair.left ? pair.left.index : Math.max(least, Math.min(before(pair.right.index), next[place] - 1));
  });
}

/** The greatest place of the left run that belongs to a line of the right one before an index. */
function latestLeft(matched) {
  const places = [];
  for (const { left } of matched) places.push(Math.max(left.index, places.at(-1) ?? -1));
  return (index) => places[firstFrom(matched, (pair) => pair.right.index, index) - 1] ?? -1;
}

/** For each pair the place of the user's next left line. */
function nextLeft(pairs) {
  const next = Array(pairs.length);
  const seen = new Map();
  for (let place = pairs.length - 1; place >= 0; place--) {
    const { user, left } = pairs[place];
    if (left) seen.set(user, left.index);
    next[place] = seen.get(user) ?? Infinity;
  }
  return next;
}
