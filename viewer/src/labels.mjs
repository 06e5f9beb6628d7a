/** Room for labels. */

import { firstFrom } from "./sorted.mjs";

/**
 * A label that a mark would have.
 *
 * @typedef {{x: number, text: string, rank: number, pale: boolean}} Wanted
 *
 * A label that has room: it reaches from x to end, in a row above the marks (0) or below them (1).
 *
 * @typedef {Wanted & {end: number, row: number}} Placed
 */

/**
 * The labels that have room in the rows. Those of the least rank get room first, and of one rank those before others: the
 * labels of a rank are in their order from left to right. Names of tracers (rank 0) are only in the last row.
 *
 * @param {Wanted[]} wanted
 * @param {{rows: number, letter: number, limit: number}} how  the width of a letter, and where the picture ends
 * @returns {Placed[]}
 */
export function placeLabels(wanted, { rows: count, letter, limit }) {
  /** @type {Placed[][]} */
  let rows = Array.from({ length: count }, () => []);
  for (const labels of byRank(wanted)) {
    const added = rows.map(() => []);
    for (const label of labels) place(withEnd(label, letter, limit), rows, added);
    rows = rows.map((placed, row) => (added[row].length ? placed.concat(added[row]).sort((one, other) => one.x - other.x) : placed));
  }
  return rows.flat();
}

function byRank(wanted) {
  const found = [];
  for (const label of wanted) (found[label.rank] ??= []).push(label);
  return found.filter(Boolean);
}

/** The label with its end: it is to the left of its mark if there is no room to the right. */
function withEnd({ x: wanted, text, rank, pale }, letter, limit) {
  const width = text.length * letter + 6;
  const x = wanted + width > limit && wanted > width + 8 && rank > 0 ? wanted - width - 6 : wanted;
  return { x, text, rank, pale, end: x + width, row: 0 };
}

/** Adds a label to the first row in which it overlaps none, if there is one. */
function place(label, rows, added) {
  for (let row = label.rank === 0 ? rows.length - 1 : 0; row < rows.length; row++) {
    const before = added[row].at(-1);
    const next = rows[row][firstFrom(rows[row], (other) => other.end, label.x)];
    if (before && before.end >= label.x || next && next.x <= label.end) continue;
    label.row = row;
    added[row].push(label);
    return;
  }
}
