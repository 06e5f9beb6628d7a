/** Searches over the marks of steps, which are sorted by their entries. */

import { searchText } from "./sentences.mjs";
import { firstFrom } from "./sorted.mjs";

/** @typedef {import("./lanes.mjs").Mark} Mark */

/**
 * A test of marks: whether a mark's words contain each word of the query. A number has to be there as a whole.
 *
 * @param {string} query
 * @returns {(mark: Mark) => boolean}
 */
export function matcher(query) {
  const terms = query.toLowerCase().split(/\s+/).filter(Boolean);
  const tests = terms.map((term) => {
    if (!/^\d+$/.test(term)) return (text) => text.includes(term);
    const whole = new RegExp(`(?<!\\d)${term}(?!\\d)`);
    return (text) => whole.test(text);
  });
  return (mark) => {
    const text = searchText(mark);
    return tests.every((test) => test(text));
  };
}

export const isStop = (mark) => mark.kind === "stop";
export const isError = (mark) => mark.kind === "error" || mark.kind === "refused";

/**
 * The next of the marks after an entry, or before it.
 *
 * @param {Mark[]} marks
 * @param {number} at  the entry's index
 * @param {1 | -1} way
 * @param {(mark: Mark) => boolean} test
 * @returns {Mark | undefined}
 */
export function nextMark(marks, at, way, test) {
  let place = way > 0 ? firstFrom(marks, (mark) => mark.at, at + 1) : firstFrom(marks, (mark) => mark.at, at) - 1;
  while (marks[place] && !test(marks[place])) place += way;
  return marks[place];
}
