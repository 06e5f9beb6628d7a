/** A lane whose marks would overlap, as bars: the higher a bar, the more steps are at its place. */

import { SIGNS } from "./signs.mjs";
import { firstFrom } from "./sorted.mjs";

const BAR_WIDTH = 3; // pixels, at least
const LEAST_HEIGHT = 3;
const MORE_HEIGHT = 14;

/** Whether a step did something (1), stopped its LWP (2), or neither (0). */
const LEVELS = new Map([...SIGNS].map(([kind, { classes }]) => [kind, kind === "stop" ? 2 : classes === "pale" ? 0 : 1]));

/**
 * How many columns a bar covers.
 *
 * @param {number} step  the width of a column
 */
export const columnsOfBar = (step) => Math.max(1, Math.ceil(BAR_WIDTH / step));

/**
 * The counts of a lane's marks for each bar: of all marks, of those without errors and held steps, and of stops.
 *
 * @param {import("./lanes.mjs").Mark[]} marks  of one lane, by their columns
 * @param {{step: number, first: number, last: number}} part  the columns to draw
 * @returns {Map<number, [number, number, number]>}
 */
export function countBars(marks, { step, first, last }) {
  const columns = columnsOfBar(step);
  const bars = new Map();
  let [before, counts] = [-1, [0, 0, 0]];
  for (let place = firstFrom(marks, (mark) => mark.column, first); marks[place]?.column <= last; place++) {
    const bar = Math.floor(marks[place].column / columns);
    if (bar !== before) bars.set(bar, counts = bars.get(bar) ?? [0, 0, 0]);
    before = bar;
    for (let level = LEVELS.get(marks[place].kind); level >= 0; level--) counts[level]++;
  }
  return bars;
}

/**
 * The bars as a path for each level, around the height 0.
 *
 * @returns {[string, string, string]}
 */
export function barPaths(marks, part) {
  const columns = columnsOfBar(part.step);
  const width = columns * part.step;
  /** @type {[string, string, string]} */
  const paths = ["", "", ""];
  for (const [bar, counts] of countBars(marks, part)) {
    counts.forEach((count, level) => {
      if (count === 0) return;
      const height = LEAST_HEIGHT + MORE_HEIGHT * Math.sqrt(Math.min(1, count / columns));
      paths[level] += `M${round(bar * width)} ${round(-height / 2)}h${round(width)}v${round(height)}h${round(-width)}z`;
    });
  }
  return paths;
}

const round = (number) => Math.round(number * 100) / 100;

/** What a screen reader says of a lane that is drawn so. */
export function densityText(lane) {
  const count = (test) => lane.seen.filter(test).length;
  const parts = [[lane.seen.length, "marks"], [count(({ kind }) => kind === "stop"), "stops"],
    [count(({ kind }) => kind === "held"), "held"], [count(({ kind }) => kind === "error"), "with errors"]];
  return `${lane.name}: ${parts.filter(([number]) => number).map((part) => part.join(" ")).join(", ")}`;
}
