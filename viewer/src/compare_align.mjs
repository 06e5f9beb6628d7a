/** Which steps of two runs belong together: what they begin and end with, then the longest runs between. */

/**
 * Steps as numbers: two steps ask the same if `asked` is, and have the same reply too if `whole` is.
 *
 * @typedef {{asked: Int32Array, whole: Int32Array}} Steps
 *
 * A part of two sequences: from which place to which, in the left one and in the right one.
 *
 * @typedef {{left: number, leftEnd: number, right: number, rightEnd: number}} Part
 *
 * So many steps of both sequences, one after the other, ask the same.
 *
 * @typedef {{left: number, right: number, length: number}} Run
 */

/** So many steps are looked at, each as often as it takes, in about a second. */
const MOST_WORK = 3_000_000;
/** A run with the same replies is taken unless one that only asks the same is more than so many times as long. */
const LONGER = 2;

/**
 * The runs that two sequences have in common, by rising places: what both begin with, what both end with, and of what is
 * between the longest run that both have; then of what is before it, and of what is behind it, likewise.
 *
 * Of runs of one length the one nearest to the middle of the left sequence is taken, so that few parts are long, and then
 * the place in the right one that is nearest to as many steps from the part's begin. Of two as near it is the first.
 * Parts that too much work has left are compared step by step.
 *
 * @param {Steps} left
 * @param {Steps} right
 * @param {number} [work]  so many steps are looked at
 * @returns {Run[]}
 */
export function commonRuns(left, right, work = MOST_WORK) {
  const [one, other] = [left.whole, right.whole];
  const most = Math.min(one.length, other.length);
  let begin = 0;
  while (begin < most && one[begin] === other[begin]) begin++;
  let end = 0;
  while (end < most - begin && one[one.length - 1 - end] === other[other.length - 1 - end]) end++;
  const parts = [{ left: begin, leftEnd: one.length - end, right: begin, rightEnd: other.length - end }];
  const runs = [{ left: 0, right: 0, length: begin }, { left: one.length - end, right: other.length - end, length: end }];
  while (parts.length && work > 0) {
    const part = parts.pop();
    const run = bestRun(left, right, part);
    work -= 2 * (part.leftEnd - part.left + part.rightEnd - part.right);
    if (run.length === 0) continue;
    runs.push(run);
    parts.push({ left: part.left, leftEnd: run.left, right: part.right, rightEnd: run.right },
      { ...part, left: run.left + run.length, right: run.right + run.length });
  }
  for (const part of parts) runs.push(...runsInStep(left.asked, right.asked, part));
  return runs.filter(({ length }) => length > 0).sort((first, second) => first.left - second.left);
}

/** The run of a part that is taken, with the steps at its ends that ask the same. */
function bestRun(left, right, part) {
  const whole = longestRun(left.whole, right.whole, part);
  const asked = longestRun(left.asked, right.asked, part);
  const run = { ...(LONGER * whole.length >= asked.length ? whole : asked) };
  if (run.length === 0) return run;
  const isSame = (distance) => left.asked[run.left + distance] === right.asked[run.right + distance];
  while (run.left > part.left && run.right > part.right && isSame(-1)) {
    run.left--;
    run.right--;
    run.length++;
  }
  while (run.left + run.length < part.leftEnd && run.right + run.length < part.rightEnd && isSame(run.length)) run.length++;
  return run;
}

/** The steps of a part that ask the same at the same distance from its begin. */
function runsInStep(left, right, part) {
  const runs = [];
  const most = Math.min(part.leftEnd - part.left, part.rightEnd - part.right);
  for (let place = 0; place < most; place++) {
    const run = { left: part.left + place, right: part.right + place, length: 1 };
    if (left[run.left] === right[run.right]) runs.push(run);
  }
  return runs;
}

/**
 * All runs of a sequence, as a suffix automaton: a state is runs that end at the same places. (A. Blumer and others: The
 * smallest automaton recognizing the subwords of a text, 1985.)
 */
class Automaton {
  constructor(most) {
    /** @type {Map<number, number>[]} from a state by an item to the next one */
    this.next = [new Map()];
    this.length = new Int32Array(2 * most + 1); // of the state's longest run
    this.shorter = new Int32Array(2 * most + 1).fill(-1); // the state of its longest end that has more places
    this.last = 0;
  }

  /** The sequence gets one more item. */
  add(item) {
    const state = this.made(new Map(), this.length[this.last] + 1);
    let from = this.last;
    for (; from >= 0 && !this.next[from].has(item); from = this.shorter[from]) this.next[from].set(item, state);
    this.shorter[state] = from < 0 ? 0 : this.endOf(from, item);
    this.last = state;
  }

  made(next, length) {
    const state = this.next.push(next) - 1;
    this.length[state] = length;
    return state;
  }

  /** The state of a state's longest run with the item behind it: a state of its own if that has longer ones too. */
  endOf(from, item) {
    const whole = this.next[from].get(item);
    if (this.length[from] + 1 === this.length[whole]) return whole;
    const part = this.made(new Map(this.next[whole]), this.length[from] + 1);
    this.shorter[part] = this.shorter[whole];
    this.shorter[whole] = part;
    for (; from >= 0 && this.next[from].get(item) === whole; from = this.shorter[from]) this.next[from].set(item, part);
    return part;
  }
}

/**
 * The longest run that both sides of a part have.
 *
 * @param {Int32Array} left
 * @param {Int32Array} right
 * @param {Part} part
 * @returns {Run}
 */
function longestRun(left, right, part) {
  if (part.left === part.leftEnd || part.right === part.rightEnd) return { left: 0, right: 0, length: 0 };
  const runs = new Automaton(part.leftEnd - part.left);
  for (let place = part.left; place < part.leftEnd; place++) runs.add(left[place]);
  const { length, states } = longestIn(runs, right, part);
  if (length === 0) return { left: 0, right: 0, length };
  const { begin, state } = nearestToMiddle(runs, left, part, length, new Set(states.values()));
  const wanted = part.right + begin - part.left;
  const places = [...states.keys()].filter((place) => states.get(place) === state);
  return { left: begin, right: nearest(places, (place) => Math.abs(place - wanted)), length };
}

/** The item with the least key; of several the first one. */
function nearest(items, key) {
  let best = items[0];
  for (const item of items) if (key(item) < key(best)) best = item;
  return best;
}

/** How long the longest runs are that a part's right side has too, and each place where one begins, with its state. */
function longestIn(runs, right, part) {
  let state = 0;
  let length = 0;
  let most = 0;
  /** @type {Map<number, number>} */
  const states = new Map();
  for (let place = part.right; place < part.rightEnd; place++) {
    const item = right[place];
    while (state > 0 && !runs.next[state].has(item)) {
      state = runs.shorter[state];
      length = runs.length[state];
    }
    if (!runs.next[state].has(item)) continue;
    state = runs.next[state].get(item);
    length++;
    if (length > most) states.clear();
    most = Math.max(most, length);
    if (length === most) states.set(place + 1 - length, state);
  }
  return { length: most, states };
}

/** Of the runs of this length in a part's left side that have one of these states, the one nearest to its middle. */
function nearestToMiddle(runs, left, part, length, states) {
  let state = 0;
  const begins = [];
  /** @type {Map<number, number>} */
  const found = new Map();
  for (let place = part.left; place < part.leftEnd; place++) {
    state = runs.next[state].get(left[place]);
    while (runs.length[runs.shorter[state]] >= length) state = runs.shorter[state];
    if (place + 1 - part.left < length || !states.has(state)) continue;
    begins.push(place + 1 - length);
    found.set(place + 1 - length, state);
  }
  const begin = nearest(begins, (place) => Math.abs(2 * place + length - part.left - part.leftEnd));
  return { begin, state: found.get(begin) };
}
