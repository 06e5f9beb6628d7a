/** The steps of two runs, as viewer/make puts them into the page: checked, in order, and each value only once. */

/**
 * A step with its reply: the user, the step's number, and the places of its parts among the values: what was asked, the
 * rest of the reply, and the rows, -1 if there are none. If processes have other numbers in the runs, what is compared
 * follows: three numbers, the same for parts that are the same with the left run's numbers.
 *
 * @typedef {[user: number, step: number, asked: number, said: number, rows: number, ...keys: number[]]} Row
 */

/** A step with its reply: an entry of the other pages. */
export class Line {
  /**
   * @param {Row} row
   * @param {any[]} values
   * @param {number} index  its place among all lines, from 0
   */
  constructor([user, step, asked, said, rows, ...keys], values, index) {
    this.user = user;
    this.step = step;
    this.index = index;
    this.places = { asked, said, rows };
    this.keys = keys.length ? { asked: keys[0], said: keys[1], rows: keys[2] } : this.places;
    this.values = values;
  }

  get hasRows() {
    return this.places.rows >= 0;
  }

  get asked() {
    return this.values[this.places.asked];
  }

  /** @returns {any} the line of the trace, without what was asked */
  get reply() {
    const { user, step, values, places: { said, rows } } = this;
    return { user, step, ...values[said], ...(rows < 0 ? {} : { rows: values[rows] }) };
  }

  /** Whether both ask the same and have the same reply. @param {Line} other */
  isSameAs(other) {
    return this.keys.asked === other.keys.asked && this.keys.said === other.keys.said;
  }
}

/**
 * The lines of each user.
 *
 * @param {Line[]} lines
 * @returns {Map<number, Line[]>}
 */
export function linesByUser(lines) {
  const found = new Map();
  for (const line of lines) {
    if (!found.has(line.user)) found.set(line.user, []);
    found.get(line.user).push(line);
  }
  return found;
}
