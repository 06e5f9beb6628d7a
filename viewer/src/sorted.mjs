/** Search in sorted lists. */

/**
 * The first place in a sorted list whose key isn't less; the list's length if there is none.
 *
 * @template T
 * @param {T[]} list
 * @param {(item: T) => number} key
 * @param {number} least
 */
export function firstFrom(list, key, least) {
  let low = 0;
  let high = list.length;
  while (low < high) {
    const middle = (low + high) >> 1;
    if (key(list[middle]) < least) low = middle + 1;
    else high = middle;
  }
  return low;
}

/**
 * Two sorted lists as one; of equal keys the first list's items come first.
 *
 * @template T
 * @param {T[]} one
 * @param {T[]} other
 * @param {(item: T) => number} key
 */
export function merged(one, other, key) {
  if (one.length === 0 || other.length === 0) return one.length === 0 ? other : one;
  const all = [];
  let place = 0;
  for (const item of one) {
    for (; place < other.length && key(other[place]) < key(item); place++) all.push(other[place]);
    all.push(item);
  }
  for (; place < other.length; place++) all.push(other[place]);
  return all;
}
