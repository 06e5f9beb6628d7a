/** Signs of marks and stretches, and the colours of users. */

const CIRCLE = "M-5 0a5 5 0 1 0 10 0a5 5 0 1 0-10 0Z";
const SMALL_CIRCLE = "M-3.5 0a3.5 3.5 0 1 0 7 0a3.5 3.5 0 1 0-7 0Z";
const DOT = "M-2 0a2 2 0 1 0 4 0a2 2 0 1 0-4 0Z";
const CROSS = "M-5-5L5 5M5-5L-5 5";
const SQUARE = "M-5-5H5V5H-5Z";
const DOWN = "M0 5.5L5.5-4.5H-5.5Z";

/**
 * @typedef {object} Sign
 * @property {string} path  around the point 0, 0
 * @property {string} classes
 * @property {string} words  a noun phrase, in the legend and the card
 * @property {number} rank  of its label: labels of the least rank get room first
 */

/** @returns {Sign} */
const sign = (path, classes, words, rank) => ({ path, classes, words, rank });

/** The sign of each kind of mark. No two look the same. */
export const SIGNS = new Map(Object.entries({
  birth: sign(CIRCLE, "", "a new process", 2),
  followed: sign(CIRCLE, "hollow", "a new process, the child of a followed fork", 2),
  seen: sign(CIRCLE + DOT, "hollow", "a process that no earlier reply names", 2),
  "lwp-birth": sign(SMALL_CIRCLE, "", "a new LWP", 2),
  stop: sign("M-2.5-6H2.5L6-2.5V2.5L2.5 6H-2.5L-6 2.5V-2.5Z", "stop", "a stop, with its signal and flags", 1),
  wait: sign("M0-6L6 0L0 6L-6 0Z", "", "a wait that reports a status", 1),
  nothing: sign("M0-4.5L4.5 0L0 4.5L-4.5 0Z", "hollow", "a wait with nothing to report", 3),
  handled: sign("M0-7L7 0L0 7L-7 0ZM0-3.2L-3.2 0L0 3.2L3.2 0Z", "", "a stop that handlers were given", 1),
  attach: sign(SQUARE, "", "tracing begins", 1),
  detach: sign(SQUARE, "hollow", "tracing ends", 1),
  resume: sign("M-4-5.5L6 0L-4 5.5Z", "", "a request that lets the target go on", 2),
  kill: sign(`${DOWN}M-5.5-7.5H5.5`, "", "PT_KILL", 1),
  request: sign("M-3-3H3V3H-3Z", "hollow", "another request", 3),
  post: sign(DOWN, "", "a signal is posted", 1),
  caught: sign("M0-5.5L5.5 4.5H-5.5Z", "hollow", "a signal is met, and caught", 1),
  call: sign("M3-5H-2V5H3", "line", "a system call is entered", 2),
  leave: sign("M-3-5H2V5H-3", "line", "a system call is left", 3),
  run: sign(DOT, "", "a turn in user mode", 3),
  ok: sign("M-4 0L-1 3.5L4.5-3.5", "line", "a step that succeeded, of unknown kind", 3),
  end: sign(CROSS, "end", "the end of a process", 1),
  gone: sign(CROSS, "gone", "an end that follows from the step", 1),
  error: sign("M-3.8 0a3.8 3.8 0 1 0 7.6 0a3.8 3.8 0 1 0-7.6 0ZM-2.7 2.7L2.7-2.7", "pale", "a step with an error", 3),
  held: sign("M-2-4V4M2-4V4", "pale", "a held step: the caller or the LWP can't run", 3),
  refused: sign("M-4-4H4V4H-4ZM-4-4L4 4M4-4L-4 4", "pale", "a line that is no step", 3),
}));

/**
 * The kinds of stretches along a lane: class and words.
 *
 * @type {[string, string][]}
 */
export const STRETCHES = [
  ["stopped", "stopped, and not reported to a wait yet"], ["reported", "stopped and reported: requests are answered"],
  ["call", "in a system call"], ["waiting", "after vfork, until the child's exec or end"], ["suspended", "suspended"],
  ["span", "traced"], ["zombie", "ended, and not yet collected"],
];

/** Hues of users, none that of stops; each user has the same one in every picture. */
const HUES = [214, 330, 158, 268, 186, 4, 96, 240];
const SATURATION = 0.72;
const LEAST_CONTRAST = 4.6;

/** The backgrounds of text in light and in dark, as `--raised` and `--chosen` in page.css have them. */
export const GROUNDS = { light: ["#f4f5f7", "#e1ebfb"], dark: ["#1e2229", "#26344a"] };

/** @returns {[number, number, number]} red, green and blue, each from 0 to 1 */
function rgbOfHsl(hue, saturation, lightness) {
  const reach = saturation * Math.min(lightness, 1 - lightness);
  const part = (place) => {
    const turned = (place + hue / 30) % 12;
    return lightness - reach * Math.max(-1, Math.min(turned - 3, 9 - turned, 1));
  };
  return [part(0), part(8), part(4)];
}

/** The same of a colour such as `#1e2229`. */
export const rgbOfHex = (hex) => [1, 3, 5].map((place) => parseInt(hex.slice(place, place + 2), 16) / 255);

/** The relative luminance of a colour, by WCAG 2. */
function luminance(rgb) {
  const [red, green, blue] = rgb.map((part) => (part <= 0.04045 ? part / 12.92 : ((part + 0.055) / 1.055) ** 2.4));
  return 0.2126 * red + 0.7152 * green + 0.0722 * blue;
}

/** The contrast of two colours, by WCAG 2. */
export function contrast(one, other) {
  const [low, high] = [luminance(one), luminance(other)].sort((a, b) => a - b);
  return (high + 0.05) / (low + 0.05);
}

/** The lightness nearest to the first one with which text of the hue can be read on the grounds. */
function readable(hue, first, way, grounds) {
  const isReadable = (lightness) => grounds.every((ground) => {
    return contrast(rgbOfHsl(hue, SATURATION, lightness / 100), rgbOfHex(ground)) >= LEAST_CONTRAST;
  });
  let lightness = first;
  while (lightness > 0 && lightness < 100 && !isReadable(lightness)) lightness += way;
  return lightness;
}

/** The hue of a user, with the percents of its lightness in light and in dark. */
export function tonesOf(user) {
  const place = user - 1001;
  const hue = (HUES[place % 8] + 11 * Math.floor(place / 8)) % 360;
  return { hue, light: readable(hue, 36, -1, GROUNDS.light), dark: readable(hue, 70, 1, GROUNDS.dark) };
}

/** @type {Map<number, string>} */
const colours = new Map();

/** The colour of a user in CSS; of no user (0) a grey. */
export function colourOf(user) {
  if (!user) return "var(--pale)";
  if (!colours.has(user)) {
    const { hue, light, dark } = tonesOf(user);
    const colour = (lightness) => `hsl(${hue} ${100 * SATURATION}% ${lightness}%)`;
    colours.set(user, `light-dark(${colour(light)}, ${colour(dark)})`);
  }
  return colours.get(user);
}
