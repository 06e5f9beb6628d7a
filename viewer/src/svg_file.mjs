/** The picture as a file of SVG that needs no style sheet: to save, and to print. */

import { LETTER, shape } from "./dom.mjs";

const PROPERTIES = ["fill", "fill-opacity", "stroke", "stroke-width", "stroke-dasharray", "stroke-linejoin",
  "stroke-linecap", "opacity", "paint-order", "font-family", "font-size", "font-weight", "text-anchor"];
const NAMES_WIDTH = 14 * LETTER;
const AXIS_HEIGHT = 24;

/** Gives the elements of a copy the properties that the page's style sheet gives the originals. */
function settle(original, copy) {
  const style = getComputedStyle(original);
  for (const name of PROPERTIES) {
    const value = style.getPropertyValue(name);
    if (value) copy.setAttribute(name, value);
  }
  for (const name of ["class", "style", "id"]) copy.removeAttribute(name);
  [...original.children].forEach((child, place) => settle(child, copy.children[place]));
}

/** A copy of an element with its own style. */
function copied(original) {
  const copy = original.cloneNode(true);
  settle(original, copy);
  return copy;
}

function laneName(lane, ink) {
  const made = shape("text", { x: 6 + 10 * Math.min(lane.depth, 6), y: lane.base + 4, fill: ink,
    "font-size": 11, "font-family": "monospace", ...(lane.kind === "lwp" ? {} : { "font-weight": 700 }) });
  made.textContent = lane.name;
  return made;
}

/**
 * What the window shows of the picture, from left to right, with all lanes.
 *
 * @param {import("./picture.mjs").Picture} picture
 * @returns {SVGSVGElement}
 */
export function svgFile(picture) {
  const { plan, svg } = picture;
  const { left, right } = picture.window();
  const end = Math.max(left + 1, Math.min(right, plan.width));
  picture.draw({ left, right: end, top: 0, bottom: plan.height });
  picture.showColumn(null);
  const { color, backgroundColor } = getComputedStyle(document.body);
  const [width, height] = [NAMES_WIDTH + end - left, AXIS_HEIGHT + plan.height + 4];
  const inside = (name, y, from) => {
    const tall = name === "axis" ? AXIS_HEIGHT : plan.height;
    const frame = shape("svg", { x: NAMES_WIDTH, y, width: end - left, height: tall,
      viewBox: `${left} 0 ${end - left} ${tall}` });
    frame.append(...[...from.children].map(copied));
    return frame;
  };
  const file = shape("svg", { xmlns: "http://www.w3.org/2000/svg", width, height, viewBox: `0 0 ${width} ${height}` },
    shape("rect", { width, height, fill: backgroundColor }), inside("axis", 0, document.getElementById("axis")),
    inside("picture", AXIS_HEIGHT, svg),
    shape("g", { transform: `translate(0 ${AXIS_HEIGHT})` }, ...plan.lanes.map((lane) => laneName(lane, color))));
  for (const hit of file.querySelectorAll(".mark rect")) hit.remove();
  picture.drawn = null;
  picture.refresh();
  return file;
}
