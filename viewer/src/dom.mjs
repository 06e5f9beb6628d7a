/** Elements of the page. */

/** @returns {any} the element with this id */
export const element = (id) => document.getElementById(id);

/** A new element of SVG. */
export function shape(name, attributes, ...children) {
  const made = document.createElementNS("http://www.w3.org/2000/svg", name);
  for (const [key, value] of Object.entries(attributes)) made.setAttribute(key, value);
  made.append(...children);
  return made;
}

/** What the pointer shows for a shape that is no mark. */
export function tip(text) {
  const made = shape("title", {});
  made.textContent = text;
  return made;
}

/** A new element of HTML. */
export function tag(name, properties, ...children) {
  const made = Object.assign(document.createElement(name), properties);
  made.append(...children);
  return made;
}

/** The width of a letter of labels, in pixels. */
export const LETTER = (() => {
  if (typeof document === "undefined") return 6.6;
  const context = document.createElement("canvas").getContext("2d");
  context.font = '11px ui-monospace, "DejaVu Sans Mono", Menlo, Consolas, monospace';
  return Math.max(6, context.measureText("M").width);
})();
