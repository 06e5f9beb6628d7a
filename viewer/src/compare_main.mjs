/** Starts the page of two runs, with the data that it contains. */

import { ComparePage } from "./compare_page.mjs";
import { element } from "./dom.mjs";
import { Failure } from "./failure.mjs";

const PAGE_OF_ROWS = 20;

/**
 * @param {ComparePage} page
 * @param {Failure} failure
 */
function listen(page, failure) {
  element("next").addEventListener("click", () => page.goToDifference(1));
  element("before").addEventListener("click", () => page.goToDifference(-1));
  element("equal").addEventListener("click", () => page.toggleEqual());
  addEventListener("hashchange", () => page.open());
  addEventListener("resize", () => {
    page.show();
    if (page.list.current) page.list.middle(page.list.current);
  });
  const keys = {
    f: () => failure.at !== null && page.goToRight(failure.at),
    d: () => page.goToDifference(1), D: () => page.goToDifference(-1), q: () => page.toggleEqual(),
    ArrowDown: () => page.move(1), ArrowUp: () => page.move(-1), PageDown: () => page.move(PAGE_OF_ROWS),
    PageUp: () => page.move(-PAGE_OF_ROWS), Home: () => page.move(-Infinity), End: () => page.move(Infinity),
  };
  addEventListener("keydown", (event) => {
    if (event.altKey || event.ctrlKey || event.metaKey || !Object.hasOwn(keys, event.key)) return;
    if (event.key.length > 1 && ![document.body, page.list.element].includes(/** @type {any} */ (document.activeElement))) return;
    event.preventDefault();
    keys[event.key]();
  });
}

const began = performance.now();
const { title, failure: told, ...data } = JSON.parse(element("embedded").textContent);
const theme = new URLSearchParams(location.hash.slice(1)).get("theme");
if (theme) document.documentElement.dataset.theme = theme;
document.title = `${title} - tracehost: two runs`;
document.querySelector("h1").textContent = title;
const page = new ComparePage(data);
const shownFailure = new Failure({ onStep: (index) => page.goToRight(index) });
shownFailure.show(told);
listen(page, shownFailure);
page.open();
document.body.dataset.milliseconds = String(Math.round(performance.now() - began));
