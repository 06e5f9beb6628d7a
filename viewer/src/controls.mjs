/** What is done by hand: files, buttons, keys, the pointer. */

import { element, shape, tag } from "./dom.mjs";
import { colourOf, SIGNS, STRETCHES } from "./signs.mjs";
import { pngFile } from "./png_file.mjs";
import { svgFile } from "./svg_file.mjs";

const ZOOM = 1.3;
const DRAG_FROM = 4; // pixels
const ARROWS = ["ArrowLeft", "ArrowRight", "ArrowUp", "ArrowDown", "Home", "End"];

/** @typedef {import("./page.mjs").Page} Page */

/** @param {Page} page */
export function listenForFiles(page) {
  const takeFiles = async (list) => {
    try {
      page.take(await Promise.all([...list].map(async (file) => ({ name: file.name, text: await file.text() }))));
    } catch (error) {
      page.showFaults([`a file can't be read: ${error.message}`]);
    }
  };
  element("files").addEventListener("change", (event) => takeFiles(event.target.files));
  addEventListener("dragover", (event) => {
    event.preventDefault();
    document.body.classList.add("dropping");
  });
  addEventListener("dragleave", () => document.body.classList.remove("dropping"));
  addEventListener("drop", (event) => {
    event.preventDefault();
    document.body.classList.remove("dropping");
    const { files } = event.dataTransfer;
    if (files.length) takeFiles(files);
    else page.take([{ name: "what was dropped", text: event.dataTransfer.getData("text/plain") }]);
  });
  document.addEventListener("paste", (event) => {
    if (isField(event.target)) return;
    page.take([{ name: "what was pasted", text: event.clipboardData.getData("text/plain") }]);
  });
}

const isField = (target) => target instanceof HTMLInputElement;

/** @param {Page} page */
export function listenToButtons(page) {
  const buttons = {
    wider: () => page.zoom(page.step * ZOOM), narrower: () => page.zoom(page.step / ZOOM), fit: () => page.fit(),
    others: () => page.toggleOthers(), held: () => page.toggleHidden("held"), errors: () => page.toggleHidden("error"),
    nothing: () => page.toggleHidden("nothing"), only: () => page.toggleOnly(), lwps: () => page.toggleLwps(),
    theme: () => page.toggleTheme(), listed: () => page.toggleList(), stated: () => page.toggleState(),
    save: () => page.session && save(svgText(page), "timeline.svg"),
    "save-png": async () => page.session && save(await pngFile(svgFile(page.picture)), "timeline.png"),
    "next-stop": ({ shiftKey }) => page.session && page.goToNext("stop", shiftKey ? -1 : 1),
    "next-error": ({ shiftKey }) => page.session && page.goToNext("error", shiftKey ? -1 : 1),
  };
  for (const [id, does] of Object.entries(buttons)) element(id).addEventListener("click", does);
  listenToMenus();
  addEventListener("hashchange", () => {
    if (!page.session) return;
    const { current } = page.picture;
    page.show();
    if (page.address().has("step")) page.goToAddress();
    else if (page.picture.current) page.go(page.picture.current);
    else page.list.select(current);
  });
  addEventListener("resize", () => page.session && page.show());
}

/** @param {Page} page */
export function listenToFields(page) {
  const [find, number] = [element("find"), element("number")];
  find.addEventListener("input", () => page.session && page.find(find.value));
  find.addEventListener("keydown", (event) => {
    if (event.key === "Enter" && page.session) page.goToFound(event.shiftKey ? -1 : 1);
    if (event.key === "Escape") event.preventDefault(); // a browser may empty the field without an event
  });
  number.addEventListener("keydown", (event) => {
    if (event.key === "Enter" && page.session) page.goToStep(number.value.trim());
  });
}

/** A menu closes when the pointer is used elsewhere, and by Escape. */
function listenToMenus() {
  const close = (except = null) => {
    const menus = [...document.querySelectorAll(".menu[open]")].filter((menu) => !menu.contains(except));
    for (const menu of menus) menu.removeAttribute("open");
  };
  addEventListener("pointerdown", (event) => close(event.target));
  addEventListener("keydown", (event) => event.key === "Escape" && close());
}

function svgText(page) {
  const text = new XMLSerializer().serializeToString(svgFile(page.picture));
  return new Blob([text], { type: "image/svg+xml" });
}

/** Saves what the window shows as a file. */
function save(file, name) {
  const link = tag("a", { download: name, href: URL.createObjectURL(file) });
  link.click();
  setTimeout(() => URL.revokeObjectURL(link.href), 1000);
}

/**
 * What is printed has light colours.
 *
 * @param {Page} page
 */
export function listenToPrinting(page) {
  const { dataset } = document.documentElement;
  addEventListener("beforeprint", () => {
    if (!page.session) return;
    const { theme } = dataset;
    dataset.theme = "light";
    element("print").replaceChildren(svgFile(page.picture), ...page.panel.printed());
    if (theme) dataset.theme = theme;
    else delete dataset.theme;
  });
  addEventListener("afterprint", () => element("print").replaceChildren());
}

/** @param {Page} page */
export function listenToPicture(page) {
  const { picture, card } = page;
  const { svg, scroller } = picture;
  svg.addEventListener("pointermove", (event) => {
    if (event.buttons === 0) card.pass(picture.markAt(event) ?? null);
  });
  svg.addEventListener("pointerleave", () => card.pass(null));
  svg.addEventListener("click", (event) => {
    const mark = picture.markAt(event);
    if (!mark) return card.close();
    svg.focus({ preventScroll: true });
    return page.go(mark);
  });
  svg.addEventListener("focus", () => {
    if (!picture.plan?.steps.length || !svg.matches(":focus-visible")) return;
    page.go(picture.current ?? picture.next("ArrowRight"));
  });
  scroller.addEventListener("scroll", () => card.moved());
  scroller.addEventListener("wheel", (event) => {
    if (!event.ctrlKey) return;
    event.preventDefault();
    const { left } = svg.getBoundingClientRect();
    page.zoom(page.step * Math.exp(-event.deltaY / 400), Math.max(0, event.clientX - left - scroller.scrollLeft));
  }, { passive: false });
  listenToDragging(svg, scroller);
}

/** The mouse drags the picture; a finger scrolls it anyway. */
function listenToDragging(svg, scroller) {
  let from = null;
  let isDragged = false;
  svg.addEventListener("pointerdown", (event) => {
    if (event.button !== 0 || event.pointerType !== "mouse") return;
    from = { x: event.clientX + scroller.scrollLeft, y: event.clientY + scroller.scrollTop, start: event };
    isDragged = false;
  });
  svg.addEventListener("pointermove", (event) => {
    if (!from || event.buttons === 0) return;
    const { start } = from;
    const distance = Math.hypot(event.clientX - start.clientX, event.clientY - start.clientY);
    if (!isDragged && distance < DRAG_FROM) return;
    if (!isDragged) svg.setPointerCapture(event.pointerId);
    isDragged = true;
    svg.classList.add("dragged");
    scroller.scrollTo(from.x - event.clientX, from.y - event.clientY);
  });
  svg.addEventListener("pointerup", () => {
    from = null;
    svg.classList.remove("dragged");
  });
  svg.addEventListener("click", (event) => {
    if (isDragged) event.stopImmediatePropagation();
    isDragged = false;
  }, { capture: true });
}

/** @param {Page} page */
export function listenToKeys(page) {
  const keys = {
    "+": () => page.zoom(page.step * ZOOM), "=": () => page.zoom(page.step * ZOOM),
    "-": () => page.zoom(page.step / ZOOM), 0: () => page.fit(),
    s: () => page.goToNext("stop", 1), S: () => page.goToNext("stop", -1),
    e: () => page.goToNext("error", 1), E: () => page.goToNext("error", -1),
    n: () => page.goToFound(1), N: () => page.goToFound(-1), l: () => page.toggleList(), t: () => page.toggleState(),
    f: () => page.failure.at !== null && page.goToEntry(page.failure.at),
    v: () => page.toggleOthers(),
    o: () => page.toggleOnly(), w: () => page.toggleLwps(), d: () => page.toggleTheme(),
    "/": () => element("find").select(), g: () => element("number").select(), Escape: () => page.card.close(),
  };
  addEventListener("keydown", (event) => {
    if (event.altKey || event.ctrlKey || event.metaKey || !page.session) return;
    if (isField(event.target)) {
      if (event.key === "Escape") /** @type {HTMLElement} */ (event.target).blur();
      return;
    }
    if (Object.hasOwn(keys, event.key)) {
      event.preventDefault();
      keys[event.key]();
    } else if (ARROWS.includes(event.key)) arrow(page, event);
  });
}

/** In the picture the arrows go to marks; in the list up and down do. */
function arrow(page, event) {
  const { picture, list } = page;
  const inList = document.activeElement === list.element;
  if (document.activeElement !== picture.svg && !inList) return;
  event.preventDefault();
  const key = inList ? { ArrowUp: "ArrowLeft", ArrowDown: "ArrowRight" }[event.key] ?? event.key : event.key;
  const mark = picture.next(key);
  if (mark) page.go(mark);
}

/** Fills the list of signs. */
export function showLegend() {
  const frame = { width: 18, height: 18, viewBox: "-9 -9 18 18", "aria-hidden": true };
  const row = (words, drawn) => tag("p", {}, shape("svg", frame, drawn), words);
  const sign = ({ path, classes, words }) => row(words,
    shape("path", { d: path, class: `shape ${classes}`, "fill-rule": "evenodd" }));
  const paths = { span: "M-8-2V2H8V-2", zombie: "M-9 0H9" };
  const stretch = ([name, words]) => row(words, paths[name] ? shape("path", { class: name, d: paths[name] })
    : shape("rect", { class: `band ${name}`, x: -8, y: -5, width: 16, height: 10, rx: 2 }));
  const box = /** @type {HTMLElement} */ (document.querySelector("#legend > div"));
  box.style.setProperty("--user", colourOf(1001));
  box.append(...[...SIGNS.values()].map(sign), ...STRETCHES.map(stretch));
}
