/** Starts the page, with the data that it contains. */

import { listenForFiles, listenToButtons, listenToFields, listenToKeys, listenToPicture, listenToPrinting, showLegend }
  from "./controls.mjs";
import { element } from "./dom.mjs";
import { Page } from "./page.mjs";
import { parsed } from "./read.mjs";

const began = performance.now();
const page = new Page();
const theme = page.address().get("theme");
if (theme) document.documentElement.dataset.theme = theme;
showLegend();
const listeners = [listenForFiles, listenToButtons, listenToFields, listenToKeys, listenToPicture, listenToPrinting];
for (const listen of listeners) {
  listen(page);
}
const embedded = parsed(element("embedded").textContent);
if (embedded) {
  document.title = `${embedded.title} - tracehost timeline`;
  document.querySelector("h1").textContent = embedded.title;
  page.failure.show(embedded.failure);
  page.take(embedded.files);
}
document.body.dataset.milliseconds = String(Math.round(performance.now() - began));
