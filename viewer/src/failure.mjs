/** The failure of a test: its name, what it said, and the step that it failed after. */

import { element, tag } from "./dom.mjs";

/** @typedef {{test: string, message: string, step: number | null}} Told */

export class Failure {
  /** @param {{onStep: (index: number) => void}} how */
  constructor({ onStep }) {
    this.element = element("failure");
    this.onStep = onStep;
    /** The index of the entry that the test failed after, or null. */
    this.at = null;
  }

  /** @param {Told | undefined} told  undefined if no test failed */
  show(told) {
    if (!told) return;
    this.at = told.step === null ? null : told.step - 1;
    const textContent = `after step ${told.step}`;
    const where = tag("button", { type: "button", textContent, title: "go to this step (f)" });
    where.addEventListener("click", () => this.onStep(this.at));
    const test = tag("strong", { textContent: told.test });
    this.element.replaceChildren(tag("span", { className: "note", textContent: "failed" }), " ", test, " ",
      ...(this.at === null ? [] : [where]), tag("pre", { textContent: told.message }));
    this.element.hidden = false;
  }
}
