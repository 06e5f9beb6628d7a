/** The card of a mark: passing while the pointer is on the mark, or kept, so that its text can be selected. */

import { element, tag } from "./dom.mjs";
import { paragraphs } from "./sentences.mjs";
import { colourOf } from "./signs.mjs";

/** @typedef {import("./lanes.mjs").Mark} Mark */

export class Card {
  /** @param {import("./picture.mjs").Picture} picture */
  constructor(picture) {
    this.picture = picture;
    this.element = element("card");
    /** @type {Mark | null} */
    this.kept = null;
  }

  /** Shows the card of the mark under the pointer, unless one is kept. */
  pass(mark) {
    if (this.kept) return;
    if (mark) this.fill(mark);
    else this.close();
    this.picture.showColumn(mark ?? this.picture.current);
  }

  /** Shows the card of a mark until another one is kept, or until it is closed. */
  keep(mark) {
    this.kept = mark;
    this.fill(mark);
    this.place(mark);
  }

  /** The picture has moved: a kept card goes with its mark, another one closes. */
  moved() {
    if (!this.kept) return this.close();
    if (!this.picture.shows(this.kept)) this.element.hidden = true;
    else if (this.element.hidden) this.fill(this.kept);
    else this.place(this.kept);
    return undefined;
  }

  /** After another plan: a kept card stays where its mark does. */
  again(plan) {
    const on = this.kept?.lane.on;
    if (!on || !plan.order.includes(on) || !on.seen.includes(this.kept)) this.close();
    else this.moved();
  }

  close() {
    this.kept = null;
    this.element.hidden = true;
  }

  fill(mark) {
    const card = this.element;
    card.replaceChildren(...paragraphs(mark).map(({ text, name }) => tag("p", { className: name, textContent: text })));
    card.style.setProperty("--user", colourOf(mark.entry.reply.user));
    card.classList.toggle("kept", mark === this.kept);
    card.hidden = false;
    this.place(mark);
  }

  /** Puts the card below its mark if it has room there, else above it. */
  place(mark) {
    const card = this.element;
    const box = this.picture.boxOf(mark);
    const { offsetWidth, offsetHeight } = card;
    const below = box.bottom + 16;
    const top = below + offsetHeight <= innerHeight - 6 ? below : box.top - offsetHeight - 16;
    const { right } = element("run").getBoundingClientRect();
    card.style.left = `${Math.max(4, Math.min(box.left + 16, right - offsetWidth - 8))}px`;
    card.style.top = `${Math.max(4, top)}px`;
  }
}
