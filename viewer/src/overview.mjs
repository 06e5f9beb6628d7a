/** The strip over the picture: the whole session as bars, with the part that the window shows. */

import { barPaths } from "./density.mjs";
import { element, shape } from "./dom.mjs";

const HEIGHT = 28;

export class Overview {
  /** @param {import("./picture.mjs").Picture} picture */
  constructor(picture) {
    this.picture = picture;
    this.element = element("overview");
    this.svg = element("overview-picture");
    // over the strip, so that it isn't painted again with each move
    this.current = element("overview-current");
    this.window = element("overview-window");
    this.listen();
  }

  /** Draws the strip of the picture's plan; there is none if the window shows all of it. */
  show() {
    const { plan, size } = this.picture;
    this.element.hidden = plan.columns === 0 || plan.width <= size.wide;
    if (this.element.hidden) return;
    this.width = size.wide;
    this.svg.setAttribute("width", this.width);
    this.svg.setAttribute("height", HEIGHT);
    this.element.style.paddingLeft = `${size.names}px`;
    const step = this.width / plan.columns;
    const [, own, stops] = barPaths(plan.steps, { step, first: 0, last: plan.columns - 1 });
    const bars = [["own", own], ["stop", stops]].map(([name, d]) => shape("path", { class: `bars ${name}`, d,
      transform: `translate(0 ${HEIGHT / 2})` }));
    const { failedAt } = this.picture;
    const failed = failedAt === null ? [] : [shape("rect", { class: "failed-line", y: 0, width: 2, height: HEIGHT,
      x: step * (plan.columnOf[failedAt] + 0.5) - 1 })];
    this.svg.replaceChildren(...bars, ...failed);
    this.scale = this.width / (plan.columns * plan.step);
    this.moved();
  }

  /** The window, or the current step, is another one. */
  moved() {
    if (this.element.hidden) return;
    const { plan, current, scroller, size } = this.picture;
    const wide = Math.max(6, size.wide * this.scale);
    this.window.style.width = `${wide}px`;
    this.window.style.transform = `translateX(${Math.min(scroller.scrollLeft * this.scale, this.width - wide)}px)`;
    this.current.hidden = current === null;
    if (current) this.current.style.transform = `translateX(${plan.x(current.column) * this.scale - 1}px)`;
  }

  listen() {
    const go = (event) => {
      const { scroller, size } = this.picture;
      const x = event.clientX - this.svg.getBoundingClientRect().left;
      scroller.scrollLeft = x / this.scale - size.wide / 2;
    };
    const strip = this.svg.parentElement;
    strip.addEventListener("pointerdown", (event) => {
      strip.setPointerCapture(event.pointerId);
      go(event);
    });
    strip.addEventListener("pointermove", (event) => {
      if (event.buttons) go(event);
    });
  }
}
