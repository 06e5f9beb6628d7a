/** The picture as a bitmap: the shapes of the file of SVG, drawn on a canvas. */

const MOST_PIXELS = 16000; // of a side, by the browsers

const numberOf = (made, name, other = 0) => Number.parseFloat(made.getAttribute(name) ?? "") || other;

/** Takes the colours, lines and moves of an element. */
function settleContext(context, made) {
  for (const [, name, values] of (made.getAttribute("transform") ?? "").matchAll(/(\w+)\(([^)]*)\)/g)) {
    const [x, y = name === "scale" ? undefined : 0] = values.split(/[ ,]+/).map(Number);
    if (name === "translate") context.translate(x, y);
    else context.scale(x, y ?? x);
  }
  context.globalAlpha *= numberOf(made, "opacity", 1);
  context.lineWidth = numberOf(made, "stroke-width", 1);
  context.lineJoin = made.getAttribute("stroke-linejoin") ?? "miter";
  context.lineCap = made.getAttribute("stroke-linecap") ?? "butt";
  const dashes = (made.getAttribute("stroke-dasharray") ?? "none").match(/[\d.]+/g);
  context.setLineDash(dashes ? dashes.map(Number) : []);
}

/** The outline of a shape, or null if it is none. */
function outlineOf(made) {
  const of = (...names) => names.map((name) => numberOf(made, name));
  const path = new Path2D();
  if (made.tagName === "path") return new Path2D(made.getAttribute("d"));
  if (made.tagName === "rect") {
    const [x, y, width, height] = of("x", "y", "width", "height");
    path.rect(x, y, width, height);
  } else if (made.tagName === "line") {
    const [x1, y1, x2, y2] = of("x1", "y1", "x2", "y2");
    path.moveTo(x1, y1);
    path.lineTo(x2, y2);
  } else return null;
  return path;
}

const isPainted = (paint) => paint !== null && paint !== "none" && paint !== "transparent";

/** Fills and strokes with the colours of an element. */
function paint(context, made, { fill, stroke }) {
  const alpha = context.globalAlpha;
  if (isPainted(made.getAttribute("fill"))) {
    context.fillStyle = made.getAttribute("fill");
    context.globalAlpha = alpha * numberOf(made, "fill-opacity", 1);
    fill();
    context.globalAlpha = alpha;
  }
  if (!isPainted(made.getAttribute("stroke"))) return;
  context.strokeStyle = made.getAttribute("stroke");
  stroke();
}

function drawText(context, made) {
  const of = (name) => made.getAttribute(name) ?? "";
  context.font = `${of("font-weight")} ${numberOf(made, "font-size", 11)}px ${of("font-family") || "monospace"}`;
  context.textAlign = of("text-anchor") === "middle" ? "center" : "left";
  const place = [made.textContent, numberOf(made, "x"), numberOf(made, "y")];
  if (isPainted(made.getAttribute("stroke"))) {
    context.strokeStyle = of("stroke");
    context.strokeText(...place);
  }
  context.fillStyle = of("fill");
  context.fillText(...place);
}

function draw(context, made) {
  context.save();
  settleContext(context, made);
  const outline = outlineOf(made);
  if (made.tagName === "text") drawText(context, made);
  else if (outline) {
    paint(context, made, { fill: () => context.fill(outline, "evenodd"), stroke: () => context.stroke(outline) });
  }
  if (made.tagName === "svg") inFrame(context, made);
  if (made.tagName === "svg" || made.tagName === "g") for (const child of made.children) draw(context, child);
  context.restore();
}

/** A frame in the picture shows a part of what is in it. */
function inFrame(context, made) {
  const [left, top] = (made.getAttribute("viewBox") ?? "0 0").split(" ").map(Number);
  context.translate(numberOf(made, "x"), numberOf(made, "y"));
  context.beginPath();
  context.rect(0, 0, numberOf(made, "width"), numberOf(made, "height"));
  context.clip();
  context.translate(-left, -top);
}

/**
 * A bitmap of a file of SVG, with twice its pixels if that has room.
 *
 * @param {SVGSVGElement} file
 * @returns {Promise<Blob>}
 */
export function pngFile(file) {
  const [width, height] = ["width", "height"].map((name) => numberOf(file, name));
  const scale = Math.min(2, MOST_PIXELS / width, MOST_PIXELS / height);
  const canvas = Object.assign(document.createElement("canvas"), { width: width * scale, height: height * scale });
  const context = canvas.getContext("2d");
  context.scale(scale, scale);
  draw(context, file);
  return new Promise((done) => canvas.toBlob(done, "image/png"));
}
