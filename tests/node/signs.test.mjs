/** Signs and colours: no two signs are alike, and all text can be read. */

import assert from "node:assert/strict";
import { readFileSync } from "node:fs";
import { test } from "node:test";
import { sentence } from "../../viewer/src/sentences.mjs";
import { contrast, GROUNDS, rgbOfHex, SIGNS, STRETCHES, tonesOf } from "../../viewer/src/signs.mjs";
import { example, examples } from "./runs.mjs";

const style = readFileSync(new URL("../../viewer/src/page.css", import.meta.url), "utf8");
const LEAST = 4.5;

/** A colour of the style sheet, in light and in dark. */
function colour(name) {
  const [, light, dark] = style.match(new RegExp(`--${name}: light-dark\\((#\\w{6}), (#\\w{6})\\);`));
  return { light, dark };
}

/** The colour of a hue with a saturation of 72%, as CSS computes it. */
function rgbOfHue(hue, percent) {
  const lightness = percent / 100;
  const reach = (1 - Math.abs(2 * lightness - 1)) * 0.72;
  const second = reach * (1 - Math.abs(((hue / 60) % 2) - 1));
  const least = lightness - reach / 2;
  const parts = [[reach, second, 0], [second, reach, 0], [0, reach, second], [0, second, reach], [second, 0, reach],
    [reach, 0, second]][Math.floor(hue / 60)];
  return parts.map((part) => part + least);
}

test("signs and words are distinct", () => {
  const looks = [...SIGNS.values()].map(({ path, classes }) => `${path} ${classes}`);
  assert.equal(new Set(looks).size, looks.length);
  const words = [...[...SIGNS.values()].map((sign) => sign.words), ...STRETCHES.map(([, text]) => text)];
  assert.equal(new Set(words).size, words.length);
  for (const [name] of STRETCHES) assert.match(style, new RegExp(`\\.${name} \\{`), name);
});

test("the contrast of known colours", () => {
  assert.equal(contrast(rgbOfHex("#000000"), rgbOfHex("#ffffff")), 21);
  assert.ok(Math.abs(contrast(rgbOfHex("#767676"), rgbOfHex("#ffffff")) - 4.54) < 0.01);
});

test("all text has a contrast of 4.5 or more, in light and in dark", () => {
  const grounds = ["paper", "raised", "chosen"].map(colour);
  assert.deepEqual(GROUNDS, { light: [colour("raised").light, colour("chosen").light],
    dark: [colour("raised").dark, colour("chosen").dark] });
  for (const theme of ["light", "dark"]) {
    for (const ground of grounds) {
      for (const name of ["ink", "pale", "refused", "alarm"]) {
        const found = contrast(rgbOfHex(colour(name)[theme]), rgbOfHex(ground[theme]));
        assert.ok(found >= LEAST, `${name} on ${ground[theme]}: ${found}`);
      }
      for (let user = 1001; user <= 1064; user++) {
        const tones = tonesOf(user);
        const found = contrast(rgbOfHue(tones.hue, tones[theme]), rgbOfHex(ground[theme]));
        assert.ok(found >= LEAST, `user ${user} on ${ground[theme]}: ${found}`);
      }
    }
  }
});

test("each mark has words of its own", () => {
  for (const name of examples) {
    for (const mark of example(name).session.marks) {
      const said = sentence(mark);
      assert.ok(said.includes(mark.lane.name) && said.includes(SIGNS.get(mark.kind).words), said);
      assert.doesNotMatch(said, /undefined|\[object|NaN/);
    }
  }
});
