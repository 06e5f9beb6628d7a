/** What a mark says: its card, its words for a screen reader, and the text that a search looks through. */

import { SIGNS } from "./signs.mjs";
import { askedText, meaning, plainText } from "./words.mjs";

/** The mark's lane, what its sign means, and its label if that adds something. */
function signText({ kind, lane, label }) {
  const { words } = SIGNS.get(kind);
  return `${lane.name}: ${words}${label && !words.includes(label) ? ` (${label})` : ""}`;
}

/**
 * Why a step was refused, or what its reply means.
 *
 * @param {import("./lanes.mjs").Entry} entry
 */
export const meaningText = ({ why, reply }) => why?.() || meaning(reply);

/**
 * Everything about a mark, a paragraph each.
 *
 * @param {import("./lanes.mjs").Mark} mark
 * @returns {{text: string, name: string}[]} the paragraphs with their classes
 */
export function paragraphs(mark) {
  const { reply, asked, index } = mark.entry;
  const lines = [];
  const ofAll = reply.refused || reply.step === index + 1 ? "" : ` (step ${index + 1} of all)`;
  const where = reply.refused ? `line ${index + 1} of all` : `user ${reply.user}, step ${reply.step}`;
  lines.push({ text: where + ofAll, name: "where" });
  lines.push({ text: signText(mark), name: "pale" });
  if (mark.source !== mark.entry) lines.push({ text: `named first by step ${mark.source.reply.step}`, name: "pale" });
  if (asked) lines.push({ text: askedText(asked), name: "asked" });
  lines.push({ text: `→ ${plainText(reply)}`, name: "raw" });
  const more = meaningText(mark.entry);
  if (more) lines.push({ text: more, name: "pale" });
  if (asked) lines.push({ text: JSON.stringify(asked), name: "raw pale" });
  return lines;
}

/** The same in one line, for a reader of the screen. */
export function sentence(mark) {
  return paragraphs(mark).filter(({ name }) => name !== "raw pale").map(({ text }) => text).join("; ");
}

/** Who made a mark's step, for the list: the caller, the LWP and its process, or the user. */
export function whoText({ lane, entry: { reply, asked } }) {
  if (reply.refused) return "";
  if (asked?.caller !== undefined) return `process ${asked.caller}`;
  if (asked?.lwp !== undefined) {
    // a child's birth is marked on the child's lane
    const owner = lane.maker?.number === asked.lwp ? lane.maker.owner : lane.kind === "process" ? lane : lane.owner;
    return `LWP ${asked.lwp}${owner ? ` of ${owner.number}` : ""}`;
  }
  return asked ? `user ${reply.user}` : lane.name;
}

/** The words of a mark that a search looks through, in small letters. */
export function searchText(mark) {
  const { reply, asked } = mark.entry;
  const texts = [whoText(mark), mark.lane.name, mark.label, asked ? askedText(asked) : "", plainText(reply),
    meaningText(mark.entry)];
  return texts.join(" ").toLowerCase();
}
