/** Prints what the viewer says of traces with rows, a line of JSON for each: what to look at, and why steps are refused. */

import { readFileSync } from "node:fs";
import { nearestFirst, noticesOf } from "../../viewer/src/notices.mjs";
import { sessionOf } from "../../viewer/src/known.mjs";
import { pair, readFile } from "../../viewer/src/read.mjs";

for (const path of process.argv.slice(2)) {
  const entries = pair(readFile({ name: path, text: readFileSync(path, "utf8") }).replies, null, []);
  const notices = noticesOf(entries);
  const last = entries.at(-1);
  const told = ({ at, user, kind, text }) => [at + 1, user, kind, text];
  const ordered = nearestFirst(notices, last.index, last.reply.user).map((one) => [told(one), one.count]);
  sessionOf(entries, true);
  const whys = entries.filter(({ why }) => why !== undefined).map(({ index, why }) => [index + 1, why()]);
  console.log(JSON.stringify([notices.map(told), ordered, whys]));
}
