/** Runs for the tests of the viewer's parts: scenarios with the lines that the program prints for them. */

import { execFileSync } from "node:child_process";
import { existsSync, mkdtempSync, readdirSync, readFileSync, rmSync, writeFileSync } from "node:fs";
import { tmpdir } from "node:os";
import { basename, join } from "node:path";
import { pair, readFile } from "../../viewer/src/read.mjs";
import { sessionOf } from "../../viewer/src/known.mjs";

/** The program under test; the random scenarios are in the folder. */
const { PROGRAM, RUNS } = process.env;
const EXAMPLES = new URL("../../examples/", import.meta.url).pathname;

export const jsonOf = (path) => JSON.parse(readFileSync(path, "utf8"));

/** What the program prints for a scenario with --json, or with other options. */
function linesOf(path, ...options) {
  return execFileSync(PROGRAM, [...(options.length ? options : ["--json"]), path],
    { encoding: "utf8", maxBuffer: 1 << 28 });
}

/** A run: steps, replies, the viewer's entries, and its session. */
function read(path) {
  const scenario = jsonOf(path);
  const lines = linesOf(path);
  const faults = [];
  const files = [readFile({ name: "lines", text: lines }),
    readFile({ name: "scenario", text: JSON.stringify(scenario) })];
  const entries = pair(files[0].replies, files[1], faults);
  const replies = lines.trimEnd().split("\n").map((line) => JSON.parse(line));
  return { steps: scenario.steps, replies, entries, faults: [...faults, ...files.flatMap((file) => file.faults)],
    session: sessionOf(entries, files[1].killsTracees) };
}

/** What the viewer reads from only a trace: its entries, its session, and what it reports. */
function readTrace(path, ...options) {
  const faults = [];
  const file = readFile({ name: "trace", text: linesOf(path, "--json=trace", ...options) });
  const entries = pair(file.replies, null, faults);
  return { entries, session: sessionOf(entries, jsonOf(path).kill_on_debugger_exit !== 0),
    faults: [...faults, ...file.faults] };
}

/** The run of a scenario that a test writes down. */
export function runOf(steps, setting = 1) {
  const folder = mkdtempSync(join(tmpdir(), "viewer-"));
  try {
    const path = join(folder, "scenario.json");
    const own = steps.map((step) => ({ user: 1001, ...step }));
    writeFileSync(path, JSON.stringify({ kill_on_debugger_exit: setting, steps: own }));
    return read(path);
  } finally {
    rmSync(folder, { recursive: true });
  }
}

export const example = (name) => read(join(EXAMPLES, `${name}.json`));
export const random = (count) => read(join(RUNS, `random${count}.json`));
export const exampleTrace = (name, ...options) => readTrace(join(EXAMPLES, `${name}.json`), ...options);
export const randomTrace = (count, ...options) => readTrace(join(RUNS, `random${count}.json`), ...options);

/** The names of all examples that run: one that is refused has a file .err. */
export const examples = readdirSync(EXAMPLES)
  .filter((name) => name.endsWith(".json") && !existsSync(join(EXAMPLES, name.replace(/json$/, "err"))))
  .map((name) => basename(name, ".json"));
