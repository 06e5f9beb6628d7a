/** The forms of values in files, and of the rows in lines of `--json=trace+rows`. */

import { FIRST_USER, LAST_USER, SIGNALS } from "./names.mjs";

export const isWhole = (value) => Number.isInteger(value);
export const isWord = (value) => isWhole(value) && value >= 0 && value < 2 ** 32;
export const isUser = (value) => isWhole(value) && value >= FIRST_USER && value <= LAST_USER;
export const isSignal = (value) => SIGNALS.indexOf(value) > 0;
/** @type {Set<unknown>} the names so far: there are few, in many lines */
const names = new Set();
const isNewName = (value) => typeof value === "string" && /^[A-Za-z0-9_]{1,32}$/.test(value)
  && (names.size > 1000 || names.add(value).size > 0);
export const isName = (value) => names.has(value) || isNewName(value);
export const isObject = (value) => typeof value === "object" && value !== null && !Array.isArray(value);
export const listOf = (check) => (value) => Array.isArray(value) && value.every(check);
export const oneOf = (...values) => (value) => values.includes(value);
const maybe = (check) => (value) => value === undefined || check(value);

/** The first member of the object that isn't of its form. */
export function wrongMember(object, members) {
  for (const name in members) {
    if (!members[name](Object.hasOwn(object, name) ? object[name] : undefined)) return name;
  }
  return undefined;
}

// tools/format rows
const PROCESS = {
  pid: isWord,
  parent: isWord,
  tracer: maybe(isWord),
  state: oneOf("runs", "trace_stop", "job_stop", "zombie"),
  stop_lwp: maybe(isWord),
  stop_signal: maybe(isSignal),
  reported: maybe(oneOf(true)),
  status: maybe(isWord),
  continued: maybe(oneOf(true)),
  events: maybe(listOf(isName)),
  pending: maybe(listOf(isSignal)),
  ignore: maybe(listOf(isSignal)),
  catch: maybe(listOf(isSignal)),
};
const LWP = {
  lwp: isWord,
  pid: isWord,
  mode: oneOf("runs", "in_call", "waits_for_vfork"),
  call: maybe(isName),
  argument: maybe(isWord),
  vfork_child: maybe(isWord),
  suspended: maybe(oneOf(true)),
  stepping: maybe(oneOf(true)),
  blocked: maybe(listOf(isSignal)),
  pending: maybe(listOf(isSignal)),
  due: maybe(oneOf("born", "begun", "vfork_done")),
  flags: maybe(listOf(isName)),
  child: maybe(isWord),
  code: maybe(isWord),
};
// end
const rowsOf = (members) => maybe(listOf((row) => isObject(row) && !wrongMember(row, members)));

/** The members of `rows`. */
export const ROWS = {
  processes: rowsOf(PROCESS), lwps: rowsOf(LWP), removed_processes: maybe(listOf(isWord)),
  removed_lwps: maybe(listOf(isWord)),
};
