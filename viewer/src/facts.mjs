/** Rows of processes and LWPs in words, a fact each, and the facts in which two rows differ. */

import { SIGNALS } from "./names.mjs";
import { bare } from "./words.mjs";

/** @typedef {import("./state.mjs").ProcessRow} ProcessRow */
/** @typedef {import("./state.mjs").LwpRow} LwpRow */

/**
 * A fact of a row: which one, its words, and what another row says of it; `before` is undefined if both say the same,
 * and "" if the other one says nothing.
 *
 * @typedef {{key: string, text: string, before: string | undefined}} Fact
 */

const WIDTH_OF_SIGNAL = 7; // bits of a wait status
/** @type {{ignore?: string[], catch?: string[]}} of a process that has ended */
const NO_DISPOSITIONS = {};
const bareNames = (names) => names.map(bare).join(" ");

/** What wait(2) means by the status of a process that has ended. */
export function endText(status) {
  const signal = status & ((1 << WIDTH_OF_SIGNAL) - 1);
  return signal === 0 ? `exited ${status >> 8}` : `ended by ${SIGNALS[signal]}`;
}

function stateText({ state, stop_signal: signal, stop_lwp: lwp, status = 0 }) {
  switch (state) {
    case "trace_stop": return `trace stop ${signal}${lwp ? ` of LWP ${lwp}` : ""}`;
    case "job_stop": return `job stop ${signal}`;
    case "zombie": return `zombie, ${endText(status)}`;
    default: return state;
  }
}

/** A call with its argument; a row leaves out 0. */
function callOf({ call, argument = 0 }) {
  return argument || call === "exit" || call === "other" ? `${call} ${argument}` : call;
}

function modeText({ mode, call, argument, vfork_child: child }) {
  if (mode === "in_call") return `in ${callOf({ call, argument })}`;
  return mode === "waits_for_vfork" ? `waits for vfork child ${child}` : mode;
}

/** What the last stop of an LWP showed. */
function shownText({ flags = [], child, code }) {
  return [bareNames(flags), child ? `child ${child}` : "", code ? `code ${code}` : ""].filter(Boolean).join(", ");
}

/** A fact with its word, or "" if there is none. */
const named = (word, text) => (text ? `${word} ${text}` : "");

/** @returns {[string, string][]} keys with their words, which are "" for what isn't so */
function processWords(row) {
  const isStop = row.state.endsWith("_stop");
  const { ignore, catch: caught } = row.state === "zombie" ? NO_DISPOSITIONS : row;
  return [
    ["state", stateText(row)],
    ["reported", isStop ? row.reported ? "reported" : "not reported yet" : ""],
    ["tracer", named("traced by", row.tracer)],
    ["parent", row.parent === 1 ? "" : `child of ${row.parent}`],
    ["continued", row.continued ? "continued, not reported yet" : ""],
    ["events", named("events", bareNames(row.events ?? []))],
    ["pending", named("pending", row.pending?.join(" "))],
    ["ignore", named("ignores", ignore?.join(" "))],
    ["catch", named("catches", caught?.join(" "))],
  ];
}

/** @returns {[string, string][]} as of a process */
function lwpWords(row) {
  return [
    ["mode", modeText(row)],
    ["suspended", row.suspended ? "suspended" : ""],
    ["stepping", row.stepping ? "steps" : ""],
    ["due", named("due:", row.due?.replace("_", " "))],
    ["blocked", named("blocks", row.blocked?.join(" "))],
    ["pending", named("pending", row.pending?.join(" "))],
    ["shown", named("last stop:", shownText(row))],
  ];
}

/** @returns {Fact[]} */
function compared(words, others) {
  const facts = words.map(([key, text], place) => {
    const before = others ? others[place][1] : text;
    return { key, text, before: before === text ? undefined : before };
  });
  return facts.filter(({ text, before }) => text || before);
}

/**
 * The facts of a process, with those in which it differs from another row of it.
 *
 * @param {ProcessRow} row
 * @param {ProcessRow} [other]
 */
export const processFacts = (row, other) => compared(processWords(row), other && processWords(other));

/**
 * The facts of an LWP, likewise.
 *
 * @param {LwpRow} row
 * @param {LwpRow} [other]
 */
export const lwpFacts = (row, other) => compared(lwpWords(row), other && lwpWords(other));
