/** Why a step was answered by an errno, or held: the first of its call's conditions that holds before it. */

import { ACT_NUMBERS, ACTION_NUMBERS, ASKED_CALLS, CALL_NUMBERS, CONDITIONS, DATA_REQUESTS, REQUEST_NUMBERS, SIGNAL_REQUESTS }
  from "./conditions.mjs";
import { LAST_PROCESS, signalName, SIGNALS } from "./names.mjs";

/**
 * A call with its arguments as format/refusals.toml names them; an argument that it hasn't is 0.
 *
 * @typedef {{op: string, user: number, request: number, caller: number, target: number, data: number, which: number,
 *   lwp: number, act: number, action: number, signal: number, unnamed: number}} Asked
 * @typedef {import("./state.mjs").Rows} Rows
 */

const STATE_NUMBERS = { runs: 0, trace_stop: 1, job_stop: 2, zombie: 3 };
const MODE_NUMBERS = { runs: 0, in_call: 1, waits_for_vfork: 2 };
const WITH_WHICH = ["wait4", "kill"];

/** A user's rows by number, for conditions. What is asked of a process or an LWP that isn't there is 0 or false. */
export class KnownRows {
  /** @param {Rows} rows */
  constructor({ processes, lwps }) {
    this.all = processes;
    this.allLwps = lwps;
  }

  processes() {
    return this.all.size;
  }

  lwps() {
    return this.allLwps.size;
  }

  process_of(number) {
    return number > LAST_PROCESS ? this.owner(number) : this.all.has(number) ? number : 0;
  }

  state(pid) {
    return STATE_NUMBERS[this.all.get(pid)?.state] ?? 0;
  }

  parent(pid) {
    return this.all.get(pid)?.parent ?? 0;
  }

  tracer(pid) {
    return this.all.get(pid)?.tracer ?? 0;
  }

  was_told(pid) {
    return Boolean(this.all.get(pid)?.reported);
  }

  is_live(pid) {
    return this.all.has(pid) && this.all.get(pid).state !== "zombie";
  }

  traces(tracer, pid) {
    let by = this.tracer(pid);
    for (let left = this.all.size; by !== 0 && by !== tracer && left > 0; left--) by = this.tracer(by);
    return by !== 0 && by === tracer;
  }

  has_child(caller, which) {
    return [...this.all.values()].some(({ pid, parent, tracer }) => (which === -1 || which === pid)
      && (parent === caller || tracer === caller));
  }

  owner(lwp) {
    return this.allLwps.get(lwp)?.pid ?? 0;
  }

  mode(lwp) {
    return MODE_NUMBERS[this.allLwps.get(lwp)?.mode] ?? 0;
  }

  call_of(lwp) {
    const row = this.allLwps.get(lwp);
    return row?.mode === "in_call" ? CALL_NUMBERS[row.call] : -1;
  }

  is_suspended(lwp) {
    return Boolean(this.allLwps.get(lwp)?.suspended);
  }
}

/** @returns {Asked} */
function askedOf(step) {
  const { op, user, caller = 0, target = 0, data = 0, lwp = 0, act, action, signal = 0, request } = step;
  return {
    op, user, caller, target, data, lwp, request: op === "ptrace" ? REQUEST_NUMBERS[request] : -1,
    which: WITH_WHICH.includes(op) ? step.which : -1, act: ACT_NUMBERS[act] ?? 0, action: ACTION_NUMBERS[action] ?? 0,
    signal: op === "ptrace" ? data : signal, unnamed: 0,
  };
}

/** A signal by its name; a number that is none as it was given: -1 is sent as 4294967295. */
const givenSignal = (number) => (number > 0 && SIGNALS[number] ? signalName(number) : String(number | 0));

/** An argument, as a person writes it. */
function wordOf(name, asked, step) {
  if (name === "signal") return givenSignal(asked.signal);
  if (name === "request") return step.request;
  if (name === "data") {
    if (!asked.data || !DATA_REQUESTS.includes(asked.request)) return "";
    return `, ${SIGNAL_REQUESTS.includes(asked.request) ? givenSignal(asked.data) : asked.data}`;
  }
  return String(asked[name]);
}

/**
 * What an errno, or `held`, says of a step.
 *
 * @param {object} step  with its user
 * @param {string} answer
 * @param {Rows} rows  before the step
 * @returns {string} "" if no condition says it
 */
export function whyRefused(step, answer, rows) {
  const asked = askedOf(step);
  const call = ASKED_CALLS.find(({ op, request }) => op === asked.op && (request === -1 || request === asked.request));
  const known = new KnownRows(rows);
  const possible = (call?.order ?? []).map((name) => CONDITIONS[name]).filter((one) => one.answer === answer && one.possible(asked));
  const first = possible.length > 1 ? possible.find((one) => one.holds(asked, known)) : possible[0];
  return first ? first.words.replace(/\{(\w+)\}/g, (_, name) => wordOf(name, asked, step)) : "";
}
