/** Steps and replies as text. */

import { RESUMES, SIGNALS, signalName } from "./names.mjs";

/** The name of an event or a flag without what all of them begin with. */
export const bare = (name) => (name.startsWith("PTRACE_") ? name.slice(7) : name.startsWith("PL_FLAG_") ? name.slice(8) : name);
const joined = (names, mark = "+") => (names.length ? names.join(mark) : "none");
const numbers = (signals) => joined(signals.map((name) => SIGNALS.indexOf(name)), ",");
export const stopText = (stop) => [stop.signal, ...stop.flags.map(bare)].join(" ");

export function statusText(reply) {
  if (reply.exited !== undefined) return `exited ${reply.exited}`;
  if (reply.signaled !== undefined) return `ended by ${reply.signaled}`;
  return reply.stopped === undefined ? "continued" : `stopped ${reply.stopped}`;
}

export function decisionText(reply) {
  if (!["continue", "detach"].includes(reply.decision)) return reply.decision;
  return reply.pass ? `${reply.decision} ${reply.pass.signal}` : reply.decision;
}

const decidedWords = ({ decision, pass }) => (pass === undefined ? decision : `${decision} ${pass ? pass.number : 0}`);
const errorWords = ({ errno, number }) => `${errno} ${number}`;
// tools/format words
/** @type {Map<string, (reply: any) => string>} */
const WORDS = new Map(Object.entries({
  ok: () => `ok`,
  new: (reply) => `new ${reply.pid} ${reply.lwp}`,
  number: (reply) => `number ${reply.number}`,
  status: (reply) => `status ${reply.pid} ${reply.word}`,
  nothing: () => `nothing`,
  info: (reply) => `info ${reply.lwp} ${reply.event} flags=${joined(reply.flags)} mask=${numbers(reply.mask)} `
    + `pending=${numbers(reply.pending)} child=${reply.child} code=${reply.code}`,
  lwps: (reply) => ["lwps", ...reply.lwps].join(" "),
  pids: (reply) => ["pids", ...reply.pids].join(" "),
  mask: (reply) => `mask ${joined(reply.events)}`,
  handled: (reply) => `handled ${reply.pid} ${reply.word} at ${reply.at.lwp} signal=${reply.at.number} `
    + `flags=${joined(reply.at.flags)} child=${reply.at.child} code=${reply.at.code} by `
    + `${reply.by ?? "none"} ${decidedWords(reply)}`,
  stopped: (reply) => `stopped ${reply.lwp} ${reply.number} flags=${joined(reply.flags)}`,
  caught: (reply) => `caught ${reply.number}`,
  ended: (reply) => `ended ${reply.word}`,
  held: () => `held`,
  error: (reply) => `error ${errorWords(reply)}`,
}));
// end

/** The reply as a line of the plain text has it. */
export const plainText = (reply) => (reply.reply === undefined ? `refused ${reply.refused}` : WORDS.get(reply.reply)(reply));

/** What a reply means, if its line doesn't say it. */
export function meaning(reply) {
  if (reply.word !== undefined) return `${reply.word} is ${statusText(reply)}`;
  return ["stopped", "caught"].includes(reply.reply) ? `${reply.number} is ${reply.signal}` : "";
}

export const callText = (step) => (step.code === undefined ? step.call : `${step.call} ${step.code}`);

/** What a step asked, in short: its request, its act or its op. */
export function action(step) {
  if (!step) return "";
  if (step.op === "ptrace") return step.request ?? "ptrace";
  if (step.op !== "turn") return step.op;
  return step.act === "enter" ? `enter ${callText(step)}` : step.act ?? "turn";
}

/** What a step asked, in words. */
export function askedText(step) {
  const what = action(step) + objectText(step);
  if (step.caller !== undefined) return `process ${step.caller}: ${what}`;
  return step.lwp === undefined ? what : `LWP ${step.lwp}: ${what}`;
}

export function objectText(step) {
  const which = (all) => (step.which === -1 ? all : step.which);
  switch (step.op) {
    case "ptrace": {
      const data = RESUMES.includes(step.request) && step.data ? signalName(step.data) : step.data;
      return (step.target === undefined ? "" : ` of ${step.target}`) + (data ? `, data ${data}` : "")
        + (step.mask ? `, mask ${joined(step.mask)}` : "");
    }
    case "wait4": return ` for ${[which("any"), ...(step.options ?? [])].join(" ")}`;
    case "kill": return ` ${which("all others")} with ${step.signal ? signalName(step.signal) : 0}`;
    case "sigaction": return ` ${signalName(step.signal)} ${step.action}`;
    case "install": return `, ${step.rules?.length ?? 0} rules`;
    case "turn": {
      if (step.act === "raise") return ` ${signalName(step.signal)}`;
      return step.act === "block" ? ` ${joined((step.set ?? []).map(signalName), ",")}` : "";
    }
    default: return "";
  }
}
