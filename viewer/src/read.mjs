/** Reading of files: lines of `--json`, scenarios, and which step each line answers. */

import { isName, isObject, isSignal, isUser, isWhole, isWord, listOf, oneOf, ROWS, wrongMember } from "./forms.mjs";
import { FIRST_USER, LAST_USER } from "./names.mjs";

const STATUS = { word: isWord };
const SIGNAL = { signal: isSignal, number: isWord };
const ERROR = { errno: isName, number: isWord };
const objectOf = (members) => (value) => isObject(value) && !wrongMember(value, members);
const orNull = (check) => (value) => value === null || check(value);
const isPassed = (pass) => pass === undefined || orNull(objectOf(SIGNAL))(pass);
// tools/format replies
const DECISION = { decision: oneOf("decline", "leave", "continue", "detach", "kill"), pass: isPassed };
/**
 * The members of each reply, with their forms.
 *
 * @type {Map<string, Record<string, (value: any) => boolean>>}
 */
const REPLIES = new Map(Object.entries({
  ok: {},
  new: { pid: isWord, lwp: isWord },
  number: { number: isWord },
  status: { pid: isWord, ...STATUS },
  nothing: {},
  info: { lwp: isWord, event: oneOf("SIGNAL", "NONE"), flags: listOf(isName), mask: listOf(isSignal),
    pending: listOf(isSignal), child: isWord, code: isWord },
  lwps: { lwps: listOf(isWord) },
  pids: { pids: listOf(isWord) },
  mask: { events: listOf(isName) },
  handled: { pid: isWord, ...STATUS, at: objectOf({ lwp: isWord, ...SIGNAL, flags: listOf(isName), child: isWord,
    code: isWord }), by: orNull(isWord), ...DECISION },
  stopped: { lwp: isWord, ...SIGNAL, flags: listOf(isName) },
  caught: { ...SIGNAL },
  ended: { ...STATUS },
  held: {},
  error: { ...ERROR },
}));
// end
/** The members of a status; one of them says what its word means. */
const MEANINGS = { exited: isWord, signaled: isSignal, stopped: isSignal, continued: oneOf(true) };
// tools/format ops
/** The replies of each op, beside `error` and `held`. */
const ANSWERS = new Map(Object.entries({
  spawn: ["new"], ptrace: ["ok", "number", "info", "lwps", "mask"], wait4: ["status", "nothing"], kill: ["ok"],
  sigaction: ["ok"], list: ["pids"], install: ["ok"], handle: ["handled", "status", "nothing"],
  turn: ["ok", "new", "stopped", "caught", "ended"],
}));
/** The keys that a step of each op has, beside `user` and `op`. */
const NEEDED = new Map(Object.entries({
  spawn: [], ptrace: ["caller", "request"], wait4: ["caller", "which"], kill: ["caller", "which", "signal"],
  sigaction: ["caller", "signal", "action"], list: ["caller"], install: ["caller", "rules"], handle: ["caller"],
  turn: ["lwp", "act"],
}));
/** The keys that an act has. */
const NEEDED_BY_ACT = new Map(Object.entries({
  compute: [], raise: ["signal"], block: ["set"], enter: ["call"], leave: [],
}));
// end
/** The forms of all keys. */
const KEYS = {
  caller: isWord, lwp: isWord, which: isWhole, signal: isWord, target: isWord, data: isWord, code: isWord,
  request: isName, act: isName, call: isName, action: isName, options: listOf(isName), mask: listOf(isName),
  set: listOf(isWord), rules: listOf(isObject),
};

/** The step in a line of a trace, as a scenario has it. */
const stepIn = (reply) => ({ user: reply.user, ...reply.asked });

/** Whether the reply can answer the step. */
const answers = (step, reply) => step.user === reply.user
  && ["error", "held", ...ANSWERS.get(step.op)].includes(reply.reply);

/** What is wrong with the step in a line of a trace, or undefined; a line with only replies has none. */
function faultInTrace(reply) {
  if (reply.asked === undefined && reply.index === undefined && reply.rows === undefined) return undefined;
  if (!isWhole(reply.index) || reply.index < 1) return "no index of a step";
  if (!isObject(reply.asked)) return "no step";
  const step = stepIn(reply);
  const fault = faultOfStep(step);
  if (fault) return `in its step: ${fault}`;
  if (!answers(step, reply)) return `its step can't be answered by "${reply.reply}"`;
  if (reply.rows === undefined) return undefined;
  const wrong = isObject(reply.rows) ? wrongMember(reply.rows, ROWS) : "rows";
  return wrong && `in its rows: "${wrong}" is of a wrong form`;
}

/** What is wrong with a reply, or undefined. */
function faultOfReply(reply) {
  if (!isObject(reply)) return "no object";
  if (isName(reply.refused) && reply.reply === undefined) return undefined;
  if (!isUser(reply.user)) return `no user from ${FIRST_USER} to ${LAST_USER}`;
  if (!isWhole(reply.step) || reply.step < 1) return "no number of a step";
  if (!REPLIES.has(reply.reply)) return "no reply that is known";
  const members = REPLIES.get(reply.reply);
  const wrong = wrongMember(reply, members);
  if (wrong) return `"${wrong}" is missing or of a wrong form`;
  const meanings = Object.keys(MEANINGS).filter((name) => Object.hasOwn(reply, name));
  if (members.word && (meanings.length !== 1 || !MEANINGS[meanings[0]](reply[meanings[0]]))) return "it has no status";
  return faultInTrace(reply);
}

/** What is wrong with a step, or undefined. */
function faultOfStep(step) {
  if (!isObject(step) || !isUser(step.user) || !ANSWERS.has(step.op)) return "no step";
  const needed = NEEDED.get(step.op);
  const more = step.op === "turn" && NEEDED_BY_ACT.get(step.act) || [];
  for (const key in KEYS) {
    const isWrong = Object.hasOwn(step, key) ? !KEYS[key](step[key]) : needed.includes(key) || more.includes(key);
    if (isWrong) return `"${key}" is missing or of a wrong form`;
  }
  return undefined;
}

export function parsed(text) {
  try {
    return JSON.parse(text);
  } catch {
    return undefined;
  }
}

const excerpt = (text) => (text.length > 160 ? text.slice(0, 160) + "…" : text);

/** The lines of a text, each as its number, text and value. */
function linesOf(text) {
  return text.replace(/\r?\n$/, "").split("\n").map((line) => (line.endsWith("\r") ? line.slice(0, -1) : line))
    .map((line, index) => ({ number: index + 1, text: line, value: parsed(line) }));
}

/**
 * The replies of a trace as viewer/make puts them into a page: of each step the user, the number, and the places of what
 * was asked, of the rest of the reply and of the rows (-1: none) among the values.
 */
const repliesIn = (rows, values) => rows.map(([user, step, asked, said, changes], place) => (
  { user, step, index: place + 1, asked: values[asked], ...values[said], rows: changes < 0 ? undefined : values[changes] }));

/**
 * What a file holds, by its form: the replies of a run, or a scenario (also as a line for each step). `lines`, or `rows`
 * with their `values`, are what viewer/make has read and checked.
 *
 * @param {{name: string, text?: string, lines?: object[], rows?: number[][], values?: object[]}} file
 */
export function readFile({ name, text, lines: checked, rows, values }) {
  if (checked) return { replies: checked, faults: [], name };
  if (rows) return { replies: repliesIn(rows, values), faults: [], name };
  const whole = parsed(text);
  if (isObject(whole) && Object.hasOwn(whole, "steps")) return readScenario(name, whole);
  const lines = linesOf(text);
  const first = lines.find((line) => isObject(line.value))?.value;
  if (first && Object.hasOwn(first, "op")) return readScenario(name, { steps: lines.map((line) => line.value) });
  if (first) return readReplies(name, lines);
  return { faults: [`${name}: ${strangeFile(text)}`] };
}

function strangeFile(text) {
  if (text.trim() === "") return "there is nothing in it";
  if (/^\s*\{\s*"(steps|kill_on_debugger_exit)"/.test(text)) return "this scenario is cut short, or no JSON";
  if (/^\d{4} \d+ [a-z]+/.test(text)) return "these are lines of the plain text; run tracehost with --json";
  return `neither lines of --json nor a scenario: ${excerpt(text)}`;
}

function readReplies(name, lines) {
  const faults = [];
  const replies = [];
  for (const line of lines.filter(({ text }) => text.trim() !== "")) {
    const fault = line.value === undefined ? "no JSON" : faultOfReply(line.value);
    if (fault) faults.push(`${name}, line ${line.number}: ${fault}: ${excerpt(line.text)}`);
    else replies.push(line.value);
  }
  return { replies, faults, name };
}

function readScenario(name, scenario) {
  if (!Array.isArray(scenario.steps)) return { faults: [`${name}: "steps" is no array`] };
  const faults = [];
  const steps = scenario.steps.map((step, index) => {
    const fault = faultOfStep(step);
    if (fault) faults.push(`${name}, step ${index + 1}: ${fault}: ${excerpt(JSON.stringify(step) ?? "no JSON")}`);
    return fault ? null : step;
  });
  return { steps, killsTracees: scenario.kill_on_debugger_exit !== 0, faults, name };
}

/** The replies of a trace with their steps, in the order of the scenario. Equal steps of a page's table are one object. */
function traced(replies) {
  const steps = new Map();
  const step = (reply) => {
    const known = steps.get(reply.asked);
    if (known?.user === reply.user) return known;
    const made = stepIn(reply);
    steps.set(reply.asked, made);
    return made;
  };
  return [...replies].sort((one, other) => one.index - other.index)
    .map((reply, index) => ({ index, reply, asked: reply.asked ? step(reply) : null }));
}

/**
 * Each reply with the step that it answers, in the order of the scenario. If no scenario is given, a trace has the
 * steps, and other replies have none.
 */
export function pair(replies, scenario, faults) {
  const alone = () => replies.map((reply, index) => ({ index, reply, asked: null }));
  if (!scenario) return replies.some((reply) => reply.asked) ? traced(replies) : alone();
  const place = placesOf(replies, scenario.steps);
  const pairs = replies.map((reply, index) => ({ reply, place: place(reply, index) }));
  for (const { reply, place } of pairs) {
    const asked = scenario.steps[place];
    if (!reply.refused && !(asked && answers(asked, reply))) {
      faults.push(`${scenario.name} isn't the scenario of these lines: its step ${reply.step} of user ${reply.user} `
        + `can't be answered by "${reply.reply}". The lines are drawn without it.`);
      return alone();
    }
  }
  pairs.sort((one, other) => one.place - other.place);
  const asked = ({ reply, place }) => (reply.refused ? null : scenario.steps[place]);
  return pairs.map((one, index) => ({ index, reply: one.reply, asked: asked(one) }));
}

/** The place of a reply's step: by its user and number, or line by line if lines were refused. */
function placesOf(replies, steps) {
  if (replies.some((reply) => reply.refused)) return (_reply, index) => index;
  const places = new Map();
  const counts = new Map();
  steps.forEach((step, index) => {
    if (!step) return;
    const number = (counts.get(step.user) ?? 0) + 1;
    counts.set(step.user, number);
    places.set(`${step.user} ${number}`, index);
  });
  return (reply) => places.get(`${reply.user} ${reply.step}`) ?? -1;
}
