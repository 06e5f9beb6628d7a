/** The session: each line has its mark on its lane, and stretches begin and end where the steps say. */

import assert from "node:assert/strict";
import { test } from "node:test";
import { SIGNS } from "../../viewer/src/signs.mjs";
import { example, examples, random, runOf } from "./runs.mjs";

const BY_REPLY = { stopped: "stop", status: "wait", nothing: "nothing", handled: "handled", caught: "caught",
  error: "error", held: "held" };
const BY_REQUEST = { PT_ATTACH: "attach", PT_TRACE_ME: "attach", PT_DETACH: "detach", PT_KILL: "kill",
  PT_CONTINUE: "resume", PT_STEP: "resume", PT_TO_SCE: "resume", PT_TO_SCX: "resume", PT_SYSCALL: "resume" };
const BY_ACT = { raise: "post", enter: "call", leave: "leave" };

/** The kinds of marks that a step with its reply may have, by docs/VIEWER.md. */
function kindsOf(step, { reply }) {
  if (reply === "new") return ["birth", "lwp-birth"];
  if (reply === "ended") return ["end"];
  if (BY_REPLY[reply]) return [BY_REPLY[reply]];
  if (reply !== "ok") return ["request"];
  if (step.op === "turn") return [BY_ACT[step.act] ?? "run"];
  if (step.op === "kill") return [step.signal ? "post" : "request"];
  return [BY_REQUEST[step.request] ?? "request"];
}

/** The kind and number of the lane that a mark is on, if the step and its reply say it. */
function laneOf(step, reply, kind) {
  if (reply.reply === "error" || (kind === "post" && step.which === -1)) return null;
  if (kind === "birth") return `process ${reply.pid}`;
  if (kind === "lwp-birth" || kind === "stop") return `LWP ${reply.lwp}`;
  if (kind === "end") return null;
  if (kind === "post" && step.op === "kill") return `process ${step.which}`;
  return step.caller === undefined ? `LWP ${step.lwp}` : `process ${step.caller}`;
}

const runs = new Map([...examples.map((name) => [name, example(name)]), ["300", random(300)], ["5000", random(5000)]]);

for (const [name, { steps, replies, session, faults }] of runs) {
  test(`${name}: each of the ${replies.length} lines has one mark of its kind, on its lane`, () => {
    assert.deepEqual(faults, []);
    const marks = session.marks.filter(({ primary }) => primary).sort((one, other) => one.at - other.at);
    assert.deepEqual(marks.map(({ at }) => at), replies.map((_, index) => index));
    marks.forEach((mark, index) => {
      const [step, reply] = [steps[index], replies[index]];
      const said = `step ${index + 1}: ${JSON.stringify(step)} ${JSON.stringify(reply)}`;
      assert.ok(SIGNS.has(mark.kind), said);
      assert.ok(kindsOf(step, reply).includes(mark.kind), `${said}: ${mark.kind}`);
      const lane = laneOf(step, reply, mark.kind);
      if (lane) assert.equal(mark.lane.name, lane, said);
      assert.equal(mark.lane.user, reply.user, said);
    });
  });

  test(`${name}: the marks are on the lanes in their order`, () => {
    assert.equal(session.lanes.flatMap(({ marks }) => marks).length, session.marks.length);
    for (const { marks } of session.lanes) {
      marks.slice(1).forEach((mark, place) => assert.ok(mark.at >= marks[place].at));
    }
  });

  test(`${name}: stretches and lives end after they begin, and within the life of their lane`, () => {
    for (const lane of session.lanes) {
      if (lane.to !== null) assert.ok(lane.to >= lane.from, lane.name);
      for (const { kind, from, to } of lane.bands) {
        assert.ok(to === null || to >= from, `${lane.name}: ${kind} from ${from} to ${to}`);
        if (lane.to !== null) assert.ok(to !== null && to <= lane.to, `${lane.name}: ${kind} from ${from} to ${to}`);
      }
    }
  });
}

test("the random runs have all that a picture needs", () => {
  const words = new Set(runs.get("5000").replies.map(({ reply }) => reply));
  for (const word of ["new", "stopped", "status", "error", "held", "info", "pids", "ended", "nothing"]) {
    assert.ok(words.has(word), word);
  }
  const { session } = runs.get("5000");
  const kinds = new Set(session.lanes.flatMap(({ bands }) => bands.map(({ kind }) => kind)));
  assert.deepEqual([...kinds].sort(), ["call", "stopped", "suspended", "waiting"]);
});

const bands = ({ session }, kind) => session.lanes.flatMap((lane) => lane.bands.filter((band) => band.kind === kind)
  .map(({ from, to, child }) => [lane.name, from + 1, to === null ? null : to + 1, child?.number]));

const turn = (lwp, act, more = {}) => ({ op: "turn", lwp, act, ...more });
const vfork = [{ op: "spawn" }, turn(100000, "enter", { call: "vfork" }), turn(100000, "leave")];

test("a vfork wait lasts until the child's exec, also of a followed child", () => {
  assert.deepEqual(bands(example("vfork_and_exec"), "waiting"), [["LWP 100001", 8, 15, 1002]]);
  const run = runOf([...vfork, turn(100000, "compute"), turn(100001, "enter", { call: "exec" }), turn(100001, "leave"),
    turn(100000, "compute")]);
  assert.deepEqual(run.replies.map(({ reply }) => reply), ["new", "ok", "new", "held", "ok", "ok", "ok"]);
  assert.deepEqual(bands(run, "waiting"), [["LWP 100000", 3, 6, 1001]]);
});

test("a vfork wait lasts until the child's end, or the end of the LWP that waits", () => {
  const end = runOf([...vfork, turn(100001, "enter", { call: "exit", code: 0 }), turn(100001, "leave")]);
  assert.equal(end.replies.at(-1).reply, "ended");
  assert.deepEqual(bands(end, "waiting"), [["LWP 100000", 3, 5, 1001]]);
  const killed = runOf([...vfork, { op: "kill", caller: 1001, which: 1000, signal: 9 }]);
  assert.deepEqual(bands(killed, "waiting"), [["LWP 100000", 3, 4, 1001]]);
  assert.deepEqual(bands(runOf(vfork), "waiting"), [["LWP 100000", 3, null, 1001]]);
});

test("a child of fork is not waited for", () => {
  const run = runOf([{ op: "spawn" }, turn(100000, "enter", { call: "fork" }), turn(100000, "leave")]);
  assert.deepEqual(bands(run, "waiting"), []);
});

test("a stop has a stretch before the wait that reports it, and one after", () => {
  const run = runOf([{ op: "spawn" }, { op: "spawn" },
    { op: "ptrace", caller: 1000, request: "PT_ATTACH", target: 1001 },
    { op: "kill", caller: 1000, which: 1001, signal: 0 }, { op: "wait4", caller: 1000, which: -1 },
    { op: "ptrace", caller: 1000, request: "PT_CONTINUE", target: 1001 }]);
  const stops = run.session.lanes.flatMap((lane) => lane.bands);
  assert.deepEqual(stops.map(({ kind, from, reported, to }) => [kind, from + 1, reported + 1, to + 1]),
    [["stopped", 3, 5, 6]]);
});
