/** Files: which are read, what is reported of the others, and which step a line answers. */

import assert from "node:assert/strict";
import { test } from "node:test";
import { pair, readFile } from "../../viewer/src/read.mjs";

const made = '{"user":1001,"step":1,"reply":"new","pid":1000,"lwp":100000}';
const read = (text) => readFile({ name: "a", text });

test("lines, scenarios and steps as lines are known by their form", () => {
  assert.equal(read(`${made}\n`).replies.length, 1);
  assert.equal(read(`${made}\r\n${made}\r\n`).replies.length, 2);
  assert.equal(read('{"steps":[{"user":1001,"op":"spawn"}]}').steps.length, 1);
  assert.equal(read('{"user":1001,"op":"spawn"}\n{"user":1002,"op":"spawn"}\n').steps.length, 2);
  assert.equal(read('{"kill_on_debugger_exit":0,"steps":[]}').killsTracees, false);
});

test("faults name the line", () => {
  for (const line of ["{", "[]", "null", '{"user":1,"step":1,"reply":"ok"}', '{"user":1001,"step":0,"reply":"ok"}',
    '{"user":1001,"step":1,"reply":"toString"}', '{"user":1001,"step":1,"reply":"status","pid":1000,"word":0}',
    '{"user":1001,"step":1,"reply":"new","pid":-1,"lwp":1}']) {
    const { replies, faults } = read(`${made}\n${line}\n`);
    assert.equal(replies.length, 1, line);
    assert.match(faults[0], /^a, line 2: /, line);
  }
});

test("other texts are named", () => {
  assert.match(read("").faults[0], /there is nothing in it/);
  assert.match(read("1001 1 new 1000 100000\n").faults[0], /run tracehost with --json/);
  assert.match(read('{"steps":[{"user":1001,').faults[0], /cut short/);
  assert.match(read('{"steps":[{"user":1001,"op":"turn"}]}').faults[0], /step 1: "lwp" is missing/);
});

const scenario = (...steps) => read(JSON.stringify({ steps }));
const spawn = (user) => ({ user, op: "spawn" });
const reply = (user, step, index = 0) => ({ user, step, reply: "new", pid: 1000 * (user - 1000) + index, lwp: 100000 });

test("lines in any order of users get the scenario's order", () => {
  const faults = [];
  const entries = pair([reply(1001, 1), reply(1001, 2, 1), reply(1002, 1)],
    scenario(spawn(1001), spawn(1002), spawn(1001)), faults);
  assert.deepEqual(entries.map(({ reply: { user, step } }) => [user, step]), [[1001, 1], [1002, 1], [1001, 2]]);
  assert.deepEqual(entries.map(({ asked, index }) => [asked.user, index]), [[1001, 0], [1002, 1], [1001, 2]]);
  assert.deepEqual(faults, []);
});

test("a scenario of another run is reported, and left out", () => {
  const faults = [];
  const list = { user: 1001, op: "list", caller: 1000 };
  const entries = pair([reply(1001, 1)], scenario(list), faults);
  assert.equal(entries[0].asked, null);
  assert.match(faults[0], /isn't the scenario of these lines/);
});

test("refused lines count as lines", () => {
  const entries = pair([reply(1001, 1), { refused: "BadJson" }, reply(1001, 2, 1)],
    { name: "steps", steps: [spawn(1001), null, spawn(1001)] }, []);
  assert.deepEqual(entries.map(({ asked }) => asked?.op), ["spawn", undefined, "spawn"]);
});
