/** Searches: words, numbers, the next stop and error. */

import assert from "node:assert/strict";
import { test } from "node:test";
import { isError, isStop, matcher, nextMark } from "../../viewer/src/find.mjs";
import { Plan } from "../../viewer/src/plan.mjs";
import { whoText } from "../../viewer/src/sentences.mjs";
import { example, random, runOf } from "./runs.mjs";

const { session } = example("follow_a_fork");
const { steps } = new Plan(session, { step: 26 });
const numbers = (query) => steps.filter(matcher(query)).map(({ at }) => at + 1);

test("a process, an LWP, a request, words of a reply", () => {
  assert.deepEqual(numbers("PT_LWPINFO"), [10, 12]);
  assert.deepEqual(numbers("pt_lwpinfo 1002"), [10, 12]);
  assert.deepEqual(numbers("100001"), [2, 7, 8, 10]);
  assert.deepEqual(numbers("exited"), [16, 18]);
  assert.deepEqual(numbers("1407"), [9]);
  assert.deepEqual(numbers("fork"), [5, 7, 8, 10]);
});

test("a number is found as a whole, and a process with what its LWPs do", () => {
  assert.deepEqual(numbers("10000"), []);
  assert.deepEqual(numbers("1002"), [10, 11, 12, 14, 15, 16, 18]);
  assert.deepEqual(numbers("nowhere"), []);
});

test("the next stop and error, and the one before", () => {
  const run = random(300);
  const plan = new Plan(run.session, { step: 26 });
  for (const [test, word] of [[isStop, "stopped"], [isError, "error"]]) {
    const wanted = run.replies.map(({ reply }, index) => (reply === word ? index : -1)).filter((index) => index >= 0);
    assert.ok(wanted.length > 5);
    const all = (start, way) => {
      const found = [];
      const next = (at) => nextMark(plan.steps, at, way, test);
      for (let mark = next(start); mark; mark = next(mark.at)) found.push(mark.at);
      return found;
    };
    assert.deepEqual(all(-1, 1), wanted);
    assert.deepEqual(all(300, -1).reverse(), wanted);
  }
});

test("a fork is listed as a step of the LWP that makes it", () => {
  const { session: forked } = runOf([
    { op: "spawn" },
    { op: "turn", lwp: 100000, act: "enter", call: "fork" },
    { op: "turn", lwp: 100000, act: "leave" },
    { op: "turn", lwp: 100001, act: "compute" },
  ]);
  const listed = new Plan(forked, { step: 26 }).steps.map((mark) => whoText(mark));
  assert.deepEqual(listed, ["user 1001", "LWP 100000 of 1000", "LWP 100000 of 1000", "LWP 100001 of 1001"]);
});
