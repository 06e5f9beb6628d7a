/** Where things are: lanes of a window, columns, labels, bars of density. */

import assert from "node:assert/strict";
import { test } from "node:test";
import { columnsOfBar, countBars, densityText } from "../../viewer/src/density.mjs";
import { columnsBetween } from "../../viewer/src/drawing.mjs";
import { placeLabels } from "../../viewer/src/labels.mjs";
import { NARROWEST_MARK, Plan } from "../../viewer/src/plan.mjs";
import { example, random } from "./runs.mjs";

const many = random(300);

/** The lanes that live or have a mark in these columns, by looking at all. */
function livingIn(plan, first, last) {
  const isIn = (lane) => {
    if (lane.marks.some(({ at }) => at >= first && at <= last)) return true;
    if (lane.kind !== "process" && lane.kind !== "lwp") return false;
    const end = lane.to === null ? Infinity : Math.max(lane.to, lane.seenTo ?? 0);
    return lane.from <= last && end >= first;
  };
  const lanes = plan.order.filter(isIn);
  return plan.order.filter((lane) => lanes.includes(lane)
    || (lane.kind === "user" && lanes.some(({ user }) => user === lane.user)));
}

test("the lanes in view are those of the window alone", () => {
  const plan = new Plan(many.session, { step: 26 });
  let hidden = 0;
  for (let first = 0; first < 300; first += 7) {
    for (const width of [1, 5, 47]) {
      const last = Math.min(299, first + width - 1);
      const lanes = plan.lanesIn(first, last);
      assert.deepEqual(lanes, livingIn(plan, first, last), `columns ${first} to ${last}`);
      hidden += plan.order.length - lanes.length;
    }
  }
  assert.ok(hidden > 1000);
});

test("the columns of a window are those that are at least partly in it", () => {
  const plan = { step: 10, columns: 100 };
  assert.deepEqual(columnsBetween(plan, { left: 0, right: 50 }), [0, 4]);
  assert.deepEqual(columnsBetween(plan, { left: 19, right: 51 }), [1, 5]);
  assert.deepEqual(columnsBetween(plan, { left: 0, right: 5000 }), [0, 99]);
});

test("lanes are one under the other, each user's processes by birth, each with its LWPs", () => {
  const plan = new Plan(many.session, { step: 26 });
  plan.order.reduce((top, lane) => {
    assert.equal(lane.top, top);
    assert.ok(lane.base > top && lane.base < top + lane.height);
    return top + lane.height;
  }, 0);
  const processes = plan.order.filter(({ kind }) => kind === "process");
  processes.slice(1).forEach((lane, place) => {
    const before = processes[place];
    assert.ok(lane.user > before.user || (lane.user === before.user && lane.from >= before.from));
  });
  plan.order.forEach((lane, place) => {
    if (lane.kind === "lwp" && lane.owner) {
      assert.equal(plan.order.slice(0, place).findLast(({ kind }) => kind === "process"), lane.owner);
    }
  });
});

test("one user alone has the numbers of that user's steps", () => {
  const plan = new Plan(many.session, { step: 26, user: 1002 });
  const own = many.replies.filter(({ user }) => user === 1002);
  assert.equal(plan.columns, own.length);
  assert.deepEqual(plan.entries.map(({ index }) => plan.numberOf[index]), own.map(({ step }) => step));
  assert.equal(plan.stepOf(3).entry.reply.step, 3);
  assert.deepEqual(new Set(plan.order.map(({ user }) => user)), new Set([1002]));
});

test("left out steps have no column, and the others keep their numbers", () => {
  const plan = new Plan(many.session, { step: 26, hidden: new Set(["held", "error"]) });
  const left = many.replies.map(({ reply }, index) => [reply, index])
    .filter(([reply]) => reply !== "held" && reply !== "error");
  assert.ok(left.length < 300);
  assert.deepEqual(plan.entries.map(({ index }) => index), left.map(([, index]) => index));
  assert.deepEqual(plan.steps.map(({ at }) => at), left.map(([, index]) => index));
  assert.deepEqual(plan.steps.map(({ column }) => column), left.map((_, column) => column));
  for (const [reply, index] of many.replies.map(({ reply }, index) => [reply, index])) {
    assert.equal(plan.stepOf(index + 1)?.at, reply === "held" || reply === "error" ? undefined : index);
  }
  assert.equal(plan.stepOf(0), undefined);
  assert.equal(plan.stepOf(301), undefined);
  assert.equal(plan.stepOf(NaN), undefined);
});

test("labels of a lane don't overlap, and none is beyond the end", () => {
  for (const step of [6, 12, 26, 80]) {
    for (const { session } of [many, example("crash_collector"), example("two_users")]) {
      const plan = new Plan(session, { step, letter: 6.6 });
      for (const lane of plan.order) {
        for (const row of [0, 1]) {
          const labels = plan.labels(lane).filter((label) => label.row === row).sort((one, other) => one.x - other.x);
          labels.slice(1).forEach((label, place) => {
            assert.ok(label.x >= labels[place].end, `${lane.name}: ${label.text}`);
          });
        }
      }
    }
  }
  const wanted = { x: 95, text: "0123456789", rank: 1, pale: false };
  const [label] = placeLabels([wanted], { rows: 1, letter: 6, limit: 100 });
  assert.ok(label.end < 95 && label.x > 0);
});

test("a part of a lane has the labels that the whole lane has there", () => {
  for (const step of [12, 26, 110]) {
    const plan = new Plan(random(5000).session, { step });
    for (const lane of plan.order.filter(({ seen }) => seen.length > 20)) {
      const labels = plan.labels(lane);
      for (let left = 0; left < plan.width; left += 1777) {
        lane.labels = null; // as before anything was drawn
        const isIn = ({ x, end }) => end >= left && x <= left + 1300;
        assert.deepEqual(plan.labels(lane, left, left + 1300).filter(isIn), labels.filter(isIn), `${lane.name} at ${left}`);
      }
    }
  }
});

test("bars count each mark of a lane once", () => {
  for (const step of [0.01, 0.25, 1, 3.9]) {
    assert.ok(step < NARROWEST_MARK);
    const plan = new Plan(random(5000).session, { step });
    for (const lane of plan.order) {
      const bars = countBars(lane.seen, { step, first: 0, last: plan.columns - 1 });
      const sums = [0, 1, 2].map((level) => [...bars.values()].reduce((sum, counts) => sum + counts[level], 0));
      const pale = lane.seen.filter(({ kind }) => ["held", "error", "refused"].includes(kind)).length;
      const stops = lane.seen.filter(({ kind }) => kind === "stop").length;
      assert.deepEqual(sums, [lane.seen.length, lane.seen.length - pale, stops]);
      for (const bar of bars.keys()) assert.ok(bar * columnsOfBar(step) < plan.columns);
    }
  }
});

test("a lane of bars has words", () => {
  const plan = new Plan(example("follow_a_fork").session, { step: 2 });
  const lane = plan.order.find(({ name }) => name === "LWP 100001");
  assert.equal(densityText(lane), "LWP 100001: 2 marks, 1 stops");
});
