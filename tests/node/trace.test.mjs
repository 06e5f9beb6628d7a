/** Traces: a trace by itself is read as the lines and their scenario are, in any order of its lines. */

import assert from "node:assert/strict";
import { test } from "node:test";
import { readFile } from "../../viewer/src/read.mjs";
import { askedText } from "../../viewer/src/words.mjs";
import { example, exampleTrace, examples, random, randomTrace } from "./runs.mjs";

/** All that a session draws, without the entries. */
function drawn({ lanes, marks, links, spans }) {
  const mark = ({ kind, lane, label, at, primary }) => [kind, lane.name, lane.user, label, at, primary];
  return {
    lanes: lanes.map(({ kind, name, user, from, to }) => [kind, name, user, from, to]),
    marks: marks.map(mark),
    links: links.map(({ kind, from, to, at }) => [kind, from.name, to.name, at]),
    spans: spans.map(({ from, to }) => [from, to]),
  };
}

/** The words of a text, sorted: a trace has the names of a set in the order of docs/FORMAT.md. */
const words = (text) => text.split(/[ +,]+/).sort();

const runs = [...examples.map((name) => [name, example(name), exampleTrace(name), exampleTrace(name, "--threads")]),
  ["300", random(300), randomTrace(300), randomTrace(300, "--threads")],
  ["5000", random(5000), randomTrace(5000), randomTrace(5000, "--threads")]];

for (const [name, run, trace, byUser] of runs) {
  test(`${name}: a trace draws what the lines and the scenario draw`, () => {
    for (const { entries, session, faults } of [trace, byUser]) {
      assert.deepEqual(faults, []);
      assert.equal(entries.length, run.replies.length);
      entries.forEach(({ asked, reply, index }, place) => {
        assert.equal(index, place);
        assert.deepEqual(words(askedText(asked)), words(askedText(run.entries[place].asked)));
        assert.equal(asked.user, run.replies[place].user);
        assert.equal(reply.reply, run.replies[place].reply);
      });
      assert.deepEqual(drawn(session), drawn(run.session));
    }
  });
}

test("lines of a trace that aren't in order are reported", () => {
  const line = (more) => JSON.stringify({ user: 1001, step: 1, index: 1, asked: { op: "spawn" }, reply: "new", pid: 1000,
    lwp: 100000, ...more });
  assert.equal(readFile({ name: "a", text: line({}) }).replies.length, 1);
  for (const [more, text] of [[{ index: 0 }, /no index/], [{ index: undefined }, /no index/], [{ asked: 1 }, /no step/],
    [{ asked: undefined }, /no step/], [{ asked: { op: "fly" } }, /in its step: no step/],
    [{ asked: { op: "list" } }, /"caller" is missing/], [{ asked: { op: "list", caller: 1000 } }, /can't be answered by "new"/],
    [{ asked: { op: "spawn", user: 1002 } }, /can't be answered/]]) {
    const { replies, faults } = readFile({ name: "a", text: `${line({})}\n${line(more)}\n` });
    assert.equal(replies.length, 1);
    assert.match(faults[0], /^a, line 2: /);
    assert.match(faults[0], text);
  }
});
