// The nodes' own names: what is shown of them, and what stays if there are none.
import assert from "node:assert/strict";
import test from "node:test";
import {explain, listed} from "../src/explain.mjs";
import {labelOf, told, useNames, wholeOf} from "../src/own_names.mjs";
import {Replay} from "../src/replay.mjs";
import {Transcript} from "../src/transcript.mjs";

const PAIR = "matching manne 3\n1 link 1 2 = ok\n2 link 2 3 = ok\n3 step 2>3 = 2:seduce>3\n4 step 3>2 = 3:marry>2\n";

test("numbers are the names if none are given", () => {
  useNames(null);
  assert.equal(labelOf(1), null);
  assert.equal(told(3), "3");
  assert.equal(wholeOf(3), "node 3");
  assert.equal(listed([1, 2, 3]), "1, 2 and 3");
});

test("a node with a name has its number, its label and the whole name; one without has its number", (t) => {
  t.after(() => useNames(null));
  useNames([["ann", "ann"], [], ["a long on…", "a long one <b>"]]);
  assert.deepEqual([labelOf(1), labelOf(2), labelOf(3), labelOf(4)], ["ann", null, "a long on…", null]);
  assert.deepEqual([told(1), told(2)], ["1 (\u2068ann\u2069)", "2"]);
  assert.equal(wholeOf(3), "a long one <b> (node 3)");
  const replay = new Replay(new Transcript(PAIR));
  const machine = replay.goTo(4);
  assert.equal(explain(machine, { node: 1 }).heading, "Node 1 (\u2068ann\u2069)");
  const rows = new Map(explain(machine, { node: 2 }).rows);
  assert.equal(rows.get("pointer"), "at 3 (\u2068a long on…\u2069), which points back: they are married");
  assert.equal(explain(machine, { low: 1, high: 2 }).heading, "Edge 1 (\u2068ann\u2069) – 2");
});
