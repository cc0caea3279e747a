// Tests the rule of one node in release/rudekpi.mjs, or in the module that RUDEKPI_MJS names: rows worked out by
// hand, and the moves that networks make.
import assert from "node:assert/strict";
import {existsSync} from "node:fs";
import test from "node:test";
import {fileURLToPath, pathToFileURL} from "node:url";
import {whatIsMissing} from "./wasm.mjs";

const PATH = process.env.RUDEKPI_MJS ?? fileURLToPath(new URL("../../release/rudekpi.mjs", import.meta.url));
const skip = existsSync(PATH) ? whatIsMissing() : `no module at ${PATH}`;
const { BadView, localRule, mayMove, Network } = skip ? {} : await import(pathToFileURL(PATH));

/** Registers by a short word: a pointer, or null, and a mark for a flag. */
function held(pointer, flag = false) {
  return { pointer, flag };
}

const NULL = held(null);

function near(...records) {
  return new Map(records);
}

test("the rule of a node by hand", { skip }, () => {
  const own = (pointer, flag = false) => ({ node: 3, pointer, flag });
  for (const [rules, me, neighbours, wanted] of [
         // the least under Hsu and Huang's rules, whatever the order of the map
         ["hh", own(null), near([7, NULL], [5, NULL]), { rule: "seduce", target: 5, pointer: 5, flag: false }],
         ["hh", own(5), near([5, held(7)]), { rule: "abandon", target: null, pointer: null, flag: false }],
         ["hh", own(5), near([5, held(3)]), null],
         // the greatest above it that is unflagged and points nowhere, under Manne's
         [
           "manne", own(null), near([5, NULL], [7, held(null, true)]),
           { rule: "seduce", target: 5, pointer: 5, flag: false }
         ],
         ["manne", own(null), near([1, NULL]), null],
         [
           "manne", own(null), near([5, NULL], [7, held(3, true)]),
           { rule: "marry", target: 7, pointer: 7, flag: false }
         ],
         ["manne", own(7), near([7, held(3)]), { rule: "update", target: null, pointer: 7, flag: true }],
         // a pointer at no neighbour
         ["manne", own(8, true), near([7, NULL]), { rule: "repair", target: null, pointer: null, flag: true }],
  ]) {
    assert.deepEqual(localRule(rules, me, neighbours), wanted);
  }
});

test("each allowed target", { skip }, () => {
  const own = { node: 3, pointer: null, flag: false };
  const all = near([1, NULL], [5, NULL], [7, NULL]);
  const allowed = (rules) => [1, 2, 5, 7].filter((target) => mayMove(rules, own, all, "seduce", target));
  assert.deepEqual(allowed("hh"), [1, 5, 7]);
  assert.deepEqual(allowed("manne"), [7]);
  assert.equal(mayMove("hh", own, all, "abandon"), false);
});

test("views of no state, and other values", { skip }, () => {
  const own = { node: 3, pointer: null, flag: false };
  const fault = (call, word, node) =>
    assert.throws(call, (wrong) => wrong instanceof BadView && wrong.fault === word && wrong.node === node);
  fault(() => localRule("hh", own, near([3, NULL])), "own-neighbour", null);
  fault(() => localRule("hh", own, near([5, held(5)])), "points-at-itself", 5);
  fault(() => mayMove("hh", {...own, pointer: 8 }, near([5, NULL]), "abandon"), "points-at-stranger", 8);
  assert.throws(() => localRule("hsu", own, near()), RangeError);
  assert.throws(() => localRule("hh", {...own, node: 0 }, near()), RangeError);
  assert.throws(() => localRule("hh", {...own, node: 65_536 }, near()), RangeError);
  assert.throws(() => localRule("hh", own, near([5, held(70_000)])), RangeError);
  assert.throws(() => localRule("hh", own, near([5, { pointer: null }])), TypeError);
  assert.throws(() => localRule("hh", own, near(["a", NULL])), TypeError);
  assert.throws(() => localRule("hh", own, [[5, NULL]]), TypeError);
  assert.throws(() => mayMove("hh", own, near(), "repair"), RangeError);
});

test("a network moves so", { skip }, () => {
  for (const rules of ["hh", "manne"]) {
    const net = new Network(rules, 20);
    const holds = (node) => net.registers(node);
    for (let node = 1; node <= 20; node += 1) {
      net.link(node, node % 20 + 1);
      net.link(node, (node + 4) % 20 + 1);
    }
    for (let turn = 0; turn < 200; turn += 1) {
      const [node] = net.enabled().keys();
      if (node === undefined) {
        net.scramble(turn, 7);
        continue;
      }
      const neighbours = near(...net.neighbours(node).map((other) => [other, holds(other)]));
      const found = localRule(rules, { node, ...holds(node) }, neighbours);
      const [{ rule, target }] = net.step([node]);
      assert.deepEqual(found, { rule, target, ...holds(node) });
    }
    net.close();
  }
});
